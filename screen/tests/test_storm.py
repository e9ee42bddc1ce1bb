"""A storm on the pages: what is new is said without covering or moving anything, and the diagram, and what readers of screens hear."""

import os
import time
from collections import Counter

import browser
import support
import test_browser
from selenium.webdriver.common.keys import Keys

STORM_SECONDS = float(os.environ.get("SCREEN_STORM", "60"))
OUTAGES = 60
SIZES = ((390, 844), (1280, 900), (1920, 1080))
LARGEST = 10
LONG_TASK = 0.2  # seconds in which a page may answer nothing


class Pages(test_browser.Case):
    """Three feeders with five sections each, of which one is out from the start."""

    def setUp(self) -> None:
        self.live = self.screen(book=support.live(self.id(), "storm", support.storm_text()), login="BERT")
        self.url = self.live.url
        self.live.switch("open", "LBS-22", ago=600)

    def test_a_new_outage_is_said(self) -> None:
        """Where, who, and how many customers: in the page's top, in the tab's title and in a list, and a click leads to its row."""
        page, other = self.one, self.other
        page.open(f"{self.live.url}/?order=newest")
        other.open(f"{self.live.url}/sheet", "CLEO")
        page.says("main h2", "1 outage")
        before = page.probe("place", page.find("table.outages"))
        self.assertEqual(page.title, "Now - book - outage book")  # it began before the browser first came here
        self.live.switch("open", "CB-3")
        words = "New outage: CB-3: 23 customers out, feeder 3, 5 sections, by BERT"
        page.says(".said", words)
        page.says(".news [role=status]", words)
        self.assertEqual(page.probe("place", page.find("table.outages"))[:2], before[:2])
        self.live.switch("open", "LBS-11")
        page.says(".last summary", "2 new outages")
        self.assertEqual(page.title, "(2) Now - book - outage book")
        page.reload()
        page.says(".said", "LBS-11: 2 customers out")
        self.assertEqual(page.title, "(2) Now - book - outage book")
        page.click(".said a")
        page.wait(lambda: page.focus.get_attribute("data-key") == "entry-3", "the row")
        self.assertIn("?order=newest", page.driver.current_url)
        page.wait(lambda: page.title == "Now - book - outage book", "the title without new ones")
        page.click(".last summary")
        rows = page.text(".panel li").splitlines()
        self.assertEqual([row.split()[0] for row in rows], ["LBS-11", "CB-3", "LBS-22"])
        other.click(".last summary")
        other.click(".panel li:nth-child(2) a")
        other.at("Now")
        self.assertEqual(other.focus.get_attribute("data-key"), "entry-2")
        self.assertEqual(page.complaints() + other.complaints(), [])

    def test_a_tab_that_nobody_looks_at(self) -> None:
        """Its title counts what is new; looked at again, it shows that."""
        page = self.opened("/")
        page.probe("turn", True)
        self.live.switch("open", "CB-3")
        page.wait(lambda: page.title.startswith("(1) "), "the number in the title")
        self.assertNotIn("CB-3", page.text("main table"))
        page.probe("turn", False)
        page.says("main table", "CB-3")

    def test_quiet_and_a_sentence_at_a_time(self) -> None:
        """In a storm a reader of the screen hears what is new in one sentence for some seconds, and nothing where that is chosen."""
        page = self.opened("/enter")
        page.record(".news [role=status]")
        for device in ("CB-1", "LBS-31", "LBS-32", "LBS-33"):
            self.live.switch("open", device)
        page.says(".last summary", "4 new outages")
        self.assertEqual(page.script("return window.recorded.filter(Boolean).length"), 1)
        page.recorded("LBS-33")
        page.click(".last summary")
        page.click(".panel .quiet input")
        page.reload()
        page.record(".news [role=status]")
        self.live.switch("open", "LBS-34")
        page.says(".said", "LBS-34")
        self.assertEqual(page.script("return window.recorded.join('')"), "")
        page.click(".last summary")
        page.click(".panel .quiet input")

    def test_the_diagram_is_beside_the_list_and_shows_first_what_is_out(self) -> None:
        page = self.one
        for width, height in SIZES:
            page.resize(width, height)
            page.open(f"{self.live.url}/")
            page.wait(lambda: len(page.all(".diagram a")) == 15, "the diagram")
            table, diagram = (page.probe("place", page.find(each)) for each in ("table.outages", ".diagram-place"))
            if width < 500:
                self.assertLess(table[1] + table[3], diagram[1])
            else:
                self.assertLess(table[0] + table[2], diagram[0])
                self.assertLess(diagram[1] + diagram[3], height)
            self.assertEqual(page.probe("overrun"), [])
            self.assertEqual(page.probe("highest"), "MILL-22")
        page.resize(1280, 900)

    def test_the_diagram_by_the_keyboard(self) -> None:
        """One stop of the tabulator; arrows along the network, to another feeder, other sizes; rows wait until it is left."""
        page = self.opened("/")
        page.wait(lambda: len(page.all(".diagram a")) == 15, "the diagram")
        self.assertEqual(len(page.all(".diagram a[tabindex='0']")), 1)
        page.script("document.querySelector('.diagram a[tabindex=\"0\"]').focus()")
        for key, device in (
            (Keys.HOME, "LBS-22"),
            (Keys.ARROW_LEFT, "CB-2"),
            (Keys.ARROW_RIGHT, "LBS-22"),
            (Keys.ARROW_DOWN, "LBS-21"),
            (Keys.PAGE_DOWN, "LBS-11"),
            (Keys.END, "LBS-34"),
            (Keys.ARROW_LEFT, "CB-3"),
        ):
            page.focus.send_keys(key)
            self.assertEqual(page.probe("deviceAt"), device, key)
        wide = page.find(".diagram").get_attribute("width")
        page.focus.send_keys("-")
        page.wait(lambda: float(page.find(".diagram").get_attribute("width")) < float(wide), "a smaller one")
        page.focus.send_keys("+")
        box = ".diagram a[aria-label^=CB-3] .box"
        place = page.probe("place", page.find(box))
        self.live.switch("open", "CB-3")
        page.wait(lambda: len(page.all(".diagram .node.out")) == 6, "the feeder without supply")
        self.assertEqual(page.probe("deviceAt"), "CB-3")
        self.assertEqual(len(page.all(".diagram a[tabindex='0']")), 1)
        self.assertEqual(page.probe("place", page.find(box)), place)
        page.fill("Go to feeder", "3, without supply")
        page.focus.send_keys(Keys.ENTER)
        page.at("New switching")
        self.assertEqual(page.value("Device"), "CB-3")

    def test_three_questions_by_what_the_page_says(self) -> None:
        """Who is out on feeder 3, what happened yesterday, hand over: by words that stand there, three taps each at most."""
        self.live.switch("open", "LBS-31", ago=86_400)
        for page in self.browsers:
            narrow = page is self.other
            page.open(f"{self.live.url}/")
            page.says("main h2", "2 outages")
            for words in ["Filter, order, time"] if narrow else []:
                page.tap_on(words)
            page.fill("Feeder", "3")
            page.says("main h2", "1 of 2 outages")
            self.assertIn("LBS-31", page.text("table.outages"))
            for name in ("feeder", "since"):
                self.assertTrue(page.find(f"tbody [data-label={name}]").is_displayed(), name)
            page.tap_on("Switching log")
            page.at("Switching log")
            for words in ["Search", "Yesterday"] if narrow else ["Yesterday"]:
                page.tap_on(words)
            page.says("main h2", "1 of 2 entries")
            self.assertIn("LBS-31", page.text("main table"))
            page.tap_on("Hand-over")
            page.at("Hand-over")
            page.says("main", "Open outages: 2, of 2 sections")
            self.assertLess(page.probe("place", page.find("main button.main"))[1], 844)  # Print

    def test_a_customer_is_found_by_its_number(self) -> None:
        page = self.opened("/network")
        for number, words in (("7", "Customer 7: section MILL-13"), ("999", "No customer has the number 999")):
            page.fill("Customer's number", number)
            page.field("Customer's number").send_keys(Keys.ENTER)
            page.says("section[aria-label=Customers]", words)
        tops = [page.probe("place", page.find(f"[aria-label={each}]"))[1] for each in ("Search", "Nodes")]
        self.assertLess(tops[0], tops[1])
        self.assertLess(tops[1], page.probe("place", page.find(".sender"))[1])  # the form is last

    def test_heads_of_tables_stay_in_sight(self) -> None:
        for number in range(30):
            self.live.switch(("close", "open")[number % 2], "LBS-11", ago=500 - number)
        page = self.opened("/sheet")
        page.says("main h2", "31 of 31")
        page.script("scrollTo(0, document.querySelector('tbody tr:nth-child(20)').offsetTop + 300)")
        top, head = (page.probe("place", page.find(each)) for each in (".page-top", "main thead th"))
        self.assertEqual(top[1], 0)
        self.assertAlmostEqual(head[1], top[3], delta=2)


def busy(page: browser.Browser) -> float:
    """The seconds of a processor that a page's scripts, styles and drawing have taken: they don't depend on what else runs."""
    page.tell("Performance.enable", timeDomain="threadTicks")
    found = page.tell("Performance.getMetrics")["metrics"]
    return float(next(each["value"] for each in found if each["name"] == "TaskDuration"))


class LargeStorm(support.Case):
    """Twenty feeders with fifty sections each, on a phone, a desk and a wall."""

    def setUp(self) -> None:
        book = support.live(self.id(), "large-storm", support.storm_text(20, 7, 7))
        self.live = self.screen(book=book, login="BERT")
        self.live.switch("open", "LBS-11-2", ago=600)
        self.pages = [browser.Browser(*size) for size in SIZES]
        for page in self.pages:
            self.addCleanup(page.end)
            page.open(f"{self.live.url}/")
            self.whole(page)
            page.probe("watchTasks")

    def whole(self, page: browser.Browser) -> None:
        page.wait(lambda: page.find(".diagram-place").get_attribute("aria-busy") == "false", "the whole diagram")

    def test_sixty_outages_on_a_thousand_sections(self) -> None:
        """The ten largest are on the first screen of each size, no page is busy for long, and what a click hits stays where it is."""
        reader = self.pages[1]
        link = reader.find("[data-key=entry-1] .close")
        place = reader.probe("place", link)
        devices = [f"LBS-{feeder}{branch}-{2 + feeder % 5}" for branch in (1, 3, 5) for feeder in range(1, 21)]
        begun, before, most = time.monotonic(), [busy(page) for page in self.pages], [0.0] * len(self.pages)
        for number, device in enumerate(devices[1:] + ["CB-7"], 1):
            time.sleep(max(0.0, begun + number * STORM_SECONDS / OUTAGES - time.monotonic()))
            reader.point_at(reader.find(f"[data-key=entry-1] td:nth-child({1 + number % 2})"))  # as a hand does
            began = int(time.time()) - 90_000 * (number % 2)  # half of them the day before
            last = str(self.live.switch("open", device, second=began)["reply"]["no"])
            for page in self.pages:
                page.probe("shows", last)
            self.assertEqual(reader.probe("place", link), place)
            after = [busy(page) for page in self.pages]
            most = [max(most_so_far, now - then) for most_so_far, now, then in zip(most, after, before)]
            before = after
        reader.point_at(reader.find("h1"))
        for page, processor in zip(self.pages, most):
            self.look(page, processor)
        print(f"{OUTAGES} outages in {time.monotonic() - begun:.0f} s")
        reader.click("tbody tr .close")
        reader.at("New switching")

    def look(self, page: browser.Browser, processor: float) -> None:
        """What a page shows at last, and how long it was busy."""
        out = Counter[int]()
        for row in self.live.call("/api/now")[1]["outages"]:
            out[row["entry"]] += row["customers"]
        largest = out.most_common(LARGEST)
        page.wait(lambda: page.probe("onFirstScreen")[0] == f"entry-{largest[0][0]}", "the largest one first")
        keys = page.probe("onFirstScreen")
        shown = [out[int(key.removeprefix("entry-"))] for key in keys[:LARGEST]]
        self.assertEqual(shown, [customers for _, customers in largest])
        longest = max(page.script("return window.tasks"), default=0.0) / 1000
        words = f"{processor:.3f} s of a processor for an outage at most, longest task {longest:.3f} s by the clock"
        rows = f"{page.width} pixels wide: {len(keys)} rows on the first screen"
        print(f"{rows}, {words} at load {os.getloadavg()[0]:.0f}")
        # the longest task takes no more of a processor than all together, and no more than its own time by the clock
        self.assertLess(min(processor, longest), LONG_TASK)
        if support.limit(1) == 1:  # else a task waits for other programs
            self.assertLess(longest, LONG_TASK)
        self.assertEqual(page.complaints(), [])
