"""A whole outage by one form: keys counted, steps that break off and are resumed, a form that is filled in."""

import time
import unittest
from typing import Any

import browser
import support
from selenium.webdriver.common.keys import Keys
from server import names
from test_browser import Case
from test_shift import ZONE

TIED = support.storm_text() + "device,T12,TIE-12,MILL-14,MILL-24,open,,\n"
# An opening, the faulty section cut out, three restorations: what is typed of the device, minutes ago, the position.
STEPS = [("cb-1", 50, "open"), ("lbs-11", 40, "open"), ("tie-12", 30, "close"), ("lbs-11", 20, "close")]
STEPS += [("cb-1", 10, "close")]
EFFECTS = (
    "5 sections, 15 customers lose supply",
    "no section loses or gets back supply",
    "4 sections, 13 customers get back supply",
    "1 section, 2 customers get back supply",
    "no section loses or gets back supply",
)
# As it is sent: returns to the normal position first.
SENT = ["LBS-11 close", "CB-1 close", "CB-1 open", "LBS-11 open", "TIE-12 close"]


class Outages(Case):
    """A book whose period goes on, behind a proxy that can answer 502."""

    def setUp(self) -> None:
        self.proxy = support.Between()
        self.addCleanup(self.proxy.end)
        book = support.live(self._testMethodName, "tied", TIED)
        self.live = self.screen("--host", f"127.0.0.1:{self.proxy.port}", book=book)
        self.proxy.to, self.url = self.live.port, self.proxy.url
        self.keys, self.begun = 0, int(time.time())

    def press(self, page: browser.Browser, *words: str) -> None:
        """Presses keys one by one, and counts them."""
        for key in "".join(words):
            page.press(key)
            self.keys += 1

    def clock(self, minutes_ago: int) -> str:
        """A time before the test began, as an operator types it."""
        return ZONE.text_of(self.begun - 60 * minutes_ago)[11:16].replace(":", "")

    def enter(self, page: browser.Browser) -> None:
        """Types the steps and the cause: all but the sending."""
        for device, minutes_ago, _ in STEPS:
            self.press(page, device, Keys.TAB, self.clock(minutes_ago), Keys.TAB, Keys.TAB)
        self.press(page, Keys.TAB, "2")
        self.forecast(page, len(STEPS))

    def forecast(self, page: browser.Browser, steps: int) -> None:
        """Waits for the forecast of so many steps."""
        page.wait(lambda: len(page.all(".forecast .steps li")) == steps and page.find(".send").is_enabled(), "it")

    def break_off(self, page: browser.Browser, how: str) -> None:
        """Types all of it and sends it by a double click; something happens to the third command."""
        page.open(f"{self.url}/enter")
        self.enter(page)
        page.probe("atThird", how)
        page.script("const button = document.querySelector('.send'); button.click(); button.click();")

    def words(self) -> list[str]:
        return [f"{row['device']} {row['action']}" for row in self.saved()]

    def saved(self) -> list[dict[str, Any]]:
        """The entries, in the order in which they came."""
        return self.live.entries()[::-1]

    def test_three_restorations_by_seventy_keys_and_one_send(self) -> None:
        """Meanwhile nobody is shown that it goes on; then it is undone at once."""
        self.other.open(f"{self.url}/", "BERT")
        self.other.says("main", "All sections are supplied")
        self.other.record("main")
        page = self.opened("/")
        self.press(page, "n")
        page.find(".sender")
        page.ready()
        self.enter(page)
        for line, (device, _, position), effect in zip(page.text(".forecast .steps").splitlines(), STEPS, EFFECTS):
            self.assertTrue(line.startswith(f"{device.upper()} {position} at "), line)
            self.assertIn(effect, line)
        self.assertIn("All together: 5 sections, 15 customers lose supply", page.text(".forecast h3"))
        self.assertIn("+320 (+19200 customer-seconds)", page.text(".forecast .lost").replace("\u2009", ""))
        self.press(page, Keys.TAB, Keys.ENTER)
        page.says(".outcome .equal", "As forecast")
        self.assertLessEqual(self.keys, 70)
        self.assertEqual(self.words(), SENT)
        page.wait(lambda: page.text(".saved-steps li").count("entry") == len(STEPS), "the saved steps")
        last = str(self.live.number())
        number = "return document.body.dataset.number"
        self.other.wait(lambda: self.other.script(number) == last, "the last step")
        self.assertNotIn("cut off by", self.other.heard)
        page.click(".undo")
        page.says(".outcome form", "Nothing is undone yet")
        self.assertEqual(page.all(".outcome .enter-too"), [])  # it has no field
        page.wait(lambda: page.find(".outcome .send").is_enabled() and page.probe("inSight", ".outcome .send"), "it")
        self.assertEqual(page.focus.get_attribute("aria-label"), "Undo")
        self.assertTrue(all(row["kept"] for row in self.saved()))
        page.click(".outcome .send")
        page.says(".outcome .outcome .equal", "As forecast")
        self.assertNotIn("Nothing is undone yet", page.says(".outcome form", "Undone: "))
        self.assertFalse(any(row["kept"] for row in self.saved()))

    def test_an_outage_that_is_over_by_a_finger_on_a_phone(self) -> None:
        """Both ends are known: one send, and the end goes first. The remark is in the log, at the entry and in the hand-over."""
        page = self.other
        page.open(f"{self.url}/enter?device=CB-2")
        page.fill("Time (", self.clock(300))
        rows = "return [...document.querySelectorAll('.step')]"
        page.wait(lambda: len(page.script(rows)) == 2, "a second row")
        device, second = page.script(f"{rows}[1].querySelectorAll('input')")
        device.send_keys("cb-2")
        second.send_keys(Keys.CONTROL, "a")
        second.send_keys(self.clock(240))
        page.fill("Cause", "2")
        page.fill("Ticket number", "2026-17")
        page.fill("Remark", "A tree on the line.")
        self.forecast(page, 2)
        page.says(".ends-first", "sent first")
        page.tap_on("Send")
        page.says(".outcome .equal", "As forecast")
        self.assertEqual(page.probe("cutOff"), [])
        self.assertEqual(self.words(), ["CB-2 close", "CB-2 open"])
        self.assertRegex(self.saved()[0]["reference"], r"SCR-ANNA-2026_17_[A-Z2-9]{8}")
        page.open(f"{self.url}/sheet?entry=2")
        page.says("main table", "2026_17")
        page.says("#detail .remark", "A tree on the line.")
        page.unfold("main")
        page.says("main", "(A tree on the line.)")
        page.open(f"{self.url}/shift")
        page.says("main", "(A tree on the line.)")

    def test_killed_between_steps_and_resumed(self) -> None:
        """The page is left after two steps; then the screen's proxy answers 502, and the desk hangs while the page is left again:
        no step is lost, none comes twice, and their order stays."""
        page = self.one
        self.break_off(page, "left")
        page.at("Network")
        page.unanswered(3)
        page.says(".unanswered", "2 of 5 steps are saved")
        self.assertEqual(self.words(), SENT[:2])
        self.proxy.answer(502)
        page.click(".again-above")
        page.says(".unanswered", "Still not known")
        self.proxy.answer(0)
        go_on = self.stop(self.live.desk_process())
        page.click(".again-above")
        page.says(".unanswered", "On its way")
        page.go(f"{self.url}/")
        page.unanswered(3)
        page.says(".unanswered", "2 of 5 steps are saved")
        go_on()
        page.click(".again-above")
        page.says(".unanswered", "Saved as changes no. ")
        self.assertEqual(self.words(), SENT)
        references = {row["reference"] for row in self.saved()}
        self.assertEqual((len(references), len({names.outage_in(each) for each in references})), (len(SENT), 1))
        page.reload()
        self.assertEqual(page.text(".unanswered"), "")

    def test_a_step_without_an_answer(self) -> None:
        page = self.one
        self.break_off(page, "lost")
        page.says(".outcome .saved-before", "entries 1, 2 (2 of 5 steps)")
        page.click(".outcome .again")
        page.says(".outcome .equal", "As forecast")
        self.assertEqual(self.words(), SENT)

    def test_a_step_that_is_refused(self) -> None:
        """Those before it are saved; it stays in the form with those after it, and they are sent once they are right."""
        page = self.one
        self.break_off(page, "spoilt")
        page.says(".refusal", "Refused: 2")
        page.says(".refusal .saved-before", "entries 1, 2 (2 of 5 steps)")
        self.assertEqual(self.words(), SENT[:2])
        self.forecast(page, 3)
        page.send()
        self.assertEqual(self.words(), SENT)
        page.wait(lambda: page.text(".saved-steps li").count("entry") == len(SENT), "all steps")

    def test_a_row_leads_to_the_form_filled_in(self) -> None:
        page = self.one

        def follow(link: str, saved: str, **wanted: str) -> None:
            page.open(f"{self.url}/", "BERT")
            page.says("table.outages", "T_9")
            page.click(link)
            page.says(".saved-steps", saved)
            page.ready()
            self.assertEqual({name: page.value(name) for name in wanted}, wanted)

        page.open(f"{self.url}/enter?device=CB-3")
        page.fill("Cause", "1")
        page.fill("Crew", "NORTH")
        page.fill("Ticket", "t-9")
        page.send()
        follow("a.outage", "CB-3 open at", Device="", Cause="1", Crew="BERT", Ticket="T_9")
        follow("a.close", "CB-3 open at", Device="CB-3", Cause="1", Crew="BERT", Ticket="T_9")
        page.says(".forecast", "gets back supply")
        page.send()
        page.says(".saved-steps", "CB-3 close at")
        found = self.live.call("/api/outages/2")[1]
        self.assertEqual((found["outage"], [row["no"] for row in found["entries"]]), ("T_9", [1, 2]))
        self.assertEqual([row["crew"] for row in found["entries"]], ["NORTH", "BERT"])

    def test_a_form_that_is_left_comes_back(self) -> None:
        """By Back, by a link and by a reload it has what was typed; in its own tab and at its own address alone."""
        page, shown = self.one, {"Cause": "2", "Crew": "NORTH", "Ticket": "2026-18", "Remark": "A tree."}
        steps = (
            "return [...document.querySelectorAll('.step')].slice(0, 2).map((each) =>"
            "  [...each.querySelectorAll('input, select')].map((one) => one.value))"
        )

        def look() -> None:
            page.ready()
            self.forecast(page, 2)
            found = page.script(steps)
            self.assertEqual([row[::2] for row in found], [["cb-1", "close"], ["lbs-11", "open"]])
            for (_, second, _), (_, minutes_ago, _) in zip(found, STEPS):
                self.assertIn(self.clock(minutes_ago), second.replace(":", ""))
            self.assertEqual({name: page.value(name) for name in shown}, shown)

        page.open(f"{self.url}/enter")
        for device, minutes_ago, _ in STEPS[:2]:
            self.press(page, device, Keys.TAB, self.clock(minutes_ago), Keys.TAB, Keys.TAB)
        page.fill("Switched to", "close")  # of the first step, by hand
        for name, typed in shown.items():
            page.fill(name, typed)
        look()
        page.driver.get(f"{self.url}/static/icon.svg")
        page.driver.back()
        look()
        page.tap_on("Network")
        page.at("Network")
        page.tap_on("New switching")
        page.wait(lambda: page.all(".restored"), "what was typed")
        page.driver.refresh()
        look()
        page.go(f"{self.url}/enter?device=CB-2")
        self.assertEqual((page.all(".restored"), page.value("Ticket")), ([], ""))
        page.open(f"{self.url}/enter")  # in a new tab
        self.assertEqual((page.all(".restored"), page.value("Ticket")), ([], ""))

    def test_forms_that_come_back_until_they_are_sent(self) -> None:
        """A correction, a change of the network and a mark; a switching that was sent doesn't come back."""
        page = self.opened("/enter?device=CB-1")
        page.fill("Cause", "2")
        page.send()
        page.fill("Crew", "SOUTH")
        page.reload()
        self.assertEqual(page.value("Crew"), "SOUTH")
        page.click(".anew-form")
        page.wait(lambda: page.all(".sender") and not page.all(".restored"), "the form anew")
        for route, typed in {
            "/sheet?entry=1": {"Crew of": "WEST", "Position": "close"},
            "/network": {"What": "life", "Device": "CB-2", "Until before": "2030-01-31 23:00:00 +01:00"},
            "/year": {"What": "unmark", "Day": "2026-01-01"},
        }.items():
            page.go(self.url + route)
            page.wait(lambda: page.all(".sender"), "the form")
            for name, words in typed.items():
                page.fill(name, words)
            page.driver.get(f"{self.url}/static/icon.svg")
            page.back()
            page.wait(lambda: page.all(".restored"), "what was typed")
            found = {name: page.value(name) for name in typed}
            self.assertEqual(found, typed, route)
        page.go(f"{self.url}/enter?device=CB-1")
        self.assertEqual((page.all(".restored"), page.value("Crew")), ([], "ANNA"))
        self.live.log_in("BERT")
        self.live.send(kind="life", f1="TIE-12", f2="0", f3=str(self.begun + 9_000))
        page.open(f"{self.url}/network")
        page.tap_on("In service from/to: TIE-12")
        page.says("form .moment", "from UTC")  # what is filled in is read, as if it was typed

    def test_keys_for_the_whole_page(self) -> None:
        """N and / act where nobody types, and can be turned off."""
        nowhere = "document.activeElement.blur()"
        page = self.opened("/")
        self.press(page, "/", "n", "/")
        self.assertEqual(page.value("Device, section"), "n/")
        page.open(f"{self.url}/year")
        self.press(page, "/")
        page.at("Switching log")
        page.wait(lambda: page.focus == page.field("Device"), "the focus")
        for key, title in {"n": "Switching log", "N": "New switching"}.items():
            page.click(".keys input")
            page.script(nowhere)
            self.press(page, key)
            time.sleep(0.3)  # in which a page would be left
            page.wait(lambda: page.text("h1") == title, title)


class References(unittest.TestCase):
    def test_the_outage_in_a_reference(self) -> None:
        for reference, name in {
            "SCR-ANNA-2026_17_ABCDEFGH": "2026_17",
            "SCR-ANNA-B-_K7M2PQ_ABCDEFGH": "_K7M2PQ",
            "SCR-ANNA-ABCDEFGHJKLM": None,
            "OUT-0327-1": "OUT_0327_1",
            "": None,
        }.items():
            self.assertEqual(names.outage_in(reference), name, reference)
