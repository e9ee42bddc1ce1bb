"""The pages in headless Chromium, over a real desk: what an operator sees and does."""

import json
import os
import random
import time
from collections import Counter
from concurrent.futures import ThreadPoolExecutor

import browser
import support
from selenium.webdriver.common.keys import Keys
from server.reader import read_rows
from support import END, FIRST
from test_server import LIGHTHOUSE

COMMANDS = int(os.environ.get("SCREEN_COMMANDS", "24"))
AWAY_SECONDS = float(os.environ.get("SCREEN_AWAY", "2"))  # in which the proxy answers 502
LATE = "/enter?device=LBS-22&at=2025-04-06T23:52:00%2B02:00"
SHIFT = "/shift?since=2025-03-24"


class Case(support.Case):
    """Two browsers: one on a table, the other a phone at night."""

    browsers: list[browser.Browser] = []
    one: browser.Browser
    other: browser.Browser
    url: str  # of the screen, or of the proxy before it, where a class has one

    @classmethod
    def setUpClass(cls) -> None:
        cls.browsers = [browser.Browser(), browser.Browser(*browser.PHONE, dark=True)]
        for each in cls.browsers:
            cls.addClassCleanup(each.end)
        cls.one, cls.other = cls.browsers

    def opened(self, route: str, url: str = "") -> browser.Browser:
        """The first browser, with a page."""
        self.one.open((url or self.url) + route)
        return self.one


class Finger:
    """The user of a phone, whose name isn't given yet."""

    def __init__(self, page: browser.Browser):
        self.page = page

    def begin(self, url: str) -> None:
        self.page.driver.delete_all_cookies()
        self.page.open(url, None)
        self.page.fill("Your name", "cleo")
        self.page.tap_on("This is my name")
        self.page.says("header", "You are CLEO")

    def go(self, words: str) -> None:
        self.page.tap_on(words)

    def fill(self, label: str, typed: str) -> None:
        self.page.fill(label, typed)


class Keyboard(Finger):
    """Somebody without a mouse: the tabulator leads everywhere."""

    def begin(self, url: str) -> None:
        self.page.open(url)

    def go(self, words: str) -> None:
        """From the page's top on."""
        self.page.script("document.activeElement.blur()")
        self.page.driver.find_element("tag name", "body").send_keys(Keys.HOME)
        self.tab_to(words)
        outline = self.page.focus.value_of_css_property("outline-style")
        if outline == "none":
            raise AssertionError(f"{words} doesn't show that it has the focus")
        self.page.press(Keys.ENTER)

    def fill(self, label: str, typed: str) -> None:
        self.tab_to(label)
        if self.page.focus.tag_name == "input":
            self.page.press(Keys.CONTROL, "a")
        self.page.press(typed)

    def tab_to(self, name: str) -> None:
        """Goes on by the tabulator to a field by its label, or to what can be pressed by its words."""
        for _ in range(200):
            if self.page.probe("focused").startswith(name.lower()):
                return
            self.page.press(Keys.TAB)
        raise AssertionError(f"the tabulator doesn't come to {name}")


class Operators(Case):
    def test_two_operators_and_a_double_click(self) -> None:
        screen = self.screen()
        self.other.open(f"{screen.url}/", "BERT")
        self.other.says("main", "LIGHTHOUSE")
        self.other.record(".said")
        self.one.open(screen.url + LATE)
        self.one.says(".forecast", "gets back supply")
        self.one.says(".forecast", "Customer-minutes lost: \u221224")
        self.one.find(".send")
        begun = time.monotonic()
        self.one.script("const b = document.querySelector('.send'); b.click(); b.click(); b.click();")
        self.other.says("main", "All sections are supplied")
        self.assertLess(time.monotonic() - begun, support.limit(1.0))
        self.one.says(".outcome", "(change no. 103 of the book)")
        self.one.says(".outcome .equal", "As forecast")
        self.other.recorded("ANNA: switch LBS-22 close")
        self.assertEqual(self.one.text(".said"), "")  # it stands where it was sent
        self.assertEqual(screen.number(), 103)
        self.one.unfold(".outcome")
        self.assertIn('"no":103', self.one.text(".reply"))
        self.assertEqual(self.one.complaints() + self.other.complaints(), [])

    def test_a_form_that_changed_since_its_forecast_is_not_sent(self) -> None:
        screen = self.screen()
        self.one.open(screen.url + LATE)
        self.one.says(".forecast", "Customer-minutes lost: \u221224")
        change = "arguments[0].value = 'open'; document.querySelector('.send').click();"
        self.one.script(change, self.one.field("Switched to"))
        self.one.says(".outcome .note", "Not sent: what it would do is shown first")
        self.assertEqual(screen.number(), 102)
        self.one.says(".forecast", "is open at that second already")
        self.one.probe("typeAndEnter")  # before the time is read
        self.one.says(".outcome .note", "Not sent: what it would do is shown first")
        self.one.says(".forecast", "gets back supply")  # for another time the position is offered anew
        self.one.click(".send")
        self.one.says(".outcome", "(change no. 103 of the book)")
        self.one.find("input[list=crews]").send_keys(Keys.ENTER)  # once more, as a finger that stays on the key
        time.sleep(0.5)
        self.assertIn("(change no. 103 of the book)", self.one.text(".outcome"))
        self.assertEqual(screen.number(), 103)

    def test_the_keyboard_alone(self) -> None:
        self.enter_correct_withdraw(Keyboard(self.one))

    def test_the_keyboard_alone_on_a_phone(self) -> None:
        self.enter_correct_withdraw(Keyboard(self.other))

    def test_by_a_finger_on_a_phone(self) -> None:
        self.enter_correct_withdraw(Finger(self.other))

    def enter_correct_withdraw(self, hand: Finger) -> None:
        """A late outage is entered, corrected and withdrawn without a mouse, from the first page on."""
        screen, page, has_keys = self.screen(), hand.page, isinstance(hand, Keyboard)
        hand.begin(f"{screen.url}/")
        hand.go("New switching")
        page.at("New switching")
        page.wait(lambda: page.focus.get_attribute("list") == "devices", "the focus on the device")
        hand.fill("Device", "lbs-22")
        self.assertEqual(page.field("Time (").get_attribute("placeholder"), "2025-04-06 06:10:00")
        hand.fill("Time (", "2025-03-27 10:00:00")
        page.says(".moment", "+01:00 from UTC")
        page.says("form", "LBS-22 is closed then")
        hand.fill("Cause", "5")
        page.says(".hint", "late entry")
        page.says(".forecast", "LOSES supply")
        page.can_send()
        hand.go("Send")
        page.says(".outcome .equal", "As forecast")
        hand.go("Switching log")
        page.at("Switching log")
        page.wait(lambda: page.all("[data-entry='36']"), "the entry")
        for revision, (field, typed) in enumerate((("Position", "close"), ("What", "Withdraw")), 1):
            hand.go("Entry 36")
            page.wait(lambda: page.all("#detail .sender") and not page.text("#detail .outcome"), "the entry as it is")
            page.says("#detail", f"36, revision {revision}")
            page.says(".forecast", "Change a field")  # nothing that changes nothing is sent
            self.assertFalse(page.find(".send").is_enabled())
            if has_keys:
                page.wait(lambda: page.focus.get_attribute("id") == "detail", "the focus on the entry")
            hand.fill(field, typed)
            self.forecast_is_there(page)
            hand.go("Send")
            page.says(".outcome .equal", "As forecast")
        page.says("tr.gone", "36")
        self.assertEqual(screen.call("/api/year")[1]["totals"]["W"], "366070")
        self.assertEqual(page.complaints(), [])

    def forecast_is_there(self, page: browser.Browser) -> None:
        """Waits until the button could be pressed for a second: no forecast of what was chosen is on its way."""
        since = [time.monotonic()]

        def is_there() -> bool:
            if not page.find(".send").is_enabled():
                since[0] = time.monotonic()
            return time.monotonic() - since[0] >= 1.0

        page.wait(is_there, "the button")

    def test_a_stale_correction(self) -> None:
        """Somebody corrects the entry first, in the moment before the page knows of it."""
        desk = self.desk()
        screen = self.screen(desk=desk)
        page = self.opened("/sheet?entry=29", screen.url)
        page.says("#detail", "revision 1")
        page.fill("Time (", "2025-04-05 06:45:00")
        page.can_send()
        button = page.find(".send")
        fields = {"f1": "29", "f2": "1", "f3": "close", "f4": "1743828450", "f5": "3", "f6": "CREW-3"}
        self.assertEqual(desk.post({"kind": "correct", "ref": "OTHER-1", **fields})[0], 200)
        page.script("arguments[0].click()", button)
        told = page.says("#detail", "revision 2")
        self.assertIn("06:47:30", told)
        page.click(".anew")
        page.says("#detail", "29, revision 2")
        page.wait(lambda: not page.all(".anew"), "the entry as it is now")
        page.fill("Time (", "2025-04-05 06:45:00")
        page.wait(lambda: page.find(".send").is_enabled() and "minutes lost" in page.text(".forecast"), "the button")
        page.send()
        self.assertEqual(screen.call("/api/entries/29")[1]["revision"], 3)

    def test_refusals_and_texts_as_text(self) -> None:
        screen = self.screen()
        page = self.opened(LATE, screen.url)
        page.says(".forecast", "Customer-minutes lost")
        page.fill("Crew", "Ä <b>x</b>\"'&")
        page.says(".spelling", "A crew has A-Z, 0-9, - and _ alone, and not Ä, a space, <, >, /, \", ', &.")
        page.says(".forecast", "Not possible: the crew Ä <B>X</B>")
        self.assertFalse(page.find(".send").is_enabled())
        self.assertEqual(page.all("main b b, .outcome b b"), [])
        page.fill("Device", "<img src=x onerror=alert(1)>" + "X" * 64)
        page.says("form", "unknown device")
        self.assertEqual(page.all("main img"), [])
        self.assertEqual(screen.number(), 102)
        self.assertEqual(page.complaints(), [])

    def test_hours_of_the_books_zone(self) -> None:
        rows = ("section,N1,S1,1,,,,", "device,N2,B1,GRID,S1,closed,,", "connect,N3,1,S1,0,,,", "cause,N4,1,TREE,,,,")
        book = support.new_book("autumn", support.text_of(rows), ("2025-10-20", "14", support.FORTNIGHT[2]))
        screen = self.screen(book=book)
        page = self.opened("/enter?device=B1", screen.url)
        page.fill("Time (", "2025-10-26 02:30:00")
        page.says(".moment", "shows this hour twice")
        self.assertFalse(page.find(".send").is_enabled())
        page.all(".moment input[type=radio]")[1].click()
        page.fill("Cause", "1")
        page.says(".forecast", "2025-10-26 02:30:00 +01:00")
        page.fill("Time (", "2025-03-30 02:30:00")
        page.says(".moment", "never shows")
        time.sleep(0.5)
        self.assertNotIn("unknown device", page.text("form"))
        page.fill("Time (", "2025-10-26 03:30:00")
        page.says(".moment", "+01:00 from UTC")
        page.says(".forecast", "2025-10-26 03:30:00 +01:00")
        page.send()
        self.assertIn("03:30:00+01:00", screen.call("/api/entries/1")[1]["second"]["text"])
        screen.log_in("BERT")
        screen.switch("close", "B1", second=1_761_440_400)
        page.open(f"{screen.url}/sheet")
        self.assertIn("2025-10-26 02:00:00 +01:00", page.says("main table", "03:30:00"))  # an hour that comes twice
        self.assertNotIn("03:30:00 +01:00", page.text("main table"))


class Live(Case):
    """A book whose period goes on, behind a proxy: pages that hear of commands, clocks that go, answers that don't come."""

    proxy: support.Between
    last = 0  # the second of the last switching of another client

    @classmethod
    def setUpClass(cls) -> None:
        super().setUpClass()
        cls.proxy = support.Between()
        cls.addClassCleanup(cls.proxy.end)
        cls.share(support.live(cls.__name__), "--host", f"127.0.0.1:{cls.proxy.port}")
        cls.proxy.to, cls.url = cls.live.port, cls.proxy.url

    def setUp(self) -> None:
        for device in ("CB-1", "LBS-1"):
            if not self.live.call(f"/api/position?device={device}")[1]["closed"]:
                self.switch("close", device)

    def second(self) -> int:
        """A second that has come, with all switchings of this class and of earlier tests before it."""
        Live.last = max(Live.last + 1, int(time.time()))
        support.until(lambda: time.time() >= Live.last)
        return Live.last

    def switch(self, position: str, device: str = "LBS-1") -> None:
        """A switching by another client, now."""
        self.live.switch(position, device, second=self.second())

    def windows(self, page: browser.Browser, kind: str, urls: list[str]) -> list[str]:
        """Opens each address in a tab or a window of its own: their handles."""
        first = page.driver.current_window_handle
        handles = []
        self.addCleanup(page.driver.switch_to.window, first)
        for url in urls:
            page.driver.switch_to.new_window(kind)
            handles.append(page.driver.current_window_handle)
            self.addCleanup(page.driver.close)
            self.addCleanup(page.driver.switch_to.window, page.driver.current_window_handle)
            page.go(url)
        return handles

    def ten(self, kind: str, position: str, seen: str) -> list[str]:
        """A switching from the first of ten pages is seen on all: their handles."""
        page = self.one
        page.open(f"{self.url}/")
        first = page.driver.current_window_handle
        routes = ("/enter?device=LBS-1", "/sheet", "/network", "/year", "/", "/enter", "/", "/network", "/sheet")
        handles = self.windows(page, kind, [self.url + route for route in routes])
        page.driver.switch_to.window(handles[0])
        page.fill("Cause", "1")
        page.wait(lambda: page.value("Switched to") == position, "the position")
        page.says(".forecast", "Customer-minutes lost")
        page.click(".send")
        page.says(".outcome", "Saved as")
        page.driver.switch_to.window(handles[6])
        page.says("main", seen)
        page.driver.switch_to.window(handles[8])
        page.says("main table", str(len(self.live.entries())))
        self.assertEqual(page.text(".alarm"), "")
        return [first, *handles]

    def test_ten_tabs_or_windows_of_one_browser(self) -> None:
        """A browser opens six connections to a server: with a stream of events for each page the seventh page got nothing. The
        window that has it is left at last."""
        self.ten("tab", "open", "MILL")
        handles = self.ten("window", "close", "All sections are supplied")
        self.one.driver.switch_to.window(handles[0])
        self.one.driver.get(f"{self.url}/static/icon.svg")
        self.one.driver.switch_to.window(handles[5])
        self.switch("open")
        self.one.says("main table", "MILL")

    def test_after_any_answer_a_page_hears_again(self) -> None:
        """What stands before the screen answers 502, 503 or 401 for a while: the page says so, and is current afterwards."""
        page = self.opened("/")
        page.says("main", "All sections are supplied")
        for number, (status, words) in enumerate({502: "(502)", 503: "(503)", 401: "the login"}.items()):
            self.proxy.answer(status)
            page.says(".alarm", "WHAT IS SHOWN MAY BE OLD")
            page.says(".alarm", words)  # after the end of the stream itself
            self.assertTrue(page.title.startswith("(!) "))
            self.switch(("open", "close")[number % 2])
            time.sleep(AWAY_SECONDS if status == 502 else 0)
            self.proxy.answer(0)
            page.quiet()
            page.says("main", ("cut off by", "All sections are supplied")[number % 2])
            self.assertRegex(page.title, r"^(\([0-9]+\) )?Now - book - outage book$")

    def test_an_alarm_stays_in_sight_and_moves_nothing(self) -> None:
        """Nor does a command without an answer: each control stays where it is, and is what a click there hits."""
        self.switch("close")
        entry = self.live.entries()[0]["no"]
        self.addCleanup(self.proxy.answer, 0)
        for page in self.browsers:
            for route in ("/", f"/sheet?entry={entry}", "/enter?device=LBS-1", "/network", "/year"):
                page.open(self.url + route)
                page.says(".forecast" if page.all(".sender") else "main", "")
                time.sleep(0.5)  # in which a forecast is drawn
                before = page.probe("hits")
                self.proxy.answer(502)
                page.says(".alarm", "WHAT IS SHOWN MAY BE OLD")
                page.says(".alarm", "(502)")
                self.assertEqual(page.probe("hits"), before, route)
                page.probe("leaveUnanswered")
                self.addCleanup(page.driver.execute_script, "localStorage.clear()")
                page.says(".unanswered summary", "1 change without an answer")
                self.assertEqual(page.probe("hits"), before, route)
                self.assertEqual(page.probe("faint"), [], route)
                page.script("window.scrollTo(0, document.body.scrollHeight)")
                for each in (".alarm", ".unanswered"):
                    _, top, _, high = page.probe("place", each)
                    self.assertTrue(-1 <= top < top + high <= page.height, (each, top, high))
                page.script("localStorage.clear(); window.scrollTo(0, 0)")
                page.click(".alarm summary")  # all of its words
                words = "const it = document.querySelector('.alarm p'); return it.scrollHeight - it.clientHeight"
                self.assertLessEqual(page.script(words), 1)
                self.proxy.answer(0)
                page.quiet()

    def test_a_question_has_a_limit_of_time(self) -> None:
        """A server that says nothing keeps no page waiting."""
        page = self.opened("/")
        self.stop(self.live.process.pid)
        ask = "return import('/static/common.js').then(({ get }) => get('/api/now', {}, 1)).catch((trouble) => trouble.message)"
        self.assertIn("no answer within 1 seconds", page.script(ask))

    def test_a_computer_that_was_asleep(self) -> None:
        """Its connections died unheard, and its clock went on by an hour: the page says that it may be old, and begins anew."""
        for page, route in ((self.one, "/"), (self.other, "/enter?device=LBS-1")):
            page.open(self.url + route)
        self.one.says("main", "All sections are supplied")
        self.other.says(".moment", "Now: this clock goes on")
        self.proxy.hold(True)
        self.addCleanup(self.proxy.hold, False)
        self.switch("open")
        for page in (self.one, self.other):
            page.record(".alarm")
            page.script("const now = Date.now; Date.now = () => now() + 3600000;")
            page.recorded("this computer was asleep for 1 h")
        self.proxy.hold(False)
        self.one.says("main table", "LBS-1")
        for page in (self.one, self.other):
            page.quiet()
        shown = (
            "return Date.parse(document.querySelector('.moment input').value.replace(' ', 'T').replace(' ', '')) / 1000"
        )
        self.other.wait(lambda: abs(self.other.script(shown) - time.time()) < 30, "the server's time")

    def test_commands_without_an_answer_stay_in_the_head_of_every_page(self) -> None:
        """The desk hangs, and takes connections: also a page that sends nothing says so. The pages that sent are left: the
        commands are shown until they are answered, and act once."""
        self.other.open(f"{self.url}/")
        self.switch("open")
        entry = self.live.entries()[0]["no"]
        before = self.live.number()
        page = self.opened(f"/sheet?entry={entry}&withdraw=yes")
        page.can_send()
        go_on = self.stop(self.live.desk_process())
        page.probe("slowLocks")
        page.click(".send")
        page.says(".outcome", "On its way")
        page.driver.get(f"{self.url}/sheet?entry={entry}")
        page.unanswered(1)
        self.assertIn(f"withdraw entry {entry}", page.text(".unanswered"))
        page.go(f"{self.url}/enter?device=CB-1")
        page.unanswered(1)
        page.says(".unanswered", f"withdraw entry {entry}")
        page.fill("Cause", "2")
        page.says(".forecast", "Customer-minutes lost")
        page.click(".send")
        page.says(".outcome", "On its way")
        page.driver.get(f"{self.url}/network")
        page.unanswered(2)
        self.assertIn("CB-1 open at 20", page.text(".unanswered"))
        said = self.other.says(".alarm", "The book's server is away: nothing can be saved now")
        self.assertIn("no answer within 10 seconds", said)
        self.assertTrue(self.other.title.startswith("(!) "))
        go_on()
        self.other.quiet()
        for left in (1, 0):
            page.click(".again-above:enabled")
            page.says(".unanswered", f"{left} change" if left else "Answered")
        self.assertEqual(page.text(".unanswered").count("Saved as change"), 2)
        self.assertEqual(self.live.number(), before + 2)
        page.go(f"{self.url}/network")
        self.assertEqual(page.text(".unanswered"), "")

    def test_the_time_is_now_until_one_is_typed(self) -> None:
        page = self.opened("/enter?device=LBS-1")
        page.says(".moment", "Now: this clock goes on")
        opened = int(time.time())
        seen = page.value("Time (")
        page.wait(lambda: page.value("Time (") != seen, "the clock's next second")
        page.fill("Cause", "1")
        page.says(".forecast", "LOSES supply")
        page.wait(lambda: time.time() > opened + 6, "a later time")
        page.click(".send")
        page.says(".outcome", "Saved as")
        sent = self.live.entries()[0]["second"]["second"]
        self.assertTrue(opened + 4 <= sent <= time.time(), (opened, sent))  # an answer's way takes its time
        page.says(".moment", "Now: this clock goes on")
        page.fill("Time (", str(sent - 7_200))
        page.says(".moment", "from UTC")
        typed = page.value("Time (")
        time.sleep(1.5)  # in which a clock would have gone on
        self.assertEqual(page.value("Time ("), typed)

    def test_a_time_to_come_is_asked_about(self) -> None:
        page = self.opened(f"/enter?device=LBS-1&at={int(time.time()) + 4 * 3_600}")
        page.fill("Cause", "1")
        page.says(".hint", "in the future")
        self.assertFalse(page.find(".send").is_enabled())
        page.click(".check input")
        page.click(".send")
        page.says(".outcome", "Saved as")
        planned = self.live.entries()[0]["no"]
        self.switch("close")
        self.assertFalse(self.live.entries()[0]["late"])
        self.live.send(kind="withdraw", f1=str(planned), f2="1")

    def test_the_enter_key_sends(self) -> None:
        page = self.opened(f"/enter?device=LBS-1&at={self.second()}")
        page.says("form", "LBS-1 is closed then")
        page.says(".sender", "Enter in a field sends, too")
        page.field("Crew").send_keys(Keys.ENTER)
        page.says(".outcome", "Fill in the fields")
        page.fill("Cause", "1")
        page.can_send()
        page.field("Crew").send_keys(Keys.ENTER)
        page.says(".outcome", "Saved as")
        entry = self.live.entries()[0]["no"]
        page.open(f"{self.url}/sheet?entry={entry}")
        crew = page.find("#detail input[list=crews]")
        crew.send_keys("-2")
        page.can_send()
        crew.send_keys(Keys.ENTER)
        page.says(".outcome", "Saved as")
        self.assertEqual(self.live.call(f"/api/entries/{entry}")[1]["crew"], "ANNA-2")

    def test_a_search_says_what_it_found(self) -> None:
        self.switch("close")
        page = self.opened("/sheet")
        page.fill("Section", "0303")
        page.says("main", "no section has 0303 in its name")
        page.click(".clear")
        page.says("main table", "LBS-1")
        page.fill("Section", "mil")
        page.says("main table", "LBS-1")
        page.tap_on("Today")
        page.wait(lambda: page.value("Day"), "the day")
        page.says("main table", "LBS-1")
        page.probe("findMany")
        page.fill("Crew", "BERT")
        turns = page.says(".turns", "of 250")
        self.assertIn("Newer entries", turns)
        self.assertIn("Older entries", turns)
        page.says("main h2", "entries, by time of switching, latest first")
        page.fill("Order", "earliest switching")
        page.says(".turns", "Earlier entries")
        page.says("main h2", "entries, by time of switching, earliest first")

    def test_what_was_shown_and_what_it_did(self) -> None:
        """Another's opening comes between the forecast and its sending: that is said first, with a way back."""
        at = self.second()
        page = self.opened(f"/enter?device=LBS-1&at={at}")
        page.fill("Cause", "1")
        page.says(".forecast", "LOSES supply")
        page.can_send()
        token = self.live.call("/api/me", headers={"Cookie": "screen_name=ANNA"})[1]["token"]
        other = {"kind": "switch", "f1": "LBS-1", "f2": "open", "f3": str(at), "f4": "2", "f5": "CLEO"}
        page.probe("sendAfter", json.dumps({**other, "ref": f"SCR-ANNA-{time.time_ns()}"}), token)
        told = page.says(".otherwise", "it changed them by 0")
        self.assertIn("ANNA had sent: LBS-1 open", told)
        self.assertIn("crew CLEO (entry ", told)
        self.assertEqual(page.all(".outcome .equal"), [])
        page.click(".back")
        page.at("Switching log")
        page.can_send()
        page.send()
        self.assertFalse(self.live.entries()[0]["kept"])

    def test_open_outages_are_said_where_they_count_to_the_periods_end(self) -> None:
        self.switch("open")
        page = self.opened("/year")
        page.says(".open-outages", "1 outage is open and counts to the period's end")
        for link in page.all("main .buttons a"):
            self.assertEqual(link.get_attribute("target") == "_blank", "opens another tab" in link.text)
        page.says(".to-now .counted", "What is open is counted up to now: 1 outage.")
        shown = [each.get_attribute("class") for each in page.all("main section")]
        self.assertEqual(shown[:2], ["to-now", "whole"])
        sizes = [page.find(f".{name} .tile b").value_of_css_property("font-size") for name in shown[:2]]
        self.assertGreater(float(sizes[0][:-2]), 1.5 * float(sizes[1][:-2]))
        up_to_now, whole = (page.text(f".{name} .tile:nth-child(5) b").replace("\u2009", "") for name in shown[:2])
        self.assertLess(float(up_to_now), float(whole) / 100)
        last = max((each.text for each in page.all(".tall td") if each.text[4:5] == "-"), default="")
        self.assertLessEqual(last[:10], time.strftime("%Y-%m-%d", time.gmtime(time.time() + 7_200)))
        self.switch("close")
        page.says(".open-outages", "No outage is open.")
        page.fill("Day", self.live.call("/api/book")[1]["today"])
        page.says(".forecast .unmarked", "SAIDI without major event days: up to now")
        self.assertNotIn("lost", page.text(".forecast"))
        page.open(f"{self.url}/enter?device=LBS-1")
        page.fill("Cause", "1")
        page.says(".forecast .open-end", "Counted to the period's end")
        page.go(f"{self.url}/sheet?entry={self.live.entries()[0]['no']}&withdraw=yes")
        told = page.says(".forecast", "will be without supply from ")
        for words in (" on, still open: 1 section", "lost up to now: ", "Counted to the period's end"):
            self.assertIn(words, told)
        page.send()
        self.assertIn("lost up to now: ", page.text(".outcome"))


OLD_WORDS = ["Desk: here", " commands,", "W moves", "moved W", "not told yet", "told anew", "stands", "2025-04-05"]
OLD_WORDS += [
    " desk",
    "ommand",
    "clock of the book's zone",
    "From that second on",
    "Another second",
    "Set its life",
    "unmarked",
    "Sheet",
]


class Storm(Case):
    """Three feeders with five sections each: outages as an operator of a storm has them."""

    @classmethod
    def setUpClass(cls) -> None:
        super().setUpClass()
        book = support.live(cls.__name__, "storm", support.storm_text())
        cls.share(book, "--name", "North <2026>", "--training")
        cls.url = cls.live.url
        for device, cause in {"LBS-11": 1, "CB-2": 2, "LBS-31": 2, "LBS-34": 1, "LBS-21": 2}.items():
            cls.live.switch("open", device, cause, ago=600)

    def devices(self, page: browser.Browser) -> list[str]:
        return [row[0] for row in page.probe("outages")]

    def test_a_row_is_an_outage_and_the_largest_comes_first(self) -> None:
        """What a breaker cut off is one row; what lay without supply before it is that of its own switching."""
        page = self.opened("/")
        page.says("main h2", "4 outages")
        largest = [["CB-2", "19"], ["LBS-34", "7"], ["LBS-31", "4"], ["LBS-11", "2"]]
        self.assertEqual([row[:2] for row in page.probe("outages")], largest)
        page.unfold("table.outages")
        for name in ("QUAY-2", "MILL-21", "MILL-24"):
            self.assertIn(name, page.text("[data-key=entry-2]"))
        page.fill("Order", "newest first")
        page.wait(lambda: self.devices(page)[0] == "LBS-34", "the newest one")
        page.open(f"{self.url}/?at={int(time.time()) + 86_400}")
        day = self.live.entries()[-1]["second"]["text"][5:10]
        page.says("[data-key=entry-2]", day)  # since when, seen from another day
        page.driver.delete_all_cookies()
        page.open(f"{self.url}/?order=newest", None)
        self.assertEqual(page.all("a.close"), [])
        page.click(".to-name")
        self.assertEqual(page.focus, page.field("Your name"))
        page.press("anna", Keys.ENTER)
        page.says("header", "You are ANNA")
        page.click("a.close")
        page.at("New switching")
        page.says("form", "LBS-34 is open then")
        self.assertEqual(page.value("Switched to"), "close")
        page.says(".forecast", "gets back supply")
        page.go(f"{self.url}/enter?device=LBS-21")
        page.says(".forecast .reason", "Still cut off: above it CB-2 is open since 20")
        self.assertIn("No section loses or gets back supply", page.text(".forecast"))

    def test_a_filter_stands_in_the_address(self) -> None:
        page = self.opened("/")
        change = "arguments[0].value = '3'; arguments[0].dispatchEvent(new Event('change', { bubbles: true }));"
        page.script(change, page.field("Feeder"))  # as a program that fills in a form tells it
        page.wait(lambda: self.devices(page) == ["LBS-34", "LBS-31"], "feeder 3")
        page.field("Cause").click()
        page.press(Keys.ARROW_DOWN, Keys.ARROW_DOWN, Keys.ENTER)
        page.wait(lambda: self.devices(page) == ["LBS-31"], "cause 2")
        page.says("main h2", "1 of 4 outages")
        page.says(".tiles", "of the whole book")
        page.reload()
        page.wait(lambda: self.devices(page) == ["LBS-31"], "the same after a reload")
        page.click(".clear")
        page.wait(lambda: len(self.devices(page)) == 4, "all")
        self.assertNotIn("whole book", page.text(".tiles"))
        page.fill("Device, section", "mill-23")
        page.wait(lambda: self.devices(page) == ["CB-2"], "the outage of a section")
        self.assertIn("text=mill-23", page.driver.current_url)

    def test_rows_stay_while_somebody_reads_them(self) -> None:
        """A larger outage comes while a text is selected, or the pointer is on a row: no row moves until that ends."""
        page = self.opened("/?order=newest")
        page.wait(lambda: len(self.devices(page)) == 4, "the outages")
        before = page.probe("outages")
        row = page.find("[data-key=entry-1]")
        page.script("arguments[0].mark = 'mine'; getSelection().selectAllChildren(arguments[0].cells[0]);", row)
        self.addCleanup(self.live.switch, "close", "CB-1", ago=1)
        self.live.switch("open", "CB-1", ago=2)
        page.wait(lambda: len(self.devices(page)) == 5, "the new one")
        self.assertEqual(page.probe("outages")[:4], before)
        self.assertTrue(page.script("return String(getSelection()).trim() === 'LBS-11'"))
        page.script("getSelection().removeAllRanges()")
        page.wait(lambda: self.devices(page)[0] == "CB-1", "the new one at its place")
        self.assertEqual(page.script("return document.querySelector('[data-key=entry-1]').mark"), "mine")
        page.point_at(page.find("[data-key=entry-1]"))
        before = page.probe("outages")
        self.live.switch("close", "CB-1", ago=1)
        page.says("[data-key] .no-print:last-child", "supplied again")
        self.assertEqual([row[3] for row in page.probe("outages")], [row[3] for row in before])
        page.point_at(page.find("h1"))
        page.wait(lambda: len(self.devices(page)) == 4, "the rows without it")

    def test_each_page_fits_and_says_its_book_in_plain_words(self) -> None:
        """The book's name in head and title; words that nobody has to look up, in the fields too; where figures come from in one
        line at the foot. No page or table is cut off, on a phone what is tapped is 44 pixels high; each field, control and
        table has a name of its own for readers of screens, and texts stand out from what is behind them."""
        changed = self.live.switch("open", "LBS-12", ago=600)["entry"]
        again = {"f3": "open", "f4": str(int(time.time()) - 700), "f5": "2", "f6": "BERT"}
        self.live.send(kind="correct", f1=str(changed), f2="1", **again)
        self.live.send(kind="withdraw", f1=str(changed), f2="2")
        routes = {
            "/": "Now",
            f"/sheet?entry={changed}": "Switching log",
            "/sheet?entry=1": "Switching log",
            "/enter": "New switching",
            "/enter?device=CB-3": "New switching",  # two steps have a field of one name each
            "/network": "Network",
            "/year": "Figures",
            "/shift": "Hand-over",
        }
        for page in self.browsers:
            for route, heading in routes.items():
                page.open(self.live.url + route)
                self.assertIn("TRAINING: North <2026>", page.says("header", "Connected"))
                self.assertTrue(page.title.endswith(f"{heading} - TRAINING - North <2026> - outage book"), page.title)
                self.assertEqual([old for old in [*OLD_WORDS, "computed here"] if old in page.probe("said")], [], route)
                self.assertEqual(len(page.all(".foot")), 1)
                page.find("main table, form")
                if "device" in route:
                    page.fill("Cause", "1")
                    page.says(".forecast", "LOSES supply")
                probes = ["cutOff", "nameless", "faint", "small"][: 4 if page is self.other else 3]
                for probe in probes:
                    self.assertEqual(page.probe(probe), [], (probe, route))
                page.unfold("main")
                for probe in ("faint",) if "device" in route else ("faint", "unheard"):
                    self.assertEqual(page.probe(probe), [], (probe, route))
                self.assertEqual(page.complaints(), [], route)

    def test_a_forecast_is_a_few_lines(self) -> None:
        """Sections stand in one list below what happens to them and when; amounts and the reply are folded."""
        page = self.opened(f"/enter?device=CB-3&at={int(time.time()) - 60}")
        page.fill("Cause", "2")
        told = page.says(".forecast", "LOSES supply from")
        self.assertEqual(len(page.all(".forecast .group")), 1)
        self.assertEqual(len(page.all(".forecast .names li")), 3)
        self.assertLess(len(told.splitlines()), 16, told)
        self.assertNotIn("feeder 3", told)
        page.unfold(".forecast")
        amounts = page.says(".forecast .amounts", "feeder 3")
        for words in ("customer-seconds, to the period's end", "days, "):
            self.assertIn(words, amounts)


class Breaks(Case):
    def test_a_reply_that_was_lost(self) -> None:
        desk, proxy, screen = self.between()
        self.one.open(screen.url + LATE)
        self.one.can_send()
        proxy.cuts = 2
        self.one.click(".send")
        self.one.says(".outcome", "It took 3 tries under one reference")
        self.one.says(".outcome .equal", "As forecast")
        self.assertEqual(desk.get("/commands/103")["no"], 103)
        self.assertEqual(support.call(f"{desk.url}/commands/104")[0], 404)

    def test_the_screen_is_killed_while_a_command_is_in_work(self) -> None:
        desk = self.desk()
        proxy = support.Between(desk.port)
        self.addCleanup(proxy.end)
        words = ("--desk", proxy.url)
        first = support.Screen(desk.book, *words)
        page = self.opened(LATE, first.url)
        page.can_send()
        proxy.cuts = 1_000
        page.click(".send")
        support.until(lambda: support.call(f"{desk.url}/commands/103")[0] == 200, what="the commit")
        first.process.kill()
        page.says(".outcome", "Send again")
        first.end()
        proxy.cuts = 0
        second = self.screen(*words, "--port", str(first.port), book=desk.book)
        page.reload()
        page.unanswered(1)
        page.says(".unanswered", "LBS-22 close at 2025-04-06 23:52:00 +02:00")
        page.click(".again-above")
        page.says(
            ".unanswered", "Saved as change no. 103 of the book: it was saved already, and nothing was done twice"
        )
        self.assertEqual(second.number(), 103)


class Pages(Case):
    def test_pages_on_paper(self) -> None:
        """On A4 no column is cut off, forms aren't printed, and a dark page is printed dark on white."""
        wanted = {
            "/": ("Customers without supply", "OUT-0406-1", "open", "TIE-1", "LIGHTHOUSE"),
            "/sheet": ("35 of 35 entries", "status", "withdrawn", "OUT-0406-1", "OUT-0325-1"),
            "/network": ("12 devices", "until before", "without end", "10 nodes", "LIGHTHOUSE"),
            "/year": ("OUTAGE BOOK 2025-03-24", "without major", "147.195", "CEMI-10", "8 UNKNOWN", "2025-04-06"),
            SHIFT: (
                "From 2025-03-24 00:00 up",
                "LIGHTHOUSE",
                "39 min 59 s",
                "ended: 10",
                "Handed over by",
                "Taken over by",
            ),
        }
        screen, page = self.screen(), self.other
        for route, words in wanted.items():
            page.open(screen.url + route)
            paper = support.folder() / f"paper{route[1:6]}.pdf"
            page.paper(str(paper))
            text = support.output_of("pdftotext", "-layout", paper, "-").decode()
            self.assertEqual([each for each in words if each not in text], [], route)
            forms = ("Search", "Go to time", "Mark a day", "From/to", "To the page", "Sent by")
            self.assertEqual([each for each in forms if each in text], [], route)
            grey = support.output_of("pdftoppm", "-gray", "-r", "40", paper)
            shades = grey[len(grey) // 10 :]
            self.assertGreater(sum(shade > 240 for shade in shades) / len(shades), 0.75, route)
            self.assertLess(min(shades), 100, route)
            with page.on_paper():
                self.assertEqual(page.probe("offPaper"), [], route)

    def test_the_longest_names_are_not_cut_off(self) -> None:
        """Names of 24 characters, a crew of 16, references of 40: no page is wider than its window, nor than A4."""
        word = "WWWW-WWWW-WWWW-WWWW-W"
        fields = [f"cause,R,1,{word}-C1,,,,", *(f"section,R,{word}-S{number},255,,,," for number in (1, 2, 3))]
        ends = (("GRID", "S1", "closed"), ("S1", "S2", "closed"), ("S2", "S3", "open"), ("GRID", "S3", "closed"))
        for number, (one, other, normal) in enumerate(ends, 1):
            nodes = f"{one},{word}-{other}" if one == "GRID" else f"{word}-{one},{word}-{other}"
            fields.append(f"device,R,{word}-D{number},{nodes},{normal},,")
        fields += [f"connect,R,1,{word}-S1,0,,,", f"switch,R,{word}-D1,open,2025-03-25T10:00:00+01:00,1,{'M' * 16},"]
        rows = [row.replace(",R,", f",{'R' * 38}{number:02},", 1) for number, row in enumerate(fields)]
        screen = self.screen(book=support.new_book("long-names", support.text_of(rows)))
        for page in self.browsers:
            for route in ("/", "/sheet?entry=1", f"/enter?device={word}-D1", "/network", "/year", SHIFT):
                page.open(screen.url + route, "M" * 16)
                page.says("main", word)
                self.assertEqual(page.probe("tooWide"), [], route)
                if route == "/":
                    page.wait(lambda: len(page.all(".diagram a")) == 4, "the diagram")
                    self.assertEqual(page.probe("overrun"), [])
        for route in ("/", "/sheet", "/network", "/year", SHIFT):
            self.one.open(screen.url + route, "M" * 16)
            self.one.says("main", word)
            with self.one.on_paper():
                self.assertEqual(self.one.probe("tooWide"), [], route)

    def test_now_at_another_second(self) -> None:
        page = self.opened("/", self.screen().url)
        page.fill("Go to time", "2025-03-27 14:50:00")
        told = page.says("main", "14:22:10")
        for words in ("CHURCH-ROW", "CB-1", "2 TREE", "OUT-0327-1", "27 min 50 s"):
            self.assertIn(words, told)
        self.assertEqual(len(page.all(".diagram .node.out")), 4)
        page.fill("Go to time", "2025-03-27 15:00:00")
        page.wait(lambda: len(page.all(".diagram .node.by_tie")) == 3, "the sections on the tie")
        link = page.script("return document.querySelector('.diagram a[aria-label^=TIE-1]').href.baseVal || ''")
        self.assertIn("device=TIE-1", link)
        slider = page.find("[type=range]")
        page.script("arguments[0].value = 1743085200; arguments[0].dispatchEvent(new Event('input'));", slider)
        shown = "2025-03-27 15:20:00 +01:00"
        page.wait(lambda: page.value("Go to time") == shown, "the slider's moment")
        slider.send_keys(Keys.PAGE_DOWN)
        said = "2025-03-26 15:20:00 +01:00"  # the day before
        page.wait(lambda: slider.get_attribute("aria-valuetext") == said, "what a reader of the screen hears")

    def test_a_tie_joins_and_a_day_is_marked(self) -> None:
        screen = self.screen()
        page = self.opened("/network", screen.url)
        page.fill("Name of the new device", "TIE-3")
        page.fill("From node", "MILL-LANE")
        page.fill("To node", "LIGHTHOUSE")
        page.fill("Normal position", "closed")
        page.fill("In the network from", "2025-04-06 23:30:00")
        page.says(".forecast", "gets back supply")
        page.send()
        page.says("main", "13 devices")
        page.open(f"{screen.url}/year")
        page.fill("Day", "2025-03-25")
        page.says(".forecast .unmarked", "SAIDI without major event days: ")
        page.send()
        page.says("main", "2025-03-25 marked")
        self.assertIn("ANNA", page.says("section[aria-label='Marked days']", "2025-03-25"))
        page.field("File").send_keys(str(support.FORTNIGHT_FILES / "corrections.csv"))
        page.tap_on("Import")
        page.says(".imported", "Added 3, known before 0")

    def test_a_login_that_may_only_look(self) -> None:
        self.one.driver.delete_all_cookies()
        for option, words in (("--read-only", "This screen is for looking"), ("--no-desk", "This is a copy of a book")):
            screen = self.screen(option, login="ANNA")
            self.assertEqual(screen.post({**LIGHTHOUSE, "ref": "SCR-ANNA-1"})[0], 403)
            for route in ("/sheet?entry=10", "/network", "/year", "/", LATE):
                self.one.open(screen.url + route, None)
                buttons = self.one.all("button.send, button.main")
                self.assertFalse([each for each in buttons if each.is_enabled()], route)
                self.assertNotIn("name", self.one.text("header").lower())  # of no use here
            self.one.says("main", words)
        self.assertEqual(json.loads(screen.call("/api/entries/35")[1]["history"][0]["text"])["no"], 102)
        self.one.open(f"{screen.url}/year", None)
        self.one.says("main", "194.126")
        self.one.says(".state", "A copy of a book")
        self.assertIn("from the book", self.one.text("main"))
        self.assertNotIn("server", self.one.text("main"))
        self.shares_are_shares(self.one)
        cells = "return [...document.querySelectorAll('.index')].map((each) => each.innerText.split(' '))"
        shown = self.one.script(cells)
        self.assertIn(["194.126", "4073935/20986"], shown)  # decimals first
        self.assertIn(["99.034", "%", "1246999/1259160"], shown)

    def shares_are_shares(self, page: browser.Browser) -> None:
        """Bars and figures of causes are parts of the whole, and add up to it."""
        bars = "return [...document.querySelectorAll('table')].find((each) => each.caption.textContent.endsWith('by cause'))"
        found = page.script(
            f"{bars}.querySelectorAll('.share').values().map((each) => [each.firstChild.value, each.textContent]).toArray()"
        )
        self.assertAlmostEqual(sum(part for part, _ in found), 100.0)
        for part, words in found:
            self.assertEqual(words, f"{part:.1f} %")


class Origins(Case):
    def test_a_page_from_elsewhere_neither_reads_nor_acts(self) -> None:
        screen = self.screen()
        elsewhere = support.Between()
        self.addCleanup(elsewhere.end)
        elsewhere.answer(200)
        page = self.opened("/", screen.url)
        screen.log_in("ANNA")
        body = json.dumps({**LIGHTHOUSE, "ref": "SCR-ANNA-1"})
        for host in ("127.0.0.1", "localhost"):  # the same site on another port, and another site
            page.driver.get(f"http://{host}:{elsewhere.port}/")
            found = page.probe("tryFromElsewhere", screen.url, body, screen.headers["X-Screen-Token"])
            self.assertEqual(found, [""] * len(found))
            page.probe("postForm", screen.url, body)
            page.wait(lambda: "from elsewhere" in page.text("body"), "the refusal of the form")
        self.assertEqual(screen.number(), 102)
        self.assertEqual(screen.call("/api/log")[1], [])


class Crowd(Case):
    def test_random_commands_by_two_browsers_and_a_third_client(self) -> None:
        desk = self.desk()
        screen = self.screen(desk=desk)
        third = browser.Browser()
        self.addCleanup(third.end)
        third.open(f"{screen.url}/", "CLEO")
        with ThreadPoolExecutor(2) as operators:
            people = ((self.one, "ANNA", 1), (self.other, "BERT", 2))
            at_work = [operators.submit(self.enter, screen, *each) for each in people]
            self.send_by_curl(desk)
        for each in at_work:
            each.result()  # or what went wrong
        last = 102 + COMMANDS // 2 * 2 + COMMANDS // 4 + 3
        support.until(lambda: screen.number() == last, what="all commands")
        self.assertIsNone(screen.call("/health")[1]["differs"])
        shown = "return [document.body.dataset.number, document.querySelector('.alarm').textContent]"
        third.wait(lambda: third.script(shown) == [str(last), ""], "the last command where nobody sends")
        sent = Counter(command.ref.rpartition("-")[0] for command in read_rows(desk.book).commands[102:])
        counts = {"SCR-ANNA": COMMANDS // 2, "SCR-BERT": COMMANDS // 2, "CURL": COMMANDS // 4}
        self.assertEqual({name: sent[name] for name in counts}, counts)  # none is lost, and none is there twice
        totals = desk.get("/totals")
        for page in (*self.browsers, third):
            page.go(f"{screen.url}/year")
            figures = page.text("main").replace("\u2009", "")
            for amount in (totals["total"], *(amount for _, amount in totals["cause"])):
                self.assertIn(str(amount), figures)
        desk.kill()
        self.assertEqual(support.run("audit", "--book", desk.book), "audit ok\n")

    def send_by_curl(self, desk: support.Desk) -> None:
        """Switchings by another program, and a file of corrections half way."""
        chance = random.Random(3)
        for number in range(COMMANDS // 4):
            device, position = chance.choice(["CB-2", "TIE-1", "LBS-11"]), chance.choice(["open", "close"])
            fields = {"f1": device, "f2": position, "f3": str(chance.randrange(FIRST, END)), "f4": "2", "f5": "CREW-9"}
            data = json.dumps({"kind": "switch", "ref": f"CURL-{number}", **fields})
            support.output_of("curl", "-s", "-S", "--fail", "--data-binary", data, f"{desk.url}/commands")
            if number == COMMANDS // 8:
                support.call(f"{desk.url}/import", (support.FORTNIGHT_FILES / "corrections.csv").read_bytes())
            time.sleep(0.2)

    def enter(self, screen: support.Screen, page: browser.Browser, name: str, seed: int) -> None:
        """Enters switchings by chance in the form."""
        chance = random.Random(seed)
        page.open(f"{screen.url}/enter?device=CB-1", name)
        page.fill("Cause", str(chance.randint(1, 8)))
        for _ in range(COMMANDS // 2):
            self.enter_one(page, chance)

    def enter_one(self, page: browser.Browser, chance: random.Random) -> None:
        """Enters one switching in the form, and looks that the forecast was the reply."""
        page.fill("Device", chance.choice("CB-1 CB-2 LBS-11 LBS-12 LBS-21 LBS-22 TIE-1 TIE-2 INC-1".split()))
        page.fill("Time (", str(chance.randrange(FIRST, END)))
        page.says(".moment", "from UTC")
        time.sleep(0.35)
        page.fill("Switched to", chance.choice(["open", "close"]))
        before = page.text(".outcome h2")

        def is_answered() -> bool:
            return page.text(".outcome h2") not in ("", before)

        def answered() -> bool:
            """As an operator does: where the form changed as the button was pressed, the button is pressed again."""
            can_send = not is_answered() and page.find(".send").is_enabled()
            if can_send and "Customer-minutes lost" in page.text(".forecast"):
                page.click(".send")
                support.until(lambda: is_answered() or page.text(".outcome .note"), what="what became of a click")
            return is_answered()

        page.wait(answered, "the reply")
        told = page.text(".outcome")
        self.assertTrue("As forecast" in told or "the book had changed in between" in told, told)
