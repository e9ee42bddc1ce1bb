"""What a shift asks of the screen's server: the log by time and by whom, the hand-over, undo, searches of a feeder and of a day."""

import re
import time
import unittest.mock
import urllib.parse
from datetime import datetime
from typing import Any

import browser
import support
from server import moments, reader
from server.state import Refused

ZONE = reader.Zone(support.FORTNIGHT[2])


class Shift(support.Case):
    """One desk, a screen of its own, two people and another program."""

    ours: support.Desk

    @classmethod
    def setUpClass(cls) -> None:
        cls.ours = support.Desk(support.live(cls.__name__))
        cls.addClassCleanup(cls.ours.kill)
        cls.share(cls.ours.book, desk=cls.ours)

    def send(self, login: str, **command: str) -> Any:
        """Sends a command as somebody: what the page is told."""
        self.live.log_in(login)
        return self.live.send(**command)

    def switch(self, login: str, position: str, device: str = "LBS-1", ago: int = 5) -> Any:
        self.live.log_in(login)
        return self.live.switch(position, device, ago=ago, crew=login)

    def get(self, route: str, **query: str) -> Any:
        status, shown = self.live.call(f"{route}?{urllib.parse.urlencode(query)}")
        self.assertEqual(status, 200, shown)
        return shown

    def entry(self, number: int) -> dict[str, Any]:
        """What an entry says."""
        found = self.live.call(f"/api/entries/{number}")[1]
        return {name: found[name] for name in ("device", "second", "cause", "crew", "action")}

    def test_the_log_by_time_and_by_whom(self) -> None:
        opened = self.switch("LOG-1", "open")
        self.switch("LOG-2", "close")
        refused = {"kind": "switch", "f1": "LBS-1", "f2": "open", "f3": "1", "f4": "1"}
        for reference, crew in (("SCR-LOG-2-A", "LOG-2"), ("SCR-LOG-2-B", "")):
            self.assertEqual(self.live.post({**refused, "f5": crew, "ref": reference})[0], 422)
        one, other = self.get("/api/log", name="log-1"), self.get("/api/log", name="log-2")
        self.assertEqual([row["by"] for row in one], ["LOG-1"])
        self.assertEqual([row["result"].split()[0] for row in other], ["refused:", "refused:", "saved:"])
        self.assertIn("LBS-1 open at ", one[0]["words"])
        self.assertEqual(one[0]["result"], f"saved: change no. {opened['reply']['no']}, entry {opened['entry']}")
        self.assertEqual([row["result"].split()[1] for row in other[:2]], ["1", "5"])
        self.assertRegex(one[0]["at"], r"\+0[12]:00$")
        later = int(datetime.fromisoformat(one[0]["at"]).timestamp()) + 1
        self.assertEqual(self.get("/api/log", since=str(later), name="log-1"), [])
        self.assertEqual(len(self.get("/api/log", until=str(later), name="log-1")), 1)
        self.assertEqual(len(self.get("/api/log", since="today", until="today", name="log-1")), 1)
        self.assertEqual(self.get("/api/log", since="yesterday", until="yesterday"), [])
        self.assertEqual(self.get("/api/log", since="2001-01-01", until="2001-12-31 06:00"), [])
        wrong = ("since=never", "since=2026-99-99", "since=0001-01-01", "until=2560", "since=today&until=yesterday")
        for query in wrong:
            self.assertEqual(self.live.call(f"/api/log?{query}")[0], 422, query)

    def test_what_changed_since_a_time(self) -> None:
        """Entries that were made or changed, as they are now, with what was done and by whom: also by another program."""
        since = str(int(time.time()))
        mine = self.switch("NEW-1", "open")["entry"]
        at = str(int(time.time()) - 9)
        self.send("NEW-2", kind="correct", f1=str(mine), f2="1", f3="open", f4=at, f5="2", f6="X")
        fields = {"f1": "LBS-1", "f2": "close", "f3": str(int(time.time()) - 2), "f4": "1", "f5": "OMS"}
        self.ours.post({"kind": "switch", "ref": "OMS-77", **fields})
        number = self.live.number() + 1
        support.until(lambda: self.live.number() == number, what="the command of the other program")
        support.until(lambda: self.get("/api/log")[0]["by"] == "another program", what="its line of the log")
        shown = self.get("/api/changes", since=since)
        done = {row["no"]: [(each["what"], each["by"]) for each in row["done"]] for row in shown["entered"]}
        self.assertEqual(done[mine], [("corrected", "NEW-2"), ("entered", "NEW-1")])
        self.assertEqual(done[mine + 1], [("entered", "another program")])
        changed = next(row for row in shown["entered"] if row["no"] == mine)
        self.assertEqual((changed["revision"], changed["cause"], changed["crew"]), (2, 2, "X"))
        self.assertEqual([row["no"] for row in self.get("/api/changes", since=since, name="NEW-2")["entered"]], [mine])
        self.assertEqual(self.get("/api/changes", since="2001-01-01", until="2001-01-02")["entered"], [])
        earlier = self.switch("NEW-3", "close", ago=50)["entry"]
        late = self.switch("NEW-3", "open", ago=90)["entry"]
        self.assertEqual(
            [row["no"] for row in self.get("/api/changes", since=since, name="NEW-3")["entered"]], [late, earlier]
        )
        for order, found in {
            "": [earlier, late],
            "newest": [earlier, late],
            "second": [late, earlier],
            "entered": [late, earlier],
        }.items():
            rows = self.get("/api/sheet", crew="NEW-3", order=order)["rows"]
            self.assertEqual([row["no"] for row in rows], found, order)

    def test_marked_days_and_who_marked_them(self) -> None:
        first, second = self.live.call("/api/book")[1]["days"][:2]
        self.send("MARK-1", kind="mark", f1=first, f2="MARK-1")
        self.ours.post({"kind": "mark", "ref": "OMS-MARK", "f1": second, "f2": "ENGINEER"})
        rows = support.until(lambda: (rows := self.get("/api/marks")) and len(rows) == 2 and rows, what="both marks")
        marked = [(row["day"], row["engineer"], row["login"]) for row in rows]
        self.assertEqual(marked, [(first, "MARK-1", "MARK-1"), (second, "ENGINEER", "")])
        self.assertLess(abs(rows[0]["at"]["second"] - time.time()), 60)
        self.assertIsNone(rows[1]["at"])

    def test_each_reply_has_a_way_back(self) -> None:
        """A switching is withdrawn, a correction corrected back, a withdrawal entered again, a mark taken away."""
        shown = self.switch("BACK", "open")
        entry = shown["entry"]
        before = self.entry(entry)
        second = str(before["second"]["second"] - 60)
        corrected = self.send("BACK", kind="correct", f1=str(entry), f2="1", f3="open", f4=second, f5="2", f6="Y")
        self.assertEqual(corrected["undo"]["command"]["f2"], "2")
        self.send("BACK", **corrected["undo"]["command"])
        self.assertEqual(self.entry(entry), before)
        self.assertEqual(shown["undo"]["command"], {"kind": "withdraw", "f1": str(entry), "f2": "1"})
        self.assertIn(f"withdraw entry {entry}", shown["undo"]["words"])
        withdrawn = self.send("BACK", kind="withdraw", f1=str(entry), f2="3")
        self.assertEqual(withdrawn["undo"]["command"]["kind"], "switch")
        again = self.send("BACK", **withdrawn["undo"]["command"])
        self.assertEqual(self.entry(again["entry"]), before)
        forecast = self.get("/api/forecast", **again["undo"]["command"])
        self.assertEqual(self.send("BACK", **again["undo"]["command"])["reply"]["moved"], forecast["moved"])
        day = self.live.call("/api/book")[1]["days"][5]
        marked = self.send("BACK", kind="mark", f1=day, f2="BACK")
        self.assertEqual(self.send("BACK", **marked["undo"]["command"])["undo"]["command"]["kind"], "mark")
        life = self.send("BACK", kind="life", f1="LBS-1", f2="0", f3=str(int(time.time()) + 9_000))
        self.assertEqual(life["undo"]["command"], {"kind": "life", "f1": "LBS-1", "f2": "0", "f3": ""})
        self.send("BACK", **life["undo"]["command"])
        joined = self.send("BACK", kind="connect", f1=str(time.time_ns() % 10**9), f2="MILL", f3="0", f4="")
        self.assertIsNone(joined["undo"])


class Pages(support.Case):
    """The same on the pages, in a browser."""

    page: browser.Browser

    @classmethod
    def setUpClass(cls) -> None:
        cls.share(support.live(cls.__name__))
        cls.page = browser.Browser()
        cls.addClassCleanup(cls.page.end)
        for position in ("open", "close"):
            cls.live.switch(position, "LBS-1", ago=60)

    def test_a_search_is_kept_by_the_address(self) -> None:
        """By loading the page again, by Back, and by a link to somebody else."""
        page, url = self.page, self.live.url
        page.open(f"{url}/sheet?feeder=1&device=LBS&order=second")
        page.says("main", "2 of 2 entries")
        self.assertEqual(page.value("Device"), "LBS")
        self.assertEqual(page.value("Feeder"), "1")
        page.fill("Crew", "NOBODY")
        page.says("main", "No entries for device LBS, crew NOBODY, feeder 1.")
        self.assertIn("crew=NOBODY", page.driver.current_url)
        page.reload()
        page.says("main", "No entries for device LBS, crew NOBODY, feeder 1.")
        page.go(f"{url}/year")
        page.back()
        page.says("main", "No entries for device LBS, crew NOBODY, feeder 1.")
        page.click(".clear")
        page.says("main", "2 of 2 entries")
        self.assertEqual(page.driver.current_url, f"{url}/sheet?order=second")
        page.open(f"{url}/sheet?day=yesterday")
        page.says("main", "No entries for day yesterday.")

    def test_the_log_and_the_hand_over(self) -> None:
        page, url = self.page, self.live.url
        page.open(f"{url}/sheet")
        page.click('section[aria-label="The screen\'s log"] summary')
        page.says('section[aria-label="The screen\'s log"]', "LBS-1 close at ")
        page.fill("By", "nobody")
        page.says('section[aria-label="The screen\'s log"]', "Nothing was sent.")
        self.assertIn("name=nobody", page.find("main a[href^='/shift']").get_attribute("href"))
        self.live.switch("open", "CB-1")
        self.addCleanup(self.live.switch, "close", "CB-1")
        for width in (1_280, 390):
            page.resize(width, 900)
            page.open(f"{url}/shift?name=bert&since=today")
            said = page.says("main", "entered at")
            self.assertEqual(page.probe("tooWide"), [])
            for words in (
                "sent by bert",
                "Open outages: 1, of 2 sections and 3 customers",
                "each as it is now, by time of switching",
                "CB-1",
                "entry 3",
                "by BERT",
            ):
                self.assertIn(words, said)
            self.assertIn("Marked days", said)
        page.resize(1_280, 900)
        self.live.switch("close", "CB-1")
        page.says("main", "All sections are supplied.")
        page.fill("Since", '<i>"')
        page.says("main", "Not shown as asked")
        page.reload()
        page.says("main", "Not shown as asked")
        self.assertEqual([page.value(name) for name in ("Since", "Until", "Sent by")], ['<i>"', "", "bert"])
        self.assertEqual(page.all("main i"), [])
        self.assertEqual(page.complaints(), [])


class Stops(support.Case):
    def test_what_came_while_the_screen_was_stopped(self) -> None:
        """It is in the log, as of another program; a command of the screen's own that had no answer isn't said to be lost."""
        desk = self.desk(support.live("stopped"))
        screen = support.Screen(desk.book, desk=desk)
        screen.log_in("ANNA")
        screen.switch("open", "LBS-1", ago=50)
        screen.end()
        closed = {"kind": "switch", "f1": "LBS-1", "f2": "close", "f4": "1", "f5": "ANNA"}
        closed["f3"] = str(int(time.time()) - 5)
        self.assertEqual(desk.post({**closed, "ref": "OMS-1"})[0], 200)
        again = self.screen(desk=desk)
        rows = again.call("/api/log")[1]
        self.assertEqual([row["by"] for row in rows], ["another program", "ANNA"])
        self.assertEqual(rows[0]["result"], f"saved: change no. {support.LAST_OF_SMALL + 2}")
        self.assertIn("LBS-1 close at ", rows[0]["words"])
        shown = again.call("/api/changes")[1]
        self.assertEqual([row["no"] for row in shown["entered"]], [1, 2])
        ended = [(row["entry"], row["sections"], row["customers"]) for row in shown["ended"]]
        self.assertEqual((shown["open"], ended), ([], [(1, [{"section": "MILL", "customers": 2}], 2)]))

    def test_a_period_that_is_over(self) -> None:
        """It is looked at, told and handed over at its last second; that today is no day of it is said."""
        screen = self.screen("--no-desk")
        status, shown = screen.call("/api/sheet?day=today")
        self.assertEqual(status, 422)
        self.assertRegex(shown["words"], r"today, \d{4}-\d\d-\d\d, is no day of the book's period")
        last = {"second": 1_743_976_799, "text": "2025-04-06T23:59:59+02:00"}
        self.assertEqual(screen.call("/api/second")[1], {**last, "goes": False, "gone": 0.0})
        self.assertEqual(screen.call("/api/now")[1]["at"], last)
        self.assertEqual(screen.call("/api/changes")[1]["as_of"], last)


class Typed(unittest.TestCase):
    def test_times_as_operators_type_them(self) -> None:
        """By a clock that shows 2026-11-28 14:30: a time without a date is the latest one that has come."""
        for typed, words in {
            "14:05": "2026-11-28 14:05:00",
            "1405": "2026-11-28 14:05:00",
            "14:31": "2026-11-28 14:31:00",  # one minute ahead: clocks differ
            "14:05:09": "2026-11-28 14:05:09",
            "140509": "2026-11-28 14:05:09",
            "6:10": "2026-11-28 06:10:00",
            "905": "2026-11-28 09:05:00",
            "90530": "2026-11-28 09:05:30",
            "19:05": "2026-11-27 19:05:00",
            "1905": "2026-11-27 19:05:00",
            "235959": "2026-11-27 23:59:59",
            "14:05 +02:00": "2026-11-28 13:05:00",
            "28.11.2026 19:05": "2026-11-28 19:05:00",
            "5.4.2026 0610": "2026-04-05 06:10:00",
            "2026-11-27 1905": "2026-11-27 19:05:00",
            "2026-11-27T19:05:30z": "2026-11-27 20:05:30",
            "today 19:05": "2026-11-28 19:05:00",
            "Yesterday 2200": "2026-11-27 22:00:00",
            "Today": "2026-11-28 00:00:00",
            " 1795872600 ": "2026-11-28 14:30:00",
            "2026-10-25 02:30 +01:00": "2026-10-25 02:30:00",
        }.items():
            self.assertEqual([each[:19].replace("T", " ") for each in self.texts(typed)], [words], typed)
        self.assertEqual(self.texts("1905", may_come=True)[0][:16], "2026-11-28T19:05")
        for wrong, words in {
            "25:10": "25:10 is no date and time",
            "1960": "1960 is no date and time",
            "31.11.2026 10:00": "no date and time",
            "yesterday22:00": "is typed as 2026-11-28 06:10:00, or 06:10 for today",
            "28.11.2026": "is typed as",
            "19": "is typed as",
            "28.11.99999 10:00": "is typed as",
            "tomorrow": "is typed as",
            "": "is typed as",
            "29.3.2026 02:30": "the clock of the book's zone never shows 29.3.2026 02:30",
            "1.1.1900 10:00": "lies outside of what a book can hold",
        }.items():
            with self.assertRaisesRegex(Refused, re.escape(words), msg=wrong):
                self.read(wrong)

    def test_times_of_a_night_whose_clock_goes_back(self) -> None:
        """02:30 comes twice; while the second one is to come, the first one is meant."""
        first, second = 1_792_888_200, 1_792_891_800
        for now, meant in ((first - 61, [first - 86_400]), (first, [first]), (second, [first, second])):
            self.assertEqual(self.read("0230", now), meant, now)
        both = self.texts("2026-10-25 02:30:00")
        self.assertEqual(both, [f"2026-10-25T02:30:00+0{hours}:00" for hours in (2, 1)])

    def texts(self, typed: str, may_come: bool = False) -> list[str]:
        return [ZONE.text_of(each) for each in self.read(typed, may_come=may_come)]

    def read(self, typed: str, now: int = 1_795_872_600, may_come: bool = False) -> list[int]:
        with unittest.mock.patch("time.time", return_value=float(now)):
            return moments.read_moment(ZONE, typed, may_come)
