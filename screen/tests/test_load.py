"""A book of a year, and many pages at once: how long a page and an event take, and that nobody waits for a slow one."""

import json
import os
import shutil
import socket
import sys
import tempfile
import threading
import time
import unittest
import urllib.parse
import urllib.request
from collections.abc import Callable
from concurrent.futures import ThreadPoolExecutor
from functools import lru_cache, partial
from pathlib import Path

import browser
import support

SECONDS = float(os.environ.get("SCREEN_SECONDS", "8"))
IS_LONG = os.environ.get("SCREEN_YEAR") or os.environ.get("SCREEN_LONG")
CLIENTS = 20
TIMES = 5
SEARCH = "/api/sheet?section=SECTION-7"
YEAR = ("2024-01-01", "366", "UTC0")
MEMORY = Path("/dev/shm")


@lru_cache(maxsize=None)
def year() -> Path:
    """A made year of 10,000 entries and 100,000 customers; SCREEN_YEAR names one that was made before."""
    place = Path(tempfile.mkdtemp(prefix="screen-year-", dir=MEMORY if MEMORY.is_dir() else None))
    unittest.addModuleCleanup(shutil.rmtree, place, ignore_errors=True)
    book, made = place / "book.db", os.environ.get("SCREEN_YEAR")
    if made:
        for file in Path(made).parent.glob(f"{Path(made).name}*"):
            shutil.copyfile(file, place / file.name.replace(Path(made).name, "book.db"))
        return book
    text = place / "year.csv"
    words = [sys.executable, str(support.ROOT / "benches/make_year.py"), "10000", "1", "--csv"]
    text.write_bytes(support.output_of(*words))
    support.run("init", "--book", book, "--first", YEAR[0], "--days", YEAR[1], "--zone", YEAR[2])
    support.run("import", "--book", book, text)
    return book


def processor_seconds(process: int) -> float:
    """What a process has taken of a processor so far."""
    user, system = Path(f"/proc/{process}/stat").read_text().rpartition(")")[2].split()[11:13]
    return (int(user) + int(system)) / os.sysconf("SC_CLK_TCK")


class Listener(threading.Thread):
    """A page's events, with the time at which each command was told."""

    def __init__(self, url: str):
        super().__init__(daemon=True)
        asked = urllib.request.Request(f"{url}/events", headers={"Cookie": "screen_name=ANNA"})
        self.lines = urllib.request.urlopen(asked, timeout=60)
        self.told: dict[int, float] = {}
        self.last = 0
        self.start()

    def run(self) -> None:
        with self.lines:
            for line in self.lines:
                if line.startswith(b"data: "):
                    event = json.loads(line[6:])
                    self.last = event["number"]
                    if event["what"] == "commands":
                        self.told[event["number"]] = time.monotonic()


class Load(support.Case):
    def test_twenty_pages_and_a_slow_one(self) -> None:
        desk = self.desk()
        screen = self.screen(desk=desk)
        slow = socket.create_connection(("127.0.0.1", screen.port))
        slow.setsockopt(socket.SOL_SOCKET, socket.SO_RCVBUF, 2_048)
        slow.sendall(f"GET /events HTTP/1.1\r\nHost: 127.0.0.1:{screen.port}\r\n\r\n".encode())
        self.addCleanup(slow.close)
        listeners = [Listener(screen.url) for _ in range(CLIENTS)]
        support.until(lambda: all(each.last for each in listeners), what="all pages")
        answers: list[int] = []
        end = time.monotonic() + SECONDS

        def send(client: int) -> None:
            sender, number = support.Client(screen.url, f"C{client}"), 0
            while time.monotonic() < end:
                second = 1_742_770_800 + client * 50_000 + number
                shown = sender.switch(("close", "open")[number % 2], "TIE-1", second=second)
                answers.append(shown["reply"]["no"])
                support.call(f"{screen.url}/api/now")
                number += 1

        with ThreadPoolExecutor(CLIENTS) as clients:
            list(clients.map(send, range(CLIENTS)))
        self.assertEqual(sorted(answers), list(range(103, 103 + len(answers))))
        last = 102 + len(answers)
        support.until(lambda: all(each.last == last for each in listeners), what="the last command on all pages")
        words = f"by {CLIENTS} clients, each told to {CLIENTS} pages"
        print(f"{len(answers)} commands in {SECONDS:.0f} s {words}", flush=True)

    @unittest.skipUnless(IS_LONG, "the made year takes its minutes")
    def test_a_year(self) -> None:
        book = year()
        desk = self.desk(book)
        begun = time.monotonic()
        screen = self.screen(desk=desk)
        started, processor = time.monotonic() - begun, processor_seconds(screen.process.pid)
        pages = {}
        for route in ("/api/now", "/api/book", "/api/sheet", SEARCH, "/api/entries/9000", "/api/year"):
            pages[route] = self.seconds_of(lambda: self.assertEqual(screen.call(route)[0], 200))
            self.assertLess(pages[route], support.limit(8.0 if route == SEARCH else 1.0), route)
        first = pages.pop(SEARCH)
        listeners = [Listener(screen.url) for _ in range(CLIENTS)]
        support.until(lambda: all(each.last for each in listeners), what="all pages")
        screen.log_in("ANNA")
        device = screen.call("/api/book")[1]["devices"][40]["name"]
        slowest = 0.0
        for second in (1_704_067_200, 1_710_000_000, 1_720_000_000, 1_735_689_599):
            shown, answered = screen.switch("open", device, second=second), time.monotonic()
            support.until(lambda: all(shown["reply"]["no"] in each.told for each in listeners), what="the event")
            slowest = max(slowest, *(each.told[shown["reply"]["no"]] - answered for each in listeners))
        self.assertLess(slowest, support.limit(0.5))
        self.steps_of_a_year(screen, device)
        again = self.seconds_of(lambda: self.assertEqual(screen.call(SEARCH)[0], 200))
        self.assertLess(again, support.limit(1.0))
        print(f"a search by section: the first {first:.1f} s, after some commands {again:.2f} s", flush=True)
        lines = Path(f"/proc/{screen.process.pid}/status").read_text().splitlines()
        memory = next(int(line.split()[1]) // 1_024 for line in lines if line.startswith("VmHWM"))
        print(
            f"a year: started in {started:.1f} s, {processor:.1f} of a processor, {memory} MB, slowest answer {max(pages.values()):.2f} s,",
            end=" ",
        )
        print(f"slowest event {max(0.0, slowest):.3f} s after its reply", flush=True)
        self.pages_of_a_year(screen)

    def steps_of_a_year(self, screen: support.Screen, device: str) -> None:
        """How long four steps of an outage take that are tried on the copy."""
        switched = [(1_720_000_000 + 600 * number, position) for number, position in enumerate(("open", "close") * 2)]
        steps = [["switch", device, position, str(second), "1", "ANNA"] for second, position in switched]
        route = f"/api/forecast?{urllib.parse.urlencode({'steps': json.dumps(steps)})}"
        ready = self.seconds_of(lambda: support.until(lambda: screen.call(route)[0] == 200, what="the copy"))
        took = self.seconds_of(lambda: self.assertEqual(screen.call(route)[0], 200))
        print(f"four steps: {took:.2f} s; the copy was waited for {ready:.1f} s", flush=True)

    def seconds_of(self, work: Callable[[], object]) -> float:
        """How long some work takes."""
        begun = time.monotonic()
        work()
        return time.monotonic() - begun

    def pages_of_a_year(self, screen: support.Screen) -> None:
        """Each page of the year in Chromium, from its address to all that it shows at first: the least of some times. In
        under a second where the machine has a processor for it."""
        page = browser.Browser()
        self.addCleanup(page.end)
        found = {}
        routes = {"Now": "/", "log": "/sheet", "new switching": "/enter", "Network": "/network", "Figures": "/year"}
        for name, route in routes.items():
            page.open(screen.url + route)
            found[name] = min(self.seconds_of(partial(page.go, screen.url + route)) for _ in range(TIMES))
        words = ", ".join(f"{name} {took:.2f} s" for name, took in found.items())
        print(f"a year in Chromium at load {os.getloadavg()[0]:.0f}: {words}")
        self.assertLess(max(found.values()), support.limit(1.0))
        page.open(f"{screen.url}/")
        page.wait(lambda: page.find(".diagram-place").get_attribute("aria-busy") == "false", "the whole diagram")
        self.assertEqual(len(page.all(".diagram a")), 1_500)
        self.assertEqual(page.complaints(), [])
