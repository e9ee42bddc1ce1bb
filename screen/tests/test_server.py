"""The screen's server without a browser: a real program, desk and screen, requests by sockets."""

import asyncio
import json
import os
import random
import signal
import socket
import threading
import time
import urllib.parse
from concurrent.futures import ThreadPoolExecutor
from contextlib import suppress
from datetime import date, timedelta
from pathlib import Path
from typing import Any, cast

import support
from server import apart, guard, reader
from server.desk import Away

LIGHTHOUSE = {"kind": "switch", "f1": "LBS-22", "f2": "close", "f3": "1743976320", "f4": "5", "f5": "CREW-3"}


def talk(port: int, data: bytes, seconds: float = 20) -> bytes:
    """What a connection answers to some bytes until it is closed."""
    with socket.create_connection(("127.0.0.1", port), timeout=seconds) as connection:
        connection.sendall(data)
        parts = []
        with suppress(ConnectionResetError):
            while part := connection.recv(65_536):
                parts.append(part)
        return b"".join(parts)


def is_running(process: int) -> bool:
    with suppress(OSError):
        return Path(f"/proc/{process}/stat").read_text().rpartition(")")[2].split()[0] != "Z"
    return False


class Commands(support.Case):
    def test_refusals_in_words(self) -> None:
        screen = self.screen(login="ANNA")
        old = {"kind": "correct", "f1": "10", "f2": "1", "f3": "close", "f4": "1743093000", "f5": "2", "f6": "A"}
        wrong: list[tuple[dict[str, str], int, str]] = [
            (old, 7, "revision 2"),
            ({**LIGHTHOUSE, "f3": "1"}, 5, "2025-03-24T00:00:00+01:00"),
            ({**LIGHTHOUSE, "f1": "NOSUCH"}, 2, "no device NOSUCH"),
            ({**LIGHTHOUSE, "f5": "<b>"}, 1, "crew"),
            ({**LIGHTHOUSE, "f1": "X" * 88}, 1, "device"),
            ({"kind": "life", "f1": "CB-1", "f2": "1743000000", "f3": "1742900000"}, 18, "end of the life"),
            ({"kind": "mark", "f1": "2025-03-30", "f2": "ANNA"}, 13, "marked already"),
        ]
        for number, (command, refused, words) in enumerate(wrong):
            status, shown = screen.post({**command, "ref": f"SCR-ANNA-R{number}"})
            self.assertIn(status, (409, 422), command)
            self.assertEqual(shown["reply"]["refused"], refused, command)
            self.assertIn(words, shown["words"])
        stale = screen.post({**old, "ref": "SCR-ANNA-S"})[1]
        self.assertEqual((stale["entry"]["no"], stale["entry"]["revision"]), (10, 2))
        screen.post({**LIGHTHOUSE, "ref": "SCR-ANNA-C"})
        conflict = screen.post({**LIGHTHOUSE, "f5": "CREW-1", "ref": "SCR-ANNA-C"})[1]
        self.assertEqual((conflict["reply"]["refused"], conflict["reply"]["detail"]), (11, 103))
        self.assertIn("no. 103", conflict["words"])

    def test_commands_that_come_another_way(self) -> None:
        desk = self.desk()
        screen = self.screen(desk=desk)
        desk.post({**LIGHTHOUSE, "ref": "CURL-1"})
        support.until(lambda: screen.number() == 103, what="the command of another client")
        rows = (support.FORTNIGHT_FILES / "corrections.csv").read_bytes().splitlines(keepends=True)[:3]
        support.call(f"{desk.url}/import", b"".join(rows))
        support.until(lambda: screen.number() == 105, what="the import of another client")
        self.assertIsNone(screen.call("/health")[1]["differs"])
        self.assertTrue(screen.call("/api/entries/28")[1]["corrected"])

    def test_other_spellings_of_a_command(self) -> None:
        """A command is kept in the book's own spelling, however a client of the screen spelled it."""
        screen = self.screen(login="ANNA")
        spelled = {**LIGHTHOUSE, "f3": "2025-04-06T23:52:00+02:00", "f4": "05"}
        self.assertEqual(screen.post({**spelled, "ref": "SCR-ANNA-1"})[0], 200)
        self.assertEqual(screen.call("/api/entries/36")[1]["second"]["second"], 1_743_976_320)
        withdrawn = screen.post({"kind": "withdraw", "f1": "036", "f2": "1", "ref": "SCR-ANNA-2"})[0]
        self.assertEqual((withdrawn, screen.number()), (200, 104))
        self.assertIsNone(screen.call("/health")[1]["differs"])

    def test_the_log_has_login_reference_and_answer(self) -> None:
        screen = self.screen(login="ANNA")
        screen.post({**LIGHTHOUSE, "ref": "SCR-ANNA-1"})
        lines = [json.loads(line) for line in screen.book.with_name("book.db-screen.jsonl").read_text().splitlines()]
        self.assertEqual([line["reference"] for line in lines], ["SCR-ANNA-1", "SCR-ANNA-1"])
        self.assertEqual({line["login"] for line in lines}, {"ANNA"})
        self.assertEqual(lines[0]["sent"]["f1"], "LBS-22")
        self.assertEqual((lines[1]["status"], lines[1]["answer"]["no"]), (200, 103))

    def test_the_whole_year_and_its_texts(self) -> None:
        screen = self.screen()
        table = (support.FORTNIGHT_FILES / "fortnight.table.txt").read_text()
        self.assertEqual(support.call(f"{screen.url}/download/table.txt")[1].decode(), table)
        moves = support.call(f"{screen.url}/download/moves.csv")[1]
        self.assertEqual(moves, (support.FORTNIGHT_FILES / "fortnight.moves.csv").read_bytes())
        self.assertEqual(support.call(f"{screen.url}/download/commands.csv")[1].count(b"\n"), 103)
        self.assertIn(b"SAIDI", support.call(f"{screen.url}/report")[1])


class Figures(support.Case):
    """What is asked of a book whose period goes on: searches, times, spellings, what came between."""

    @classmethod
    def setUpClass(cls) -> None:
        cls.share(support.live(cls.__name__))

    def switch(self, seconds_ahead: int) -> Any:
        """Opens LBS-1, some seconds from now: the entry's number."""
        return self.live.switch("open", "LBS-1", second=int(time.time()) + seconds_ahead)["entry"]

    def forecast(self, **fields: str) -> tuple[int, Any]:
        told = {"kind": "switch", "f1": "LBS-1", "f2": "open", "f4": "1", "f5": "ANNA", "f3": str(int(time.time()))}
        return self.live.call(f"/api/forecast?{urllib.parse.urlencode({**told, **fields})}")

    def test_late_and_future(self) -> None:
        """A second to come doesn't make all that follows late; more than a quarter of an hour back is late."""
        ahead, entry, late = self.switch(4 * 3_600), self.switch(-60), self.switch(-3_600)
        found = {each: self.live.call(f"/api/entries/{each}")[1]["late"] for each in (ahead, entry, late)}
        self.assertEqual(found, {ahead: False, entry: False, late: True})
        now = int(time.time())
        for ahead, late, future in ((0, 0, 0), (-3_600, 3_600, 0), (7_230, 0, 7_230)):
            shown = self.forecast(f2="close", f3=str(now + ahead))[1]
            self.assertAlmostEqual(shown["late"], late, delta=60)
            self.assertAlmostEqual(shown["future"], future, delta=60)

    def test_searches_that_cannot_be_read(self) -> None:
        self.switch(-10)
        for query, words in (
            ("day=27.11.2026", "27.11.2026 is no day of the book's period"),
            ("day=2026-11", "is no day"),
            ("day=2026-99-99", "is no day"),
            ("day=1999-01-01", "is no day"),
            ("section=0303", "no section has 0303 in its name"),
            ("device=NOSUCH", "no device has NOSUCH in its name"),
            ("cause=99", "no cause 99"),
            ("feeder=2", "home feeder 2"),
            ("feeder=x", "home feeder x"),
            ("crew=%C3%84", "crew Ä can't be read"),
            ("marked=odd", "odd"),
            ("order=odd", "odd"),
        ):
            status, shown = self.live.call(f"/api/sheet?{query}")
            self.assertEqual(status, 422, query)
            self.assertIn(words, shown["words"])
        today = date.fromisoformat(self.live.call("/api/book")[1]["today"])
        for query in ("section=ILL", "section=mill", "device=lbs", "feeder=1&day=Today", f"day={today}"):
            self.assertGreater(self.live.call(f"/api/sheet?{query}")[1]["found"], 0, query)
        for ago, word in enumerate(("Today", "yesterday")):
            self.assertEqual(self.live.call(f"/api/sheet?day={word}")[1]["day"], str(today - timedelta(days=ago)))

    def test_what_the_desk_cannot_read_is_refused_before(self) -> None:
        for fields, words in (
            ({"f5": "TEAM ÄÖ 7"}, "the crew TEAM ÄÖ 7 can't be read"),
            ({"f5": "X" * 17}, "1 to 16 of A-Z"),
            ({"f5": ""}, "the crew is missing"),
            ({"f1": "lbs-1"}, "the device lbs-1 can't be read"),
            ({"f4": "٣"}, "the cause"),
        ):
            status, shown = self.forecast(**fields)
            self.assertEqual(status, 422, fields)
            self.assertIn(words, shown["words"])


SLOW_PROGRAM = """#!/bin/sh
echo "$1" >> "{calls}"
[ "$1" = table ] && sleep 3
exec "{program}" "$@"
"""


class Reports(support.Case):
    def test_eight_who_ask_for_the_report(self) -> None:
        """It is made once for all of them, and again after a command. What comes another way isn't kept waiting by it."""
        desk = self.desk()
        calls, program = desk.book.with_name("calls"), desk.book.with_name("slow")
        program.write_text(SLOW_PROGRAM.format(calls=calls, program=support.PROGRAM))
        program.chmod(0o755)
        screen = self.screen(desk=desk, program=program)

        def report() -> int:
            return support.call(f"{screen.url}/report")[0]

        def made() -> int:
            return calls.read_text().split().count("table")

        with ThreadPoolExecutor(8) as readers:
            found = [readers.submit(report) for _ in range(8)]
            support.until(calls.exists, what="a report that is being made")
            self.assertEqual(desk.post({**LIGHTHOUSE, "ref": "CURL-1"})[0], 200)
            support.until(lambda: screen.number() == 103, 2.5, "another client's command, before the report is made")
            self.assertFalse(any(each.done() for each in found))
        self.assertEqual({each.result() for each in found}, {200})
        before = made()
        self.assertLessEqual(before, 2)
        self.assertEqual(report(), 200)
        after = made()
        self.assertLessEqual(after, before + 1)
        self.assertEqual((report(), made()), (200, after))

    def test_what_is_made_once(self) -> None:
        """Who asks while it is being made gets that one, or its failure; another version is made anew."""
        made, version = [0], ["one"]

        async def make() -> int:
            made[0] += 1
            await asyncio.sleep(0.01)
            if version[0] == "none":
                raise Away("no answer")
            return made[0]

        async def ask() -> list[set[str]]:
            kept, found = apart.Kept(lambda: version[0], make), []
            for version[0] in ("one", "one", "two", "none", "none", "three"):
                five = await asyncio.gather(*(kept.get() for _ in range(5)), return_exceptions=True)
                found.append(set(map(str, five)))
            return found

        self.assertEqual(asyncio.run(ask()), [{"1"}, {"1"}, {"2"}, {"no answer"}, {"no answer"}, {"5"}])

    def test_the_table_is_asked_for_once_a_command(self) -> None:
        _, proxy, screen = self.between()
        screen.log_in("ANNA")
        first = screen.call("/api/year")[1]
        self.assertEqual([screen.call("/api/year")[1] for _ in range(3)], [first] * 3)
        self.assertEqual(proxy.routes.count("/table"), 1)
        self.assertEqual(screen.post({**LIGHTHOUSE, "ref": "SCR-ANNA-1"})[0], 200)
        self.assertNotEqual(screen.call("/api/year")[1]["totals"]["W"], first["totals"]["W"])
        self.assertEqual(proxy.routes.count("/table"), 2)


class Faults(support.Case):
    def test_own_desk_is_killed_again_and_again(self) -> None:
        """The desk is killed at random moments while commands are sent: none is lost, none acts twice. One that had no answer
        in all its tries is told as not known, and sent again under its reference."""
        times = int(os.environ.get("SCREEN_KILLS", "8"))
        screen = self.screen(login="ANNA")
        ended = threading.Event()

        def kill() -> None:
            chance = random.Random(7)
            for _ in range(times):
                time.sleep(chance.uniform(0.0, 0.3))
                with suppress(OSError, StopIteration):
                    os.kill(screen.desk_process(), signal.SIGKILL)
                support.until(lambda: ended.is_set() or self.has_desk(screen), what="the next desk")
            ended.set()

        killer = threading.Thread(target=kill)
        killer.start()
        sent = tries = 0
        while not ended.is_set() or sent < 20:
            command = {**LIGHTHOUSE, "f2": ("close", "open")[sent % 2], "f3": str(1_743_974_500 + sent)}
            status, shown = screen.post({**command, "ref": f"SCR-ANNA-{sent}"})
            while status == 503:
                self.assertIn("it isn't known whether this is saved", shown["words"])
                status, shown = screen.post({**command, "ref": f"SCR-ANNA-{sent}"})
            self.assertEqual(status, 200, shown)
            self.assertEqual(shown["reply"]["no"], 103 + sent)
            sent, tries = sent + 1, tries + shown["tries"]
        killer.join()
        print(f"{sent} commands in {tries} tries while the desk was killed {times} times", flush=True)
        self.assertGreater(tries, sent)
        screen.end()
        self.assertEqual(support.run("audit", "--book", screen.book), "audit ok\n")
        anew = reader.read_later(screen.book, 102)
        self.assertEqual([command.ref for command, _ in anew], [f"SCR-ANNA-{number}" for number in range(sent)])

    def has_desk(self, screen: support.Screen) -> bool:
        with suppress(OSError, StopIteration):
            return screen.desk_process() > 0 and bool(screen.call("/health")[1]["desk"] == "here")
        return False

    def test_pages_while_the_desk_hangs(self) -> None:
        """The copy answers in its place after a short wait, the steps of an outage among others; also where it is killed then."""
        desk = self.desk()
        screen = self.screen(desk=desk)
        steps = [["switch", "LBS-22", position, "1743976320", "5", "ANNA"] for position in ("close", "open")]
        forecast = f"/api/forecast?{urllib.parse.urlencode({'steps': json.dumps(steps)})}"
        self.assertEqual(screen.call(forecast)[0], 200)  # there is a copy
        before = screen.call("/api/now")[1]
        self.stop(desk.process.pid)
        begun = time.monotonic()
        self.assertEqual(screen.call("/api/now")[1], before)
        routes = (forecast, "/api/position?device=LBS-22", "/api/changes", "/api/sheet?feeder=1", "/api/entries/35")
        for route in routes:
            self.assertEqual(screen.call(route)[0], 200, route)
        self.assertLess(time.monotonic() - begun, support.limit(6.0))
        desk.kill()
        support.until(lambda: screen.call("/health")[0] == 503, what="the desk away")
        self.assertEqual(screen.call(f"/api/forecast?{urllib.parse.urlencode(LIGHTHOUSE)}")[1]["total"], -1_440)
        self.desk(desk.book, desk.port)
        support.until(lambda: screen.call("/health")[1]["desk"] == "here", what="the desk here")

    def test_the_screen_takes_its_desk_and_the_copy_with_it(self) -> None:
        screen = self.screen()
        children = Path(f"/proc/{screen.process.pid}/task/{screen.process.pid}/children")
        desks = support.until(lambda: len(found := children.read_text().split()) == 2 and found, what="the copy")
        screen.process.kill()
        support.until(lambda: not any(is_running(int(desk)) for desk in desks), what="their end")


def begin_post(screen: support.Screen, route: str, kind: str, body: bytes, part: float) -> socket.socket:
    """A POST as the page sends it, with a part of its body, its last byte never: its connection."""
    told = {**screen.headers, "Host": f"127.0.0.1:{screen.port}", "Content-Type": kind, "Content-Length": len(body)}
    head = f"POST /api/{route} HTTP/1.1\r\n" + "".join(f"{name}: {value}\r\n" for name, value in told.items())
    connection = socket.create_connection(("127.0.0.1", screen.port), timeout=30)
    connection.sendall(f"{head}\r\n".encode() + body[: min(round(part * len(body)), len(body) - 1)])
    return connection


async def unread_reply() -> str:
    """How a connection ends that is sent 32 MB and takes nothing of it."""
    loop = asyncio.get_running_loop()
    ended: asyncio.Future[str] = loop.create_future()

    class Talker(asyncio.Protocol):
        transport: asyncio.Transport

        def connection_made(self, transport: asyncio.BaseTransport) -> None:
            self.transport = cast(asyncio.Transport, transport)

        def data_received(self, data: bytes) -> None:
            self.transport.write(bytes(1 << 25))
            self.transport.close()

        def connection_lost(self, error: Exception | None) -> None:
            ended.set_result("lost")

    limits = guard.Limits(head=5.0, body=5.0, reading=1.0)
    server = await loop.create_server(lambda: guard.Guard(Talker(), limits), "127.0.0.1", 0)
    with socket.create_connection(server.sockets[0].getsockname()) as connection:
        connection.sendall(b"GET / HTTP/1.1\r\n\r\n")
        try:
            return await asyncio.wait_for(ended, 10)
        finally:
            server.close()


class Hostile(support.Case):
    """Bad requests: a named answer or a closed connection, and the desk isn't touched."""

    def setUp(self) -> None:
        self.seen = self.screen(login="ANNA")

    def command(self, **headers: str) -> int:
        body = json.dumps({**LIGHTHOUSE, "ref": "SCR-ANNA-1"}).encode()
        told = {name.replace("_", "-"): value for name, value in headers.items()}
        return self.seen.call("/api/command", body, {"Content-Type": "application/json", **told})[0]

    def test_origins_hosts_tokens_methods(self) -> None:
        for status, headers in (
            (403, {"X_Screen_Token": "0" * 64}),
            (403, {"Origin": "https://evil.example"}),
            (403, {"Origin": "null"}),
            (403, {"Origin": f"https://127.0.0.1:{self.seen.port}"}),
            (403, {"Host": "evil.example"}),
            (403, {"Sec_Fetch_Site": "cross-site"}),
            (415, {"Content_Type": "text/plain"}),
        ):
            self.assertEqual(self.command(**headers), status, headers)
        self.assertEqual(self.seen.call("/api/now", headers={"Sec-Fetch-Site": "cross-site"})[0], 403)
        for method, answered in (("DELETE", b"405"), ("HEAD", b"200"), ("PUT", b"405"), ("TRACE", b"405")):
            request = f"{method} /health HTTP/1.1\r\nHost: 127.0.0.1:{self.seen.port}\r\n\r\n".encode()
            self.assertEqual(talk(self.seen.port, request).split(b" ")[1], answered, method)
        self.assertEqual(self.seen.number(), 102)

    def test_others_references_and_fields(self) -> None:
        others = [{"ref": ref} for ref in ("SCR-BERT-1", "X" * 41, "SCR-ANNA-B-1", "SCR-ANNA-", "SCR-ANNA-" + "X" * 32)]
        others += [{"kind": "drop"}, {"f7": "1"}]  # ANNA-B is somebody else
        for change in others:
            self.assertEqual(self.seen.post({**LIGHTHOUSE, "ref": "SCR-ANNA-1", **change})[0], 422, change)
        for body in (b"", b"[1]", b"{", b'{"kind":1}', b"\xff\xfe", b"[" * 16_000):
            status, _ = self.seen.call("/api/command", body, {"Content-Type": "application/json"})
            self.assertEqual(status, 422, body[:20])
        self.assertEqual(self.seen.post({"kind": "switch", "ref": "SCR-ANNA-1", "f1": "X" * 20_000})[0], 413)
        mark = {"kind": "mark", "ref": "SCR-ANNA-1", "f1": "2025-03-25", "f2": "BERT"}
        self.assertEqual(self.seen.post(mark)[0], 422)
        self.assertEqual(self.seen.number(), 102)

    def test_bytes_that_are_no_request(self) -> None:
        chance = random.Random(3)
        host = f" HTTP/1.1\r\nHost: 127.0.0.1:{self.seen.port}\r\n".encode()
        texts = [b"", b"GET", b"\x16\x03\x01\x02\x00\x01", b"GET / HTTP/9.9"]
        texts += [bytes(chance.randrange(256) for _ in range(300)) for _ in range(20)]
        texts += [b"POST /api/command" + host + b"Transfer-Encoding: chunked\r\n\r\n5\r\nhello\r\n0"]
        texts += [b"POST /api/command" + host + b"Content-Length: x"]
        texts += [b"POST /api/import" + host + b"Content-Length: 99999999"]
        texts += [b"GET /" + host + b"X: " + b"y" * 20_000, b"GET /" + host + b"A: b\r\n" * 4_000]
        texts += [b"GET /" + host + b"X: y" + fold + b"z: 1" for fold in (b"\r\n ", b"\r\n\t", b"\n ")]
        texts += [b"GET " + place + host[:-2] for place in (b"/../../etc/passwd", b"/static/..%2fscreen")]
        for text in texts:
            reply = talk(self.seen.port, text + b"\r\n\r\n")
            self.assertTrue(reply == b"" or reply.split(b" ")[1][:1] in (b"4", b"5"), (text[:60], reply[:60]))
        self.assertEqual(self.seen.call("/health")[1]["desk"], "here")

    def test_a_thousand_connections_that_say_nothing(self) -> None:
        """They are closed without a word, half a head is told why, and meanwhile a command is answered at once."""
        screen = self.screen("--head-seconds", "3", login="ANNA")
        silent = [socket.create_connection(("127.0.0.1", screen.port), timeout=30) for _ in range(1_000)]
        half = socket.create_connection(("127.0.0.1", screen.port), timeout=30)
        half.sendall(b"GET / HTTP/1.1\r\nHo")
        try:
            begun = time.monotonic()
            self.assertEqual(screen.post({**LIGHTHOUSE, "ref": "SCR-ANNA-1"})[0], 200)
            self.assertLess(time.monotonic() - begun, support.limit(1.0))
            self.assertTrue(half.recv(1_000).startswith(b"HTTP/1.1 408 "))
            self.assertEqual({connection.recv(10) for connection in silent}, {b""})
        finally:
            for connection in (*silent, half):
                connection.close()
        self.assertEqual(screen.number(), 103)

    def test_bodies_that_stop_half_way(self) -> None:
        """A body that stops is told so within the limit, also one that goes on too slowly, and one whose sender goes away
        ends its connection. The desk hears of none of them."""
        desk, proxy, screen = self.between("--body-seconds", "2")
        screen.log_in("ANNA")
        command = json.dumps({**LIGHTHOUSE, "ref": "SCR-ANNA-1"}).encode()
        rows = (support.FORTNIGHT_FILES / "corrections.csv").read_bytes()
        begun = time.monotonic()
        bodies = (("command", "application/json", command), ("import", "text/csv", rows))

        def begin_all(*parts: float) -> list[socket.socket]:
            return [begin_post(screen, *told, part) for told in bodies for part in parts]

        slow, stopped, gone = begin_all(0.01), begin_all(0, 0.01, 0.5, 1), begin_all(0, 0.01, 0.5, 1)
        for connection in gone:
            connection.shutdown(socket.SHUT_WR)
        while time.monotonic() - begun < 3.0:
            time.sleep(0.2)
            for connection in slow:
                with suppress(OSError):  # where it is closed already
                    connection.sendall(b" ")
        for connection in gone:
            self.assertEqual(connection.recv(1_000), b"")
        for connection in stopped:
            self.assertTrue(connection.recv(1_000).startswith(b"HTTP/1.1 408 "))
        self.assertLess(time.monotonic() - begun, 10)
        for connection in (*stopped, *gone, *slow):
            connection.close()
        self.assertEqual((proxy.posts, screen.number()), (0, 102))
        self.assertEqual(support.call(f"{desk.url}/commands/103")[0], 404)
        self.assertEqual(screen.post({**LIGHTHOUSE, "ref": "SCR-ANNA-1"})[0], 200)
        self.assertEqual((proxy.posts, screen.number()), (1, 103))

    def test_a_reply_that_nobody_reads(self) -> None:
        """A connection whose other end takes nothing is closed in time, however much waits for it."""
        self.assertEqual(asyncio.run(unread_reply()), "lost")

    def test_every_reply_has_its_policy(self) -> None:
        for route in ("/", "/api/me", "/static/screen.css", "/nowhere", "/report"):
            request = f"GET {route} HTTP/1.1\r\nHost: 127.0.0.1:{self.seen.port}\r\n\r\n".encode()
            head = talk(self.seen.port, request, 60).partition(b"\r\n\r\n")[0].decode()
            self.assertIn("Content-Security-Policy: default-src 'none'", head, route)
            self.assertNotIn("unsafe", head)
            self.assertIn("X-Content-Type-Options: nosniff", head)
            self.assertIn("Connection: close", head)


class Logins(support.Case):
    def test_logins_that_fold_to_one_name(self) -> None:
        """Each has a name of its own, also after the screen was started again; readers take none."""
        desk = self.desk()
        words = ("--proxy", "127.0.0.1", "--senders", "desk-")

        def names(screen: support.Screen, logins: tuple[str, ...]) -> list[str]:
            return [screen.call("/api/me", headers={"X-Remote-User": login})[1]["name"] for login in logins]

        screen = support.Screen(desk.book, *words, desk=desk)
        logins = ("desk-anna.b", "desk-anna-b", "desk-ANNA B", "desk-anna-b-2")
        self.assertEqual(names(screen, ("desk.anna-b", *logins[:1])), ["DESK-ANNA-B", "DESK-ANNA-B"])
        found = names(screen, logins)
        self.assertEqual(found, ["DESK-ANNA-B", "DESK-ANNA-B-2", "DESK-ANNA-B-3", "DESK-ANNA-B-2-2"])
        for number, (login, name) in enumerate(zip(logins, found)):
            screen.headers = {"X-Remote-User": login}
            screen.headers["X-Screen-Token"] = screen.call("/api/me")[1]["token"]
            command = {**LIGHTHOUSE, "f3": str(int(LIGHTHOUSE["f3"]) + number), "f2": ("close", "open")[number % 2]}
            self.assertEqual(screen.post({**command, "ref": f"SCR-{name}-1"})[0], 200)
            other = found[number - 1]
            self.assertEqual(screen.post({**command, "ref": f"SCR-{other}-2"})[0], 422)
        screen.end()
        again = self.screen(*words, desk=desk)
        self.assertEqual(names(again, logins[::-1]), found[::-1])

    def test_open_pages_are_counted_by_login(self) -> None:
        """One login that opens pages without end leaves the others theirs."""
        screen = self.screen()
        request = f"GET /events HTTP/1.1\r\nHost: 127.0.0.1:{screen.port}\r\nCookie: screen_name="

        def status(login: str) -> bytes:
            connection = socket.create_connection(("127.0.0.1", screen.port), timeout=20)
            self.addCleanup(connection.close)
            connection.sendall(f"{request}{login}\r\n\r\n".encode())
            return connection.recv(12)[9:]

        self.assertEqual({status("ANNA") for _ in range(50)}, {b"200"})
        self.assertEqual(status("ANNA"), b"429")
        self.assertEqual(status("BERT"), b"200")

    def test_a_login_of_a_browser_is_no_proxys(self) -> None:
        screen = self.screen()
        self.assertEqual(screen.call("/api/me", headers={"X-Remote-User": "desk-anna"})[1]["login"], "")
        elsewhere = self.screen("--proxy", "10.0.7.1")
        self.assertEqual(elsewhere.call("/api/me", headers={"X-Remote-User": "desk-anna"})[0], 401)
        self.assertEqual(self.screen("--proxy", "127.0.0.1").call("/api/me")[0], 401)  # it names nobody
