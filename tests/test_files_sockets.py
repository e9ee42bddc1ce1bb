"""The program's sockets, files and standard streams: no contract states what the system gives and takes there.

    python3 tests/test_files_sockets.py
"""

import json
import os
import pty
import socket
import sqlite3
import subprocess
import tempfile
import threading
import unittest
from collections.abc import Iterator, Sequence
from contextlib import closing, contextmanager
from pathlib import Path

from places import EXAMPLES, FORTNIGHT, PROGRAM, ROOT

PATIENCE = 60  # seconds that a client waits for a reply
NOT_LOADED = 127  # the status of a program whose libraries have no memory
READING = ("table", "indices", "audit")
GET = "GET {} HTTP/1.1\r\nHost: a\r\n\r\n"
POST = "POST {} HTTP/1.1\r\nHost: a\r\nContent-Length: {}\r\n{}\r\n"
CAUSE = '{"kind":"cause","ref":"R1","f1":"40","f2":"HAIL"}'
TAKEN = '{"kind":"cause","ref":"R2","f1":"40","f2":"HAIL"}'
ROWS = "kind,ref,f1,f2,f3,f4,f5,f6\ncause,R3,41,FOG,,,,\n"
UNENDED = "GET / HTTP/1.1\r\nHost: a\r\nUser-Agent: "

Said = tuple[str, str, int]  # printed, told on standard error, status
Served = tuple[subprocess.Popen[str], int]  # the program, its port
MADE: dict[str, bytes] = {}  # the files of the book that the tests begin with


def posted(route: str, body: str, field: str = "") -> str:
    """A request with a body."""
    return POST.format(route, len(body), field) + body


def reply_on(stream: socket.socket) -> tuple[int, str]:
    """The status and the body of the reply that comes next; the client sends nothing meanwhile."""
    said = b""
    while b"\r\n\r\n" not in said:
        said += received(stream)
    head, _, body = said.partition(b"\r\n\r\n")
    fields = dict(line.split(": ", 1) for line in head.decode().split("\r\n")[1:])
    while len(body) < int(fields.get("Content-Length", 0)):
        body += received(stream)
    return int(head.split(b" ")[1]), body.decode()


def received(stream: socket.socket) -> bytes:
    data = stream.recv(65_536)
    if not data:
        raise ConnectionError("the stream ended inside a reply")
    return data


def is_over(stream: socket.socket) -> bool:
    """The desk has closed the stream; where it left bytes unread the system says so by a reset."""
    try:
        return stream.recv(1) == b""
    except ConnectionResetError:
        return True


def sockets_of(pid: int) -> list[tuple[str, str]]:
    """The kind and the local address, in hexadecimal, of each Internet socket that a process has."""
    names = [os.readlink(link) for link in Path(f"/proc/{pid}/fd").iterdir()]
    inodes = {name[len("socket:[") : -1] for name in names if name.startswith("socket:")}
    found = []
    for kind in ("tcp", "tcp6", "udp", "udp6"):
        table = Path(f"/proc/{pid}/net/{kind}")
        rows = [line.split() for line in table.read_text().splitlines()[1:]] if table.exists() else []
        found += [(kind, row[1]) for row in rows if row[9] in inodes]
    return found


class OneBook(unittest.TestCase):
    """A book of the sample fortnight, in a folder; the program runs in another one, which stays empty."""

    def setUp(self) -> None:
        folder = tempfile.TemporaryDirectory()
        self.addCleanup(folder.cleanup)
        self.folder, self.here = Path(folder.name) / "books", Path(folder.name) / "here"
        self.folder.mkdir()
        self.here.mkdir()
        self.book = self.folder / "fortnight.db"
        self.text = self.folder / "fortnight.csv"
        self.text.write_bytes((EXAMPLES / "fortnight.csv").read_bytes())

    def words(self, job: str, *rest: object) -> list[str]:
        return [str(PROGRAM), job, "--book", str(self.book), *map(str, rest)]

    def run_job(self, job: str, *rest: object) -> Said:
        done = subprocess.run(self.words(job, *rest), cwd=self.here, capture_output=True, text=True, check=False)
        return done.stdout, done.stderr, done.returncode

    def make(self) -> None:
        """The book is made, or copied where a test has made it."""
        if not MADE:
            first, days, zone = FORTNIGHT
            created = self.run_job("init", "--first", first, "--days", days, "--zone", zone)
            self.assertEqual(created, ("created\n", "", 0))
            self.assertEqual(self.run_job("import", self.text), ("added 102 again 0\n", "", 0))
            MADE.update({path.name: path.read_bytes() for path in self.folder.glob(f"{self.book.name}*")})
        for name, data in MADE.items():
            (self.folder / name).write_bytes(data)

    def rows(self) -> list[str]:
        """All rows of all tables."""
        with closing(sqlite3.connect(f"file:{self.book}?mode=ro", uri=True)) as database:
            return [*database.iterdump()]

    def is_sound(self) -> None:
        """The file has the book's eleven tables, and the program made no file where it ran."""
        self.assertEqual(self.run_job("audit"), ("audit ok\n", "", 0))
        self.assertEqual([*self.here.iterdir()], [])

    @contextmanager
    def served(self, streams: int) -> Iterator[Served]:
        words = self.words("serve", "--port", 0, "--streams", streams)
        with subprocess.Popen(
            words, cwd=self.here, stdout=subprocess.PIPE, stderr=subprocess.PIPE, text=True
        ) as program:
            assert program.stdout is not None
            try:
                yield program, int(program.stdout.readline().removeprefix("listening 127.0.0.1:"))
            except BaseException:
                program.kill()
                raise


class Sockets(OneBook):
    def asked(self, stream: socket.socket, requests: Sequence[tuple[str, int]]) -> None:
        """Each request gets its reply before anything more is sent."""
        for request, status in requests:
            with self.subTest(request[:80]):
                stream.sendall(request.encode())
                self.assertEqual(reply_on(stream)[0], status)

    def test_a_client_that_waits(self) -> None:
        """A reply comes before the client sends another byte: whole requests, refused ones, and heads that end a stream."""
        self.make()
        kept = [(GET.format(f"/{route}"), 200) for route in ("totals", "indices", "table", "entries/29", "commands/1")]
        kept += [(GET.format("/none"), 404), (posted("/totals", "x"), 405), (posted("/plan", CAUSE), 200)]
        kept += [(posted("/commands", CAUSE), 200), (posted("/commands", TAKEN), 409), (posted("/import", ROWS), 200)]
        last = [
            ("GET / HTTP/1.1\r\n\r\n", 400),
            ("POST /commands HTTP/1.1\r\nHost: a\r\n\r\n", 411),
            (POST.format("/import", 4_194_305, ""), 413),
            (UNENDED + "x" * (16_385 - len(UNENDED)), 431),
            ("PUT /table HTTP/1.1\r\nHost: a\r\nContent-Length: 9\r\n\r\n", 501),
        ]
        with self.served(len(last)) as (program, port):
            for ending in last:
                with socket.create_connection(("127.0.0.1", port), PATIENCE) as stream:
                    self.asked(stream, [*kept, ending] if ending is last[0] else [kept[0], ending])
                    self.assertTrue(is_over(stream))
            self.assertEqual(program.communicate(timeout=PATIENCE), ("", ""))
        self.assertEqual(program.returncode, 0)
        self.is_sound()

    def test_a_client_that_waits_for_100_continue(self) -> None:
        """The interim reply comes before the body is sent, and the reply before the next request."""
        self.make()
        head, _, body = posted("/commands", CAUSE, "Expect: 100-continue\r\n").partition("\r\n\r\n")
        with self.served(1) as (program, port):
            with socket.create_connection(("127.0.0.1", port), PATIENCE) as stream:
                self.asked(stream, [(f"{head}\r\n\r\n", 100), (body, 200), (GET.format("/totals"), 200)])
            program.wait(PATIENCE)

    def test_address(self) -> None:
        """The desk listens at its port of 127.0.0.1, and has no other socket, also while it serves a stream."""
        self.make()
        with self.served(1) as (program, port):
            own = ("tcp", f"0100007F:{port:04X}")
            self.assertEqual(sockets_of(program.pid), [own])
            with self.assertRaises(ConnectionRefusedError):
                socket.create_connection(("127.0.0.2", port), PATIENCE)
            with socket.create_connection(("127.0.0.1", port), PATIENCE) as stream:
                stream.sendall(GET.format("/totals").encode())
                self.assertEqual(reply_on(stream)[0], 200)
                self.assertEqual(sockets_of(program.pid), [own, own])  # the port's, and the stream's
            program.kill()

    def test_a_broken_stream(self) -> None:
        """What ended a stream is printed, the request had no effect, and the next stream is served."""
        self.make()
        rows = self.rows()
        with self.served(2) as (program, port):
            with socket.create_connection(("127.0.0.1", port), PATIENCE) as stream:
                stream.sendall(posted("/commands", CAUSE)[:-1].encode())
                stream.shutdown(socket.SHUT_WR)
                self.assertEqual(stream.recv(1), b"")
            with socket.create_connection(("127.0.0.1", port), PATIENCE) as stream:
                stream.sendall(GET.format("/commands/103").encode())
                self.assertEqual(reply_on(stream)[0], 404)
            self.assertEqual(program.communicate(timeout=PATIENCE), ("", "fault 23 Input\n"))
        self.assertEqual((program.returncode, self.rows()), (0, rows))
        self.is_sound()

    def test_commands_are_there_at_the_end(self) -> None:
        """What the desk answered is in the file once it has ended, and all eleven tables with it."""
        self.make()
        with self.served(1) as (program, port):
            with socket.create_connection(("127.0.0.1", port), PATIENCE) as stream:
                self.asked(stream, [(posted("/commands", CAUSE), 200)])
            program.wait(PATIENCE)
        with closing(sqlite3.connect(self.book)) as database:
            self.assertEqual(database.execute("SELECT count(*) FROM cmd").fetchone(), (103,))
        self.is_sound()


class Files(OneBook):
    def test_input_and_book(self) -> None:
        """An import changes nothing of INPUT; a job that reads changes no row; each writes OUTPUT alone, and no other file."""
        self.make()
        before = self.text.read_bytes(), self.text.stat().st_mtime_ns
        self.assertEqual(self.run_job("import", self.text), ("added 0 again 102\n", "", 0))
        self.assertEqual((self.text.read_bytes(), self.text.stat().st_mtime_ns), before)
        rows = self.rows()
        for job in READING:
            with self.subTest(job):
                self.assertEqual(self.run_job(job)[1:], ("", 0))
        for job in ("export", "interruptions"):
            with self.subTest(job):
                self.assertEqual(self.run_job(job, self.folder / f"{job}.csv")[1:], ("", 0))
        self.assertEqual(self.rows(), rows)
        names = {path.name.removesuffix("-wal").removesuffix("-shm") for path in self.folder.iterdir()}
        self.assertEqual(names, {"fortnight.db", "fortnight.csv", "export.csv", "interruptions.csv"})
        self.is_sound()

    def test_no_book(self) -> None:
        """Without its file a job stops with a fault, and makes none; over a file that is no book it leaves OUTPUT as it was."""
        output = self.folder / "output.csv"
        output.write_text("kept\n")
        given: list[tuple[object, ...]] = [("import", self.text), ("export", output), ("interruptions", output)]
        given += [("serve", "--port", 0), *((job,) for job in (*READING, "migrate"))]
        for job, *rest in given:
            with self.subTest(job):
                self.assertEqual(self.run_job(str(job), *rest), ("", "fault 21 Store\n", 1))
        self.assertEqual({path.name for path in self.folder.iterdir()}, {"fortnight.csv", "output.csv"})
        self.book.touch()
        for job in ("export", "interruptions"):
            self.assertEqual(self.run_job(job, output), ("", "refused 17 BadBook\n", 2))
        self.assertEqual((output.read_text(), [*self.here.iterdir()]), ("kept\n", []))

    def test_no_period(self) -> None:
        """A period that can't be is refused before a file is made."""
        said = self.run_job("init", "--first", "2025-03-24", "--days", 367, "--zone", "UTC0")
        self.assertEqual((said[1:], self.book.exists()), (("refused 16 BadPeriod\n", 2), False))


class LittleMemory(OneBook):
    def test_the_stack(self) -> None:
        """However little memory a process may have, the system doesn't end the program because its stack can't grow."""
        self.make()
        seen, told = set[int](), set[str]()
        for kib in range(16_384, 0, -32):
            words = ["prlimit", f"--as={kib * 1024}", *self.words("table")]
            done = subprocess.run(words, capture_output=True, text=True, check=False)
            if done.returncode == NOT_LOADED:
                break
            self.assertGreaterEqual(done.returncode, 0, f"ended by a signal with {kib} KiB")
            seen.add(done.returncode)
            told.add(done.stderr)
        self.assertEqual(seen, {0, 1})
        self.assertEqual(told, {"", "fault 20 OutOfMemory\n"})


class StandardStreams(OneBook):
    def test_total(self) -> None:
        """`total` counts what comes on standard input, however it is cut, and opens no file."""
        text = (ROOT / "examples/first-run/first-run.csv").read_bytes()
        with subprocess.Popen(
            [PROGRAM, "total"], cwd=self.here, stdin=subprocess.PIPE, stdout=subprocess.PIPE, stderr=subprocess.PIPE
        ) as program:
            assert program.stdin is not None
            for place in range(0, len(text), 7):
                program.stdin.write(text[place : place + 7])
                program.stdin.flush()
            self.assertEqual(program.communicate(timeout=PATIENCE), (b"W 9000\n", b""))
        self.assertEqual((program.returncode, [*self.here.iterdir()]), (0, []))

    def test_not_done(self) -> None:
        """Words that name no job end with status 64 and a reason; a text that `total` refuses with 2 and its line."""
        wrong: list[list[str]] = [[], ["tables"], ["init", "--days", "1"], ["indices", "--by", "year"]]
        for words in wrong:
            with self.subTest(words):
                done = subprocess.run([PROGRAM, *words], cwd=self.here, capture_output=True, text=True, check=False)
                self.assertEqual((done.stdout, done.returncode), ("", 64))
                self.assertNotEqual(done.stderr, "")
        text = (ROOT / "examples/first-run/first-run.csv").read_text().replace("bus,A1,BUS-A", "bus,A1,")
        done = subprocess.run([PROGRAM, "total"], input=text, capture_output=True, text=True, check=False)
        self.assertEqual((done.stdout, done.stderr, done.returncode), ("", "refused 1 BadField 3 row 2\n", 2))

    def test_terminal(self) -> None:
        """On a terminal the one line of progress is cleared at the end, and standard output is the same."""
        self.make()
        ours, theirs = pty.openpty()
        seen: list[bytes] = []

        def look() -> None:
            try:
                while data := os.read(ours, 65_536):
                    seen.append(data)
            except OSError:  # a terminal that nobody has open any more
                pass

        looking = threading.Thread(target=look)
        looking.start()
        done = subprocess.run(self.words("table"), stdout=subprocess.PIPE, stderr=theirs, text=True, check=False)
        os.close(theirs)
        looking.join()
        os.close(ours)
        shown = b"".join(seen).decode().split("\r")
        self.assertEqual((done.stdout, "", done.returncode), self.run_job("table"))
        self.assertEqual((shown[0], shown[-1]), ("", "\x1b[K"))
        self.assertIn("opening the book\x1b[K", shown)
        self.assertNotIn("\n", "".join(shown))


if __name__ == "__main__":
    unittest.main()
