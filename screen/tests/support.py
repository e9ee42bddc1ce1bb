"""For the screen's tests: books, desks and screens in folders that go away."""

import atexit
import itertools
import json
import os
import shutil
import signal
import socket
import ssl
import subprocess
import sys
import tempfile
import threading
import time
import unittest
import urllib.error
import urllib.request
from collections.abc import Callable, Iterable, Sequence
from contextlib import suppress
from datetime import datetime, timedelta, timezone
from functools import lru_cache
from pathlib import Path
from typing import IO, Any

SCREEN = Path(__file__).resolve().parent.parent
ROOT = SCREEN.parent
FORTNIGHT_FILES = ROOT / "examples/fortnight"
DEPLOY = ROOT / "deploy"
PROGRAM = Path(os.environ.get("OUTAGEBOOK", ROOT / "crates/outagebook/out/outagebook"))
sys.path.insert(0, str(SCREEN))

FORTNIGHT = ("2025-03-24", "14", "CET-1CEST,M3.5.0,M10.5.0/3")
FIRST, END = 1_742_770_800, 1_743_976_800  # of the fortnight


@lru_cache(maxsize=None)
def folder() -> Path:
    path = Path(tempfile.mkdtemp(prefix="screen-tests-"))
    atexit.register(shutil.rmtree, path, ignore_errors=True)
    return path


def run(*words: object) -> str:
    done = subprocess.run([str(PROGRAM), *map(str, words)], capture_output=True, text=True, check=False)
    if done.returncode != 0:
        raise AssertionError(f"{words}: {done.stdout}{done.stderr}")
    return done.stdout


def output_of(*words: object) -> bytes:
    """What another program prints."""
    return subprocess.run(list(map(str, words)), check=True, capture_output=True).stdout


def new_book(name: str, text: str = "", period: tuple[str, str, str] = FORTNIGHT) -> Path:
    """A book of a text in a folder of its own."""
    book, rows = folder() / name / "book.db", folder() / name / "rows.csv"
    book.parent.mkdir()
    first, days, zone = period
    run("init", "--book", book, "--first", first, "--days", days, "--zone", zone)
    if text:
        rows.write_text(text)
        run("import", "--book", book, rows)
    return book


def copied(name: str, what: str, text: str, period: tuple[str, str, str]) -> Path:
    """A copy of a book that is imported once, in a folder of its own; SCREEN_BOOKS keeps that one for later runs."""
    made = Path(os.environ.get("SCREEN_BOOKS", folder())) / f"{what}-{period[0]}"
    if not made.exists():
        shutil.move(new_book(f"made-{what}", text, period).parent, made)
    shutil.copytree(made, folder() / name)
    return folder() / name / "book.db"


def fortnight(name: str) -> Path:
    """The sample's book."""
    return copied(name, "fortnight", (FORTNIGHT_FILES / "fortnight.csv").read_text(), FORTNIGHT)


def text_of(rows: Iterable[str]) -> str:
    """The text of an import."""
    return "\n".join(["kind,ref,f1,f2,f3,f4,f5,f6", *rows, ""])


SMALL = """kind,ref,f1,f2,f3,f4,f5,f6
cause,N1,1,TREE,,,,
cause,N2,2,STORM,,,,
section,N3,QUAY,1,,,,
section,N4,MILL,1,,,,
device,N5,CB-1,GRID,QUAY,closed,,
device,N6,LBS-1,QUAY,MILL,closed,,
connect,N7,1,QUAY,0,,,
connect,N8,2,MILL,0,,,
connect,N9,3,MILL,0,,,
"""
LAST_OF_SMALL = 9  # its last command


def storm_text(feeders: int = 3, branches: int = 4, length: int = 1) -> str:
    """Feeders, each with a section at its breaker and branches behind switches, each of so many sections one behind the other;
    the first section of feeder f behind its switch s has f + s customers, as long as these are fewer than ten."""
    rows = ["cause,N1,1,TREE,,,,", "cause,N2,2,STORM,,,,"]
    customers: list[str] = []

    def add(name: str, device: str, above: str, count: int, feeder: int) -> None:
        rows.append(f"section,S-{name},{name},{feeder},,,,")
        rows.append(f"device,D-{device},{device},{above},{name},closed,,")
        customers.extend([name] * count)

    for feeder in range(1, feeders + 1):
        add(f"QUAY-{feeder}", f"CB-{feeder}", "GRID", 1, feeder)
        for branch, step in itertools.product(range(1, branches + 1), range(1, length + 1)):
            names = [f"{feeder}{branch}"] + [f"{feeder}{branch}-{number}" for number in range(2, length + 1)]
            above = f"MILL-{names[step - 2]}" if step > 1 else f"QUAY-{feeder}"
            count = 1 + (feeder + branch + step - 2) % 9
            add(f"MILL-{names[step - 1]}", f"LBS-{names[step - 1]}", above, count, feeder)
    rows += [f"connect,C{number},{number},{section},0,,," for number, section in enumerate(customers, 1)]
    return text_of(rows)


def live(name: str, what: str = "small", text: str = SMALL) -> Path:
    """A book whose fortnight began seven days ago; that of two sections has a desk that is quick to start."""
    first = (datetime.now(timezone.utc).date() - timedelta(days=7)).isoformat()
    return copied(name, what, text, (first, *FORTNIGHT[1:]))


WAIT_SECONDS = 90  # as long as a busy machine may take; what comes sooner isn't waited for


def until(seen: Callable[[], Any], seconds: float = WAIT_SECONDS, what: str = "it") -> Any:
    """What is seen at last; a failure where it isn't seen in time."""
    end = time.monotonic() + seconds
    while True:
        found = seen()
        if found:
            return found
        if time.monotonic() > end:
            raise AssertionError(f"{what} wasn't seen within {seconds} seconds")
        time.sleep(0.02)


def limit(seconds: float) -> float:
    """A limit of time as it is promised, where the machine has a processor for it; five times that where it is busy."""
    return seconds if os.getloadavg()[0] < len(os.sched_getaffinity(0)) else 5 * seconds


def started(words: Sequence[object], errors: int | IO[str]) -> tuple[subprocess.Popen[str], int]:
    """A program that listens, and its port; 0 where it ended before."""
    process = subprocess.Popen(list(map(str, words)), stdout=subprocess.PIPE, stderr=errors, text=True)
    assert process.stdout is not None
    return process, int(process.stdout.readline().rpartition(":")[2] or 0)


class Desk:
    """A desk of its own port."""

    def __init__(self, book: Path, port: int = 0):
        self.book = book
        self.process, self.port = started([PROGRAM, "serve", "--book", book, "--port", port], subprocess.DEVNULL)
        self.url = f"http://127.0.0.1:{self.port}"

    def kill(self) -> None:
        with self.process:
            self.process.kill()

    def get(self, route: str) -> Any:
        return json.loads(call(self.url + route)[1])

    def post(self, command: dict[str, str]) -> tuple[int, Any]:
        status, body = call(f"{self.url}/commands", json.dumps(command).encode())
        return status, json.loads(body)


def call(
    url: str, body: bytes | None = None, headers: dict[str, str] | None = None, tls: ssl.SSLContext | None = None
) -> tuple[int, bytes]:
    """The status and the body of a request."""
    request = urllib.request.Request(url, data=body, headers={"Connection": "close", **(headers or {})})
    try:
        with urllib.request.urlopen(request, timeout=60, context=tls) as reply:
            return reply.status, reply.read()
    except urllib.error.HTTPError as error:
        with error:
            return error.code, error.read()


class Client:
    """Who asks a screen, and sends commands under a name."""

    def __init__(self, url: str, name: str = ""):
        self.url, self.headers = url, dict[str, str]()
        if name:
            self.log_in(name)

    def call(self, route: str, body: bytes | None = None, headers: dict[str, str] | None = None) -> tuple[int, Any]:
        """The status and the JSON of a request."""
        status, data = call(self.url + route, body, {**self.headers, **(headers or {})})
        return status, json.loads(data) if data else None

    def log_in(self, name: str) -> None:
        """Gives a name, and keeps its cookie and its token."""
        self.headers = {"Cookie": f"screen_name={name}"}
        self.headers["X-Screen-Token"] = self.call("/api/me")[1]["token"]

    def post(self, command: dict[str, str]) -> tuple[int, Any]:
        return self.call("/api/command", json.dumps(command).encode(), {"Content-Type": "application/json"})

    def send(self, **command: str) -> Any:
        """Sends a command under a reference of the login's own: what the page is told."""
        name = self.headers["Cookie"].partition("=")[2]
        status, shown = self.post({"ref": f"SCR-{name}-{time.time_ns()}", **command})
        if status != 200:
            raise AssertionError(shown)
        return shown

    def switch(
        self, position: str, device: str, cause: int = 1, second: int = 0, ago: int = 0, crew: str = "BERT"
    ) -> Any:
        """A switching, some seconds ago or at a second: what the page is told."""
        at = str(second or int(time.time()) - ago)
        return self.send(kind="switch", f1=device, f2=position, f3=at, f4=str(cause), f5=crew)

    def entries(self) -> list[Any]:
        """The first rows of the switching log, what was entered last first."""
        return list(self.call("/api/sheet?order=entered")[1]["rows"])

    def number(self) -> int:
        """The last command that the screen knows."""
        return int(self.call("/health")[1]["number"])


class Screen(Client):
    """A screen over a book, on a port of its own."""

    def __init__(
        self,
        book: Path,
        *words: str,
        desk: Desk | None = None,
        command: Path = SCREEN / "outagebook-screen",
        program: Path = PROGRAM,
    ):
        of_desk = ["--desk", desk.url] if desk else []
        self.book = book
        self.said = tempfile.TemporaryFile("w+", dir=folder())
        told = [command, "--book", book, "--port", 0, "--program", program, *of_desk, *words]
        self.process, self.port = started(told, self.said)
        if not self.port:
            raise AssertionError(self.errors())
        super().__init__(f"http://127.0.0.1:{self.port}")

    def end(self) -> None:
        """Ends it, and sees that it had nothing to complain of."""
        if self.said.closed:
            return
        with self.process:
            self.process.terminate()
            self.process.wait(20)
        errors = self.errors()
        self.said.close()
        if errors:
            raise AssertionError(errors)

    def errors(self) -> str:
        """What it said on standard error."""
        self.said.seek(0)
        return self.said.read()

    def desk_process(self) -> int:
        """The process of the desk that this screen started over the book, and not over a copy of it."""
        children = Path(f"/proc/{self.process.pid}/task/{self.process.pid}/children").read_text().split()
        book = str(self.book.resolve()).encode()
        return next(int(each) for each in children if book in Path(f"/proc/{each}/cmdline").read_bytes().split(b"\0"))


class Between:
    """A proxy before a port. It hands bytes on, counts POSTs and notes routes. It cuts the replies to some POSTs off; while it
    has a status, it answers each request with that and a page of its own, as nginx does while the screen is away, or another
    site."""

    def __init__(self, to: int = 0) -> None:
        self.to, self.status, self.is_held = to, 0, False
        self.cuts, self.posts = 0, 0
        self.routes: list[str] = []
        self.open: set[socket.socket] = set()
        self.dead: set[socket.socket] = set()
        self.socket = socket.create_server(("127.0.0.1", 0))
        self.port = self.socket.getsockname()[1]
        self.url = f"http://127.0.0.1:{self.port}"
        threading.Thread(target=self.run, daemon=True).start()

    def answer(self, status: int) -> None:
        """Answers with a status from now on (0: hands on again), and cuts what is open."""
        self.status = status
        for each in list(self.open):
            with suppress(OSError):
                each.shutdown(socket.SHUT_RDWR)

    def hold(self, is_held: bool) -> None:
        """Lets all connections die, those that are open and those of the time in which it holds: none is ended."""
        self.is_held = is_held
        self.dead |= self.open

    def run(self) -> None:
        with suppress(OSError):  # until it is closed
            while True:
                client, _ = self.socket.accept()
                threading.Thread(target=self.serve, args=(client,), daemon=True).start()

    def serve(self, client: socket.socket) -> None:
        self.open.add(client)
        with suppress(OSError), client:
            data = client.recv(65_536)
            if self.status:
                page = f"HTTP/1.1 {self.status} No\r\nContent-Type: text/html\r\nContent-Length: 2\r\n"
                client.sendall(f"{page}Connection: close\r\n\r\nno".encode())
            else:
                self.hand_on(client, data)
        self.open.discard(client)

    def hand_on(self, client: socket.socket, data: bytes) -> None:
        is_post = data.startswith(b"POST")
        is_cut = is_post and self.cuts > 0
        self.cuts, self.posts = self.cuts - is_cut, self.posts + is_post
        self.routes += data.decode(errors="replace").split(" ")[1:2]
        with socket.create_connection(("127.0.0.1", self.to)) as other:
            other.sendall(data)
            threading.Thread(target=pump, args=(client, other, self.is_dead), daemon=True).start()
            pump(other, client, (lambda *_: True) if is_cut else self.is_dead)

    def is_dead(self, *ends: socket.socket) -> bool:
        if self.is_held:
            self.dead.update(ends)
        return not self.dead.isdisjoint(ends)

    def end(self) -> None:
        self.socket.close()
        self.answer(502)


def pump(source: socket.socket, to: socket.socket, is_dead: Callable[..., bool]) -> None:
    """Hands bytes on until one side ends; a dead connection takes them and hands on none."""
    with suppress(OSError):
        while data := source.recv(65_536):
            if not is_dead(source, to):
                to.sendall(data)
        to.shutdown(socket.SHUT_RDWR)


class Case(unittest.TestCase):
    """A test whose desks, screens and proxies end with it; where no book is named they are over the sample's."""

    live: Screen

    @classmethod
    def share(cls, book: Path, *words: str, desk: Desk | None = None) -> None:
        """Starts a screen for all tests of a class, at which BERT sends commands."""
        cls.live = Screen(book, *words, desk=desk)
        cls.addClassCleanup(cls.live.end)
        cls.live.log_in("BERT")

    def desk(self, book: Path | None = None, port: int = 0) -> Desk:
        found = Desk(book or fortnight(f"{self.id()}-{time.time_ns()}"), port)
        self.addCleanup(found.kill)
        return found

    def screen(
        self, *words: str, desk: Desk | None = None, book: Path | None = None, login: str = "", **how: Path
    ) -> Screen:
        book = book or (desk.book if desk else fortnight(f"{self.id()}-{time.time_ns()}"))
        found = Screen(book, *words, desk=desk, **how)
        self.addCleanup(found.end)
        if login:
            found.log_in(login)
        return found

    def between(self, *words: str) -> tuple[Desk, Between, Screen]:
        """A desk, a proxy before it, and a screen that comes to it by that."""
        desk = self.desk()
        proxy = Between(desk.port)
        self.addCleanup(proxy.end)
        return desk, proxy, self.screen("--desk", proxy.url, *words, book=desk.book)

    def stop(self, process: int) -> Callable[[], None]:
        """Stops a process, which goes on when the answer is called, at the test's end at the latest."""

        def go_on() -> None:
            with suppress(ProcessLookupError):  # it was killed
                os.kill(process, signal.SIGCONT)

        os.kill(process, signal.SIGSTOP)
        self.addCleanup(go_on)
        return go_on
