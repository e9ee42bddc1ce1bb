"""Requests a second: `outagebook serve` beside a plain desk in Python (plain_desk.py), with equal requests.

    python3 benches/desk.py [--views N] [--commands N] [--rounds N] [--program FILE] [--folder FOLDER]

Both begin with a small book of a hundred breakers, and serve it at the same time. One client asks each in turn, round by round,
over one kept connection that it makes anew where a reply says `Connection: close`: GET /totals, each after the reply to
the one before, and twenty at once, by which the client's own time counts less; then POST /commands with openings and
closings of a hundred breakers in turn, each a transaction of its own, and the same again under the same references. The books lie in bench-data/, where a commit
waits for the disk, and then in memory, in /dev/shm. The bodies of both have to be equal, reply for reply. It prints the
median rates of the rounds and their ratio; with --plain the plain desk stands in the program's place, which shows what
the measure itself is worth.
"""

import argparse
import json
import re
import socket
import subprocess
import sys
import time
from collections.abc import Sequence
from pathlib import Path
from statistics import median

from import_year import clear
from places import BENCHES, DATA, PROGRAM

FIRST = 1_704_067_200
PERIOD = ["--first", "2024-01-01", "--days", "1", "--zone", "UTC0"]
AT_ONCE = 20  # divides the 1,000 requests of a stream
HEAD_END = b"\r\n\r\n"
LENGTH = re.compile(rb"\r\ncontent-length: *([0-9]+)", re.IGNORECASE)
CLOSE = re.compile(rb"\r\nconnection: *close", re.IGNORECASE)

BREAKERS = 100

Reply = tuple[bytes, bytes]  # the status line and the body


def book_text() -> str:
    """A cause, a bus, and sections behind one breaker each, with a customer each."""
    rows = ["kind,ref,f1,f2,f3,f4,f5,f6", "cause,N1,3,STORM,,,,", "bus,N2,BUS-A,,,,,"]
    numbers = range(1, BREAKERS + 1)
    rows += [f"section,S{number},S{number},1,,,," for number in numbers]
    rows.append("device,D0,I1,GRID,BUS-A,closed,,")
    rows += [f"device,D{number},B{number},BUS-A,S{number},closed,," for number in numbers]
    rows += [f"connect,C{number},{number},S{number},{FIRST},,," for number in numbers]
    return "".join(f"{row}\n" for row in rows)


class Client:
    """One connection that is kept, and made anew where the server ends it."""

    def __init__(self, port: int) -> None:
        self.port = port
        self.socket: socket.socket | None = None
        self.data = b""

    def connected(self) -> socket.socket:
        """The connection, made anew where there is none."""
        if self.socket is None:
            self.socket = socket.create_connection(("127.0.0.1", self.port))
            self.socket.setsockopt(socket.IPPROTO_TCP, socket.TCP_NODELAY, 1)
        return self.socket

    def receive(self) -> None:
        data = self.connected().recv(65_536)
        if not data:
            raise EOFError("the server hung up inside a reply")
        self.data += data

    def reply(self) -> Reply:
        """The status line and the body of the next reply."""
        while HEAD_END not in self.data:
            self.receive()
        head, _, self.data = self.data.partition(HEAD_END)
        told = LENGTH.search(head)
        length = int(told[1]) if told else 0
        while len(self.data) < length:
            self.receive()
        body, self.data = self.data[:length], self.data[length:]
        if CLOSE.search(head):
            self.connected().close()
            self.socket = None
        return head.partition(b"\r\n")[0], body

    def ask(self, requests: list[bytes]) -> list[Reply]:
        """The replies to requests that are sent at once. A server may end the connection after the last of them alone."""
        self.connected().sendall(b"".join(requests))
        return [self.reply() for _ in requests]


class Server:
    """A server in a process of its own."""

    def __init__(self, words: Sequence[object]) -> None:
        self.process = subprocess.Popen(list(map(str, words)), stdout=subprocess.PIPE, text=True)
        assert self.process.stdout is not None
        self.told = self.process.stdout
        line = self.told.readline()
        if not line.startswith("listening 127.0.0.1:"):
            sys.exit(f"{words[0]}: {line}")
        self.client = Client(int(line.rpartition(":")[2]))
        self.seconds: list[float] = []

    def ask_all(self, groups: list[list[bytes]]) -> list[Reply]:
        """The replies to groups of requests; the seconds that they took are kept."""
        begin = time.perf_counter()
        replies = [self.client.ask(requests) for requests in groups]
        self.seconds.append(time.perf_counter() - begin)
        return [reply for group in replies for reply in group]

    def rate(self, count: int) -> float:
        """Requests a second, the median of the rounds, which are forgotten."""
        seconds = float(median(self.seconds))
        self.seconds = []
        return count / seconds

    def end(self) -> None:
        self.process.terminate()
        self.process.wait()
        self.told.close()


def view(path: str) -> bytes:
    return f"GET {path} HTTP/1.1\r\nHost: localhost\r\n\r\n".encode()


def command(number: int) -> bytes:
    """The opening or closing of one of the breakers, which take turns, ten seconds after the one before."""
    said = {
        "kind": "switch",
        "ref": f"OUT-{number}",
        "f1": f"B{number // 2 % BREAKERS + 1}",
        "f2": "close" if number % 2 else "open",
        "f3": str(FIRST + 10 * number),
        "f4": "3",
        "f5": "CREW-1",
    }
    body = json.dumps(said, separators=(",", ":"))
    head = f"POST /commands HTTP/1.1\r\nHost: localhost\r\nContent-Length: {len(body)}\r\n\r\n"
    return (head + body).encode()


def compare(name: str, servers: list[Server], rounds: list[list[bytes]], at_once: int = 1) -> None:
    """Asks both servers the same, round by round, and prints their rates; the replies have to be equal."""
    for requests in rounds:
        groups = [requests[begin : begin + at_once] for begin in range(0, len(requests), at_once)]
        replies = [server.ask_all(groups) for server in servers]
        if replies[0] != replies[1]:
            differing = next(pair for pair in zip(*replies) if pair[0] != pair[1])
            sys.exit(f"{name}: {differing[0]} and {differing[1]}")
    count = len(rounds[0])
    rates = [server.rate(count) for server in servers]
    figures = f"{rates[0]:,.0f} | {rates[1]:,.0f} | {rates[0] / rates[1]:.1f}"
    print(f"| {name} | {len(rounds)} x {count:,} | {figures} |", flush=True)


def serve_both(folder: Path, text: Path, words: argparse.Namespace) -> list[Server]:
    """Both servers, each over a book of its own in the folder."""
    book, plain, other = (folder / f"{name}.db" for name in ["desk", "desk-plain", "desk-other"])
    clear(book, plain, other)
    plain_words = [sys.executable, BENCHES / "plain_desk.py", text, *PERIOD]
    if words.plain:
        return [Server([*plain_words, "--book", path]) for path in [other, plain]]
    for job, *rest in [["init", *PERIOD], ["import", str(text)]]:
        subprocess.run([words.program, job, "--book", book, *rest], stdout=subprocess.DEVNULL, check=True)
    program = [words.program, "serve", "--book", book, "--port", "0"]
    return [Server(program), Server([*plain_words, "--book", plain])]


def rounds_of(requests: list[bytes], rounds: int) -> list[list[bytes]]:
    size = len(requests) // rounds
    return [requests[size * number : size * (number + 1)] for number in range(rounds)]


def measure(name: str, folder: Path, text: Path, words: argparse.Namespace) -> None:
    servers = serve_both(folder, text, words)
    try:
        views = [[view("/totals")] * words.views] * words.rounds
        compare(f"GET /totals, {name}", servers, views)
        compare(f"GET /totals, {AT_ONCE} at once, {name}", servers, views, AT_ONCE)
        commands = [command(number) for number in range(words.commands * words.rounds)]
        compare(f"POST /commands, {name}", servers, rounds_of(commands, words.rounds))
        compare(f"POST /commands again, {name}", servers, rounds_of(commands, words.rounds))
    finally:
        for server in servers:
            server.end()


def main() -> None:
    parser = argparse.ArgumentParser(description="Times requests to the program and to a plain desk in Python.")
    parser.add_argument("--views", type=int, default=2_000, help="how many GETs a round, a multiple of 1,000")
    parser.add_argument("--commands", type=int, default=400, help="how many POSTs a round")
    parser.add_argument("--rounds", type=int, default=5)
    parser.add_argument("--program", default=PROGRAM, help="the program (that of crates/outagebook)")
    parser.add_argument("--folder", type=Path, default=DATA, help="where books on disk are made")
    parser.add_argument("--memory", type=Path, default=Path("/dev/shm"), help="where books in memory are made")
    parser.add_argument("--plain", action="store_true", help="the plain desk in place of the program")
    words = parser.parse_args()
    words.folder.mkdir(exist_ok=True)
    text = words.folder / "desk.csv"
    text.write_text(book_text(), encoding="ascii")
    print(
        "| Requests over one kept connection | rounds | program, a second | http.server and sqlite3, a second | ratio |"
    )
    print("|---|---|---|---|---|")
    measure("on disk", words.folder, text, words)
    measure("in memory", words.memory, text, words)


if __name__ == "__main__":
    main()
