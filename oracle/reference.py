"""An independent model of `outagebook total`.

It reads the same text and adds up, for each stretch of seconds in which nothing is switched and no
device's life begins or ends, the seconds that each customer in service has no closed path to GRID.
It shares nothing with the program: that one looks at every second and joins nodes into trees, this
one goes from change to change and walks from GRID breadth first.

A text that `total` refuses is no input of the model: it may then fail in any way.

    python3 oracle/reference.py < examples/first-run/first-run.csv
"""

import csv
import io
import sys
from collections import defaultdict, deque
from collections.abc import Iterator

GRID = "GRID"
Life = tuple[int, int | None]  # since, until or none


class Book:
    """What a text says."""

    def __init__(self) -> None:
        self.span = (0, 0)
        self.sections: set[str] = set()
        self.devices: dict[str, tuple[str, str]] = {}  # name: (node, node)
        self.normal: dict[str, bool] = {}  # name: is it closed
        self.lives: dict[str, Life] = {}
        self.customers: dict[int, tuple[str, int, int | None]] = {}  # number: (section, since, until or None)
        self.entries: list[tuple[int, int, str, bool]] = []  # (second, number, device, is it closed from then on)


def read_book(data: bytes) -> Book:
    """The book that the bytes of a text say."""
    rows = [row for row in csv.reader(io.StringIO(data.decode("utf-8-sig"), newline="")) if row]
    if rows[0] != ["kind", "ref", "f1", "f2", "f3", "f4", "f5", "f6"]:
        raise ValueError("no header")
    book = Book()
    for kind, _ref, *f in rows[1:]:
        if kind == "span":
            book.span = (int(f[0]), int(f[1]))
        elif kind == "section":
            book.sections.add(f[0])
        elif kind == "device":
            book.devices[f[0]] = (f[1], f[2])
            book.normal[f[0]] = f[3] == "closed"
            book.lives[f[0]] = read_life(f[4], f[5])
        elif kind == "life":
            book.lives[f[0]] = read_life(f[1], f[2])
        elif kind == "connect":
            book.customers[int(f[0])] = (f[1], int(f[2]), int(f[3]) if f[3] else None)
        elif kind == "switch":
            book.entries.append((int(f[2]), len(book.entries) + 1, f[0], f[1] == "close"))
        elif kind not in ("cause", "bus"):
            raise ValueError(f"unknown kind {kind}")
    return book


def read_life(since: str, until: str) -> Life:
    """The life that two fields say: from 0 on, or without end, where they are empty."""
    return int(since or "0"), int(until) if until else None


def is_alive(life: Life, second: int) -> bool:
    since, until = life
    return since <= second and (until is None or second < until)


def reached_from_grid(devices: dict[str, tuple[str, str]], closed: set[str]) -> set[str]:
    """The nodes to which closed devices lead from GRID, where `closed` are the names of these."""
    neighbours = defaultdict(list)
    for name, (a, b) in devices.items():
        if name in closed:
            neighbours[a].append(b)
            neighbours[b].append(a)
    reached = {GRID}
    queue = deque([GRID])
    while queue:
        for node in neighbours[queue.popleft()]:
            if node not in reached:
                reached.add(node)
                queue.append(node)
    return reached


def bounds_of(book: Book) -> list[int]:
    """The seconds of the span, its end among them, at which something may change, in order."""
    first, end = book.span
    seconds = {second for second, _, _, _ in book.entries}
    for since, until in book.lives.values():
        seconds |= {since} if until is None else {since, until}
    return sorted({first, end} | {second for second in seconds if first < second < end})


def stretches(book: Book) -> Iterator[tuple[int, int, set[str]]]:
    """For each stretch of seconds without a change: its first second, its end, the closed devices."""
    conducts = dict(book.normal)
    bounds = bounds_of(book)
    entries = deque(sorted(book.entries))
    for begin, next_bound in zip(bounds, bounds[1:]):
        while entries and entries[0][0] <= begin:
            _, _, device, is_closed = entries.popleft()
            conducts[device] = is_closed
        closed = {name for name in conducts if conducts[name] and is_alive(book.lives[name], begin)}
        yield begin, next_bound, closed


def customer_seconds(book: Book) -> int:
    """The customer-seconds without supply in the span."""
    total = 0
    for begin, end, closed in stretches(book):
        reached = reached_from_grid(book.devices, closed)
        for section, since, until in book.customers.values():
            if section not in reached:
                last = end if until is None else min(end, until)
                total += max(0, last - max(begin, since))
    return total


def main() -> None:
    print("W", customer_seconds(read_book(sys.stdin.buffer.read())))


if __name__ == "__main__":
    main()
