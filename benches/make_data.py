"""Texts for `outagebook total`, the same on every machine: each comes from a seed.

    python3 benches/make_data.py large > bench-data/large.csv
    python3 benches/make_data.py small 7        # the seventh small text
"""

import random
import sys
from collections.abc import Iterator

HEADER = "kind,ref,f1,f2,f3,f4,f5,f6"
LAST_SECOND = 99_999_999_999
Bound = int | str  # a second, or nothing: ""
Fields = tuple[int | str, ...]

# The large text: a network that is run radially, with ties between its feeders, over a long span.
LARGE_SEED = 20261122
LARGE_NODES = 1_000
LARGE_DEVICES = 1_500
LARGE_CUSTOMERS = 1_000
LARGE_OUTAGES = 200
LARGE_FIRST = 1_704_067_200
LARGE_SECONDS = 100_000


class Text:
    """Rows of eight fields, each with a reference of its own."""

    def __init__(self) -> None:
        self.rows = [HEADER]

    def add(self, kind: str, *fields: object) -> None:
        padding = [""] * (6 - len(fields))
        self.rows.append(",".join([kind, f"R{len(self.rows)}", *map(str, fields), *padding]))

    def data(self, line_end: str = "\n", last_line_end: bool = True) -> bytes:
        text = line_end.join(self.rows) + (line_end if last_line_end else "")
        return text.encode("ascii")


def large_text() -> bytes:
    """1,000 nodes, 1,500 devices, 1,000 customers and 500 switchings in 100,000 seconds.

    Each node but GRID hangs on an earlier one by a closed device; the other devices are ties,
    normally open. An outage opens a device of the tree and closes it again some time later; in
    half of them a tie is closed meanwhile, and stays so.
    """
    rng = random.Random(LARGE_SEED)
    text = Text()
    end = LARGE_FIRST + LARGE_SECONDS
    text.add("span", LARGE_FIRST, end)
    names = ["GRID"]
    sections = []
    for number in range(1, LARGE_NODES):
        if number % 10 == 1:
            names.append(f"BUS-{number}")
            text.add("bus", names[-1])
        else:
            names.append(f"SECTION-{number}")
            text.add("section", names[-1], rng.randint(1, 40))
            sections.append(names[-1])
    for number in range(1, LARGE_NODES):
        above = names[rng.randrange(max(0, number - 30), number)]
        text.add("device", f"BREAKER-{number}", above, names[number], "closed")
    ties = LARGE_DEVICES - (LARGE_NODES - 1)
    for number in range(1, ties + 1):
        a, b = rng.sample(names[1:], 2)
        text.add("device", f"TIE-{number}", a, b, "open")
    for number in range(1, LARGE_CUSTOMERS + 1):
        since = LARGE_FIRST + rng.randrange(LARGE_SECONDS) if rng.random() < 0.1 else 0
        until = rng.randrange(max(LARGE_FIRST, since + 1), end + 1) if rng.random() < 0.1 else ""
        text.add("connect", number, rng.choice(sections), since, until)
    add_outages(text, rng, ties)
    return text.data()


def add_outages(text: Text, rng: random.Random, ties: int) -> None:
    """The switchings of the large text, entered outage by outage and so not in order of time."""
    for outage in range(LARGE_OUTAGES):
        opened = LARGE_FIRST + rng.randrange(LARGE_SECONDS - 4_000)
        restored = opened + rng.randrange(60, 4_000)
        breaker = f"BREAKER-{rng.randrange(1, LARGE_NODES)}"
        cause = rng.randint(1, 63)
        text.add("switch", breaker, "open", opened, cause, "CREW-1")
        text.add("switch", breaker, "close", restored, cause, "CREW-1")
        if outage % 2:
            tie = f"TIE-{rng.randrange(1, ties + 1)}"
            text.add("switch", tie, "close", rng.randrange(opened, restored), cause, "CREW-2")


def small_text(seed: int) -> bytes:
    """A text that `total` takes, with what is seldom in a book: meshed networks, devices side by
    side, several switchings in one second and at the span's first and last one, switchings that
    change nothing, services and lives inside the span, at its bounds or outside, lives that are set
    anew, switchings outside them, and any order of entry, devices behind switchings among them."""
    rng = random.Random(seed)
    text = Text()
    length = rng.choice([1, 2, 3, 10, 60, 1_000])
    first = rng.choice([0, 1, 1_000, LAST_SECOND - length])
    end = first + length
    text.add("span", first, end)
    names, sections = add_nodes(text, rng)
    devices = [f"D_{number}" for number in range(rng.randint(0, 2 * len(names)))]
    for name in devices:
        text.add("device", name, *device(rng, names, first, end))
    later = [("connect", customer) for customer in connections(rng, sections, first, end)]
    later += [("switch", entry) for entry in switchings(rng, devices, first, end)]
    later += [("life", (rng.choice(devices), *life(rng, first, end))) for _ in devices[: rng.randrange(9)]]
    later += [("device", (f"LATE_{n}", *device(rng, names, first, end))) for n in range(rng.choice([0, 0, 1, 2]))]
    rng.shuffle(later)
    for kind, fields in later:
        text.add(kind, *fields)
    return text.data(rng.choice(["\n", "\r\n", "\r"]), rng.random() < 0.8)


def add_nodes(text: Text, rng: random.Random) -> tuple[list[str], list[str]]:
    names = ["GRID"]
    sections = []
    for number in range(rng.randint(1, 9)):
        names.append(f"N-{number}")
        if rng.random() < 0.2:
            text.add("bus", names[-1])
        else:
            text.add("section", names[-1], rng.randint(1, 255))
            sections.append(names[-1])
    return names, sections


def device(rng: random.Random, names: list[str], first: int, end: int) -> Fields:
    """The fields of a device behind its name; in most of them the life is left out."""
    a, b = rng.sample(names, 2)
    since, until = life(rng, first, end) if rng.random() < 0.4 else ("", "")
    return a, b, rng.choice(["open", "closed", "closed"]), since, until


def bound(rng: random.Random, first: int, end: int) -> Bound:
    bounds: list[Bound] = ["", (first + end) // 2, near(rng, first, end)]
    return rng.choice(bounds)


def life(rng: random.Random, first: int, end: int) -> tuple[Bound, Bound]:
    """The two fields of a life, either of which may be empty; one may be a second of switchings."""
    since, until = bound(rng, first, end), bound(rng, first, end)
    return since, until if until != "" and int(until) > int(since or "0") else ""


def connections(rng: random.Random, sections: list[str], first: int, end: int) -> Iterator[Fields]:
    numbers = rng.sample(range(1, 40), rng.choice([1, 6, 20, 20])) if sections else []
    for number in numbers:
        since = near(rng, first, end)
        until = near(rng, first, end)
        is_open = until <= since or rng.random() < 0.3
        yield number, rng.choice(sections), since, "" if is_open else until


def switchings(rng: random.Random, devices: list[str], first: int, end: int) -> Iterator[Fields]:
    for _ in range(rng.randint(0, 24) if devices else 0):
        second = rng.choice([first, end - 1, rng.randrange(first, end), (first + end) // 2])
        yield rng.choice(devices), rng.choice(["open", "close"]), second, rng.randint(1, 63), "K1"


def near(rng: random.Random, first: int, end: int) -> int:
    """A second in the span or near it."""
    second = rng.choice([0, first, end - 1, end, rng.randrange(first, end), rng.randint(first - 3, end + 3)])
    return min(max(0, second), LAST_SECOND)


def main() -> None:
    data = large_text() if sys.argv[1] == "large" else small_text(int(sys.argv[2]))
    sys.stdout.buffer.write(data)


if __name__ == "__main__":
    main()
