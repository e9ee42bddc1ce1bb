"""A made year as body texts of commands, one a line, the same on every machine: it comes from a seed.

    python3 benches/make_year.py 10000 1 > bench-data/year.txt
    python3 benches/make_year.py 10000 1 --csv > bench-data/year.csv        # as `outagebook import` reads it
    python3 benches/make_year.py 0 1 --order falling        # network and customers alone
    python3 benches/make_year.py 10000 1 --lives 200        # with lines that are taken down, and devices that join

The book that it is for has the 366 days from 2024-01-01, zone UTC0. Each command is accepted in its turn.
"""

import argparse
import heapq
import random
import sys
from collections.abc import Callable, Iterable, Iterator
from datetime import date, datetime, timedelta, timezone
from functools import partial

FIRST = 1_704_067_200
DAYS = 366
DAY = 86_400
END = FIRST + DAYS * DAY
FIRST_DATE = date(2024, 1, 1)
FEEDERS = 20
SECTIONS = 900
BUSES = 99
DEVICES = 1_500
MOST_ENTRIES = 50_000
MOST_LIVES = 1_500  # one in three is a device more, and a book takes 2,048
MARKED_DAYS = 6
CAUSES = [
    "STORM", "LIGHTNING", "TREE", "ANIMAL", "VEHICLE", "DIGGING", "EQUIPMENT", "OVERLOAD", "PLANNED",
    "SWITCHING", "SUPPLIER", "UNKNOWN",
]  # fmt: skip
Act = Callable[[], str]  # done when its moment comes, it answers the line of its command
Tie = tuple[str, str, str]  # its name and its two nodes
CREWS = [f"CREW-{number}" for number in range(1, 13)]


class Network:
    """Feeders as trees below GRID, which branch, and ties between them that are normally open.

    A node is a name. `above` is the node that it hangs on, `below` those that hang on it.
    """

    def __init__(self, rng: random.Random) -> None:
        self.feeder_of: dict[str, int] = {}
        self.above: dict[str, str] = {}
        self.below: dict[str, list[str]] = {"GRID": []}
        self.breaker_of: dict[str, str] = {}
        self.ties: list[Tie] = []
        self.add_feeders(rng)
        self.add_ties(rng)

    def add_feeders(self, rng: random.Random) -> None:
        buses, sections = 0, 0
        for feeder in range(1, FEEDERS + 1):
            trunk = ["GRID"]
            last_bus = BUSES * feeder // FEEDERS
            last_section = SECTIONS * feeder // FEEDERS
            kinds = ["bus"] * (last_bus - buses - 1) + ["section"] * (last_section - sections)
            rng.shuffle(kinds)
            for kind in ["bus", *kinds]:
                if kind == "bus":
                    buses += 1
                    name = f"BUS-{buses}"
                else:
                    sections += 1
                    name = f"SECTION-{sections}"
                    self.feeder_of[name] = feeder
                self.hang(name, trunk[0] if len(trunk) == 1 else rng.choice(trunk[1:][-6:]))
                trunk.append(name)

    def hang(self, name: str, above: str) -> None:
        self.above[name] = above
        self.below[above].append(name)
        self.below[name] = []
        self.breaker_of[name] = f"BREAKER-{len(self.above)}"

    def add_ties(self, rng: random.Random) -> None:
        nodes = list(self.above)
        while len(self.above) + len(self.ties) < DEVICES:
            a, b = rng.sample(nodes, 2)
            if self.above[a] != b and self.above[b] != a:
                self.ties.append((f"TIE-{len(self.ties) + 1}", a, b))

    def cut_off(self, name: str) -> list[str]:
        """The nodes that hang on a node, itself among them."""
        found = [name]
        for node in found:
            found += self.below[node]
        return found

    def lines(self) -> Iterator[str]:
        for name in self.above:
            if name in self.feeder_of:
                yield f"section {name} {self.feeder_of[name]}"
            else:
                yield f"bus {name}"
        for name, above in self.above.items():
            yield f"device {self.breaker_of[name]} {above} {name} closed 0 -"
        for tie, a, b in self.ties:
            yield f"device {tie} {a} {b} open 0 -"


def customer_lines(rng: random.Random, network: Network, customers: int, order: str) -> Iterator[str]:
    """Customers of any sections: one in ten begins its service within the year, and one in ten ends it there."""
    sections = list(network.feeder_of)
    numbers = list(range(1, customers + 1))
    if order == "falling":
        numbers.reverse()
    elif order == "random":
        rng.shuffle(numbers)
    for number in numbers:
        begins = END - rng.randrange(1, DAYS) * DAY if rng.random() < 0.1 else rng.randrange(FIRST // DAY) * DAY
        ends = rng.randrange(max(FIRST, begins) // DAY, END // DAY) * DAY + DAY if rng.random() < 0.1 else "-"
        yield f"connect {number} {rng.choice(sections)} {begins} {ends}"


class Entry:
    """A switching, and the moment at which it is entered."""

    def __init__(self, device: str, act: str, second: int, cause: int, crew: str, moment: float) -> None:
        self.device = device
        self.act = act
        self.second = second
        self.cause = cause
        self.crew = crew
        self.moment = moment
        self.number = 0  # until it is entered
        self.revision = 1


class Sheet:
    """The switchings of a year by outages, with what is corrected and withdrawn of them later."""

    def __init__(self, rng: random.Random, network: Network, entries: int) -> None:
        self.rng = rng
        self.network = network
        self.outages: list[list[Entry]] = []
        self.entered_so_far = 0
        wanted = entries
        nodes = list(network.above)
        ties_of: dict[str, list[Tie]] = {}
        for tie in network.ties:
            for node in tie[1:]:
                ties_of.setdefault(node, []).append(tie)
        while wanted >= 2:
            outage = self.outage(rng.choice(nodes), ties_of, wanted)
            self.outages.append(outage)
            wanted -= len(outage)

    def outage(self, node: str, ties_of: dict[str, list[Tie]], wanted: int) -> list[Entry]:
        """A breaker is opened and closed again; sometimes a tie supplies a part of what is cut off meanwhile."""
        rng = self.rng
        cause = rng.randint(1, len(CAUSES))
        crew = rng.choice(CREWS)
        length = rng.randint(20, 300) if rng.random() < 0.2 else rng.randint(301, 5 * 3_600)
        opened = rng.randrange(FIRST, END - 6 * 3_600)
        breaker = self.network.breaker_of[node]
        steps = [(breaker, "open", opened), (breaker, "close", opened + length)]
        if wanted >= 4 and rng.random() < 0.15:
            cut_off = set(self.network.cut_off(node))
            ties = [tie for name in cut_off for tie in ties_of.get(name, ()) if not cut_off.issuperset(tie[1:])]
            if ties:
                tie = rng.choice(sorted(ties))
                closed = rng.randrange(opened, opened + length)
                back = max(closed + 1, opened + length + rng.randint(-60, 120))
                steps += [(tie[0], "close", closed), (tie[0], "open", back)]
        return [Entry(*step, cause, crew, self.entered(step[2])) for step in steps]

    def entered(self, second: int) -> float:
        """The moment at which a switching is entered: at once, or one in twenty late."""
        return second + self.delay() if self.rng.random() < 0.05 else second

    def delay(self) -> float:
        """Most that is late comes within hours, some within two days, one in ten within three weeks."""
        (longest,) = self.rng.choices([4 * 3_600, 2 * DAY, 21 * DAY], weights=[6, 3, 1])
        return 1 + longest * self.rng.random()

    def acts(self) -> Iterator[tuple[float, Act]]:
        """What is done, each with its moment: entries, corrections and withdrawals."""
        for outage in self.outages:
            for entry in outage:
                yield entry.moment, partial(self.enter, entry)
            entered = max(entry.moment for entry in outage)
            if self.rng.random() < 0.01:
                withdrawn = entered + self.delay()
                for entry in self.rng.sample(outage, len(outage)):
                    withdrawn += 60
                    yield withdrawn, partial(self.withdrawal, entry)
                continue
            for place, entry in enumerate(outage):
                if self.rng.random() < 0.03:
                    yield entered + self.delay(), partial(self.correction, entry, outage[place ^ 1])

    def lines(self, told: Iterable[tuple[float, str]] = ()) -> Iterator[str]:
        """The commands in the order of their moments, with what else is told, pairs of a moment and a line."""
        acts: list[tuple[float, Act]] = [*self.acts(), *((moment, partial(str, line)) for moment, line in told)]
        in_turn = [(moment, place, act) for place, (moment, act) in enumerate(acts)]
        heapq.heapify(in_turn)
        while in_turn:
            _, _, act = heapq.heappop(in_turn)
            yield act()

    def enter(self, entry: Entry) -> str:
        self.entered_so_far += 1
        entry.number = self.entered_so_far
        return f"switch {entry.device} {entry.act} {entry.second} {entry.cause} {entry.crew}"

    def withdrawal(self, entry: Entry) -> str:
        return f"withdraw {entry.number} {entry.revision}"

    def correction(self, entry: Entry, other: Entry) -> str:
        """Another second, which doesn't pass that of the same device's other switching, and sometimes another cause."""
        second = entry.second + self.rng.randint(-900, 900)
        second = min(max(second, FIRST), END - 1)
        if entry.second < other.second:
            second = min(second, other.second - 1)
        elif entry.second > other.second:
            second = max(second, other.second + 1)
        entry.second = second
        if self.rng.random() < 0.3:
            entry.cause = self.rng.randint(1, len(CAUSES))
        revision = entry.revision
        entry.revision += 1
        return f"correct {entry.number} {revision} {entry.act} {second} {entry.cause} {entry.crew}"


def life_lines(rng: random.Random, network: Network, lives: int) -> Iterator[tuple[int, str]]:
    """Lives by turns, each with the moment at which it is told, up to two days after its second or before it: a device
    joins, a tie is taken down, a line is taken down and stands again some hours later."""
    nodes, breakers = list(network.above), list(network.breaker_of.values())
    for number in range(lives):
        second = rng.randrange(FIRST + 3 * DAY, END - 3 * DAY)
        told = second + rng.randint(-2 * DAY, 2 * DAY)
        if number % 3 == 0:
            a, b = rng.sample(nodes, 2)
            yield told, f"device JOINED-{number // 3 + 1} {a} {b} {rng.choice(['open', 'closed'])} {second} -"
        elif number % 3 == 1:
            tie, _, _ = rng.choice(network.ties)
            yield told, f"life {tie} 0 {second}"
        else:
            breaker = rng.choice(breakers)
            yield told, f"life {breaker} 0 {second}"
            yield told + rng.randint(1, DAY), f"life {breaker} 0 -"


def late_lines(rng: random.Random, network: Network, pairs: int) -> Iterator[str]:
    """Short outages of a minute at any second of the year, each entered after all others."""
    breakers = list(network.breaker_of.values())
    for _ in range(pairs):
        breaker = rng.choice(breakers)
        cause = rng.randint(1, len(CAUSES))
        opened = rng.randrange(FIRST, END - 60)
        yield f"switch {breaker} open {opened} {cause} CREW-1"
        yield f"switch {breaker} close {opened + 60} {cause} CREW-1"


def year_lines(entries: int, seed: int, customers: int, order: str, late: int, lives: int = 0) -> Iterator[str]:
    """The lines of a year; those of two years that differ only in `late` begin alike."""
    network = Network(random.Random(f"network {seed}"))
    for code, name in enumerate(CAUSES, 1):
        yield f"cause {code} {name}"
    yield from network.lines()
    yield from customer_lines(random.Random(f"customers {seed}"), network, customers, order)
    if entries:
        rng = random.Random(f"marks {seed}")
        for day in sorted(rng.sample(range(DAYS), MARKED_DAYS)):
            yield f"mark {FIRST_DATE + timedelta(days=day)} ENGINEER-1"
    told = life_lines(random.Random(f"lives {seed}"), network, lives)
    yield from Sheet(random.Random(f"sheet {seed}"), network, entries).lines(told)
    yield from late_lines(random.Random(f"late {seed}"), network, late)


REFS = {"connect": "CUS", "switch": "SW", "correct": "COR", "withdraw": "WD", "mark": "MARK", "life": "LIFE"}
MOMENTS = {"connect": [2, 3], "switch": [2], "correct": [3], "device": [4, 5], "life": [1, 2]}
WHOLE = {"device": ["0", "-"], "life": ["0", "-"]}  # a life's ends that a row leaves out


def csv_lines(lines: Iterable[str]) -> Iterator[str]:
    """The same commands as rows, each under a reference of its own, with civil moments in UTC."""
    yield "kind,ref,f1,f2,f3,f4,f5,f6"
    counts: dict[str, int] = {}
    for line in lines:
        kind, *fields = line.split(" ")
        for place in MOMENTS.get(kind, ()):
            is_left_out = fields[place] in WHOLE.get(kind, ["-"])
            fields[place] = "" if is_left_out else civil(int(fields[place]))
        word = REFS.get(kind, "NET")
        counts[word] = counts.get(word, 0) + 1
        fields += [""] * (6 - len(fields))
        yield ",".join([kind, f"{word}-{counts[word]}", *fields])


def civil(second: int) -> str:
    return datetime.fromtimestamp(second, timezone.utc).strftime("%Y-%m-%dT%H:%M:%SZ")


def main() -> None:
    parser = argparse.ArgumentParser(description="Writes a made year to standard output.")
    parser.add_argument("entries", type=int, help="the number of entries of the sheet, even")
    parser.add_argument("seed", type=int)
    parser.add_argument("--customers", type=int, default=100_000)
    parser.add_argument("--order", choices=["rising", "falling", "random"], default="rising", help="of their numbers")
    parser.add_argument("--late", type=int, default=0, help="short outages that are entered after all others")
    parser.add_argument(
        "--lives", type=int, default=0, help="devices that join, and ties and lines that are taken down"
    )
    parser.add_argument("--csv", action="store_true", help="rows of CSV in place of body texts")
    words = parser.parse_args()
    if words.entries % 2 or words.entries + 2 * words.late > MOST_ENTRIES:
        sys.exit("the entries are even, and with the late ones 50,000 at most")
    if words.lives > MOST_LIVES:
        sys.exit(f"the lives are {MOST_LIVES:,} at most")
    lines = year_lines(words.entries, words.seed, words.customers, words.order, words.late, words.lives)
    for line in csv_lines(lines) if words.csv else lines:
        print(line)


if __name__ == "__main__":
    main()
