"""Makes the exports of a made-up utility as its systems would write them: raw connectivity, the register, a year of tickets.

    python3 examples/utility/make_utility.py FOLDER [--substations 2] [--feeders 4] [--length 30] [--tickets 400] [--mistakes]

2, 4 and 30 give some 2,000 edges; 4, 8 and 80 give 20,000. --mistakes plants two mistakes in the GIS and two in the OMS. FOLDER gets lines.csv (the GIS: edges between nodes), sources.csv,
register.csv (meter points on transformers), outages.csv (the OMS, with its own counts), and causes.csv. The same words give
the same files. The counts are traced over the trees of the feeders, and share nothing with the tools.
"""

import argparse
import csv
import random
from collections.abc import Iterable, Iterator, Sequence
from dataclasses import dataclass, field
from datetime import date, datetime, timedelta
from pathlib import Path

YEAR = 2025
BEGIN = datetime(YEAR, 1, 1)
CLOCK_CHANGES = {date(YEAR, 3, 9), date(YEAR, 11, 2)}  # Eastern time; no ticket is made near them
CAUSES = {"TREE": "Tree contact", "ANIMAL": "Animal", "EQUIPMENT": "Equipment failure", "PLANNED": "Planned work"}
KEY = 541_448_820_000_000_000  # meter points have keys of 18 digits
LAST = datetime.max
CROSSING = timedelta(hours=12)


@dataclass
class Customer:
    key: int
    transformer: str
    since: datetime
    until: datetime = LAST


@dataclass
class Row:
    """A step of a ticket."""

    ticket: str
    step: int
    device: str
    off: datetime
    on: datetime
    cause: str


@dataclass
class Feeder:
    """A circuit: what hangs behind each of its devices, its breaker and switches in their order, and its last node."""

    circuit: str
    trunk: list[str] = field(default_factory=list)
    behind: dict[str, list[Customer]] = field(default_factory=dict)
    at: str = ""

    def cut_by(self, devices: Iterable[str]) -> Iterator[Customer]:
        for device in devices:
            yield from self.behind[device]


@dataclass
class Utility:
    draw: random.Random
    edges: list[tuple[str, str, str, str, str, str]] = field(default_factory=list)
    sources: list[str] = field(default_factory=list)
    customers: list[Customer] = field(default_factory=list)
    feeders: list[Feeder] = field(default_factory=list)
    ties: list[str] = field(default_factory=list)  # of each two feeders
    rows: list[Row] = field(default_factory=list)
    counts: dict[str, tuple[int, float]] = field(default_factory=dict)  # a ticket's customers and seconds
    nodes: int = 0

    # The network.

    def node(self) -> str:
        self.nodes += 1
        return f"N{self.nodes:06}"

    def join(self, kind: str, a: str, b: str, state: str = "", circuit: str = "") -> str:
        name = f"{kind} {len(self.edges):05}/{self.draw.randrange(10)}"
        one, other = self.draw.sample((a, b), 2)
        self.edges.append((name, kind, one, other, state, circuit))
        return name

    def onward(self, kind: str, at: str, state: str = "", circuit: str = "") -> tuple[str, str]:
        """An edge to a new node: its name, and the node."""
        far = self.node()
        return self.join(kind, at, far, state, circuit), far

    def substation(self, number: int, feeders: int, length: int) -> None:
        source = self.node()
        self.sources.append(source)
        _, bus = self.onward("XFMR", source)
        for feeder in range(1, feeders + 1):
            _, bus = self.onward("BUS", bus)
            self.feeder(bus, f"{number:02}-{feeder}", length)
        for one, other in zip(self.feeders[-feeders::2], self.feeders[-feeders + 1 :: 2]):
            self.ties.append(self.join("SW", one.at, other.at, "NO", one.circuit))

    def feeder(self, bus: str, circuit: str, length: int) -> None:
        feeder = Feeder(circuit)
        breaker, at = self.onward("CB", bus, "NC", circuit)
        feeder.trunk.append(breaker)
        feeder.behind[breaker] = []
        for place in range(length):
            if place % 8 == 7:
                switch, at = self.onward("SW", at, "NC", circuit)
                feeder.trunk.append(switch)
                feeder.behind[switch] = []
            _, at = self.onward("OH", at, circuit=circuit)
            self.lateral(feeder, at)
        feeder.at = at
        self.feeders.append(feeder)

    def lateral(self, feeder: Feeder, at: str) -> None:
        above = [*feeder.trunk]
        if self.draw.random() < 0.7:
            fuse, at = self.onward("FU", at, "NC", feeder.circuit)
            feeder.behind[fuse] = []
            above.append(fuse)
        for _ in range(self.draw.randint(1, 3)):
            _, at = self.onward("UG", at, circuit=feeder.circuit)
            transformer, low = self.onward("XFMR", at, circuit=feeder.circuit)
            self.onward("UG", low, circuit=feeder.circuit)
            served = [self.customer(transformer) for _ in range(self.draw.randint(1, 9))]
            for device in (*above, transformer):
                feeder.behind.setdefault(device, []).extend(served)

    def customer(self, transformer: str) -> Customer:
        since, day = datetime(self.draw.randint(1990, 2024), 6, 1), timedelta(days=self.draw.randrange(1, 365))
        draw = self.draw.random()
        number = KEY + len(self.customers) * 97
        if draw < 0.02:
            made = Customer(number, transformer, BEGIN + day)
        elif draw < 0.04:
            made = Customer(number, transformer, since, BEGIN + day)
        else:
            made = Customer(number, transformer, since)
        self.customers.append(made)
        return made

    # The tickets. Those of two feeders that share a tie follow one another.

    def year(self, tickets: int) -> None:
        pairs = list(zip(self.feeders[::2], self.feeders[1::2], self.ties))
        each = tickets // len(pairs)
        for number, (one, other, tie) in enumerate(pairs):
            gap = timedelta(days=360) / each
            for turn in range(each):
                off = BEGIN + gap * turn + timedelta(days=1, seconds=self.draw.randrange(int(gap.total_seconds() / 3)))
                if {(off - CROSSING).date(), (off + CROSSING).date()} & CLOCK_CHANGES:
                    continue
                self.ticket(f"{YEAR}-{number:02}{turn:04}", self.draw.choice((one, other)), tie, off)
        self.rows.sort(key=lambda row: (row.ticket, row.step))

    def ticket(self, ticket: str, feeder: Feeder, tie: str, off: datetime) -> None:
        cause = self.draw.choice(list(CAUSES.values()))
        on = off + timedelta(seconds=self.draw.choice((25, 70, 1_800, 3_600, 7_215, 11_000)))
        draw = self.draw.random()
        if draw < 0.15:
            self.with_tie(ticket, feeder, tie, off, off + timedelta(hours=2), cause)
        elif draw < 0.22:
            customer = self.draw.choice(feeder.behind[feeder.trunk[0]])
            self.one_step(ticket, meter_of(customer), [customer], off, off + timedelta(hours=1), cause)
        else:
            kind = self.draw.choice(("CB", "FU", "FU", "FU", "XFMR", "XFMR", "SW"))
            device = self.draw.choice([name for name in feeder.behind if name.startswith(kind)])
            self.one_step(ticket, device, feeder.behind[device], off, on, cause)

    def one_step(
        self, ticket: str, device: str, customers: Sequence[Customer], off: datetime, on: datetime, cause: str
    ) -> None:
        self.rows.append(Row(ticket, 1, device, off, on, cause))
        self.count(ticket, [(customer, off, on) for customer in customers])

    def with_tie(self, ticket: str, feeder: Feeder, tie: str, off: datetime, on: datetime, cause: str) -> None:
        """The breaker trips, the last switch is opened, the tie supplies what lies behind it, and all comes back."""
        breaker, switch = feeder.trunk[0], feeder.trunk[-1]
        minute = timedelta(minutes=1)
        back = off + 30 * minute
        self.rows.append(Row(ticket, 1, breaker, off, on, cause))
        self.rows.append(Row(ticket, 2, switch, off + 25 * minute, on + 8 * minute, cause))
        self.rows.append(Row(ticket, 3, tie, on + 13 * minute, back, cause))
        helped = {customer.key for customer in feeder.behind[switch]}
        self.count(ticket, [(each, off, back if each.key in helped else on) for each in feeder.behind[breaker]])

    def count(self, ticket: str, stretches: Iterable[tuple[Customer, datetime, datetime]]) -> None:
        lengths = [(min(on, each.until) - max(off, each.since)).total_seconds() for each, off, on in stretches]
        out = [length for length in lengths if length > 0]
        self.counts[ticket] = len(out), sum(out)

    # The exports.

    def register(self) -> Iterator[Sequence[object]]:
        for each in self.customers:
            end = "" if each.until == LAST else each.until.strftime("%m/%d/%Y")
            yield each.key, each.transformer, meter_of(each), each.since.strftime("%m/%d/%Y"), end

    def outages(self) -> Iterator[Sequence[object]]:
        for row in self.rows:
            customers, seconds = self.counts[row.ticket]
            off, on = (moment.strftime("%m/%d/%Y %I:%M:%S %p") for moment in (row.off, row.on))
            yield row.ticket, row.step, row.device, off, on, row.cause, "Closed", customers, round(seconds / 60)


def plant_mistakes(made: Utility) -> None:
    """A tie that is told closed, a fuse without a state, a cause that nobody listed, an outage that ends a month late."""
    tie = next(number for number, edge in enumerate(made.edges) if edge[4] == "NO")
    fuse = next(number for number, edge in enumerate(made.edges) if edge[1] == "FU")
    for number, state in ((tie, "NC"), (fuse, "")):
        name, kind, a, b, _, circuit = made.edges[number]
        made.edges[number] = name, kind, a, b, state, circuit
    devices = [row.device for row in made.rows]
    alone = [row for row in made.rows if row.device.startswith("XFMR") and devices.count(row.device) == 1]
    alone[0].cause = "Lightning"
    alone[1].on += timedelta(days=30)


def meter_of(customer: Customer) -> str:
    return f"M{customer.key % 100_000_000:08}"


def write(path: Path, columns: Sequence[str], rows: Iterable[Sequence[object]]) -> None:
    with path.open("w", newline="", encoding="ascii") as file:
        writer = csv.writer(file, lineterminator="\n")
        writer.writerow(columns)
        writer.writerows(rows)


def main() -> None:
    words = argparse.ArgumentParser(description="Makes the exports of a made-up utility.")
    words.add_argument("folder", type=Path)
    words.add_argument("--substations", type=int, default=2)
    words.add_argument("--feeders", type=int, default=4, help="of a substation; an even number")
    words.add_argument("--length", type=int, default=30, help="laterals of a feeder")
    words.add_argument("--tickets", type=int, default=400)
    words.add_argument("--mistakes", action="store_true", help="with two mistakes in the GIS and two in the OMS")
    given = words.parse_args()
    given.folder.mkdir(parents=True, exist_ok=True)
    made = Utility(random.Random(1))
    for number in range(1, given.substations + 1):
        made.substation(number, given.feeders, given.length)
    made.year(given.tickets)
    if given.mistakes:
        plant_mistakes(made)
    write(given.folder / "lines.csv", ["FacilityID", "Class", "Node1", "Node2", "State", "Circuit"], made.edges)
    write(given.folder / "sources.csv", ["node"], ([node] for node in made.sources))
    columns = ["MeterPoint", "Transformer", "Meter", "Start", "End"]
    write(given.folder / "register.csv", columns, made.register())
    columns = ["Incident", "Step", "Equipment", "Time Off", "Time On", "Reason", "State", "Customers", "CMI"]
    write(given.folder / "outages.csv", columns, made.outages())
    causes = ([code, name, word] for code, (name, word) in enumerate(CAUSES.items(), 1))
    write(given.folder / "causes.csv", ["code", "name", "oms"], causes)
    print(
        f"{len(made.edges)} edges, {len(made.customers)} customers, {len(made.counts)} tickets, {len(made.rows)} rows"
    )


if __name__ == "__main__":
    main()
