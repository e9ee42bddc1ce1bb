"""A made utility as raw connectivity, for the tests of the cut: substations, feeders with laterals, ties, customers on transformers
and a year of tickets; and a count of who was out when, on the raw edges alone, which shares nothing with the tools.
"""

import random
from collections import defaultdict
from collections.abc import Iterator
from dataclasses import dataclass, field
from datetime import datetime, timedelta, timezone
from fractions import Fraction

DAY = 86_400
BEGIN = datetime(2025, 1, 1, tzinfo=timezone.utc)
FIRST = int(BEGIN.timestamp())
DAYS = 365
END = FIRST + DAYS * DAY
PERIOD = ("2025-01-01", str(DAYS), "UTC0")
SUSTAINED = 300  # seconds, which a sustained interruption exceeds

Interval = tuple[int, int]
Act = tuple[int, str, bool]  # a second, an edge, and whether it is closed then


@dataclass
class RawEdge:
    name: str
    kind: str
    a: str
    b: str
    normal: str = ""  # 1 or 0, and nothing where it can't be switched
    circuit: str = ""


@dataclass
class Grid:
    """The utility. Labels have signs that no name of a book has, and ends come in either order."""

    draw: random.Random
    edges: list[RawEdge] = field(default_factory=list)
    sources: list[str] = field(default_factory=list)
    customers: dict[int, tuple[str, int, int | None]] = field(default_factory=dict)  # transformer, since, until
    tickets: list[tuple[str, int, str, int, int]] = field(default_factory=list)  # number, step, edge, opened, closed
    trunks: dict[str, list[str]] = field(default_factory=dict)  # the switches of each circuit
    ties: dict[tuple[str, str], str] = field(default_factory=dict)  # by circuits
    changed_at: int = END
    gone: set[str] = field(default_factory=set)  # edges that are there before this second alone
    new: set[str] = field(default_factory=set)  # edges that are there from it on
    turned: dict[str, str] = field(default_factory=dict)  # normal positions from it on
    counted: dict[int, list[Interval]] = field(default_factory=dict)  # once it was

    # Making the network.

    def node(self) -> str:
        return f"n{self.draw.randrange(16**8):08x}-{len(self.edges)}"

    def add(self, kind: str, a: str, b: str, normal: str = "", circuit: str = "") -> str:
        name = f"{kind[:2].upper()}/{len(self.edges):05d}"
        if self.draw.random() < 0.5:
            a, b = b, a
        self.edges.append(RawEdge(name, kind, a, b, normal, circuit))
        return name

    def onward(self, kind: str, near: str, normal: str = "", circuit: str = "") -> str:
        """An edge to a new node: the node."""
        far = self.node()
        self.add(kind, near, far, normal, circuit)
        return far

    def substation(self, number: int, feeders: int, length: int) -> None:
        source = self.node()
        self.sources.append(source)
        bus = self.onward("transformer", self.onward("line", source))
        self.spare(source, bus)
        for feeder in range(1, feeders + 1):
            bus = self.onward("busbar", bus)
            self.feeder(bus, f"SUB {number} / F{feeder}", length)

    def spare(self, source: str, bus: str) -> None:
        """A transformer that is open on both sides."""
        primary = self.onward("switch", source, "0")
        secondary = self.onward("transformer", primary)
        self.add("switch", secondary, bus, "0")

    def feeder(self, bus: str, circuit: str, length: int) -> None:
        at = self.onward("breaker", bus, "1", circuit)
        switches = [self.edges[-1].name]
        for place in range(length):
            at = self.onward("line", at, circuit=circuit)
            if place % 4 == 3:
                at = self.onward("switch", at, "1", circuit)
                switches.append(self.edges[-1].name)
            self.lateral(at, circuit)
        self.trunks[circuit] = [*switches, at]

    def lateral(self, at: str, circuit: str) -> None:
        if self.draw.random() < 0.7:
            at = self.onward("fuse", at, "1", circuit)
        for _ in range(self.draw.randint(1, 3)):
            at = self.onward("line", at, circuit=circuit)
            secondary = self.onward("transformer", at, circuit=circuit)
            transformer = self.edges[-1].name
            self.onward("line", secondary, circuit=circuit)
            for _ in range(self.draw.randint(1, 9)):
                self.customer(transformer)

    def customer(self, transformer: str) -> None:
        since, until = FIRST - DAY, None
        if self.draw.random() < 0.05:
            since = FIRST + self.draw.randrange(1, DAYS) * DAY
        elif self.draw.random() < 0.05:
            until = FIRST + self.draw.randrange(1, DAYS) * DAY
        self.customers[len(self.customers) + 1] = transformer, since, until

    def tie_all(self) -> None:
        """An open switch between the ends of each two neighbouring feeders."""
        circuits = list(self.trunks)
        for one, other in zip(circuits, circuits[1:]):
            tie = self.add("switch", self.trunks[one][-1], self.trunks[other][-1], "0", one)
            self.ties[one, other] = tie

    # Changing the network.

    def change(self, at: int) -> None:
        """At a second a fuse comes into a lateral, a transformer with customers is added, and an open point is moved."""
        self.changed_at = at
        begun = len(self.edges)
        line = next(each for each in self.edges if each.kind == "line" and each.circuit and self.is_lateral(each))
        self.gone.add(line.name)
        near, far = line.a, line.b
        middle = self.onward("line", near, circuit=line.circuit)
        fuse = self.add("fuse", middle, far, "1", line.circuit)
        self.onward("transformer", middle, circuit=line.circuit)
        for number in range(3):
            self.customers[len(self.customers) + 1] = self.edges[-1].name, at + number * DAY, None
        (circuit, _), tie = next(iter(self.ties.items()))
        self.turned = {tie: "1", self.trunks[circuit][-2]: "0"}
        self.new = {edge.name for edge in self.edges[begun:]}
        over = {ticket for ticket, _, edge, out, back in self.tickets if edge in self.turned and min(out, back) >= at}
        self.tickets = [each for each in self.tickets if each[0] not in over]
        behind = next(each.name for each in self.edges if each.kind == "transformer" and {near, far} & {each.a, each.b})
        for number, edge in enumerate((fuse, self.edges[-1].name, behind), 1):
            out = END - 9 * DAY + number * 3_000
            self.tickets.append((f"LATE-{number}", 1, edge, out, out + 700 * number))

    def is_lateral(self, line: RawEdge) -> bool:
        """A fuse lies at one of its ends, and a transformer at the other."""
        at = [{each.kind for each in self.edges if end in (each.a, each.b)} for end in (line.a, line.b)]
        return any("fuse" in one and "transformer" in other for one, other in (at, at[::-1]))

    # Making tickets.

    def ticket(self, number: int, at: int) -> int:
        """A ticket from a second on: the second at which it is over."""
        out = at + self.draw.randrange(60, 20_000)
        back = out + self.draw.choice((120, 300, 301, 3_600, 7_000))
        if self.ties and self.draw.random() < 0.4:
            return self.with_tie(f"T{number}", out, back)
        kind = self.draw.choice(("transformer", "fuse", "switch", "breaker"))
        edge = self.draw.choice(
            [each for each in self.edges if each.kind == kind and each.normal != "0" and each.circuit]
        )
        self.tickets.append((f"T{number}", 1, edge.name, out, back))
        return back

    def with_tie(self, ticket: str, out: int, back: int) -> int:
        """A breaker that trips, a switch behind it that is opened, and the tie that supplies what lies behind."""
        (one, other), tie = self.draw.choice(list(self.ties.items()))
        switches = self.trunks[one][:-1]
        end = back + 4_000
        self.tickets.append((ticket, 1, switches[0], out, back + 3_000))
        self.tickets.append((ticket, 2, switches[-1], out + 900, end))
        self.tickets.append((ticket, 3, tie, end, out + 1_000))
        return end + 600

    # The exports.

    def edge_lines(self, is_later: bool = False) -> Iterator[str]:
        """The network before, or after, the change."""
        yield "ID;Type;End 1;End 2;Pos;Circuit"
        for edge in self.edges:
            if edge.name not in (self.gone if is_later else self.new):
                normal = self.turned.get(edge.name, edge.normal) if is_later else edge.normal
                yield f"{edge.name};{edge.kind};{edge.a};{edge.b};{normal};{edge.circuit}"

    def customer_lines(self, is_later: bool = False) -> Iterator[str]:
        yield "customer;transformer;since;until"
        for number, (transformer, since, until) in self.customers.items():
            if transformer in self.new and not is_later:
                continue
            yield f"{number};{transformer};{moment(since)};{'' if until is None else moment(until)}"

    def oms_lines(self, until: int = END) -> Iterator[str]:
        """The tickets that begin before a second."""
        yield "ticket;step;device;out;restored;cause"
        for ticket, step, edge, out, restored in self.tickets:
            if min(out, restored) >= until:
                continue
            yield f"{ticket};{step};{edge};{moment(out)};{moment(restored)};WIND"

    # The count.

    def acts(self) -> list[Act]:
        found = [(self.changed_at, edge, False) for edge in self.gone] + [
            (self.changed_at, edge, True) for edge in self.new
        ]
        found += [(self.changed_at, edge, normal == "1") for edge, normal in self.turned.items()]
        for _, _, edge, out, restored in self.tickets:
            found += [(out, edge, False), (restored, edge, True)]
        return sorted(found)

    def supplied(self, is_closed: dict[str, bool], beside: dict[str, list[tuple[str, str]]]) -> set[str]:
        reached = set(self.sources)
        waiting = list(reached)
        while waiting:
            for name, other in beside[waiting.pop()]:
                if other not in reached and is_closed[name]:
                    reached.add(other)
                    waiting.append(other)
        return reached

    def outages(self) -> dict[str, list[Interval]]:
        """The intervals in which each transformer's customers are without supply: it is open, or no source leads to it."""
        beside: dict[str, list[tuple[str, str]]] = defaultdict(list)
        for edge in self.edges:
            beside[edge.a].append((edge.name, edge.b))
            beside[edge.b].append((edge.name, edge.a))
        is_closed = {edge.name: edge.normal != "0" and edge.name not in self.new for edge in self.edges}
        served = {transformer for transformer, _, _ in self.customers.values()}
        ends = {edge.name: edge.a for edge in self.edges if edge.name in served}
        out = {transformer: FIRST for transformer in ends if transformer in self.new}
        found: dict[str, list[Interval]] = defaultdict(list)
        acts = self.acts()
        for place, (second, name, closes) in enumerate(acts):
            is_closed[name] = closes
            if place + 1 < len(acts) and acts[place + 1][0] == second:
                continue
            reached = self.supplied(is_closed, beside)
            for transformer, end in ends.items():
                is_on = is_closed[transformer] and end in reached
                if is_on and transformer in out:
                    found[transformer].append((out.pop(transformer), second))
                elif not is_on:
                    out.setdefault(transformer, second)
        for transformer in out:
            raise ValueError(f"{transformer} is out at the end")
        return found

    def interruptions(self) -> dict[int, list[Interval]]:
        """Those of each customer."""
        if self.counted:
            return self.counted
        outages = self.outages()
        found = self.counted
        for number, (transformer, since, until) in self.customers.items():
            parts = [(max(a, since), min(b, until or END)) for a, b in outages.get(transformer, ())]
            found[number] = [(a, b) for a, b in parts if a < b]
        return found

    def figures(self) -> dict[str, Fraction]:
        """Indices by their definitions, customer by customer."""
        lengths = {number: [b - a for a, b in parts] for number, parts in self.interruptions().items()}
        sustained = {number: [each for each in listed if each > SUSTAINED] for number, listed in lengths.items()}
        served = sum(min(until or END, END) - max(since, FIRST) for _, since, until in self.customers.values())
        customers = Fraction(served, END - FIRST)
        count = sum(len(listed) for listed in sustained.values())
        seconds = sum(sum(listed) for listed in sustained.values())
        everything = [each for listed in lengths.values() for each in listed]
        return {
            "W": Fraction(sum(everything)),
            "SAIFI": count / customers,
            "SAIDI": Fraction(seconds, 60) / customers,
            "CAIDI": Fraction(seconds, 60) / count,
            "CAIFI": Fraction(count, sum(1 for listed in sustained.values() if listed)),
            "MOMENTARY": Fraction(len(everything) - count),
        }


def moment(second: int) -> str:
    return (BEGIN + timedelta(seconds=second - FIRST)).strftime("%Y-%m-%d %H:%M:%S")


def made_grid(seed: int, substations: int, feeders: int, length: int, tickets: int) -> Grid:
    """A utility with about `substations * feeders * length * 8` edges; tickets follow one another."""
    grid = Grid(random.Random(seed))
    for number in range(1, substations + 1):
        grid.substation(number, feeders, length)
    grid.tie_all()
    at = FIRST
    for number in range(1, tickets + 1):
        at = grid.ticket(number, at)
    if at > END:
        raise ValueError("there are more tickets than the year has room for")
    return grid
