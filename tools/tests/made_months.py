"""A made utility whose network changes each month of a year: twelve exports of its lines, customers and tickets after a first one; and a
count of who was out when, on the raw edges of each second, which shares nothing with the tools.
"""

import random
from collections.abc import Callable, Iterable, Iterator
from dataclasses import dataclass, field, replace
from datetime import datetime, timezone

from tests.made_grid import DAY, END, FIRST, Grid, RawEdge, made_grid, moment

HOUR = 3_600
CAUSES = {1: "WIND", 2: "TREE", 3: "ANIMAL", 4: "PLANNED"}
SWITCHED = ("transformer", "fuse", "switch", "breaker", "recloser")
MONTHS = range(1, 13)
NEVER = END + DAY


def month_begin(month: int) -> int:
    """The first second of a month; of the thirteenth, the end of the year."""
    return int(datetime(2025 + (month > 12), (month - 1) % 12 + 1, 1, tzinfo=timezone.utc).timestamp())


@dataclass(frozen=True)
class Service:
    """A row of the register. Services of one customer have one key."""

    number: int
    transformer: str
    since: int
    until: int | None
    key: str


def key_of(number: int) -> str:
    """The key of a customer whose first number this is."""
    return f"DE{number:011d}"


def meter_of(service: Service) -> str:
    """The meter of a customer, whatever its transformer is."""
    return f"MT/{service.key[-5:]}"


@dataclass(frozen=True)
class Step:
    """A row of the tickets. The device has the label that it had then."""

    ticket: str
    step: int
    device: str
    out: int
    restored: int
    cause: int
    is_mistake: bool = False  # cancelled in the export of the month behind it

    @property
    def begin(self) -> int:
        return min(self.out, self.restored)

    @property
    def end(self) -> int:
        return max(self.out, self.restored)


@dataclass(frozen=True)
class Export:
    """The network and the register as they are from a second on."""

    at: int
    edges: dict[str, RawEdge]
    register: list[Service]


@dataclass
class Year:
    """The utility as it is now, and all that it was. A circuit is known by its first name."""

    grid: Grid
    edges: dict[str, RawEdge] = field(default_factory=dict)
    register: list[Service] = field(default_factory=list)
    exports: list[Export] = field(default_factory=list)
    steps: list[Step] = field(default_factory=list)
    told_late: dict[str, int] = field(
        default_factory=dict
    )  # tickets whose end comes so much too late in the first export
    home: dict[str, str] = field(default_factory=dict)  # the circuit on which a transformer came
    first_name: dict[str, str] = field(default_factory=dict)  # of circuits that are called otherwise now
    busy: dict[str, int] = field(default_factory=dict)  # until when a device is switched
    used: set[int] = field(default_factory=set)  # seconds in which something was switched

    @property
    def draw(self) -> random.Random:
        return self.grid.draw

    # Looking at the network.

    def last_name(self, circuit: str) -> str:
        return next((name for name, first in self.first_name.items() if first == circuit), circuit)

    def of(self, circuit: str, *kinds: str) -> list[RawEdge]:
        return [each for each in self.edges.values() if each.circuit == circuit and each.kind in kinds]

    def at_node(self, node: str) -> list[RawEdge]:
        return [each for each in self.edges.values() if node in (each.a, each.b)]

    def behind(self, start: str, without: Iterable[str]) -> set[str]:
        """The nodes to which edges lead from a node, without some edges."""
        left = set(without)
        beside: dict[str, list[str]] = {}
        for each in self.edges.values():
            if each.name not in left:
                beside.setdefault(each.a, []).append(each.b)
                beside.setdefault(each.b, []).append(each.a)
        found, waiting = {start}, [start]
        while waiting:
            for other in beside.get(waiting.pop(), ()):
                if other not in found:
                    found.add(other)
                    waiting.append(other)
        return found

    def trunk(self, circuit: str) -> list[RawEdge]:
        """The edges from a circuit's breaker to its end."""
        beside: dict[str, list[RawEdge]] = {}
        start = self.edges[self.grid.trunks[circuit][0]]
        for each in self.of(circuit, "line", "switch", "fuse", "recloser"):
            beside.setdefault(each.a, []).append(each)
            beside.setdefault(each.b, []).append(each)
        before: dict[str, RawEdge] = {}
        waiting = [start.a, start.b]
        while waiting:
            node = waiting.pop()
            for edge in beside.get(node, ()):
                other = edge.b if edge.a == node else edge.a
                if other not in before and other not in (start.a, start.b):
                    before[other] = edge
                    waiting.append(other)
        node, found = self.grid.trunks[circuit][-1], list[RawEdge]()
        while node in before:
            found.append(before[node])
            node = found[-1].b if found[-1].a == node else found[-1].a
        return found[::-1]

    def customers_of(self, transformer: str, at: int) -> list[Service]:
        """Those who are in service then, without an end."""
        found = (each for each in self.register if each.transformer == transformer and each.until is None)
        return [each for each in found if each.since < at]

    def is_settled(self, transformer: str, at: int) -> bool:
        """It has customers, and none who begins or ends after this second."""
        last = [max(each.since, each.until or 0) for each in self.register if each.transformer == transformer]
        return bool(self.customers_of(transformer, at)) and max(last) < at

    # Changing it.

    def make(self, kind: str, a: str, b: str, normal: str = "", circuit: str = "") -> RawEdge:
        self.grid.add(kind, a, b, normal, circuit)
        return self.take(len(self.grid.edges) - 1)[0]

    def take(self, begun: int) -> list[RawEdge]:
        """The edges that were made since then are there now."""
        new = self.grid.edges[begun:]
        self.edges |= {each.name: each for each in new}
        return new

    def put(self, edge: RawEdge, **changes: str) -> None:
        self.edges[edge.name] = replace(edge, **changes)

    def rename(self, edge: RawEdge, name: str) -> None:
        del self.edges[edge.name]
        self.edges[name] = replace(edge, name=name)
        self.register = [
            replace(each, transformer=name) if each.transformer == edge.name else each for each in self.register
        ]
        if edge.name in self.home:
            self.home[name] = self.home[edge.name]

    def split(self, line: RawEdge, kind: str) -> RawEdge:
        """A device comes into a line."""
        middle = self.grid.node()
        self.put(line, b=middle)
        return self.make(kind, middle, line.b, "1", line.circuit)

    def connect(self, transformer: str, since: int) -> None:
        number = max(each.number for each in self.register) + 1
        self.register.append(Service(number, transformer, since, None, key_of(number)))

    def move(self, service: Service, transformer: str, at: int) -> None:
        """A customer's service ends, and another one begins elsewhere."""
        self.end(service, at)
        self.connect(transformer, max(at, service.since))
        self.register[-1] = replace(self.register[-1], key=service.key)

    def end(self, service: Service, at: int) -> None:
        self.register[self.register.index(service)] = replace(service, until=max(at, service.since + 1))

    def keep(self, at: int) -> None:
        """What is there now is an export."""
        for edge in self.edges.values():
            if edge.kind == "transformer":
                self.home.setdefault(edge.name, self.first_name.get(edge.circuit, edge.circuit))
        self.exports.append(Export(at, dict(self.edges), list(self.register)))

    # Tickets.

    def is_free(self, device: str, begin: int, end: int) -> bool:
        return self.busy.get(device, 0) < begin and not {begin, end} & self.used

    def ticket(self, device: str, begin: int, end: int, cause: int = 0) -> Step | None:
        """A ticket of one device; none where the device is switched then, or something else is in one of its seconds."""
        if not self.is_free(device, begin, end):
            return None
        return self.step(f"T-{len(self.steps):04d}", 1, device, begin, end, cause or self.draw.choice([*CAUSES]))

    def step(self, ticket: str, number: int, device: str, out: int, restored: int, cause: int) -> Step:
        self.steps.append(Step(ticket, number, device, out, restored, cause))
        self.busy[device] = max(out, restored) + HOUR
        self.used |= {out, restored}
        return self.steps[-1]

    def with_tie(self, begin: int, longest: int) -> None:
        """A breaker that trips, a switch behind it that is opened, and the tie that supplies what lies behind."""
        ready = [(self.grid.trunks[one], tie) for (one, _), tie in self.grid.ties.items() if self.is_ready(one, tie)]
        if not ready:
            return
        trunk, tie = self.draw.choice(ready)
        devices, back = (trunk[0], trunk[-2], tie), begin + self.draw.randrange(4_000, longest)
        seconds = [(begin, back - 1_000), (begin + 901, back), (back + 1, begin + 1_003)]
        if all(self.is_free(device, *sorted(each)) for device, each in zip(devices, seconds)):
            ticket, cause = f"T-{len(self.steps):04d}", self.draw.choice([*CAUSES])
            for number, (device, (out, restored)) in enumerate(zip(devices, seconds), 1):
                self.step(ticket, number, device, out, restored, cause)

    def is_ready(self, circuit: str, tie: str) -> bool:
        """The tie is open normally, and the circuit's switches are closed."""
        there = [self.edges.get(name) for name in (*self.grid.trunks[circuit][:-1], tie)]
        return [each.normal if each else "" for each in there] == ["1"] * (len(there) - 1) + ["0"]

    def tickets(self, begin: int, end: int, count: int) -> None:
        """Tickets of devices drawn at random, all of them within some seconds."""
        devices = [
            each.name for each in self.edges.values() if each.kind in SWITCHED and each.normal != "0" and each.circuit
        ]
        for _ in range(count):
            length = self.draw.choice((120, 300, 301, 3_600, 7_000, 20_000))
            at = self.draw.randrange(begin, end - 30_000)
            if self.draw.random() < 0.2:
                self.with_tie(at, 20_000)
            else:
                self.ticket(self.draw.choice(devices), at, at + length)

    def tickets_of(self, devices: Iterable[str], begin: int, end: int) -> None:
        """A ticket of each of these, as far as they are there and normally closed."""
        for device in devices:
            edge = self.edges.get(device)
            if edge is not None and edge.normal != "0":
                at = self.draw.randrange(begin, end - 10_000)
                self.ticket(device, at, at + self.draw.choice((200, 299, 900, 5_000)))

    # The exports.

    def edge_lines(self, month: int) -> Iterator[str]:
        yield "ID;Type;End 1;End 2;Pos;Circuit"
        for each in self.exports[month].edges.values():
            yield f"{each.name};{each.kind};{each.a};{each.b};{each.normal};{each.circuit}"

    def customer_lines(self, month: int) -> Iterator[str]:
        yield "customer;transformer;since;until"
        for each in self.exports[month].register:
            yield f"{each.number};{each.transformer};{moment(each.since)};{moment(each.until) if each.until else ''}"

    def keyed_lines(self, month: int) -> Iterator[str]:
        """A register that calls customers by their keys: one row for all their services, with what supplies them now."""
        services: dict[str, list[Service]] = {}
        for each in self.exports[month].register:
            services.setdefault(each.key, []).append(each)
        yield "customer;transformer;meter;since;until"
        for key, listed in services.items():
            first, last = listed[0], listed[-1]
            yield f"{key};{last.transformer};{meter_of(last)};{moment(first.since)};{moment(last.until) if last.until else ''}"

    def oms_lines(self, month: int) -> Iterator[str]:
        """The tickets of the year up to the end of a month, as they are told then."""
        yield "ticket;step;device;out;restored;cause;status"
        now = month_begin(month + 1)
        for each in self.steps:
            is_of_month = month_begin(month) <= each.begin < now
            late = self.told_late.get(each.ticket, 0) if is_of_month else 0
            status = "cancelled" if each.is_mistake and not is_of_month else ""
            if each.begin < now:
                restored = moment(each.restored + late) if each.restored < now else ""
                yield f"{each.ticket};{each.step};{each.device};{moment(each.out)};{restored};{CAUSES[each.cause]};{status}"


# A year.


def made_year(
    seed: int, substations: int, feeders: int, length: int, per_month: int, spans: int = 1, has_meters: bool = False
) -> Year:
    """A utility with about `substations * feeders * length * 8` edges, and more where each line is several spans; with tickets of single
    services too."""
    year = Year(made_grid(seed, substations, feeders, length, 0))
    year.take(0)
    year.register = [Service(number, *each, key_of(number)) for number, each in year.grid.customers.items()]
    for line in [each for each in year.edges.values() if each.kind == "line" and spans > 1]:
        cut_into_spans(year, line, spans)
    year.keep(FIRST)
    for month, change in zip(MONTHS, CHANGES):
        at = month_begin(month) + (8 + month) * DAY + month * 4_321
        quiet = [*year.grid.trunks][-1] if month < 11 else [*year.grid.trunks][-2]
        year.tickets(month_begin(month) + DAY, at - DAY, per_month // 2)
        over = year.draw.choice(year.of(quiet, "breaker", "fuse", "transformer")).name
        year.ticket(over, at - 2_003, at + 3_007)
        begun = len(year.steps)
        edges = dict(year.edges)
        touched = change(year, at)
        before, year.edges = year.edges, edges
        year.tickets_of(touched, at - DAY, at - HOUR)
        year.edges = before
        year.keep(at)
        year.tickets_of(touched, at + HOUR, at + DAY)
        year.tickets(at + 2 * DAY, month_begin(month + 1) - DAY, per_month // 2)
        if month < 12:
            plant_corrections(year, begun)
        if has_meters:
            tickets_of_meters(year, quiet, at + 2 * DAY)
        running = year.draw.choice(year.of(quiet, "fuse", "transformer")).name
        year.ticket(running, month_begin(month + 1) - 5_003, month_begin(month + 1) + 7_001)
    return year


def cut_into_spans(year: Year, line: RawEdge, spans: int) -> None:
    """A line becomes several, of which the last one has its label."""
    at = line.a
    for _ in range(spans - 1):
        node = year.grid.node()
        year.make("line", at, node, circuit=line.circuit)
        at = node
    year.put(line, a=at)


def tickets_of_meters(year: Year, circuit: str, at: int) -> None:
    """Two tickets of single services on a circuit, of customers who are there all the year."""
    there = {each.name for each in year.of(circuit, "transformer")}
    ready = [each for each in year.register if each.transformer in there and each.since < FIRST and each.until is None]
    for each in year.draw.sample(ready, 2):
        begin = at + year.draw.randrange(3 * DAY)
        year.ticket(meter_of(each), begin, begin + year.draw.choice((250, 4_000)))


def plant_corrections(year: Year, begun: int) -> None:
    """Of the month's tickets of one step one is told ten minutes too long at first, and one turns out to be none."""
    count = {each.ticket: 0 for each in year.steps[begun:]}
    for each in year.steps[begun:]:
        count[each.ticket] += 1
    single = [place for place in range(begun, len(year.steps)) if count[year.steps[place].ticket] == 1]
    if len(single) > 1:
        late, mistake = year.draw.sample(single, 2)
        year.told_late[year.steps[late].ticket] = 600
        year.steps[mistake] = replace(year.steps[mistake], is_mistake=True)


# What changes in each month: each of these says which devices it touches.


def circuits(year: Year) -> list[str]:
    return [*year.grid.trunks]


def fuse_in_lateral(year: Year, at: int) -> list[str]:
    """A fuse comes into a line before a transformer, while the feeder is switched off for it."""
    circuit = circuits(year)[0]
    ends = {end for each in year.of(circuit, "transformer") for end in (each.a, each.b)}
    line = next(each for each in year.of(circuit, "line") if {each.a, each.b} & ends)
    near = [each.name for end in (line.a, line.b) for each in year.at_node(end) if each.kind == "transformer"]
    fuse = year.split(line, "fuse")
    year.ticket(year.grid.trunks[circuit][0], at - 1_801, at + 1_799, 4)
    return [fuse.name, *near]


def open_point_moved(year: Year, _: int) -> list[str]:
    """The tie between two circuits is closed, and the last switch of the one is open."""
    one, other = circuits(year)[:2]
    tie, switch = year.edges[year.grid.ties[one, other]], year.edges[year.grid.trunks[one][-2]]
    moved = year.behind(year.grid.trunks[one][-1], (tie.name, switch.name))
    for each in [each for each in year.edges.values() if {each.a, each.b} <= moved]:
        year.put(each, circuit=other)
    year.put(tie, normal="1", circuit=other)
    year.put(switch, normal="0")
    return [tie.name, switch.name, *(each.name for each in year.of(other, "fuse") if each.a in moved)]


def labels_changed(year: Year, _: int) -> list[str]:
    """A fuse, a transformer and some lines have other labels."""
    circuit = circuits(year)[1]
    fuse, transformer = year.of(circuit, "fuse")[1], year.of(circuit, "transformer")[2]
    for each in (fuse, transformer, *year.of(circuit, "line")[:5]):
        year.rename(each, f"{each.name} new")
    names = (fuse.name, transformer.name)
    return [*names, *(f"{each} new" for each in names)]


def transformer_on_longer_line(year: Year, at: int) -> list[str]:
    """A line goes on to a new transformer with customers, while the feeder is switched off for it."""
    circuit = circuits(year)[2]
    last = year.of(circuit, "transformer")[-1]
    node = next(end for end in (last.a, last.b) if any(each.kind == "line" for each in year.at_node(end)))
    begun = len(year.grid.edges)
    primary = year.grid.onward("line", node, circuit=circuit)
    secondary = year.grid.onward("transformer", primary, circuit=circuit)
    year.grid.onward("line", secondary, circuit=circuit)
    new = year.take(begun)[1].name
    for number in range(4):
        year.connect(new, at + number * DAY)
    year.ticket(year.grid.trunks[circuit][0], at - 901, at + 2_699, 4)
    return [new, last.name]


def recloser_in_trunk(year: Year, _: int) -> list[str]:
    """A recloser splits the section behind a feeder's breaker."""
    circuit = circuits(year)[2]
    lines = [each for each in year.trunk(circuit) if each.kind == "line"]
    return [year.split(lines[2], "recloser").name, *(each.name for each in year.of(circuit, "fuse")[:4])]


def devices_retired(year: Year, at: int) -> list[str]:
    """A line takes the place of a fuse, and a transformer is taken down with its last customers."""
    circuit = circuits(year)[3]
    fuse = year.of(circuit, "fuse")[0]
    transformer = [each for each in year.of(circuit, "transformer") if year.is_settled(each.name, at)][-1]
    del year.edges[fuse.name]
    year.make("line", fuse.a, fuse.b, circuit=circuit)
    behind = [each for end in (transformer.a, transformer.b) for each in year.at_node(end)]
    for each in behind:
        far = [end for end in (each.a, each.b) if len(year.at_node(end)) == 1]
        if each.kind == "line" and far:
            del year.edges[each.name]
    del year.edges[transformer.name]
    for customer in year.customers_of(transformer.name, at):
        year.end(customer, at)
    return [fuse.name, transformer.name]


def customers_moved(year: Year, at: int) -> list[str]:
    """Three customers go to another transformer: their numbers end, and others begin."""
    transformers = [each.name for each in year.of(circuits(year)[1], "transformer") if year.customers_of(each.name, at)]
    old, new = transformers[0], transformers[-1]
    for each in year.customers_of(old, at)[:3]:
        year.move(each, new, at)
    return [old, new]


def circuit_renamed(year: Year, at: int) -> list[str]:
    """A circuit has another name, and a new transformer has it too."""
    circuit = circuits(year)[2]
    year.first_name[f"{circuit} NORTH"] = circuit
    for each in year.of(circuit, *{each.kind for each in year.edges.values()}):
        year.put(each, circuit=f"{circuit} NORTH")
    trunks = year.grid.trunks
    year.grid.trunks = {f"{name} NORTH" if name == circuit else name: trunk for name, trunk in trunks.items()}
    ties = year.grid.ties
    year.grid.ties = {
        (f"{one} NORTH" if one == circuit else one, f"{other} NORTH" if other == circuit else other): tie
        for (one, other), tie in ties.items()
    }
    begun = len(year.grid.edges)
    last = year.of(f"{circuit} NORTH", "transformer")[0]
    node = next(end for end in (last.a, last.b) if any(each.kind == "line" for each in year.at_node(end)))
    year.grid.onward("transformer", node, circuit=f"{circuit} NORTH")
    new = year.take(begun)[0].name
    year.connect(new, at)
    return [new, *year.grid.trunks[f"{circuit} NORTH"][:2]]


def lateral_moved(year: Year, _: int) -> list[str]:
    """A lateral hangs on another circuit."""
    one, other = circuits(year)[3], circuits(year)[2]
    nodes = {end for each in year.trunk(one) for end in (each.a, each.b)}
    fuse = next(each for each in year.of(one, "fuse") if {each.a, each.b} & nodes)
    near = fuse.a if fuse.a in nodes else fuse.b
    far = fuse.b if near == fuse.a else fuse.a
    moved = year.behind(far, [fuse.name])
    for each in [each for each in year.edges.values() if {each.a, each.b} <= moved]:
        year.put(each, circuit=other)
    target = year.trunk(other)[4].a
    year.edges[fuse.name] = RawEdge(fuse.name, "fuse", target, far, "1", other)
    return [fuse.name, *(each.name for each in year.at_node(far) if each.kind == "transformer")]


def open_point_back(year: Year, _: int) -> list[str]:
    """The open point of February is where it was."""
    one, other = circuits(year)[:2]
    tie, switch = year.edges[year.grid.ties[one, other]], year.edges[year.grid.trunks[one][-2]]
    moved = year.behind(year.grid.trunks[one][-1], (tie.name, switch.name))
    for each in [each for each in year.edges.values() if {each.a, each.b} <= moved]:
        year.put(each, circuit=one)
    year.put(tie, normal="0", circuit=one)
    year.put(switch, normal="1")
    return [tie.name, switch.name]


def circuit_added(year: Year, at: int) -> list[str]:
    """A new circuit with customers from a bus, with a tie to another; another tie is taken down."""
    breaker = year.edges[year.grid.trunks[circuits(year)[0]][0]]
    bus = next(end for end in (breaker.a, breaker.b) if any(each.kind == "busbar" for each in year.at_node(end)))
    gone = year.grid.ties.pop((circuits(year)[2], circuits(year)[3]))
    del year.edges[gone]
    begun, numbers = len(year.grid.edges), set(year.grid.customers)
    year.grid.feeder(bus, "SUB 1 / F9", 5)
    end = year.grid.trunks["SUB 1 / F9"][-1]
    year.grid.add("switch", end, year.grid.trunks[circuits(year)[0]][-1], "0", "SUB 1 / F9")
    new = year.take(begun)
    for number in year.grid.customers.keys() - numbers:
        year.connect(year.grid.customers[number][0], at)
    return [each.name for each in new if each.kind in ("breaker", "switch")]


def fuse_again(year: Year, at: int) -> list[str]:
    """The fuse that a line had replaced is there again, a switch takes the recloser's place, a customer is moved, and one of July's goes
    back."""
    circuit = circuits(year)[3]
    fuse = next(each for each in year.exports[5].edges.values() if each.name not in year.exports[6].edges)
    line = next(each for each in year.edges.values() if {each.a, each.b} == {fuse.a, fuse.b})
    del year.edges[line.name]
    year.edges[fuse.name] = replace(fuse, circuit=line.circuit)
    recloser = next(each for each in year.edges.values() if each.kind == "recloser")
    del year.edges[recloser.name]
    switch = year.make("switch", recloser.a, recloser.b, "1", recloser.circuit)
    transformers = [each.name for each in year.of(circuit, "transformer") if year.customers_of(each.name, at)]
    year.move(year.customers_of(transformers[1], at)[0], transformers[2], at)
    back = next(each for each in year.register if each.key != key_of(each.number) and each.until is None)
    before = next(each for each in year.register if each.key == back.key)
    year.move(back, before.transformer, at)
    return [fuse.name, recloser.name, switch.name, *transformers[1:3]]


CHANGES: tuple[Callable[[Year, int], list[str]], ...] = (
    fuse_in_lateral,
    open_point_moved,
    labels_changed,
    transformer_on_longer_line,
    recloser_in_trunk,
    devices_retired,
    customers_moved,
    circuit_renamed,
    lateral_moved,
    open_point_back,
    circuit_added,
    fuse_again,
)
