"""Who of a made utility was out when, second by second, on the raw edges of the network that was in force; and the figures of that,
customer by customer, by their definitions. It shares nothing with the tools.
"""

from collections import Counter, defaultdict
from collections.abc import Iterable, Iterator
from dataclasses import dataclass, field
from fractions import Fraction

from tests.made_grid import DAY, END, FIRST, SUSTAINED, RawEdge
from tests.made_months import CAUSES, Export, Service, Year, meter_of, month_begin

Interruption = tuple[int, int, int]  # its first second, the second behind it, its cause
NOBODY = 0  # the cause of what no switching cut off


@dataclass
class Watch:
    """The network of a second, the positions of its devices, and who is out since when, and why."""

    sources: list[str]
    edges: dict[str, RawEdge] = field(default_factory=dict)
    beside: dict[str, list[tuple[str, str]]] = field(default_factory=dict)
    is_closed: dict[str, bool] = field(default_factory=dict)
    numbers: dict[str, list[int]] = field(default_factory=dict)  # of customers, by their transformers
    behind: dict[int, tuple[str, str]] = field(default_factory=dict)  # the transformer and the meter of each
    open_meters: set[str] = field(default_factory=set)
    on: set[str] = field(default_factory=set)  # transformers with supply
    is_new: bool = True  # the network changed since anybody looked
    out: dict[int, tuple[int, int]] = field(default_factory=dict)
    found: dict[int, list[Interruption]] = field(default_factory=lambda: defaultdict(list))

    def take(self, export: Export) -> None:
        """The network is this one. A device that was there with the same normal position stays as it was switched."""
        before, self.edges = self.edges, export.edges
        self.is_closed = {
            name: (
                self.is_closed[name] if name in before and before[name].normal == edge.normal else edge.normal != "0"
            )
            for name, edge in export.edges.items()
        }
        self.beside = defaultdict(list)
        for name, edge in export.edges.items():
            self.beside[edge.a].append((name, edge.b))
            self.beside[edge.b].append((name, edge.a))
        self.numbers, self.is_new = defaultdict(list), True
        for each in export.register:
            self.numbers[each.transformer].append(each.number)
            self.behind[each.number] = each.transformer, meter_of(each)
            if each.number not in self.found:
                self.found[each.number] = []
                self.out[each.number] = FIRST, NOBODY

    def supplied(self) -> set[str]:
        reached = set(self.sources)
        waiting = list(reached)
        while waiting:
            for name, other in self.beside[waiting.pop()]:
                if other not in reached and self.is_closed[name]:
                    reached.add(other)
                    waiting.append(other)
        return reached

    def act(self, second: int, device: str, closes: bool, cause: int) -> None:
        """Something is switched, a meter or a device of the network."""
        touched: list[int] = []
        if device in self.is_closed:
            self.is_closed[device] = closes
        else:
            self.open_meters ^= {device}
            touched = [number for number, (_, meter) in self.behind.items() if meter == device]
        self.look(second, cause, touched)

    def look(self, second: int, cause: int, touched: Iterable[int] = ()) -> None:
        """Notes who went out or came back at this second."""
        reached = self.supplied()
        on = {
            name
            for name in self.numbers
            if name in self.edges and self.is_closed[name] and self.edges[name].a in reached
        }
        changed = self.numbers.keys() if self.is_new else on ^ self.on
        for number in (*touched, *(number for transformer in changed for number in self.numbers[transformer])):
            transformer, meter = self.behind[number]
            if transformer not in on or meter in self.open_meters:
                self.out.setdefault(number, (second, cause))
            elif number in self.out:
                since, why = self.out.pop(number)
                if since < second:
                    self.found[number].append((since, second, why))
        self.on, self.is_new = on, False


def counted(year: Year) -> dict[int, list[Interruption]]:
    """The interruptions of each customer within its service and the year."""
    watch = Watch(year.grid.sources)
    acts = [(each.out, each.device, False, each.cause) for each in year.steps if not each.is_mistake]
    acts += [(each.restored, each.device, True, each.cause) for each in year.steps if not each.is_mistake]
    acts.sort()
    exports = [*year.exports, Export(END, {}, [])]
    for export, later in zip(exports, exports[1:]):
        watch.take(export)
        watch.look(export.at, NOBODY)
        for second, device, closes, cause in acts:
            if export.at <= second < later.at:
                watch.act(second, device, closes, cause)
    for number, (since, cause) in watch.out.items():
        watch.found[number].append((since, END, cause))
    services = services_of(year)
    return {number: list(clipped(watch.found[number], services[number])) for number in services}


def clipped(found: Iterable[Interruption], service: Service) -> Iterator[Interruption]:
    for since, until, cause in found:
        begin, end = max(since, service.since), min(until, service.until or END)
        if begin < end:
            yield begin, end, cause


def services_of(year: Year) -> dict[int, Service]:
    """The last row that tells each customer."""
    return {each.number: each for export in year.exports for each in export.register}


@dataclass
class Figures:
    """Counts of some customers' interruptions: CI, CSI and MI, and the customers with at least 1 to 10 sustained ones."""

    served: int = 0
    seconds: int = 0
    sustained: int = 0
    sustained_seconds: int = 0
    momentary: int = 0
    with_some: list[int] = field(default_factory=lambda: [0] * 10)

    def add(self, since: int, until: int) -> None:
        self.seconds += until - since
        if until - since > SUSTAINED:
            self.sustained += 1
            self.sustained_seconds += until - since
        else:
            self.momentary += 1

    def add_customer(self, service: Service, found: list[Interruption]) -> None:
        self.served += max(0, min(service.until or END, END) - max(service.since, FIRST))
        for since, until, _ in found:
            self.add(since, until)
        several = sum(1 for since, until, _ in found if until - since > SUSTAINED)
        for n in range(min(several, 10)):
            self.with_some[n] += 1

    def indices(self) -> dict[str, Fraction]:
        customers = Fraction(self.served, END - FIRST)
        return {
            "SAIFI": self.sustained / customers,
            "SAIDI": Fraction(self.sustained_seconds, 60) / customers,
            "CAIDI": Fraction(self.sustained_seconds, 60 * self.sustained),
            "CAIFI": Fraction(self.sustained, self.with_some[0]),
            "ASAI": 1 - Fraction(self.sustained_seconds, self.served),
            **{f"CEMI-{n}": each / customers for n, each in enumerate(self.with_some, 1)},
        }


@dataclass
class Count:
    """All figures of a year: of the whole, by circuit (by its first name), cause, month and day; the customer-seconds of each day."""

    customers: dict[int, list[Interruption]]
    whole: Figures
    circuits: dict[str, Figures]
    causes: dict[int, Figures]
    months: dict[int, Figures]
    days: dict[int, Figures]
    seconds_of_day: Counter[int]


def count_of(year: Year) -> Count:
    found, services = counted(year), services_of(year)
    count = Count(found, Figures(), {}, {}, {}, {}, Counter())
    for number, listed in found.items():
        count.whole.add_customer(services[number], listed)
        circuit = year.home[services[number].transformer]
        count.circuits.setdefault(circuit, Figures()).add_customer(services[number], listed)
        for since, until, cause in listed:
            day = (since - FIRST) // DAY
            month = next(each for each in range(1, 13) if since < month_begin(each + 1))
            for group, key in ((count.causes, cause), (count.months, month), (count.days, day)):
                group.setdefault(key, Figures()).add(since, until)
            while since < until:
                count.seconds_of_day[day] += min(until, FIRST + (day + 1) * DAY) - since
                day += 1
                since = FIRST + day * DAY
    return count


def causes_text() -> str:
    return "code,name\n" + "".join(f"{code},{name}\n" for code, name in CAUSES.items())
