"""What a book has, for an export of the network as it is from a second on."""

from collections import Counter
from collections.abc import Iterable
from dataclasses import dataclass, field, replace

from outage_tools.keys import Keys
from outage_tools.normal_state import SOURCE
from outage_tools.oms.complaints import BadRow
from outage_tools.oms.fields import moment_text, read_moment
from outage_tools.oms.known import Known, Service
from outage_tools.sections.edges import Customer
from outage_tools.sections.reading import SERVICE
from outage_tools.zone import Zone


@dataclass(frozen=True)
class Life:
    """A device of the book: the names of its nodes, its normal position, and the seconds of its life."""

    ends: frozenset[str]
    is_closed: bool
    since: int
    until: int | None

    def has(self, second: int) -> bool:
        return self.since <= second and (self.until is None or second < self.until)


@dataclass
class There:
    """What the book has, and the second from which the network is as the export has it. The rows of the export may have another zone."""

    zone: Zone
    at: int
    rows_zone: Zone
    nodes: dict[str, int | None] = field(default_factory=dict)  # with the feeders of sections
    devices: dict[str, Life] = field(default_factory=dict)
    ends: dict[str, tuple[str, str]] = field(default_factory=dict)
    customers: dict[int, Service] = field(default_factory=dict)
    dates: tuple[str, ...] = ()
    keys: Keys | None = None  # of the customers
    supply: dict[str, str] = field(
        default_factory=dict
    )  # the section that supplies a service, by the one behind its meter

    def take_meters(self, names: Iterable[str]) -> None:
        """Finds the sections behind meters that are devices of the book (oms/services.py), by the names of the register's meters."""
        count = Counter(end for ends in self.ends.values() for end in ends)
        for name in names:
            ends = self.ends.get(name, ())
            behind = [end for end in ends if count[end] == 1]
            if len(behind) == 1:
                self.supply[behind[0]] = next(end for end in ends if end != behind[0])

    def at_supply(self, service: Service) -> Service:
        """The service at the section that supplies it, where it is behind its meter."""
        return replace(service, section=self.supply.get(service.section, service.section))

    def service_of(self, customer: str) -> Service | None:
        """The service of a customer as the register calls it; of several under one key that of the second, else the last."""
        if self.keys is None:
            found = self.customers.get(int(customer)) if customer.isdecimal() else None
            return None if found is None else self.at_supply(found)
        numbers = self.keys.numbers.get(customer, [])
        services = [self.at_supply(self.customers[number]) for number in numbers if number in self.customers]
        now = [each for each in services if each.has(self.at)]
        return next(iter([*now, *reversed(services)]), None)

    def second_of(self, customer: Customer, column: str) -> int | None:
        """The beginning or the end of a row's service, as far as it can be read: outagebook-from-oms refuses what can't be."""
        told = dict(zip(SERVICE, customer.service))
        try:
            text, hour = told[column], told[f"{column}_hour"]
            return read_moment(text, hour, self.rows_zone, column, self.dates) if text else None
        except BadRow:
            return None

    def covers(self, customer: Customer) -> bool:
        """The row tells where the customer is at the second. A number has one row; of those of a key others tell of other times."""
        if self.keys is None:
            return True
        since, until = self.second_of(customer, "since"), self.second_of(customer, "until")
        return (since is None or since < self.at) and (until is None or self.at < until)

    def past_section(self, customer: Customer) -> str | None:
        """The section of the book of a customer whose service is over."""
        since, until = self.second_of(customer, "since"), self.second_of(customer, "until")
        if until is None or until > self.at:
            return None
        numbers = self.keys.numbers.get(customer.number, []) if self.keys is not None else []
        services = [self.customers[each] for each in numbers if each in self.customers]
        same = (each for each in services if (each.since, each.until) == (max(since or 0, 0), until))
        found = next(same, None) or self.service_of(customer.number)
        return found.section if found else None

    def text(self, second: int) -> str:
        return moment_text(second, self.zone)


def there_of(known: Known, at: str, dates: tuple[str, ...], keys: Keys | None, rows_zone: Zone | None) -> There:
    """What a book has; `rows_zone` where it isn't the book's."""
    book = known.book
    assert book is not None  # it was opened
    zone = book.period.zone
    second = read_moment(at, "", zone, "--at", dates)
    found = There(zone, second, rows_zone or zone, customers=known.customers, dates=dates, keys=keys)
    for node, name in book.nodes.items():
        if name != SOURCE:
            found.nodes[name] = book.sections[node].feeder if node in book.sections else None
    for each in book.devices:
        ends = book.nodes[each.a], book.nodes[each.b]
        found.ends[each.name] = ends
        found.devices[each.name] = Life(frozenset(ends), each.is_closed, each.since, each.until)
    return found
