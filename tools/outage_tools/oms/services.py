"""Tickets of a single service: a section and a device of its own for each meter that a ticket names.

The register says which meter a customer has. Where a ticket names it, the meter becomes a device, normally closed and always there, from
the customer's section to a new one. Whatever cuts the customer's section off cuts off the new one too, from the same second and by the
same cause, so the customer's interruptions stay as they are, and those of the meter come to them.
"""

from collections import Counter
from collections.abc import Iterable, Iterator
from dataclasses import dataclass, field

from outage_tools.oms.complaints import BadRow, Notes
from outage_tools.oms.conversion import Conversion
from outage_tools.oms.fields import read_moment, read_zone
from outage_tools.oms.files import Row
from outage_tools.oms.known import Service
from outage_tools.oms.network import MOST_DEVICES, MOST_NODES, Network
from outage_tools.sections.naming import SECTION, node_name

SINGLE = "outages of a single service, which get a section and a device of their own"


@dataclass(frozen=True)
class Own:
    """The section that supplies a service, and the one behind its meter."""

    supply: str
    section: str


@dataclass
class Meters:
    """The meters that tickets name, and that the network has not as devices, each with its first row."""

    conversion: Conversion
    network: Network
    tickets: dict[str, Row] = field(default_factory=dict)
    devices_at: Counter[str] = field(default_factory=Counter)  # of each node
    made: set[str] = field(default_factory=set)  # meters that have become devices in this run

    def __post_init__(self) -> None:
        self.devices_at = Counter(end for ends, _ in self.network.devices.values() for end in ends)

    def find(self, rows: Iterable[Row]) -> None:
        """The names in the rows of tickets that count in the period."""
        for row in rows:
            if row["device"] and self.counts(row):
                self.tickets.setdefault(row["device"].upper(), row)

    def counts(self, row: Row) -> bool:
        """It isn't cancelled, and touches the period; a row that can't be read is told elsewhere."""
        period = self.conversion.period
        if row["status"].lower() in self.conversion.cancelled or period is None:
            return False
        try:
            zone = read_zone(row["zone"]) if row["zone"] else self.conversion.zone
            out, restored = (
                read_moment(row[column], row[f"{column}_hour"], zone, column, self.conversion.dates)
                if row[column]
                else None
                for column in ("out", "restored")
            )
        except BadRow:
            return False
        return (out is None or out < period.end) and (restored is None or restored > period.first)

    def own_of(self, row: Row, supply: str) -> Own | None:
        """The section behind a customer's meter, if there is one or a ticket wants one."""
        meter = row["meter"].upper()
        if meter in self.network.devices:
            return self.there(meter, supply)
        return Own(supply, self.name_of(meter)) if meter in self.tickets else None

    def there(self, meter: str, supply: str) -> Own | None:
        """The section behind a meter that is a device. One of the network's other devices that has its name is none."""
        (a, b), is_closed = self.network.devices[meter]
        section = b if a == supply else a
        if supply in (a, b) and self.devices_at[supply] == 1:
            return None  # the customer is behind it already
        if supply in (a, b) and is_closed and self.network.is_section(section) and self.devices_at[section] == 1:
            if self.is_always_there(meter):
                return Own(supply, section)
            raise BadRow(
                f"the meter {meter} is a device that isn't there in the whole period, so no customer can be behind it"
            )
        if meter in self.tickets:
            row = self.tickets[meter]
            raise BadRow(
                f"the meter {meter}, which {row.file} row {row.number} names, is a device of the network too, and doesn't lie behind"
                f" {supply}: give one of them another name"
            )
        return None

    def is_always_there(self, device: str) -> bool:
        since, until = self.network.told_lives.get(device) or self.network.lives.get(device) or (0, None)
        period = self.conversion.period
        return period is None or (since <= period.first and (until is None or period.end <= until))

    def name_of(self, meter: str) -> str:
        return node_name(SECTION, meter, meter, {*self.network.nodes, *self.network.devices})

    def make(self, row: Row, own: Own, notes: Notes) -> Iterator[list[str]]:
        """The rows of a new section and its device."""
        meter, known, grid = row["meter"].upper(), self.conversion.known, self.network
        if meter in grid.devices:
            return
        ticket = self.tickets[meter]
        for count, most, what in (
            (len(grid.nodes), MOST_NODES, "nodes, GRID among them"),
            (len(grid.devices), MOST_DEVICES, "devices"),
        ):
            if count >= most:
                raise BadRow(
                    f"the meter {meter}, which {ticket.file} row {ticket.number} names, gets no section: a book has at most {most} {what}"
                )
        feeder = grid.nodes[own.supply]
        grid.nodes[own.section], grid.devices[meter] = feeder, ((own.supply, own.section), True)
        self.devices_at.update((own.supply, own.section))
        self.made.add(meter)
        yield self.conversion.command(notes, "section", known.unused(f"GIS-SECTION-{own.section}"), own.section, feeder)
        ref = known.unused(f"GIS-DEVICE-{meter}")
        yield self.conversion.command(notes, "device", ref, meter, own.supply, own.section, "closed", None, None)

    def note(self, rows: Iterable[Row], notes: Notes) -> None:
        """Tells the tickets of meters that have become devices."""
        for row in rows:
            if row["device"].upper() in self.made:
                notes.noticed(SINGLE, row)


def parts_of(service: Service, own: Own, first: int) -> tuple[Service, Service]:
    """A service in two: before a period's first second at the section that supplies it, and from then on behind its meter. The two meet at
    the first second; one that has no second before it, or none behind, is put into the second before."""
    void = max(first - 1, 0), first
    until = first if service.until is None else min(service.until, first)
    before = (service.since, until) if service.since < until else void
    since = max(service.since, first)
    behind = (since, service.until) if service.until is None or since < service.until else void
    return Service(own.supply, *before), Service(own.section, *behind)
