"""The names in tickets: devices, meters of single services, and what is no device."""

from collections import defaultdict
from collections.abc import Iterable
from dataclasses import dataclass, field

from outage_tools.oms.complaints import BadRow, Complaints, Notes
from outage_tools.oms.files import Row
from outage_tools.sections.edges import Customer, Labels, Raw, labels_of
from outage_tools.sections.placing import Placed
from outage_tools.sections.reading import Tickets


@dataclass
class Named:
    """What the rows of tickets name: edges, meters with their customers, devices that an earlier run had, and rows of none of these."""

    edges: dict[str, list[Row]] = field(default_factory=lambda: defaultdict(list))
    meters: dict[str, list[Row]] = field(default_factory=lambda: defaultdict(list))
    gone: dict[str, list[Row]] = field(default_factory=lambda: defaultdict(list))
    unknown: list[Row] = field(default_factory=list)
    of_row: dict[int, str] = field(default_factory=dict)  # the label that each row means


def named_in(raw: Raw, tickets: Tickets, earlier: Iterable[str], complaints: Complaints) -> Named:
    """A name is that of an edge, or of a meter, and one of both is refused; else of a device of an earlier run."""
    found = Named()
    edges, meters = labels_of(raw.edges), labels_of(each.meter for each in raw.customers if each.meter)
    gone = labels_of(earlier)
    for row in tickets.rows:
        if not row["device"]:
            found.unknown.append(row)
            continue
        with complaints.about(row):
            take_name(found, row, edges, meters, gone)
    return found


def take_name(found: Named, row: Row, edges: Labels, meters: Labels, gone: Labels) -> None:
    edge, meter = edges.find(row["device"]), meters.find(row["device"])
    if edge is not None and meter is not None:
        raise BadRow(f"{row['device']} is an edge and a meter: give one of them another name")
    for label, listed in ((edge, found.edges), (meter, found.meters), (gone.find(row["device"]), found.gone)):
        if label is not None:
            found.of_row[row.number] = label
            listed[label].append(row)
            return
    found.unknown.append(row)


def meter_areas(
    raw: Raw, placed: Placed, named: Named, first: int, complaints: Complaints
) -> dict[str, tuple[int, int]]:
    """A section of its own for each meter that a ticket names: the area that supplies it, and a new one, to which its customers go."""
    found: dict[str, tuple[int, int]] = {}
    on: dict[str, list[tuple[int, Customer]]] = defaultdict(list)
    for number, customer in enumerate(raw.customers):
        if customer.meter in named.meters and number in placed.area:
            on[customer.meter].append((number, customer))
    for meter, customers in on.items():
        areas = {placed.area[number] for number, _ in customers}
        if len(areas) > 1:
            rows = ", ".join(str(customer.spot.number) for _, customer in customers)
            complaints.add(customers[0][1].spot, f"the meter {meter} is on several sections: rows {rows}")
            continue
        found[meter] = areas.pop(), first + len(found)
        for number, _ in customers:
            placed.area[number] = found[meter][1]
    return found


def note_names(raw: Raw, named: Named, devices: set[str], notes: Notes) -> None:
    """Tells the rows of tickets that name no device."""
    for rows in named.meters.values():
        for row in rows:
            notes.noticed("outages of a single service, which get a section and a device of their own", row)
    for label, rows in named.edges.items():
        for row in rows:
            if label not in devices:
                kind = raw.edges[label].kind
                notes.noticed(f"rows that name a {kind} which is no device of the book", row)
    for rows in named.gone.values():
        for row in rows:
            notes.noticed("rows that name a device of the earlier run, which the export hasn't any more", row)
    for row in named.unknown:
        notes.noticed("rows that name neither an edge nor a meter", row)
