"""Customers by transformer: each is on the side of its transformer that lies away from the source."""

from collections import defaultdict
from collections.abc import Callable, Sequence
from dataclasses import dataclass, field

from outage_tools.oms.complaints import BadRow, Complaints
from outage_tools.oms.fields import shown
from outage_tools.sections.cut import GRID_AREA, Cut
from outage_tools.sections.edges import TRANSFORMER, Customer, Edge, Labels, labels_of


@dataclass
class Placed:
    """The area of each customer of the register, and the customers of each area. Those whose service is over, and where nothing is any
    more, stay on the section that a book has."""

    area: dict[int, int] = field(default_factory=dict)  # by the customer's place in the register
    past: dict[int, str] = field(default_factory=dict)
    customers: dict[int, list[Customer]] = field(default_factory=lambda: defaultdict(list))

    def add(self, number: int, customer: Customer, area: int) -> None:
        self.area[number] = area
        self.customers[area].append(customer)


def away_side(cut: Cut, edge: Edge, looped: frozenset[str]) -> int:
    """The area on the side of a transformer away from the source. In what no source feeds it is the end that is told second."""
    a, b = cut.areas_of(edge)
    if a == b:
        return a
    if edge.name in looped:
        raise BadRow(f"{edge.told} lies on a loop, so no side of it is away from the source")
    if edge.is_closed:
        return a if cut.feeding(a) == edge.name else b
    if cut.is_fed(a) and cut.is_fed(b):
        raise BadRow(f"{edge.told} is normally open and fed on both sides, so none is away from the source")
    return a if cut.is_fed(b) else b


def area_of_transformer(cut: Cut, labels: Labels, label: str, looped: frozenset[str]) -> int:
    name = labels.find(label)
    if name is None:
        raise BadRow(f"no edge is called {shown(label)}")
    edge = cut.raw.edges[name]
    if edge.kind != TRANSFORMER:
        raise BadRow(f"{edge.told} is a {edge.kind}, and no transformer")
    return away_side(cut, edge, looped)


def is_there(cut: Cut, labels: Labels, customer: Customer) -> bool:
    """The network has what supplies the customer, and a way leads there."""
    if customer.node:
        ends: Sequence[str] = [customer.node]
    else:
        name = labels.find(customer.transformer)
        ends = cut.raw.edges[name].ends if name is not None else []
    return any(cut.area.get(end) in cut.reached for end in ends)


def placed_of(
    cut: Cut, complaints: Complaints, looped: frozenset[str], past_section: Callable[[Customer], str | None]
) -> Placed:
    """Where each customer is; those that nothing in the network has are refused, and those on a transformer of loops that are meant."""
    raw, found = cut.raw, Placed()
    labels = labels_of(raw.edges)
    for number, customer in enumerate(raw.customers):
        with complaints.about(customer.spot):
            if not is_there(cut, labels, customer) and (section := past_section(customer)) is not None:
                found.past[number] = section
                continue
            if customer.node:
                if customer.node not in cut.area:
                    raise BadRow(f"no edge has the node {shown(customer.node)}")
                area = cut.area[customer.node]
            else:
                area = area_of_transformer(cut, labels, customer.transformer, looped)
            found.add(number, customer, area)
    return found


def refuse_without_feeder(cut: Cut, placed: Placed, of_area: dict[int, str], complaints: Complaints) -> None:
    """Customers at a source or on a bus: a book has them on sections."""
    for area, customers in placed.customers.items():
        if cut.is_fed(area) and not of_area.get(area):
            where = "at the source, with no device between" if area == GRID_AREA else "on a bus, before any circuit"
            for customer in customers:
                by = customer.transformer or customer.node
                complaints.add(customer.spot, f"customer {customer.number} on {by} is {where}")
