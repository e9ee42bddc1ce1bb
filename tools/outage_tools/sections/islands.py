"""What no source feeds: refused where somebody hangs on it, else told and left out."""

from collections.abc import Iterable, Iterator
from dataclasses import dataclass, field

from outage_tools.graphs import networkx
from outage_tools.normal_state import TestedDevice, TestedNetwork
from outage_tools.oms.complaints import Complaints, Notes
from outage_tools.sections.cut import GRID_AREA, Cut
from outage_tools.sections.edges import TRANSFORMER, Customer, Edge, Raw
from outage_tools.sections.near import Near
from outage_tools.sections.placing import Placed

MOST_NAMES = 8  # of the edges and customers of an island


@dataclass
class Island:
    """Areas that closed devices join and no source feeds: their edges, the open devices that lead out, their customers."""

    areas: set[int]
    nodes: set[str]
    edges: list[Edge] = field(default_factory=list)
    ties: list[Edge] = field(default_factory=list)
    customers: list[Customer] = field(default_factory=list)

    @property
    def first(self) -> Edge:
        """The edge by which it is told."""
        return (self.edges or self.ties)[0]

    @property
    def has_transformers(self) -> bool:
        return any(edge.kind == TRANSFORMER for edge in self.edges)


def islands_of(cut: Cut, placed: Placed) -> list[Island]:
    """The islands, each with what belongs to it."""
    of_area: dict[int, Island] = {}
    found = []
    for part in cut.parts():
        island = Island(part, set())
        found.append(island)
        of_area.update(dict.fromkeys(part, island))
    for node, area in cut.area.items():
        if area in of_area:
            of_area[area].nodes.add(node)
    for edge in cut.raw.edges.values():
        joined = [of_area.get(area) for area in cut.areas_of(edge)]
        if joined[0] is joined[1] and joined[0] is not None:
            joined[0].edges.append(edge)
        elif joined[0] is not joined[1]:
            for each in joined:
                if each is not None:
                    each.ties.append(edge)
    for island in found:
        island.customers = [each for area in sorted(island.areas) for each in placed.customers.get(area, ())]
    return found


def listed(names: Iterable[str]) -> str:
    """Some names, and how many more there are."""
    names = list(names)
    rest = len(names) - MOST_NAMES
    return ", ".join(names[:MOST_NAMES]) + (f" and {rest} more" if rest > 0 else "")


def why_refused(island: Island, raw: Raw) -> str:
    """Why an island can't be left out; empty if it can."""
    if island.customers:
        count = len(island.customers)
        noun = "customer" if count == 1 else "customers"
        return f"{count} {noun} on it: {listed(each.number for each in island.customers)}"
    if island.has_transformers and not island.ties:
        return "it has transformers, and no open device leads to it"
    if island.has_transformers and not raw.has_customers:
        return "it has transformers, and no register of customers is given"
    return ""


def refused_text(island: Island, why: str, near: str) -> str:
    edges = listed(edge.told for edge in island.edges) or "nothing"
    ties = f"; open devices lead to it: {listed(edge.told for edge in island.ties)}" if island.ties else ""
    return f"no source feeds {edges}; {why}{ties}{near}"


def look_at_islands(
    cut: Cut, placed: Placed, switched: set[str], complaints: Complaints, notes: dict[str, Notes]
) -> set[int]:
    """Refuses the islands that somebody hangs on, and tells the others: the areas that are left out. Spare parts one of whose
    devices a ticket names stay."""
    left: set[int] = set()
    near = Near(cut.raw.points, cut)
    islands = islands_of(cut, placed)
    kept = kept_areas(cut, islands, switched)
    for island in islands:
        why = why_refused(island, cut.raw)
        if why:
            complaints.add(island.first.spot, refused_text(island, why, near.text(island.nodes)))
            continue
        if island.areas <= kept:
            reason = "spare parts behind open devices, which are kept since a ticket, or the book, has a device of them"
            for edge in island.edges or island.ties:
                notes[edge.spot.file].noticed(reason, edge.spot)
            continue
        left |= island.areas
        reason = "spare parts behind open devices" if island.ties else "edges that no source feeds and nobody is on"
        reason += near.text(island.nodes)
        for edge in (*(each for each in island.edges if each.a != each.b), *island.ties):
            notes[edge.spot.file].left_out(reason, edge.spot)
    return left


def kept_areas(cut: Cut, islands: list[Island], switched: set[str]) -> set[int]:
    """The areas of spare parts that stay: those to which open devices lead, if a ticket names a device of them, or of what
    hangs together with them by open devices."""
    named = {
        area
        for island in islands
        if any(edge.name in switched for edge in (*island.edges, *island.ties))
        for area in island.areas
    }
    parts = networkx().connected_components(cut.whole.subgraph(area for island in islands for area in island.areas))
    return {area for part in parts if part & named and all(area in cut.reached for area in part) for area in part}


# Loops.


def rings_of(cut: Cut) -> Iterator[list[Edge]]:
    """The closed devices of each loop."""
    devices = [
        TestedDevice(edge.name, (str(cut.area[edge.a]), str(cut.area[edge.b])), edge.is_closed)
        for edge in cut.devices.values()
    ]
    network = TestedNetwork(frozenset(map(str, {GRID_AREA, *cut.area.values()})), tuple(devices))
    for loop in network.loops(0):
        yield sorted((cut.devices[name] for name in loop.devices), key=lambda edge: edge.spot.number)


def look_at_loops(
    cut: Cut,
    rings: list[list[Edge]],
    of_area: dict[int, str],
    is_meshed: bool,
    complaints: Complaints,
    notes: dict[str, Notes],
) -> None:
    """Refuses loops of closed devices, each with its ring and with those of it that join two circuits."""
    for ring in rings:
        text = f"a loop of closed devices: {', '.join(edge.told for edge in ring)}"
        between = [
            edge.name for edge in ring if len({of_area.get(area, "") for area in cut.areas_of(edge)} - {""}) == 2
        ]
        if between:
            text += f"; between two circuits: {', '.join(between)}"
        if is_meshed:
            notes[ring[0].spot.file].noticed(text, ring[0].spot)
        else:
            complaints.add(ring[0].spot, text)
