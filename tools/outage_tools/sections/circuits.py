"""The feeders: each circuit begins at its head, the first edge that has it on the walk from the sources."""

from collections import defaultdict
from dataclasses import dataclass

from outage_tools.oms.complaints import Complaints, Notes
from outage_tools.sections.cut import GRID_AREA, Choice, Cut, Walked, graph_of_edges, walked
from outage_tools.sections.edges import Edge, Raw

MOST_FEEDERS = 255


@dataclass(frozen=True)
class Circuits:
    """The circuit of each node by the walk: empty between a source and the first head. `heads` has the edge at which a circuit
    begins, by the node behind it."""

    at: dict[str, str]
    heads: dict[str, Edge]
    walk: Walked

    def devices_at_heads(self, raw: Raw, choice: Choice) -> frozenset[str]:
        """The last device before each circuit begins, its head's own edge counted. Without it the circuit would hang on what lies
        before it, so a coarse network has it too."""
        found = set()
        for node in self.heads:
            at = node
            while (step := self.walk.before[at]) and not choice.may_be(raw.edges[step[1]]):
                at = step[0]
            if step:
                found.add(step[1])
        return frozenset(found)


def circuits_of(raw: Raw) -> Circuits:
    """The walk goes over closed edges, whether they are devices or not."""
    graph = graph_of_edges((edge for edge in raw.joining() if edge.is_closed), raw.sources)
    at: dict[str, str] = {}
    heads: dict[str, Edge] = {}
    walk = walked(graph, raw.sources)
    for node, step in walk.before.items():
        if step is None:
            at[node] = ""
            continue
        before, name = step
        edge = raw.edges[name]
        at[node] = at[before] or edge.circuit
        if edge.circuit and not at[before]:
            heads[node] = edge
    return Circuits(at, heads, walk)


def note_differences(raw: Raw, circuits: Circuits, notes: dict[str, Notes]) -> None:
    """The edges that have another circuit than the walk gives their ends."""
    for edge in raw.edges.values():
        by_walk = {circuits.at[end] for end in edge.ends if end in circuits.at} - {""}
        if edge.circuit and by_walk and edge.circuit not in by_walk:
            listed = " and ".join(sorted(by_walk))
            notes[edge.spot.file].noticed(
                f"circuit {edge.circuit}, while the walk from the source says {listed}", edge.spot
            )


def area_circuits(cut: Cut, circuits: Circuits, complaints: Complaints) -> dict[int, str]:
    """The circuit of each area that is fed; a bus has none. One in which two begin without a device between them is refused. Where
    a loop brings two into one area, it is that of the device that feeds it."""
    names: dict[int, set[str]] = defaultdict(set)
    heads: dict[int, list[Edge]] = defaultdict(list)
    for node, circuit in circuits.at.items():
        names[cut.area[node]] |= {circuit} - {""}
    for node, edge in circuits.heads.items():
        heads[cut.area[node]].append(edge)
    del names[GRID_AREA]
    found = {}
    for area, listed in names.items():
        begun = {edge.circuit: edge for edge in heads[area]}
        if len(begun) > 1:
            first, *others = begun.values()
            others_text = " and ".join(f"{edge.circuit} at {edge.told}" for edge in others)
            text = f"circuit {first.circuit} begins at {first.name}, and {others_text}, with no device between them"
            complaints.add(first.spot, text)
        found[area] = circuit_by_device(cut, circuits, area) if len(listed) > 1 else max(listed, default="")
    return found


def circuit_by_device(cut: Cut, circuits: Circuits, area: int) -> str:
    """The circuit at the end of the device that feeds an area."""
    edge = cut.devices[cut.feeding(area) or ""]
    return circuits.at[edge.a if cut.area[edge.a] == area else edge.b]


def note_mixed(cut: Cut, circuits: Circuits, of_area: dict[int, str], notes: dict[str, Notes]) -> None:
    """Buses that a circuit without a device at its head makes a section: other circuits begin behind it."""
    for node, edge in circuits.heads.items():
        area = cut.area[node]
        others = {of_area.get(other, "") for other in cut.closed.adj[area]} - {"", of_area.get(area)}
        if set(cut.areas_of(edge)) == {area} and area != GRID_AREA and others:
            text = f"circuit {edge.circuit} begins without a device, so the bus before it becomes a section of it"
            notes[edge.spot.file].noticed(text, edge.spot)


def numbers_of(circuits: list[str], earlier: dict[str, int]) -> dict[str, int]:
    """The feeder's number of each circuit: its own if all are numbers, and were in an earlier run; else that of the earlier run, or
    the next one that is free, in the order of the circuits' names."""
    own = {name: int(name) for name in circuits if name.isdecimal() and 1 <= int(name) <= MOST_FEEDERS}
    if len(own) == len(circuits) and all(name == str(number) for name, number in earlier.items()):
        return own
    found = {name: earlier[name] for name in circuits if name in earlier}
    taken = set(earlier.values())
    free = (number for number in range(1, len(circuits) + len(taken) + 1) if number not in taken)
    found |= {name: next(free) for name in sorted(circuits) if name not in earlier}
    return found
