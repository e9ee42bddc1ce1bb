"""The cut: edges that are no devices are contracted, and what remains are areas with devices between them."""

from collections import defaultdict
from collections.abc import Hashable, Iterable, Iterator
from dataclasses import dataclass
from typing import Any

from outage_tools.graphs import Graph, graph_of, networkx, reached, steps
from outage_tools.sections.edges import Edge, Raw

GRID_AREA = 0  # the area of the sources


@dataclass(frozen=True)
class Choice:
    """Which edges are devices: by their kinds, but for those that are joined, and if `opened` is given those of it alone. What is
    normally open is always one: its ends aren't one section."""

    kinds: frozenset[str]
    joined: frozenset[str] = frozenset()
    opened: frozenset[str] | None = None

    def may_be(self, edge: Edge) -> bool:
        """It is a device in a network in all detail."""
        return not edge.is_closed or (edge.kind in self.kinds and edge.name not in self.joined)

    def is_device(self, edge: Edge) -> bool:
        is_opened = self.opened is None or not edge.is_closed or edge.name in self.opened
        return is_opened and self.may_be(edge)


@dataclass(frozen=True)
class Walked:
    """The nodes that a walk reaches, each with the node before it and the edge between; those it starts from have none."""

    before: dict[Any, tuple[Any, str] | None]

    def __contains__(self, node: object) -> bool:
        return node in self.before

    def edge_to(self, node: object) -> str | None:
        """The edge by which a node is reached."""
        step = self.before.get(node)
        return step[1] if step else None


def walked(graph: Graph, starts: Iterable[Hashable], known: Walked | None = None) -> Walked:
    """A walk in breadth, from some nodes, or from all that are known already."""
    before: dict[Any, tuple[Any, str] | None] = dict(known.before) if known else {}
    before.update({start: None for start in starts if start not in before})
    for node, other in steps(graph, list(before)):
        before[other] = node, min(graph.adj[node][other])
    return Walked(before)


def graph_of_edges(edges: Iterable[Edge], nodes: Iterable[str] = ()) -> Graph:
    """Edges by their labels."""
    return graph_of(nodes, ((edge.a, edge.b, edge.name) for edge in edges))


@dataclass
class Cut:
    """The areas of the nodes, by number, and the devices between them.

    `whole` has all devices between two areas, `closed` those that are normally closed. `fed` is the walk of closed devices
    from GRID, and `reached` goes on from it through the others.
    """

    raw: Raw
    area: dict[str, int]
    devices: dict[str, Edge]
    around: list[Edge]  # devices both ends of which are in one area
    whole: Graph
    closed: Graph
    fed: Walked
    reached: Walked

    def areas_of(self, edge: Edge) -> tuple[int, int]:
        return self.area[edge.a], self.area[edge.b]

    def feeding(self, area: int) -> str | None:
        """The device by which the walk comes to an area."""
        return self.reached.edge_to(area)

    def is_fed(self, area: int) -> bool:
        return area in self.fed

    def inside(self) -> dict[int, list[Edge]]:
        """The edges within each area."""
        found: dict[int, list[Edge]] = defaultdict(list)
        for edge in self.raw.edges.values():
            a, b = self.areas_of(edge)
            if a == b:
                found[a].append(edge)
        return found

    def parts(self) -> Iterator[set[int]]:
        """What closed devices join, but for what is fed from GRID."""
        for part in networkx().connected_components(self.closed):
            if GRID_AREA not in part:
                yield part


def areas_in(raw: Raw, contracted: Iterable[Edge]) -> dict[str, int]:
    """The number of each node's area: what the edges join that are no devices. The sources are one, with the number 0."""
    graph = graph_of_edges(contracted, dict.fromkeys(end for edge in raw.edges.values() for end in edge.ends))
    sources = list(raw.sources)
    graph.add_edges_from((sources[0], other, "") for other in sources[1:])
    number = GRID_AREA
    found = dict.fromkeys(reached(graph, sources[0]), GRID_AREA)
    for part in networkx().connected_components(graph):
        if not part <= found.keys():
            number += 1
            found |= dict.fromkeys(part, number)
    return found


def cut_of(raw: Raw, choice: Choice) -> Cut:
    """The cut of a network whose sources are on its edges."""
    between = [edge for edge in raw.joining() if choice.is_device(edge)]
    area = areas_in(raw, (edge for edge in raw.joining() if not choice.is_device(edge)))
    devices = {edge.name: edge for edge in between if area[edge.a] != area[edge.b]}
    around = [edge for edge in between if area[edge.a] == area[edge.b]]
    areas = range(max(area.values()) + 1)
    joined = [(edge, (area[edge.a], area[edge.b], edge.name)) for edge in devices.values()]
    whole = graph_of(areas, (ends for _, ends in joined))
    closed = graph_of(areas, (ends for edge, ends in joined if edge.is_closed))
    fed = walked(closed, [GRID_AREA])
    return Cut(raw, area, devices, around, whole, closed, fed, walked(whole, (), fed))
