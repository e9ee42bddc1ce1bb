"""Ends that nearly meet, by the coordinates of nodes."""

from bisect import bisect_left
from collections import defaultdict
from dataclasses import dataclass
from functools import cached_property
from math import hypot

from outage_tools.sections.cut import Cut
from outage_tools.sections.edges import Edge, Point

FEW = 16  # nodes that are looked at one by one

Placed = tuple[Point, str]
Found = tuple[float, str, str]  # a distance, and the nodes that are so far apart


def halved(placed: list[Placed], axis: int = 0) -> list[Placed]:
    """Nodes in such an order that half of them lie on either side of the middle one by x, half of each half by y, and so on."""
    if len(placed) <= FEW:
        return placed
    placed = sorted(placed, key=lambda each: (each[0][axis], each))
    middle = len(placed) // 2
    return [*halved(placed[:middle], 1 - axis), placed[middle], *halved(placed[middle + 1 :], 1 - axis)]


@dataclass
class Search:
    """The nearest pair of a node of an island and another one, so far. `own` are the places of the island's nodes, rising."""

    placed: list[Placed]
    own: list[int]
    best: Found | None = None

    def has_others(self, begin: int, end: int) -> bool:
        """Some of the nodes from a place up to another one aren't the island's."""
        return bisect_left(self.own, end) - bisect_left(self.own, begin) < end - begin

    def take(self, node: Placed, place: int) -> None:
        if self.has_others(place, place + 1):
            (x, y), name = node
            (other_x, other_y), other = self.placed[place]
            found = hypot(other_x - x, other_y - y), name, other
            self.best = found if self.best is None else min(self.best, found)

    def look(self, node: Placed, begin: int, end: int, axis: int = 0) -> None:
        """Looks for the nearest one to a node from a place up to another one, first on the node's side of the middle."""
        if not self.has_others(begin, end):
            return
        if end - begin <= FEW:
            for place in range(begin, end):
                self.take(node, place)
            return
        middle = begin + (end - begin) // 2
        self.take(node, middle)
        apart = node[0][axis] - self.placed[middle][0][axis]
        halves = [(begin, middle), (middle + 1, end)]
        for is_other, half in enumerate(halves if apart < 0 else reversed(halves)):
            if not is_other or self.best is None or abs(apart) <= self.best[0]:
                self.look(node, *half, 1 - axis)


class Near:
    """The places of nodes, and the edges at each."""

    def __init__(self, points: dict[str, Point], cut: Cut) -> None:
        self.points = points
        self.cut = cut

    @cached_property
    def placed(self) -> list[Placed]:
        return halved([(point, node) for node, point in self.points.items()])

    @cached_property
    def place_of(self) -> dict[str, int]:
        return {node: place for place, (_, node) in enumerate(self.placed)}

    @cached_property
    def at(self) -> dict[str, list[Edge]]:
        """The edges at each node."""
        found: dict[str, list[Edge]] = defaultdict(list)
        for edge in self.cut.raw.joining():
            for end in edge.ends:
                found[end].append(edge)
        return found

    def text(self, nodes: set[str]) -> str:
        """How far the nearest other node lies; nothing where no coordinates tell it."""
        own = sorted(self.place_of[node] for node in nodes if node in self.points)
        search = Search(self.placed, own)
        for place in own:
            search.look(self.placed[place], 0, len(self.placed))
        if search.best is None:
            return ""
        distance, node, other = search.best
        ends = (f"{name} of {self.at[name][0].told}" if name in self.at else name for name in (node, other))
        return f"; {' and '.join(ends)} are {distance:.3g} apart"
