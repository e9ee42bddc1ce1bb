"""What each device feeds with all devices in their normal positions, as of a second."""

from bisect import bisect_right
from dataclasses import dataclass, field
from functools import cached_property

from outage_tools.graphs import Graph, graph_of, reached
from outage_tools.rows import GRID, Book, Device
from outage_tools.supply import bounds_of_lives


def ways_of(book: Book, second: int) -> Graph:
    """The devices that are closed normally and are there at a second, by their numbers."""
    there = (device for device in book.devices if device.is_closed and device.is_alive(second))
    return graph_of(book.nodes, ((device.a, device.b, device.number) for device in there))


def reached_without(ways: Graph, device: Device) -> frozenset[int]:
    """The nodes to which a walk leads from GRID that doesn't use a device."""
    if not ways.has_edge(device.a, device.b, device.number):
        return frozenset(reached(ways, GRID))
    ways.remove_edge(device.a, device.b, device.number)
    found = frozenset(reached(ways, GRID))
    ways.add_edge(device.a, device.b, device.number)
    return found


@dataclass(frozen=True)
class Feeding:
    """The ways of a book between moments at which lives begin or end, and what was found behind devices."""

    book: Book
    ways: dict[int, Graph] = field(default_factory=dict)
    found: dict[tuple[int, int | None], frozenset[int]] = field(default_factory=dict)

    @cached_property
    def moments(self) -> list[int]:
        return sorted(bounds_of_lives(self.book.devices))

    def reached(self, second: int, without: int | None = None) -> frozenset[int]:
        """The nodes that are fed, without a device."""
        key = bisect_right(self.moments, second), without
        if key not in self.found:
            if key[0] not in self.ways:
                self.ways[key[0]] = ways_of(self.book, second)
            ways = self.ways[key[0]]
            self.found[key] = (
                frozenset(reached(ways, GRID)) if without is None else reached_without(ways, self.book.devices[without])
            )
        return self.found[key]

    def behind(self, device: int, second: int) -> frozenset[int]:
        """The sections that nothing but a device feeds."""
        return (self.reached(second) - self.reached(second, device)) & self.book.sections.keys()
