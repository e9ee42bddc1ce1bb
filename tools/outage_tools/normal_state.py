"""A network with all devices in their normal positions: what isn't reached from GRID, and what is closed to a loop.

Outside its life a device is open. Where lives begin or end within the period the network is looked at anew, so what is found
has the seconds from which and up to which it holds.
"""

from collections.abc import Callable, Hashable, Iterable, Iterator
from dataclasses import dataclass
from typing import Generic, TypeVar

from outage_tools.graphs import Graph, graph_of, loops, networkx, reached

SOURCE = "GRID"

Found = TypeVar("Found", bound=Hashable)


@dataclass(frozen=True)
class TestedDevice:
    """A switching device by its name: the nodes that it joins, its normal position, and its life."""

    name: str
    ends: tuple[str, str]
    is_closed: bool
    since: int = 0
    until: int | None = None

    def is_alive(self, second: int) -> bool:
        return self.since <= second and (self.until is None or second < self.until)


@dataclass(frozen=True)
class Island:
    """Nodes that hang together and aren't reached. `ties` are the open devices that join it with something else; with all of the
    network's ties closed it would be reached or not."""

    nodes: frozenset[str]
    ties: frozenset[str]
    is_reached_by_ties: bool


@dataclass(frozen=True)
class Loop:
    """Closed devices that lie on common loops: where there is to be none, one of them has to be open."""

    devices: frozenset[str]


@dataclass(frozen=True)
class During(Generic[Found]):
    """What is found from a second on, up to another one."""

    found: Found
    since: int
    until: int


def during(moments: list[int], end: int, look: Callable[[int], Iterable[Found]]) -> list[During[Found]]:
    """What is found at each moment, until the next one or the end; what is found at several in a row is told once."""
    begun: dict[Found, int] = {}
    over: list[During[Found]] = []
    for moment in moments:
        found = dict.fromkeys(look(moment))
        over += [During(each, begun.pop(each), moment) for each in list(begun) if each not in found]
        for each in found:
            begun.setdefault(each, moment)
    over += [During(each, since, end) for each, since in begun.items()]
    return sorted(over, key=lambda each: each.since)


def moments_of(devices: Iterable[TestedDevice], first: int, end: int) -> list[int]:
    """The first second, and each at which a life begins or ends behind it."""
    bounds = {bound for device in devices for bound in (device.since, device.until) if bound is not None}
    return [first, *sorted(bound for bound in bounds if first < bound < end)]


@dataclass(frozen=True)
class TestedNetwork:
    """Nodes and devices; both ends of each device are nodes."""

    nodes: frozenset[str]
    devices: tuple[TestedDevice, ...]

    def alive(self, second: int) -> list[TestedDevice]:
        return [device for device in self.devices if device.is_alive(second)]

    def graph(self, devices: Iterable[TestedDevice]) -> Graph:
        return graph_of(
            [SOURCE, *sorted(self.nodes)], ((*device.ends, number) for number, device in enumerate(devices))
        )

    def islands(self, second: int) -> Iterator[Island]:
        """The islands at a second, by their nodes."""
        alive = self.alive(second)
        by_ties = reached(self.graph(alive), SOURCE)
        for part in networkx().connected_components(self.graph(device for device in alive if device.is_closed)):
            if SOURCE in part:
                continue
            nodes = frozenset(part)
            ties = (
                device.name
                for device in alive
                if not device.is_closed and (device.ends[0] in nodes) != (device.ends[1] in nodes)
            )
            yield Island(nodes, frozenset(ties), not nodes.isdisjoint(by_ties))

    def loops(self, second: int) -> Iterator[Loop]:
        """The loops at a second."""
        closed = (
            (device.ends[0], device.ends[1], number)
            for number, device in enumerate(self.devices)
            if device.is_closed and device.is_alive(second)
        )
        return (Loop(frozenset(self.devices[number].name for number in numbers)) for numbers in loops(closed))
