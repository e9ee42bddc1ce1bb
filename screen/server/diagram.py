"""The one-line diagram: where each node stands, by layers from GRID over devices that are normally closed; what has supply."""

from collections import defaultdict
from collections.abc import Iterable, Mapping, Sequence
from dataclasses import dataclass

from .answers import Supply
from .reader import Device
from .state import State

GRID, BUS = 0, 1  # a node's number; a kind of nodes


@dataclass(frozen=True)
class Layout:
    """The layer and the row of each node; by node, from GRID on, the device of the tree above it and the node over that."""

    layer: dict[int, int]
    row: dict[int, float]
    above: dict[int, tuple[int, int]]


def ways_of(devices: Iterable[Device]) -> dict[int, list[tuple[int, int]]]:
    """To which nodes some devices lead from each node, with their numbers."""
    found: dict[int, list[tuple[int, int]]] = defaultdict(list)
    for device in devices:
        found[device.a].append((device.b, device.number))
        found[device.b].append((device.a, device.number))
    return found


def layout_of(devices: Sequence[Device], order: Sequence[tuple[int, ...]]) -> Layout:
    """A tidy tree: each node left of those that hang on it, in the middle of their rows; leaves one row each. A part of the
    tree comes as early as the node in it that is first by an order of all nodes. Those to which normally no way leads stand
    below it."""
    ways, found = ways_of(each for each in devices if each.is_closed), [GRID]
    layer, above, below = {GRID: 0}, dict[int, tuple[int, int]](), defaultdict[int, list[int]](list)
    for node in found:
        for other, number in ways[node]:
            if other not in layer:
                layer[other], above[other] = layer[node] + 1, (number, node)
                below[node].append(other)
                found.append(other)
    first = list(order)
    for node in reversed(found):  # what hangs on a node was found after it
        below[node].sort(key=first.__getitem__)
        first[node] = min([first[node], *(first[each] for each in below[node][:1])])
    row, rows = place_rows(below)
    apart = [node for node in range(len(order)) if node not in layer]
    row |= {node: rows + number for number, node in enumerate(apart)}
    return Layout(layer | dict.fromkeys(apart, 1), row, above)


def place_rows(below: Mapping[int, list[int]]) -> tuple[dict[int, float], float]:
    """The row of each node of the tree, and how many rows there are."""
    row, rows = dict[int, float](), 0.0
    waiting = [(GRID, False)]
    while waiting:
        node, is_seen = waiting.pop()
        if not below[node]:
            row[node] = rows
            rows += 1
        elif is_seen:
            row[node] = (row[below[node][0]] + row[below[node][-1]]) / 2
        else:
            waiting += [(node, True), *((other, False) for other in reversed(below[node]))]
    return row, rows


def normal_ways(layout: Layout, closed: Sequence[bool]) -> list[bool]:
    """Whether the devices between each node and GRID, by the tree of normal positions, are all closed."""
    holds = {GRID: True}
    for node, (number, over) in layout.above.items():
        holds[node] = holds[over] and closed[number]
    return [holds.get(node, False) for node in range(len(layout.layer))]


def closed_devices(state: State, supply: Supply) -> list[bool]:
    """Whether each device is closed, and in the network."""
    return [supply.closed[each.name] and supply.alive[each.name] for each in state.devices]


def supplied_nodes(state: State, supply: Supply) -> list[bool]:
    """Whether each node has supply: of sections the desk says so. It names no buses: one has supply where closed devices lead
    to it from GRID or a section that has."""
    out, are_buses = {row.section for row in supply.outages}, [kind == BUS for _, kind, _ in state.nodes]
    closed = (each for each, is_closed in zip(state.devices, closed_devices(state, supply)) if is_closed)
    ways = ways_of(each for each in closed if are_buses[each.a] or are_buses[each.b])
    found = [node for node, (name, kind, _) in enumerate(state.nodes) if kind != BUS and name not in out]
    seen = set(found)
    for node in found:
        buses = {other for other, _ in ways.get(node, ()) if are_buses[other]} - seen
        seen |= buses
        found += buses
    return [node in seen for node in range(len(are_buses))]
