"""Who is supplied as devices are switched, by walks of networkx: for books that the program doesn't have, and to tell which
entry brought supply back. No figure of a book comes from here.
"""

from collections import Counter, defaultdict
from collections.abc import Iterable
from dataclasses import dataclass

from outage_tools.counts import Counts
from outage_tools.graphs import graph_of, is_joined, reached
from outage_tools.interruptions import Interruption, blocks_by_section, order
from outage_tools.rows import GRID, Block, Book, Device, Entry


@dataclass(frozen=True)
class Run:
    """A longest interval of the period in which a section isn't supplied, with the entries that cut it off and that brought
    supply back, if any."""

    section: int
    since: int
    until: int
    cutter: Entry | None
    ender: Entry | None = None


class Supply:
    """The positions of all devices as switchings and lives come and go, and which nodes are supplied under them: those to which
    a walk of closed devices leads from GRID."""

    def __init__(self, book: Book):
        self.devices = book.devices
        self.switched = [device.is_closed for device in book.devices]
        self.is_closed = [False] * len(book.devices)
        self.closed = graph_of(book.nodes, [])  # the closed devices, by their numbers
        self.supplied = frozenset([GRID])
        self.come_to(book.period.first)

    def set_position(self, device: Device, is_closed: bool) -> bool:
        """Closes or opens a device: whether this changed its position."""
        if is_closed == self.is_closed[device.number]:
            return False
        self.is_closed[device.number] = is_closed
        if is_closed:
            self.join(device)
        else:
            self.part(device)
        return True

    def join(self, device: Device) -> None:
        """Where one end is supplied, so is all that hangs together with the other one from now on."""
        for end, other in ((device.a, device.b), (device.b, device.a)):
            if end in self.supplied and other not in self.supplied:
                self.supplied |= reached(self.closed, other)
        self.closed.add_edge(device.a, device.b, device.number)

    def part(self, device: Device) -> None:
        """An end to which no other way leads from GRID loses supply, with all that hangs together with it."""
        self.closed.remove_edge(device.a, device.b, device.number)
        for end in (device.a, device.b):
            if end in self.supplied and not is_joined(self.closed, GRID, end):
                self.supplied -= reached(self.closed, end)

    def come_to(self, second: int) -> bool:
        """Takes the lives as of a second: whether this changed a position."""
        changes = [
            self.set_position(device, switched and device.is_alive(second))
            for device, switched in zip(self.devices, self.switched)
        ]
        return any(changes)

    def switch(self, entry: Entry, second: int) -> bool:
        """Takes an entry: whether this changed a position."""
        device = self.devices[entry.device]
        self.switched[entry.device] = entry.closes
        return self.set_position(device, entry.closes and device.is_alive(second))


def bounds_of_lives(devices: Iterable[Device]) -> set[int]:
    """The seconds at which a device's life begins or ends."""
    return {bound for device in devices for bound in (device.since, device.until) if bound is not None}


def sweep(book: Book) -> list[Run]:
    """The runs of all sections.

    Lives act before the entries of their second, these act by their numbers, and only then is the second looked at. The
    cutter of a run is the last entry of its first second that took the section from supplied to not supplied, its ender the
    last one of the second at which it is over that took it back.
    """
    supply = Supply(book)
    entries_at: dict[int, list[Entry]] = defaultdict(list)
    for entry in book.entries:
        if entry.is_kept:
            entries_at[entry.second].append(entry)
    lives = bounds_of_lives(book.devices)
    moments = {book.period.first, *entries_at, *lives}
    sections = set(book.sections)
    going: dict[int, tuple[int, Entry | None]] = {}
    runs: list[Run] = []
    for moment in sorted(moment for moment in moments if book.period.first <= moment < book.period.end):
        if moment in lives:
            supply.come_to(moment)
        cutters, enders = dict[int, Entry](), dict[int, Entry]()
        for entry in entries_at.get(moment, ()):
            before = supply.supplied
            if supply.switch(entry, moment):
                cutters.update((node, entry) for node in before - supply.supplied)
                enders.update((node, entry) for node in supply.supplied - before)
        for section in sections & supply.supplied & going.keys():
            since, cutter = going.pop(section)
            runs.append(Run(section, since, moment, cutter, enders.get(section)))
        for section in sections - supply.supplied - going.keys():
            going[section] = moment, cutters.get(section)
    runs += [Run(section, since, book.period.end, cutter) for section, (since, cutter) in going.items()]
    return sorted(runs, key=lambda run: (run.since, run.section))


def interruptions_of(book: Book, runs: Iterable[Run]) -> list[Interruption]:
    """The parts of runs that fall into the services of customers."""
    blocks = blocks_by_section(book)
    found = []
    for run in runs:
        for block in blocks.get(run.section, ()):
            since, until = max(run.since, block.since), min(run.until, block.until)
            if since < until:
                found.append(Interruption(block, since, until, run.cutter.cause if run.cutter else 0, run.cutter))
    return sorted(found, key=order)


def counts_of(interruptions: Iterable[Interruption]) -> Counts:
    """The counts over the interruptions that this walk has found."""
    counts, numbers = Counts(), Counter[Block]()
    for each in interruptions:
        counts.add(each)
        numbers[each.block] += each.is_sustained
    for block, number in numbers.items():
        for n in range(min(10, number)):
            counts.with_some[n] += block.customers
    return counts
