"""The book that the rows of exports would make, and what it would count, by one plain sweep.

It is an estimate: no program has seen the rows, and rows that can't be taken are missing.
"""

from bisect import bisect_right
from collections import defaultdict
from collections.abc import Iterable
from dataclasses import dataclass, field, replace
from datetime import datetime
from functools import cached_property

from outage_tools.counts import Counts
from outage_tools.feeding import Feeding
from outage_tools.interruptions import Interruption, blocks_by_section
from outage_tools.normal_state import SOURCE
from outage_tools.oms.known import Known, Service
from outage_tools.oms.steps import Step
from outage_tools.rows import GRID, Block, Book, Device, Entry, Period, Section
from outage_tools.supply import Run, counts_of, interruptions_of, sweep


def second_of(text: str) -> int | None:
    """The second of a moment as rows of commands write it, with its offset; None where the field is empty."""
    return int(datetime.fromisoformat(text).timestamp()) if text else None


@dataclass
class Drafting:
    """What the book has and the rows so far."""

    known: Known
    period: Period
    nodes: dict[str, int] = field(default_factory=lambda: {SOURCE: GRID})
    sections: dict[int, Section] = field(default_factory=dict)
    devices: dict[str, Device] = field(default_factory=dict)
    entries: list[Entry] = field(default_factory=list)
    customers: dict[int, Service] = field(default_factory=dict)
    entry_of: dict[str, int] = field(default_factory=dict)  # of each reference

    def __post_init__(self) -> None:
        book = self.known.book
        self.customers = dict(self.known.customers)
        self.entry_of = {ref: entry for ref, entry in self.known.refs.items() if entry}
        if book is not None:
            self.nodes = {name: number for number, name in book.nodes.items()}
            self.sections = dict(book.sections)
            self.devices = {device.name: device for device in book.devices}
            self.entries = list(book.entries)

    def take(self, row: list[str]) -> None:
        """A row of commands. One that names what a refused row would have made is left out."""
        kind, ref, *fields = row
        if kind in ("bus", "section"):
            number = self.nodes.setdefault(fields[0], len(self.nodes))
            if kind == "section":
                self.sections[number] = Section(number, fields[0], int(fields[1]))
        elif kind == "connect" and fields[1] in self.nodes:
            self.customers[int(fields[0])] = Service(fields[1], second_of(fields[2]) or 0, second_of(fields[3]))
        elif kind == "revise":
            before = self.customers[int(fields[0])]
            self.customers[int(fields[0])] = Service(before.section, second_of(fields[1]) or 0, second_of(fields[2]))
        elif kind in ("device", "life"):
            self.take_device(kind, fields)
        else:
            self.take_switching(kind, ref, fields)

    def take_device(self, kind: str, fields: list[str]) -> None:
        name, *rest = fields
        if kind == "life":
            life = second_of(rest[0]) or 0, second_of(rest[1])
            self.devices[name] = replace(self.devices[name], since=life[0], until=life[1])
        elif rest[0] in self.nodes and rest[1] in self.nodes:
            ends, life = (self.nodes[rest[0]], self.nodes[rest[1]]), (second_of(rest[3]) or 0, second_of(rest[4]))
            self.devices[name] = Device(len(self.devices), name, *ends, rest[2] == "closed", *life)

    def take_switching(self, kind: str, ref: str, fields: list[str]) -> None:
        if kind == "switch" and fields[0] in self.devices:
            number = len(self.entries) + 1
            self.entry_of[ref] = number
            device, second = self.devices[fields[0]].number, second_of(fields[2]) or 0
            self.entries.append(
                Entry(number, 1, device, fields[1] == "close", second, int(fields[3]), fields[4], is_kept=True)
            )
        elif kind == "correct":
            before = self.entries[int(fields[0]) - 1]
            self.entries[before.number - 1] = replace(
                before, closes=fields[2] == "close", second=second_of(fields[3]) or 0, cause=int(fields[4])
            )
        elif kind == "withdraw":
            self.entries[int(fields[0]) - 1] = replace(self.entries[int(fields[0]) - 1], is_kept=False)

    def draft(self, steps: Iterable[Step]) -> "Draft":
        """The book, with the steps of the rows that made its entries."""
        book = Book(
            period=self.period,
            causes={},
            nodes={number: name for name, number in self.nodes.items()},
            sections=self.sections,
            devices=tuple(self.devices.values()),
            blocks=tuple(blocks_of(self.customers, self.nodes, self.period)),
            entries=tuple(self.entries),
            marks={},
            postings={},
        )
        return Draft(book, self.customers, tuple(steps), self.entry_of)


def blocks_of(customers: dict[int, Service], nodes: dict[str, int], period: Period) -> list[Block]:
    """The customers in service in the period, those of a section whose service is equal as one."""
    counts: dict[tuple[int, int, int], int] = defaultdict(int)
    for service in customers.values():
        since = max(service.since, period.first)
        until = period.end if service.until is None else min(service.until, period.end)
        if since < until:
            counts[nodes[service.section], since, until] += 1
    return [Block(*key, count) for key, count in sorted(counts.items())]


def total_of(interruptions: Iterable[Interruption]) -> int:
    return sum(each.customer_seconds for each in interruptions)


@dataclass(frozen=True)
class Draft:
    """A book as the rows would make it, its customers by their numbers, and the steps of the rows."""

    book: Book
    customers: dict[int, Service]
    steps: tuple[Step, ...]
    entry_of: dict[str, int]
    found_behind: dict[tuple[str, int], frozenset[int]] = field(default_factory=dict)

    @property
    def period(self) -> Period:
        return self.book.period

    @cached_property
    def runs(self) -> list[Run]:
        return sweep(self.book)

    @cached_property
    def interruptions(self) -> list[Interruption]:
        return interruptions_of(self.book, self.runs)

    @cached_property
    def total(self) -> int:
        """W, in customer-seconds."""
        return total_of(self.interruptions)

    @cached_property
    def counts(self) -> Counts:
        return counts_of(self.interruptions)

    @cached_property
    def of_cutter(self) -> dict[int, list[Interruption]]:
        """The interruptions by the entry that cut their section off."""
        found: dict[int, list[Interruption]] = defaultdict(list)
        for each in self.interruptions:
            if each.cutter is not None:
                found[each.cutter.number].append(each)
        return found

    @cached_property
    def runs_of(self) -> dict[int, list[Run]]:
        """The runs of each section, in their order."""
        found: dict[int, list[Run]] = defaultdict(list)
        for run in self.runs:
            found[run.section].append(run)
        return found

    @cached_property
    def blocks_in(self) -> dict[int, list[Block]]:
        return blocks_by_section(self.book)

    @cached_property
    def ticket_of_entry(self) -> dict[int, str]:
        """The ticket of each entry that a step of the rows has made."""
        return {number: step.ticket for step in self.steps for number in self.entries_of(step)}

    @cached_property
    def back_of(self) -> dict[int, int]:
        """The second at which a device comes back to its normal position, by the entry with which it left it."""
        found, left = dict[int, int](), dict[int, int]()
        for entry in sorted(self.book.entries, key=lambda entry: (entry.second, entry.number)):
            if entry.is_kept and entry.closes != self.book.devices[entry.device].is_closed:
                left.setdefault(entry.device, entry.number)
            elif entry.is_kept and entry.device in left:
                found[left.pop(entry.device)] = entry.second
        return found

    def back(self, step: Step) -> int | None:
        """When a step's device comes back, also where another row tells it; None where it doesn't."""
        leaving = self.entry_of.get(step.ref_of(leaves=True))
        return step.back if step.back is not None or leaving is None else self.back_of.get(leaving)

    def entries_of(self, step: Step) -> list[int]:
        """The entries that a step has made: its leaving, its coming back."""
        refs = (step.ref_of(leaves) for leaves in (True, False))
        return [self.entry_of[ref] for ref in refs if ref in self.entry_of]

    def cut_by(self, step: Step) -> list[Interruption]:
        """The interruptions that the entries of a step have begun."""
        return [each for number in self.entries_of(step) for each in self.of_cutter.get(number, ())]

    def seconds_of(self, steps: Iterable[Step]) -> int:
        """The customer-seconds of the interruptions that some steps have begun, each once."""
        numbers = {number for step in steps for number in self.entries_of(step)}
        return sum(total_of(self.of_cutter.get(number, ())) for number in numbers)

    def customers_in(self, sections: Iterable[int], second: int) -> int:
        """The customers of some sections who are in service at a second."""
        blocks = (block for section in sections for block in self.blocks_in.get(section, ()))
        return sum(block.customers for block in blocks if block.since <= second < block.until)

    def served_in(self, sections: Iterable[int], since: int, until: int) -> int:
        """The customer-seconds in service of some sections."""
        return sum(block.seconds(since, until) for section in sections for block in self.blocks_in.get(section, ()))

    def out_at(self, section: int, second: int) -> Run | None:
        """The run in which a section is without supply at a second."""
        runs = self.runs_of.get(section, [])
        place = bisect_right(runs, second, key=lambda run: run.since) - 1
        return runs[place] if place >= 0 and second < runs[place].until else None

    def out_in(self, sections: Iterable[int], since: int, until: int) -> int:
        """The customer-seconds without supply of some sections in an interval."""
        runs = (run for section in sections for run in self.runs_of.get(section, ()))
        return sum(self.served_in((run.section,), max(since, run.since), min(until, run.until)) for run in runs)

    def behind(self, device: str, second: int) -> frozenset[int]:
        """The sections that a device feeds with all devices in their normal positions, as of a second."""
        key = device, bisect_right(self.feeding.moments, second)
        if key not in self.found_behind:
            self.found_behind[key] = self.feeding.behind(self.devices[device], second)
        return self.found_behind[key]

    @cached_property
    def feeding(self) -> Feeding:
        return Feeding(self.book)

    @cached_property
    def devices(self) -> dict[str, int]:
        """The number of each device."""
        return {device.name: device.number for device in self.book.devices}
