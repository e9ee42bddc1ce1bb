"""Commands of the outages: what the book doesn't have yet, corrections, and withdrawals."""

from collections.abc import Iterable, Iterator
from dataclasses import dataclass, field

from outage_tools.oms.complaints import BadRow, Notes
from outage_tools.oms.conversion import Conversion
from outage_tools.oms.fields import moment_text
from outage_tools.oms.files import Row
from outage_tools.oms.network import Network
from outage_tools.oms.positions import Event, Key, check_positions, events_of, stretches_of
from outage_tools.oms.steps import Step, StepReader, act_of
from outage_tools.order import Does, Timed, returns_first
from outage_tools.rows import Entry, Period

COLUMNS = (
    "ticket",
    "step",
    "device",
    "out",
    "out_hour",
    "restored",
    "restored_hour",
    "cause",
    "crew",
    "zone",
    "status",
)
REQUIRED = ("ticket", "device", "out", "restored", "cause")
COUNTS = ("ticket", "customers", "customer_minutes", "status")  # the system's own, which outagebook-agree reads
MOST_ENTRIES = 50_000
OUTSIDE_LIFE = "steps with a switching outside of the life of their device"
CARRIED = "steps that began before the period, and whose beginning the book has by another reference"

Placed = tuple[Key, Timed]  # a row, and its place in the order of time


@dataclass
class Outages:
    """What the rows of the outage management system are turned into commands with."""

    conversion: Conversion
    network: Network
    reader: StepReader
    joins: bool
    notes: Notes
    rows: dict[str, int] = field(default_factory=dict)  # of each step's reference
    read: list[Step] = field(default_factory=list)

    def commands(self, rows: Iterable[Row]) -> Iterator[list[str]]:
        """The commands of all rows, returns first (order.py); those of one second in the order of the file."""
        self.read = steps = list(self.steps(rows))
        period = self.conversion.period
        if period is None:
            return
        events = list(self.events(steps, period))
        others = self.other_entries(steps, {event.device for event in events})
        self.compare(events)
        events = [event for event in events if not self.is_carried(event, period, others)]
        normal = {name: is_closed for name, (_, is_closed) in self.network.devices.items()}
        check_positions([*events, *others], normal, self.conversion.complaints)
        placed = [*self.switchings(events), *self.withdrawals(steps, events)]
        yield from returns_first(row for _, row in sorted(placed, key=lambda pair: pair[0]))

    def steps(self, rows: Iterable[Row]) -> Iterator[Step]:
        for row in rows:
            with self.conversion.complaints.about(row):
                step = self.reader.read(row, self.notes)
                first = self.rows.setdefault(step.ref, row.number)
                if first != row.number:
                    raise BadRow(
                        f"ticket {step.ticket} has two rows of step {step.step}, or one with its reference: row {first}"
                    )
                yield step

    def events(self, steps: list[Step], period: Period) -> Iterator[Event]:
        """The switchings that the period holds."""
        told = (step for step in steps if step.leave is not None or step.back is not None)
        for stretch in stretches_of(told, self.joins, self.notes):
            for event in events_of(stretch, period, self.notes):
                if event.step is not None and not self.network.is_alive(event.device, event.second):
                    self.notes.noticed(OUTSIDE_LIFE, event.step)
                yield event

    def other_entries(self, steps: list[Step], devices: set[str]) -> list[Event]:
        """The kept entries of these devices that the book has, and no step of the rows."""
        known = self.conversion.known
        if known.book is None:
            return []
        ours = {known.refs.get(step.ref_of(leaves)) for step in steps for leaves in (True, False)}
        found = []
        for entry in known.book.entries:
            device = known.book.devices[entry.device]
            if entry.is_kept and entry.number not in ours and device.name in devices:
                key = (entry.second, entry.second, entry.number, 0)
                leaves = entry.closes != device.is_closed
                found.append(Event(device.name, leaves, entry.second, None, None, key, entry, is_news=False))
        return found

    def compare(self, events: list[Event]) -> None:
        """Finds the book's entry of each switching, and whether it says something else."""
        for event in events:
            if event.step is None:
                continue
            with self.conversion.complaints.about(event.step):
                ref = event.step.ref_of(event.leaves)
                event.entry = self.conversion.known.entry_of(ref)
                if event.entry is not None:
                    event.is_news = self.is_changed(event, event.step, event.entry)
                elif ref in self.conversion.known.refs:
                    raise BadRow(f"the reference {ref} belongs to a command that isn't a switching")

    def is_changed(self, event: Event, step: Step, entry: Entry) -> bool:
        """The book's entry says something else; what no correction can say is refused."""
        device = self.conversion.known.device_of(entry)
        if device != event.device:
            raise BadRow(
                f"entry {entry.number} switched {device}, and a device can't be corrected: cancel this step and"
                f" give {event.device} another one"
            )
        if not entry.is_kept:
            raise BadRow(f"entry {entry.number} was withdrawn: give the switching another step")
        said = "close" if entry.closes else "open", entry.second, entry.cause, entry.crew
        return said != (act_of(step.is_closed, event.leaves), event.second, step.cause, step.crew)

    def is_carried(self, event: Event, period: Period, others: list[Event]) -> bool:
        """It began before the period, and an entry of the first second under another reference says so."""
        stretch, step = event.stretch, event.step
        if event.entry is not None or not event.leaves or stretch is None or step is None:
            return False
        if stretch.leave is None or stretch.leave >= period.first:
            return False
        is_there = any(
            other.device == event.device and other.leaves and other.second == period.first for other in others
        )
        if is_there:
            self.notes.noticed(CARRIED, step)
        return is_there

    def switchings(self, events: list[Event]) -> Iterator[Placed]:
        """A switching that is new, or the correction of one that is another now."""
        book = self.conversion.known.book
        entries = len(book.entries) if book else 0
        for event in sorted((event for event in events if event.is_news), key=lambda event: event.key):
            if event.step is None:
                continue
            entries += event.entry is None
            with self.conversion.complaints.about(event.step):
                if entries > MOST_ENTRIES and event.entry is None:
                    raise BadRow(f"a book has at most {MOST_ENTRIES} entries, withdrawn ones among them")
                command = self.switching(event, event.step)
                yield event.key, Timed(event.second, does_of(event), command)

    def switching(self, event: Event, step: Step) -> list[str]:
        ref, entry = step.ref_of(event.leaves), event.entry
        act = act_of(step.is_closed, event.leaves)
        fields = act, moment_text(event.second, step.zone), step.cause, step.crew
        if entry is None:
            return self.conversion.command(self.notes, "switch", ref, event.device, *fields)
        unused = self.conversion.known.unused(f"{ref}-R{entry.revision + 1}")
        return self.conversion.command(self.notes, "correct", unused, entry.number, entry.revision, *fields)

    def withdrawals(self, steps: list[Step], events: list[Event]) -> Iterator[Placed]:
        """What the book has of a step, and the step tells no more."""
        told = {event.step.ref_of(event.leaves) for event in events if event.step is not None}
        known = self.conversion.known
        for step in steps:
            for place, end in enumerate(("O", "C")):
                ref = f"{step.ref}-{end}"
                entry = known.entry_of(ref)
                if entry is not None and entry.is_kept and ref not in told:
                    with self.conversion.complaints.about(step):
                        fields = known.unused(f"{ref}-W"), entry.number, entry.revision
                        command = self.conversion.command(self.notes, "withdraw", *fields)
                        key = entry.second, entry.second, step.number, place
                        yield key, Timed(entry.second, Does.OTHER, command)


def does_of(event: Event) -> Does:
    """What the row of a switching does; a correction makes no new entry."""
    if event.entry is not None:
        return Does.OTHER
    return Does.DEPARTURE if event.leaves else Does.RETURN
