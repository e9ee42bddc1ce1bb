"""The positions of each device as rows and book tell them: it leaves its normal one, comes back, and leaves it again."""

from collections import defaultdict
from collections.abc import Iterable, Iterator
from dataclasses import dataclass, field
from itertools import groupby
from math import inf

from outage_tools.oms.complaints import Complaints, Notes
from outage_tools.oms.steps import Step, act_of
from outage_tools.rows import Entry, Period

Key = tuple[int, int, int, int]  # a place in the order in which commands are written

BEGAN_BEFORE = "steps that began before the period, which begin at its first second"
OVER_LATER = "steps that were over after the period, which stay open at its end"
NOT_OVER = "steps that aren't over"
OVERLAP = "steps that overlap, of which one outage was made"


@dataclass(slots=True, eq=False)
class Stretch:
    """The seconds in which a device isn't in its normal position: the step that tells when it left, and the one that tells when
    it came back; None where no step tells that."""

    leave: int | None
    back: int | None
    first: Step
    last: Step

    @property
    def begin(self) -> int:
        """The first second that it tells."""
        return self.leave if self.leave is not None else self.back or 0

    @property
    def end(self) -> float:
        return inf if self.back is None else self.back


@dataclass(slots=True, eq=False)
class Event:
    """A device leaves its normal position, or comes back to it.

    `step` and `stretch` are None where only the book tells it; `entry` is the book's, where it has one. `is_news` where the book
    says something else or nothing.
    """

    device: str
    leaves: bool
    second: int
    step: Step | None
    stretch: Stretch | None
    key: Key
    entry: Entry | None = None
    is_news: bool = True

    @property
    def place(self) -> tuple[int, int, int]:
        """Where it stands among those of its second: what comes back first, then what comes and goes, then what leaves."""
        stretch = self.stretch
        if stretch is None or stretch.leave is None or stretch.leave != stretch.back:
            return (2 if self.leaves else 0), self.key[2], 0
        return 1, self.key[2], 0 if self.leaves else 1

    def told(self) -> str:
        if self.step is not None:
            return self.step.told()
        return f"entry {self.entry.number} of the book" if self.entry else "the book"


# Stretches.


def stretches_of(steps: Iterable[Step], joins: bool, notes: Notes) -> Iterator[Stretch]:
    """Each step by itself, a return with the leaving before it, or those of a device that overlap as one."""
    by_device: dict[str, list[Stretch]] = defaultdict(list)
    for step in steps:
        by_device[step.device].append(Stretch(step.leave, step.back, step, step))
    for listed in by_device.values():
        stretches = list(paired(listed))
        yield from joined(stretches, notes) if joins else stretches


def paired(stretches: list[Stretch]) -> Iterator[Stretch]:
    """Of stretches of one device those whose end another step tells, the next one of the device, as one; all others as they are."""
    current: Stretch | None = None
    for stretch in sorted(stretches, key=lambda stretch: (stretch.begin, stretch.first.number)):
        if current is not None and current.back is None and stretch.leave is None:
            current.back, current.last = stretch.back, stretch.last
            continue
        if current is not None:
            yield current
        current = stretch
    if current is not None:
        yield current


def joined(stretches: list[Stretch], notes: Notes) -> Iterator[Stretch]:
    """Of stretches of one device that overlap one, from the first beginning to the last end. One whose beginning nothing tells
    stays by itself."""
    current: Stretch | None = None
    for stretch in sorted(stretches, key=lambda stretch: (stretch.begin, stretch.first.number)):
        if stretch.leave is None:
            yield stretch
        elif current is None or stretch.begin >= current.end:
            if current is not None:
                yield current
            current = stretch
        else:
            for step in (current.first, current.last, stretch.first):
                notes.changed(OVERLAP, step)
            if stretch.end > current.end:
                current.back, current.last = stretch.back, stretch.last
    if current is not None:
        yield current


def events_of(stretch: Stretch, period: Period, notes: Notes) -> Iterator[Event]:
    """The switchings of a stretch that the book's period holds. One that runs over its beginning has left at the first second; one
    that runs over its end hasn't come back. Those outside are another book's."""
    steps = [stretch.first] if stretch.first is stretch.last else [stretch.first, stretch.last]
    if stretch.begin < period.first and stretch.end <= period.first:
        for step in steps:
            notes.left_out("steps before the period", step)
    elif stretch.begin >= period.end:
        for step in steps:
            notes.left_out("steps after the period", step)
    else:
        yield from events_within(stretch, period, notes)


def events_within(stretch: Stretch, period: Period, notes: Notes) -> Iterator[Event]:
    """The switchings of a stretch that isn't outside of the period."""
    first, last, leave, back = stretch.first, stretch.last, stretch.leave, stretch.back
    if leave is not None:
        if leave < period.first:
            notes.changed(BEGAN_BEFORE, first)
        second = max(leave, period.first)
        yield Event(first.device, True, second, first, stretch, (second, leave, first.number, int(not first.is_closed)))
    if back is None:
        notes.noticed(NOT_OVER, last)
    elif back >= period.end:
        notes.changed(OVER_LATER, last)
    else:
        yield Event(last.device, False, back, last, stretch, (back, back, last.number, int(last.is_closed)))


# Whether positions alternate.


@dataclass
class DeviceCheck:
    """Takes the events of one device in the order in which they act, and complains about those that don't alternate."""

    complaints: Complaints
    is_closed: bool
    away: Event | None = None
    clashed: set[Stretch] = field(default_factory=set)

    def take(self, event: Event) -> None:
        if event.leaves:
            if self.away is not None and (event.is_news or self.away.is_news):
                self.clash(self.away, event)
            self.away = event
        elif self.away is None:
            self.take_return_alone(event)
        elif event.stretch in self.clashed and self.away.stretch is not event.stretch:
            pass  # it overlaps what stands, which was told
        else:
            if self.is_foreign_return(event, self.away):
                self.clash(self.away, event)
            self.away = None

    def take_return_alone(self, event: Event) -> None:
        """A closing without an opening; of a tie an opening without a closing."""
        if event.is_news and event.stretch not in self.clashed:
            away, act = past(act_of(self.is_closed, True)), act_of(self.is_closed, False)
            self.say(event, f"and nothing says that it was {away} before: {act} without {opposite(act)}")

    def is_foreign_return(self, event: Event, away: Event) -> bool:
        """A return without a leaving of its own, from what comes back by itself."""
        stretch = event.stretch
        has_none = stretch is not None and stretch.leave is None and event.is_news
        return has_none and away.stretch is not None and away.stretch.back is not None

    def clash(self, before: Event, event: Event) -> None:
        """Two stretches overlap: the later row is told, with the other one."""
        self.clashed |= {each.stretch for each in (before, event) if each.stretch is not None}
        where, other = (event, before) if event.step is not None else (before, event)
        if where.step is None:
            return
        act = past(act_of(self.is_closed, True))
        back = other.stretch.back if other.stretch is not None else None
        until = "and no end is recorded" if back is None else f"until {where.step.text_of(back)}"
        advice = "they overlap (--overlaps join makes one outage of them)"
        self.say(
            where, f"while by {other.told()} it is {act} from {where.step.text_of(other.second)} {until}: {advice}"
        )

    def say(self, event: Event, text: str) -> None:
        if event.step is not None:
            act = act_of(self.is_closed, event.leaves)
            moment = event.step.text_of(event.second)
            self.complaints.add(event.step, f"{event.step.name} {act}s {event.device} at {moment}, {text}")


def past(act: str) -> str:
    return "open" if act == "open" else "closed"


def opposite(act: str) -> str:
    return "an opening" if act == "close" else "a closing"


def in_order(events: list[Event]) -> list[Event]:
    """The events of one device as they should act."""
    ordered: list[Event] = []
    for _, group in groupby(sorted(events, key=lambda event: event.second), key=lambda event: event.second):
        together = list(group)
        if len(together) > 1:
            if not any(event.is_news for event in together):
                together.sort(key=lambda event: event.entry.number if event.entry else 0)
            else:
                keys = sorted(event.key for event in together)
                together.sort(key=lambda event: event.place)
                for event, key in zip(together, keys):
                    event.key = key
        ordered += together
    return ordered


def check_entries(ordered: list[Event], complaints: Complaints) -> None:
    """Entries of one second act by their numbers: a new one can't act before one that the book has."""
    for before, event in zip(ordered, ordered[1:]):
        if before.second != event.second or event.entry is None or not (before.is_news or event.is_news):
            continue
        step = before.step or event.step
        if step is not None and (before.entry is None or before.entry.number > event.entry.number):
            complaints.add(
                step,
                f"{before.told()} and {event.told()} switch {event.device} in one second, {step.text_of(event.second)}, and entry"
                f" {event.entry.number} of the book would act first: cancel its step, and give the switching another one",
            )


def check_positions(events: Iterable[Event], normal: dict[str, bool], complaints: Complaints) -> None:
    """Each device leaves its normal position and comes back to it in turn, and the entries of the book act in that order."""
    by_device: dict[str, list[Event]] = defaultdict(list)
    for event in events:
        by_device[event.device].append(event)
    for device, listed in by_device.items():
        ordered = in_order(listed)
        check = DeviceCheck(complaints, normal[device])
        for event in ordered:
            check.take(event)
        check_entries(ordered, complaints)
