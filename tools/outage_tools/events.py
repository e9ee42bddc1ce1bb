"""Interruptions by event: a ticket of an outage management system as one, by a rule on the references of its switchings."""

import argparse
import re
from collections import defaultdict
from collections.abc import Iterable
from dataclasses import dataclass, field
from fractions import Fraction

from outage_tools.compare import Checked
from outage_tools.counts import Counts, quotient
from outage_tools.forms import Figures, Value
from outage_tools.interruptions import Interruption
from outage_tools.outages import references
from outage_tools.rates import both, quotient_columns
from outage_tools.rows import Book, Entry

Rule = re.Pattern[str]

DEFAULT_RULE: Rule = re.compile(r"OMS-(?P<ticket>.+)-(?P<step>[^-]+)-[OC]")
NO_SWITCHING = "(no switching)"


def read_rule(text: str) -> Rule:
    """A rule of the command line: a regular expression that a whole reference fits, with a group named `ticket`."""
    try:
        rule = re.compile(text)
    except re.error as error:
        raise argparse.ArgumentTypeError(f"{text!r} is no regular expression: {error}") from None
    if "ticket" not in rule.groupindex:
        raise argparse.ArgumentTypeError(f"{text!r} has no group (?P<ticket>..)")
    return rule


@dataclass
class Event:
    """A ticket: its switchings that count, and the interruptions that they began. `fits` tells that the rule named it."""

    name: str
    fits: bool
    entries: list[Entry] = field(default_factory=list)
    steps: set[str] = field(default_factory=set)
    interruptions: list[Interruption] = field(default_factory=list)

    @property
    def first(self) -> int:
        """The first second at which a customer was without supply."""
        return min(each.since for each in self.interruptions)

    @property
    def last(self) -> int:
        """The second at which the last customer was supplied again, or its service or the period ended."""
        return max(each.until for each in self.interruptions)

    @property
    def counts(self) -> Counts:
        counts = Counts()
        for each in self.interruptions:
            counts.add(each)
        return counts

    @property
    def customer_seconds(self) -> int:
        return sum(each.customer_seconds for each in self.interruptions)

    @property
    def minutes(self) -> Fraction | None:
        """Customer-minutes without supply."""
        return quotient(self.customer_seconds, 60)

    def causes(self, book: Book) -> str:
        """The causes, in the order in which they come."""
        return "; ".join(dict.fromkeys(book.causes.get(each.cause, "") for each in self.interruptions))

    def feeders(self, book: Book) -> list[int]:
        """The home feeders of the customers."""
        return sorted({book.sections[each.section].feeder for each in self.interruptions})

    def marked(self, book: Book) -> str:
        """`yes` where all of it begins on marked days, `partly` where some does."""
        marks = {book.is_marked(each.since) for each in self.interruptions}
        return "partly" if len(marks) == 2 else "yes" if marks == {True} else ""

    @property
    def customers(self) -> int:
        """The customers who were interrupted, each counted once: a customer is in one block."""
        return sum(block.customers for block in {each.block for each in self.interruptions})


def rank(event: Event) -> tuple[int, int, str]:
    """By the most customer-seconds, then by the first second."""
    return -event.customer_seconds, event.first, event.name


def events_of(found: Checked, rule: Rule = DEFAULT_RULE) -> list[Event]:
    """All interruptions by event, the one with the most customer-seconds first.

    A reference that the rule doesn't fit is an event of its own; what no switching began is one together.
    """
    refs = references(found)
    by_name: dict[tuple[str, bool], Event] = {}

    def event_of(entry: Entry | None) -> Event:
        ref = refs[entry.number] if entry else NO_SWITCHING
        match = rule.fullmatch(ref) if entry else None
        name, fits = (match["ticket"] or "", True) if match else (ref, False)
        event = by_name.setdefault((name, fits), Event(name, fits))
        if entry:
            event.steps.add(match["step"] or "" if match and "step" in rule.groupindex else ref)
        return event

    for entry in found.book.entries:
        if entry.is_kept:
            event_of(entry).entries.append(entry)
    for each in found.interruptions:
        event_of(each.cutter).interruptions.append(each)
    return sorted((event for event in by_name.values() if event.interruptions), key=rank)


EVENT_COLUMNS = {
    "event": "the ticket, or the reference of a switching that the rule doesn't fit",
    "by_rule": "yes where the rule named it",
    "first": "the first second at which a customer was without supply",
    "last": "when the last one was supplied again, or its service or the period ended",
    "steps": "steps of the ticket, or its switchings where the rule has no group `step`",
    "switchings": "its switchings that count, withdrawn ones left out",
    "customers": "customers who were interrupted, each counted once",
    "sustained": "CI: customers' interruptions of more than 300 seconds",
    "momentary": "MI: customers' interruptions of at most 300 seconds",
    "customer_seconds": "customer-seconds without supply",
    **quotient_columns("customer_minutes", "the same in minutes"),
    "feeders": "the home feeders of its customers",
    "causes": "the causes of its interruptions",
    "marked": "yes where all of it begins on marked days, partly where some does",
}


def events(found: Checked, rule: Rule = DEFAULT_RULE) -> Figures:
    """A row for each event that left a customer without supply."""
    all_events = events_of(found, rule)
    about = [
        f"By the references of the switchings that cut off, ticket and step by the rule {rule.pattern}",
        "An interruption belongs to the event that began it; the events' customer-seconds add up to W.",
        *told_unfit(all_events),
    ]
    return Figures("events", about, EVENT_COLUMNS, [event_values(found.book, event) for event in all_events])


def told_unfit(all_events: Iterable[Event]) -> list[str]:
    """How many events the rule didn't name."""
    unfit = sum(not event.fits and event.name != NO_SWITCHING for event in all_events)
    return [f"{unfit} references that the rule doesn't fit, each an event of its own."] if unfit else []


def event_values(book: Book, event: Event) -> list[Value]:
    """The values of EVENT_COLUMNS."""
    zone, counts = book.period.zone, event.counts
    return [
        event.name,
        "yes" if event.fits else "",
        zone.text_of(event.first),
        zone.text_of(event.last),
        len(event.steps),
        len(event.entries),
        event.customers,
        counts.sustained,
        counts.momentary,
        event.customer_seconds,
        *both(event.minutes),
        " ".join(map(str, event.feeders(book))),
        event.causes(book),
        event.marked(book),
    ]
