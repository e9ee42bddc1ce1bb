"""The interruptions of a book's customers as CSV: each once for all customers of a section who have equal service."""

from collections import Counter
from collections.abc import Iterator
from dataclasses import dataclass
from datetime import datetime, timedelta

from model import Book
from state import End

COLUMNS = "section,feeder,customers,service_since,service_until,since,until,cause,entry,marked"


@dataclass(frozen=True)
class Interruption:
    """A longest interval in which customers are in service and without supply, with how many had it."""

    section: str
    feeder: int | None
    customers: int
    service: tuple[int, End]
    since: int
    until: int
    cause: str  # by name: that of the entry that cut the section off, or UNASSIGNED where none did
    entry: int | None
    is_marked: bool  # it begins on a marked day


def interruptions_of(book: Book) -> list[Interruption]:
    """By section in the network's order, then by service, one without an end before those with one, then by time."""
    customers = Counter(book.customers.values())
    found_by = dict(zip(book.customers.values(), book.interruptions()))
    places = {section: place for place, section in enumerate(book.feeders)}

    def place_of(service: tuple[str, int, End]) -> tuple[int, int, int]:
        section, since, until = service
        return places[section], since, -1 if until == "-" else until

    return [
        Interruption(
            section=service[0],
            feeder=book.feeders[service[0]],
            customers=customers[service],
            service=service[1:],
            since=begin,
            until=end,
            cause=book.causes[book.cause_of(run)],
            entry=run.cutter,
            is_marked=book.period.day_of(begin) in book.marks,
        )
        for service in sorted(customers, key=place_of)
        for run, begin, end in sorted(found_by[service], key=lambda found: found[1])
    ]


def interruption_lines(book: Book) -> Iterator[str]:
    """The header, and a line of each; what there isn't is an empty field."""
    yield COLUMNS
    for each in interruptions_of(book):
        since, until = each.service
        service = [moment_text(since), "" if until == "-" else moment_text(until)]
        moments = [*service, moment_text(each.since), moment_text(each.until)]
        entry = "" if each.entry is None else each.entry
        fields = [
            each.section,
            each.feeder,
            each.customers,
            *moments,
            each.cause,
            entry,
            "yes" if each.is_marked else "",
        ]
        yield ",".join(map(str, fields))


def moment_text(second: int) -> str:
    """A second in UTC, as `2024-01-01T00:00:00Z`."""
    return f"{(datetime(1970, 1, 1) + timedelta(seconds=second)).isoformat()}Z"
