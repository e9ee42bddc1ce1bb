"""What a book holds, and how its tables are read.

Seconds are Unix seconds, intervals end before their `until`, and customer-seconds are whole numbers. A device is open
outside its life.
"""

import sqlite3
from bisect import bisect_right
from collections.abc import Iterator
from dataclasses import dataclass
from datetime import date, timedelta

from outage_tools.errors import BookError
from outage_tools.zone import Zone

VERSION = 2  # of the tables
CAUSE, FEEDER, DAY = 1, 2, 3  # the dimensions of `posting` and `moved`
GRID = 0

Postings = dict[tuple[int, int], int]  # customer-seconds by dimension and key


@dataclass(frozen=True)
class Period:
    """Whole civil days of a zone. `bounds` are the seconds at which they begin; the last one is the end."""

    zone: Zone
    days: tuple[date, ...]
    bounds: tuple[int, ...]

    @property
    def first(self) -> int:
        return self.bounds[0]

    @property
    def end(self) -> int:
        return self.bounds[-1]

    @property
    def length(self) -> int:
        """P, in seconds."""
        return self.end - self.first

    def day_of(self, second: int) -> int:
        """The number, from 0, of the day that holds a second."""
        return bisect_right(self.bounds, second) - 1

    def parts(self, since: int, until: int) -> Iterator[tuple[int, int]]:
        """The days that an interval touches, each with its seconds in it."""
        while since < until:
            day = self.day_of(since)
            end = min(until, self.bounds[day + 1])
            yield day, end - since
            since = end


@dataclass(frozen=True)
class Section:
    node: int
    name: str
    feeder: int


@dataclass(frozen=True)
class Device:
    """A switching device, its normal position, and its life: outside `since` to `until` (None: no end) it is open."""

    number: int
    name: str
    a: int
    b: int
    is_closed: bool
    since: int = 0
    until: int | None = None

    def is_alive(self, second: int) -> bool:
        return self.since <= second and (self.until is None or second < self.until)


@dataclass(frozen=True)
class Entry:
    """A line of the switching sheet: from its second on the device is closed, or open."""

    number: int
    revision: int
    device: int
    closes: bool
    second: int
    cause: int
    crew: str
    is_kept: bool


@dataclass(frozen=True)
class Block:
    """The customers of a section whose service, within the period, is the same."""

    section: int
    since: int
    until: int
    customers: int

    def seconds(self, since: int, until: int) -> int:
        """Customer-seconds in service from `since` up to `until`."""
        return self.customers * max(0, min(self.until, until) - max(self.since, since))


@dataclass(frozen=True)
class Book:
    period: Period
    causes: dict[int, str]
    nodes: dict[int, str]
    sections: dict[int, Section]
    devices: tuple[Device, ...]
    blocks: tuple[Block, ...]
    entries: tuple[Entry, ...]
    marks: dict[int, str]
    postings: Postings

    def served_seconds(self) -> int:
        """S: the customer-seconds in service in the period."""
        return sum(block.seconds(self.period.first, self.period.end) for block in self.blocks)

    def is_marked(self, second: int) -> bool:
        """The day that holds a second is marked."""
        return self.period.day_of(second) in self.marks


def period_of(day0: str, days: int, zone_text: str) -> Period:
    try:
        first, zone = date.fromisoformat(day0), Zone(zone_text)
    except (ValueError, OverflowError) as error:
        raise BookError(f"the period can't be read: {error}") from None
    dates = tuple(first + timedelta(days=number) for number in range(days + 1))
    return Period(zone, dates[:-1], tuple(zone.midnight(day) for day in dates))


def read_book(database: sqlite3.Connection) -> Book:
    """All that a book says, but its commands and what they moved."""
    select = database.execute
    headings = select("SELECT version, day0, days, zone FROM meta").fetchall()
    if len(headings) != 1 or headings[0][0] != VERSION:
        raise BookError(f"the tables are of no version that is known here: {headings}")
    period = period_of(*headings[0][1:])
    nodes = select("SELECT id, name, kind, feeder FROM node ORDER BY id").fetchall()
    entries = select("SELECT id, rev, device, pos, second, cause, crew, kept FROM entry ORDER BY id")
    return Book(
        period=period,
        causes=dict(select("SELECT code, name FROM cause ORDER BY code")),
        nodes={node: name for node, name, _, _ in nodes},
        sections={node: Section(node, name, feeder) for node, name, kind, feeder in nodes if kind == 2},
        devices=tuple(read_devices(database)),
        blocks=tuple(read_blocks(database, period)),
        entries=tuple(
            Entry(n, rev, d, pos == 1, s, c, crew, kept == 1) for n, rev, d, pos, s, c, crew, kept in entries
        ),
        marks=dict(select("SELECT day, engineer FROM mark ORDER BY day")),
        postings={(dim, key): amount for dim, key, amount in select("SELECT dim, k, amount FROM posting")},
    )


def read_devices(database: sqlite3.Connection) -> Iterator[Device]:
    rows = database.execute("SELECT id, name, a, b, normal FROM device ORDER BY id").fetchall()
    lives = {device: life for device, *life in database.execute("SELECT device, since, until FROM life")}
    if lives.keys() != {row[0] for row in rows}:
        raise BookError("the table life hasn't one row for each device")
    for number, name, a, b, normal in rows:
        yield Device(number, name, a, b, normal == 1, *lives[number])


def read_blocks(database: sqlite3.Connection, period: Period) -> Iterator[Block]:
    """The customers that are in service in the period, by section and by their service within it."""
    rows = database.execute(
        "SELECT section, max(since, :first) AS since, min(ifnull(until, :end), :end) AS until, count(*) FROM customer"
        " GROUP BY 1, 2, 3 HAVING max(since, :first) < min(ifnull(until, :end), :end) ORDER BY 1, 2, 3",
        {"first": period.first, "end": period.end},
    )
    return (Block(*row) for row in rows)
