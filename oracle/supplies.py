"""Which sections are without supply at a second, since when and why, and how the devices stand then."""

import re
from collections.abc import Sequence
from dataclasses import dataclass

from model import Book


@dataclass(frozen=True)
class Unsupplied:
    """A section without supply, with its outage interval of the second and its customers that are in service then."""

    section: str
    since: int
    until: int
    entry: int | None  # that cut it off
    cause: int
    customers: int


@dataclass(frozen=True)
class Standing:
    """How a device stands: the position that the kept entries up to the second give it, and whether it is in service."""

    device: str
    position: str
    alive: bool


@dataclass(frozen=True)
class Supply:
    """The supply at a second: sections in the network's order, devices in the order in which they were added."""

    devices: Sequence[Standing]
    second: int
    sections: Sequence[Unsupplied]


def supply_of(book: Book, text: str) -> Supply | None:
    """The supply at the second of a text, None where it is no 1 to 11 digits, or no second of the period."""
    if re.fullmatch("[0-9]{1,11}", text) is None or not book.period.holds(int(text)):
        return None
    second = int(text)
    return Supply(standings_at(book, second), second, unsupplied_at(book, second))


def standings_at(book: Book, second: int) -> list[Standing]:
    """How each device stands. The entries of one second act in the order of their numbers."""
    positions = {device.name: device.normal for device in book.devices.values()}
    for entry in sorted(book.entries, key=lambda entry: entry.second):
        if entry.is_kept and entry.second <= second:
            positions[entry.device] = entry.position
    return [Standing(name, positions[name], device.is_alive(second)) for name, device in book.devices.items()]


def unsupplied_at(book: Book, second: int) -> list[Unsupplied]:
    """The sections without supply, those without customers too."""
    runs = {run.section: run for run in book.runs() if run.since <= second < run.until}
    return [
        Unsupplied(section, run.since, run.until, run.cutter, book.cause_of(run), customers_at(book, section, second))
        for section, run in ((node, runs[node]) for node in book.feeders if node in runs)
    ]


def customers_at(book: Book, section: str, second: int) -> int:
    """How many customers of a section are in service at a second."""
    services = [(since, until) for other, since, until in book.customers.values() if other == section]
    return sum(since <= second and (until == "-" or second < until) for since, until in services)
