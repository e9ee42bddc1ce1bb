"""From where on something is implausible, and the options that say it."""

import argparse
import re
from dataclasses import dataclass, fields
from fractions import Fraction

from outage_tools.cli import read_date

HOUR, MINUTE = 3_600, 60


@dataclass(frozen=True)
class Limits:
    """Hours and minutes are in seconds here, shares are parts of one."""

    rows: int = 10
    long: int = 24 * HOUR
    no_length: int = 1
    apart: int = 4 * HOUR
    nobody: int = 1
    tie_closed: int = 24 * HOUR
    touching: int = MINUTE
    quiet: int = 7
    low_month: Fraction = Fraction(1, 4)
    empty: Fraction = Fraction(5, 100)
    services: Fraction = Fraction(3, 100)
    grown: Fraction = Fraction(2, 100)
    whole_minutes: Fraction = Fraction(1)


def share(text: str) -> Fraction:
    """A share on the command line, in per cent."""
    match = re.fullmatch("([0-9]{1,6}(?:\\.[0-9]{1,6})?) ?%", text)
    if match is None:
        raise argparse.ArgumentTypeError(f"{text!r} is no share such as 1% or 0.5%")
    return Fraction(match.group(1)) / 100


def count(text: str) -> int:
    if not re.fullmatch("[0-9]{1,9}", text):
        raise argparse.ArgumentTypeError(f"{text!r} isn't a number from 0 on")
    return int(text)


def hours(text: str) -> int:
    return HOUR * count(text)


def minutes(text: str) -> int:
    return MINUTE * count(text)


OPTIONS = (
    ("rows", "N", count, "show so many of the rows with most customer-minutes (10)"),
    ("long", "HOURS", hours, "steps that last longer (24)"),
    ("no-length", "N", count, "steps that end in the second in which they begin, from so many on (1)"),
    ("apart", "HOURS", hours, "steps of one ticket that begin so long after the one before (4)"),
    ("nobody", "N", count, "steps that cut nobody off, from so many on (1)"),
    ("tie-closed", "HOURS", hours, "a device that is open normally stays closed for longer (24)"),
    (
        "touching",
        "MINUTES",
        minutes,
        "tickets of one device, the later begins within so long after the other's end (1)",
    ),
    ("quiet", "DAYS", count, "more days without a ticket at the end, if there were never as many before (7)"),
    ("low-month", "SHARE", share, "months with fewer tickets a day than this part of the others (25%%)"),
    ("empty", "SHARE", share, "more of the last sections of feeders have no customer (5%%)"),
    ("services", "SHARE", share, "more services begin, or end, within the period (3%%)"),
    ("grown", "SHARE", share, "the number of customers differs by more from that of the last book (2%%)"),
    ("whole-minutes", "SHARE", share, "so many of the times, or more, are at whole minutes (100%%)"),
)


def add_fail_argument(parser: argparse._ActionsContainer, text: str) -> None:
    parser.add_argument("--fail-above", metavar="SHARE", type=share, help=text)


def add_limit_arguments(parser: argparse.ArgumentParser) -> None:
    """The words that say what is implausible."""
    group = parser.add_argument_group("what is implausible", "with what is meant if the option is left out")
    for name, unit, read, text in OPTIONS:
        group.add_argument(f"--{name}", metavar=unit, type=read, help=text)
    group.add_argument(
        "--exported",
        metavar="DATE",
        type=read_date,
        help="the day of the exports: no ticket is missed after it (today)",
    )
    group.add_argument("--last", metavar="BOOK", help="the book of the period before, to compare customers and devices")
    add_fail_argument(group, "end with status 3 if something implausible has a greater share, as 5%%")


def limits_of(args: argparse.Namespace) -> Limits:
    """The limits of the words, or of a run that has no such words."""
    told = {each.name: getattr(args, each.name, None) for each in fields(Limits)}
    return Limits(**{name: value for name, value in told.items() if value is not None})
