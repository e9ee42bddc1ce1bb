"""The beginning of the next period's book: a CSV to import into it.

    python3 tools/next_year.py OLD.db FIRST_SECOND [--table FILE | --program PATH] > begin.csv

FIRST_SECOND is the first second of the new book, in digits or as `2026-01-01T00:00:00+01:00`. The rows are the causes,
the network, the customers whose service goes on or begins later, and at the first second a switching for each device
that isn't in its normal position at the old book's end, with the cause and the crew of the entry that left it there. These
come in the order of those entries, so that what was cut off at the end is cut off by the same cause where one can be told.
A switching that came from a ticket of an outage management system keeps its reference, so that the ticket's next export
finds it in the new book (docs/use/IMPORTING.md).

A device whose life is over by then is left out. A customer keeps its number and the beginning of its service, so a table of keys
goes on (keys.py).
"""

import re
import sys
from collections.abc import Iterator, Mapping

from outage_tools.cli import Parser, add_table_arguments, print_error, run_job
from outage_tools.commands import read_commands, read_second, row_of, write_rows
from outage_tools.compare import Checked, open_book
from outage_tools.errors import BookError
from outage_tools.keys import refs_of_customers, told_by
from outage_tools.rows import GRID, Book, Entry

PREFIX = "OMS-"


def last_entries(book: Book) -> list[Entry]:
    """The last kept entry of each device that has one, in the order in which they act."""
    last: dict[int, Entry] = {}
    for entry in sorted(
        (entry for entry in book.entries if entry.is_kept), key=lambda entry: (entry.second, entry.number)
    ):
        last[entry.device] = entry
    return sorted(last.values(), key=lambda entry: (entry.second, entry.number))


def network_rows(book: Book, first: int) -> Iterator[list[str]]:
    """Buses, sections and devices in the order of their numbers, devices with their lives where the book has lives."""
    for number, name in book.nodes.items():
        if number in book.sections:
            yield row_of("section", f"NEXT-NODE-{number}", name, book.sections[number].feeder)
        elif number != GRID:
            yield row_of("bus", f"NEXT-NODE-{number}", name)
    for device in book.devices:
        if device.until is not None and device.until <= first:
            continue
        life = [device.since, device.until]
        ends = book.nodes[device.a], book.nodes[device.b]
        yield row_of(
            "device",
            f"NEXT-DEVICE-{device.number}",
            device.name,
            *ends,
            "closed" if device.is_closed else "open",
            *life,
        )


def customer_rows(found: Checked, first: int) -> Iterator[list[str]]:
    """The customers whose service isn't over at the first second; one that came by its key keeps its reference."""
    refs = refs_of_customers(found.database)
    select = "SELECT id, section, since, until FROM customer WHERE until IS NULL OR until > ? ORDER BY id"
    for number, section, since, until in found.database.execute(select, (first,)):
        ref = refs[number] if told_by(refs[number]) else f"NEXT-CUSTOMER-{number}"
        yield row_of("connect", ref, number, found.book.nodes[section], since, until)


def ticket_refs(found: Checked, prefix: str) -> dict[int, str]:
    """The references of the entries that came from tickets."""
    ticket = re.compile(f"{re.escape(prefix)}.+-[OC]")
    switches = (command for command in read_commands(found.database) if command.kind == "switch")
    return {each.entry: each.ref for each in switches if each.entry and ticket.fullmatch(each.ref)}


def switching_rows(book: Book, first: int, refs: Mapping[int, str] = {}) -> Iterator[list[str]]:
    """A switching at the first second for each device that isn't in its normal position, under the reference that its entry
    keeps, if any."""
    for entry in last_entries(book):
        device = book.devices[entry.device]
        if entry.closes != device.is_closed and (device.until is None or device.until > first):
            act = "close" if entry.closes else "open"
            ref = refs.get(entry.number, f"NEXT-SWITCH-{device.number}")
            yield row_of("switch", ref, device.name, act, first, entry.cause, entry.crew)


def rows_of(found: Checked, first: int, prefix: str = PREFIX) -> Iterator[list[str]]:
    """All rows of the next book's beginning."""
    book = found.book
    for code, name in book.causes.items():
        if code:
            yield row_of("cause", f"NEXT-CAUSE-{code}", code, name)
    yield from network_rows(book, first)
    yield from customer_rows(found, first)
    yield from switching_rows(book, first, ticket_refs(found, prefix))


def main() -> int:
    parser = Parser(description="Writes the beginning of the next period's book as CSV.")
    parser.add_argument("book", help="the old book's file")
    parser.add_argument("first", type=read_second, metavar="FIRST_SECOND", help="the first second of the new book")
    parser.add_argument(
        "--prefix", default=PREFIX, help="what the references of tickets begin with, which are kept (OMS-)"
    )
    add_table_arguments(parser)
    args = parser.parse_args()

    def job() -> None:
        with open_book(args.book, args.table, args.program) as found:
            end = found.book.period.end
            if args.first < end:
                raise BookError(f"the new book's first second {args.first} lies before the old one's end {end}")
            if args.first > end:
                print_error(f"note: {args.first - end} seconds lie between the two books")
            write_rows(rows_of(found, args.first, args.prefix), sys.stdout)

    return run_job(job)
