"""Rows of commands in the order in which a book takes them with the least work (order.py).

    python3 tools/order.py ROWS [--book BOOK] [-o FILE]

First come causes, network, customers and marks, as they are in the file. Then returns to normal positions, then corrections
and withdrawals as they are in the file, then all other switchings. No figure depends on it. A file in which another order
could mean something else is refused with the row. A row is not checked otherwise: the import does that, and
outagebook-try.
"""

import csv
import sqlite3
from collections.abc import Iterator
from contextlib import closing
from dataclasses import dataclass, field
from pathlib import Path

from outage_tools.cli import Parser, run_job
from outage_tools.commands import HEADER, read_second, write_rows
from outage_tools.copies import copy_of
from outage_tools.errors import BookError
from outage_tools.oms.writing import whole_file, whole_output
from outage_tools.order import Command, Does, Timed, returns_first
from outage_tools.rows import read_book
from outage_tools.texts import Text, bytes_of, text_of

PARTS = ("cause", "bus", "section", "device", "life", "connect", "revise", "mark", "unmark")
NO_SECOND = -1  # of a correction or a withdrawal: it comes before all switchings but returns
ACTS = {"open": "open", "closed": "close"}  # the act that brings a device to its normal position


@dataclass
class Known:
    """What the book and the rows above have: the act that returns each device, the causes; how many entries the book has."""

    returns: dict[str, str] = field(default_factory=dict)
    causes: set[int] = field(default_factory=set)
    entries: int = 0


@dataclass
class Sorting:
    """The rows so far, by where they come in the order that costs least."""

    known: Known
    parts: list[Command] = field(default_factory=list)
    corrections: list[Timed] = field(default_factory=list)
    switchings: list[Timed] = field(default_factory=list)
    said: dict[str, tuple[int, object]] = field(
        default_factory=dict
    )  # the first row of each reference, and what it says

    def take(self, number: int, row: Command) -> None:
        """A row. A ValueError says why the file has to stay in its order."""
        if len(row) != len(HEADER):
            raise ValueError(f"it has {len(row)} fields, not {len(HEADER)}")
        kind, ref, *fields = row
        says: object = kind
        if kind == "switch":
            says = self.switching(row, *fields)
        elif kind in ("correct", "withdraw"):
            self.correction(row, fields[0])
        elif kind in PARTS:
            self.part(row, kind, fields)
        else:
            raise ValueError(f"{kind!r} is no kind of command")
        first, said = self.said.setdefault(ref, (number, says))
        if said != says:
            raise ValueError(f"its reference {ref} is that of another command, in row {first}")

    def switching(self, row: Command, device: str, act: str, second: str, cause: str, crew: str, _: str) -> object:
        """A switching: what it says. Its device and its cause are known, so that it is taken where it stands, too."""
        known, nowhere = self.known, "is in no row above, and in no book that --book names"
        if device not in known.returns:
            raise ValueError(f"the device {device!r} {nowhere}")
        if not cause.isdecimal() or int(cause) not in known.causes:
            raise ValueError(f"the cause {cause!r} {nowhere}")
        if act not in ACTS.values():
            raise ValueError(f"{act!r} is neither open nor close")
        moment = read_second(second)
        does = Does.RETURN if act == known.returns[device] else Does.DEPARTURE
        self.switchings.append(Timed(moment, does, row))
        return device, act, moment, int(cause), crew

    def correction(self, row: Command, entry: str) -> None:
        """A correction or a withdrawal. An entry of the book keeps its number; one of a switching above may not."""
        if entry.isdecimal() and int(entry) <= self.known.entries:
            self.corrections.append(Timed(NO_SECOND, Does.OTHER, row))
        elif not self.switchings:
            self.parts.append(row)
        else:
            raise ValueError(
                f"entry {entry} may be that of a switching above, whose number depends on the order of rows (--book names"
                " the book that has it)"
            )

    def part(self, row: Command, kind: str, fields: Command) -> None:
        """A cause, a part of the network, a customer or a mark."""
        self.parts.append(row)
        if kind == "cause" and fields[0].isdecimal():
            self.known.causes.add(int(fields[0]))
        elif kind == "device" and fields[3] in ACTS:
            self.known.returns.setdefault(fields[0], ACTS[fields[3]])

    def commands(self) -> Iterator[Command]:
        """All rows in the order that costs least."""
        yield from self.parts
        yield from returns_first([*self.corrections, *sorted(self.switchings, key=lambda row: row.second)])


def known_of(path: Path) -> Known:
    """What a book has."""
    with copy_of(path) as copy, closing(sqlite3.connect(f"{copy.as_uri()}?mode=ro", uri=True)) as database:
        try:
            book = read_book(database)
        except sqlite3.Error as error:
            raise BookError(f"{path} is no book: {error}") from None
    returns = {device.name: "close" if device.is_closed else "open" for device in book.devices}
    return Known(returns, set(book.causes), len(book.entries))


def reordered(text: Text, name: str, known: Known) -> Iterator[Command]:
    """The rows of a text in the order that costs least."""
    if next(csv.reader([text.head.decode("utf-8", "backslashreplace")]), None) != [*HEADER]:
        raise BookError(f"the header of {name} isn't {','.join(HEADER)}")
    sorting = Sorting(known)
    for place in range(len(text.rows)):
        try:
            sorting.take(place + 1, text.fields(place))
        except ValueError as error:
            raise BookError(f"{name} row {place + 1}: {error}; nothing is written") from None
    return sorting.commands()


def main() -> int:
    parser = Parser(description="Writes rows of commands in the order in which a book takes them with the least work.")
    parser.add_argument("rows", help="the rows of commands as CSV; - for standard input")
    parser.add_argument("--book", metavar="BOOK", help="the book that the rows are for, if it has devices or entries")
    parser.add_argument("-o", dest="output", metavar="FILE", type=Path, help="where the rows go (standard output)")
    args = parser.parse_args()

    def job() -> None:
        known = known_of(Path(args.book).resolve()) if args.book else Known()
        rows = reordered(text_of(bytes_of(args.rows), args.rows), args.rows, known)
        with whole_file(args.output) if args.output else whole_output() as out:
            write_rows(rows, out)

    return run_job(job)
