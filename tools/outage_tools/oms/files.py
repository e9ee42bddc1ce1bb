"""Rows of exports: how a file of them is read, and the words by which it may be told how."""

import argparse
import csv
import difflib
import re
import sys
from collections.abc import Iterable, Iterator
from dataclasses import dataclass
from itertools import chain

from outage_tools.cli import print_error
from outage_tools.errors import BookError
from outage_tools.oms.complaints import HEADER as HEADER
from outage_tools.oms.complaints import BadRow as BadRow
from outage_tools.oms.complaints import Complaint as Complaint
from outage_tools.oms.complaints import Complaints as Complaints
from outage_tools.oms.complaints import Notes as Notes
from outage_tools.oms.decoding import ENCODINGS, LONGEST_LINE, UNREADABLE, open_lines
from outage_tools.oms.fields import check_format
from outage_tools.oms.fields import identifier as identifier
from outage_tools.oms.fields import life_texts as life_texts
from outage_tools.oms.fields import moment_text as moment_text
from outage_tools.oms.fields import number as number
from outage_tools.oms.fields import read_moment as read_moment
from outage_tools.oms.fields import read_zone as read_zone

DELIMITERS = {",": ",", ";": ";", "tab": "\t"}
CONTROL = re.compile("[\0-\x08\x0b\x0c\x0e-\x1f\x7f]")
ALIKE = 0.8  # how much alike two columns are of which one may be meant for the other
ROWS_BETWEEN_WORDS = 20_000
OFTEN_ALIKE = ("meter",)  # columns beside which registers have others that are called alike


@dataclass(frozen=True)
class Row:
    """A row of an export: its file, its number, and its fields by their columns; a column that isn't there is empty."""

    file: str
    number: int
    fields: dict[str, str]

    def __getitem__(self, column: str) -> str:
        return self.fields.get(column, "")


@dataclass(frozen=True)
class Format:
    """How the files are written: None is what a file tells by itself. `dates` are the user's formats beside ISO 8601, `columns`
    the user's names of columns, in small letters, each with that of this page."""

    delimiter: str | None = None
    encoding: str | None = None
    dates: tuple[str, ...] = ()
    columns: tuple[tuple[str, str], ...] = ()


def date_format(text: str) -> str:
    """A format of dates on the command line."""
    try:
        return check_format(text)
    except ValueError as error:
        raise argparse.ArgumentTypeError(str(error)) from None


def column_name(text: str) -> tuple[str, str]:
    """A name of a column on the command line, and the column for which it stands."""
    theirs, between, ours = text.rpartition("=")
    if not between or not theirs.strip() or not ours.strip():
        raise argparse.ArgumentTypeError(f"{text!r} isn't THEIRS=COLUMN, as 'Ticket No=ticket'")
    return theirs.strip().lower(), ours.strip().lower()


def add_format_arguments(parser: argparse._ActionsContainer) -> None:
    """The words that say how the exports are written."""
    parser.add_argument(
        "--delimiter", choices=DELIMITERS, help="the character between fields (found by the line of column names)"
    )
    parser.add_argument(
        "--encoding", choices=ENCODINGS, help="the encoding of files without a mark of it at their beginning (utf-8)"
    )
    parser.add_argument(
        "--date-format",
        dest="dates",
        metavar="FORMAT",
        action="append",
        default=[],
        type=date_format,
        help="another spelling of dates and times, in strptime's directives, as %%d.%%m.%%Y %%H:%%M; may be given several times",
    )
    add_column_argument(parser)


def add_column_argument(parser: argparse._ActionsContainer) -> None:
    """The word that says what a column is called in the files."""
    parser.add_argument(
        "--column",
        dest="renamed",
        metavar="THEIRS=COLUMN",
        action="append",
        default=[],
        type=column_name,
        help="what a column is called in the files, as 'Ticket No=ticket'; may be given several times",
    )


def format_of(args: argparse.Namespace) -> Format:
    return Format(DELIMITERS.get(args.delimiter), args.encoding, tuple(args.dates), tuple(args.renamed))


class Progress:
    """A line on a terminal that tells how many rows were read; nothing anywhere else."""

    def __init__(self, file: str) -> None:
        self.file = file
        self.is_shown = sys.stderr.isatty()

    def at(self, rows: int) -> None:
        if self.is_shown and rows % ROWS_BETWEEN_WORDS == 0:
            print_error(f"\r{self.file}: {rows:,} rows", end="")

    def end(self, rows: int) -> None:
        if self.is_shown and rows >= ROWS_BETWEEN_WORDS:
            print_error(f"\r{self.file}: {rows:,} rows")


@dataclass(frozen=True)
class Spot:
    """A row by its file and its number alone."""

    file: str
    number: int


@dataclass
class Export:
    """A file of rows. Columns that it lacks are empty, others than these are left out; a row that has more fields or fewer than
    there are columns is complained about, and so is one with bytes that aren't of the file's encoding."""

    path: str
    columns: tuple[str, ...]
    required: tuple[str, ...]
    format: Format
    complaints: Complaints
    notes: Notes

    def rows(self) -> Iterator[Row]:
        """The rows that can be read, one after another."""
        with open_lines(self.path, self.format.encoding) as (encoding, lines):
            first = next((line for line in lines if line.strip()), "")
            delimiter = self.format.delimiter or self.delimiter_of(first)
            self.notes.encoding, self.notes.delimiter = encoding, delimiter
            fields = csv.reader(self.checked(chain([first], lines)), delimiter=delimiter, strict=True)
            names = next(self.records(fields, HEADER), list[str]())
            places = self.places_of(names)
            if places:
                yield from self.rows_of(fields, places, len(names))

    def delimiter_of(self, line: str) -> str:
        """The delimiter by which a line of column names has most of the columns."""

        def known(delimiter: str) -> int:
            try:
                names = next(csv.reader([line], delimiter=delimiter), list[str]())
            except csv.Error:
                return 0
            return len({self.own_name(name) for name in names} & set(self.columns))

        return max(DELIMITERS.values(), key=known)

    def checked(self, lines: Iterable[str]) -> Iterator[str]:
        for line in lines:
            if len(line) >= LONGEST_LINE:
                raise csv.Error(f"a line has {LONGEST_LINE} characters or more")
            yield line

    def records(self, fields: Iterator[list[str]], before: int) -> Iterator[list[str]]:
        """The records that aren't empty lines, up to the first that is no CSV, behind which nothing can be read."""
        count = before
        while True:
            try:
                record = next(fields, None)
            except csv.Error as error:
                self.complaints.add(
                    Spot(self.path, count), f"it is no CSV, and what comes behind it isn't read: {error}"
                )
                return
            if record is None:
                return
            if record:
                yield record
                count += 1

    def places_of(self, names: list[str]) -> dict[str, int]:
        """Where each column stands; nothing where they can't be told."""
        found = [self.own_name(name) for name in names]
        self.notes.renamed = {
            (name.strip().lower(), own) for name, own in zip(names, found) if name.strip().lower() != own
        }
        wrong = list(self.wrong_in_header(found, names))
        for text in wrong:
            self.complaints.add(Spot(self.path, HEADER), text)
        self.notes.columns = [name for name in found if name in self.columns]
        self.notes.unread = [name for name in found if name not in self.columns]
        return {} if wrong else {name: place for place, name in enumerate(found) if name in self.columns}

    def own_name(self, name: str) -> str:
        """The column for which a name stands in this file, or the name in small letters. A column's own name stands for itself."""
        lowered = name.strip().lower()
        if lowered in self.columns:
            return lowered
        meant = (ours for theirs, ours in self.format.columns if theirs == lowered and ours in self.columns)
        return next(meant, lowered)

    def wrong_in_header(self, found: list[str], names: list[str]) -> Iterator[str]:
        """What is wrong with the columns."""
        if any(UNREADABLE in name or CONTROL.search(name) for name in names):
            yield f"it isn't of the encoding {self.notes.encoding} (--encoding names another)"
            return
        if not set(self.columns) & set(found):
            yield f"it has none of the columns {', '.join(self.columns)} (--column THEIRS={self.columns[0]} gives another name)"
            return
        yield from (f"it has two columns {name}" for name in self.columns if found.count(name) > 1)
        for name in self.columns:
            if name not in found:
                others = [other for other in found if other not in self.columns]
                alike = difflib.get_close_matches(name, others, 1, ALIKE)
                if alike and name not in OFTEN_ALIKE:
                    yield (
                        f"it has {alike[0]!r}, which isn't read, and no column {name}: is it meant? Rename it, or give"
                        f" --column '{alike[0]}={name}'"
                    )
                elif name in self.required:
                    yield f"it has no column {name} (--column THEIRS={name} gives another name)"

    def rows_of(self, fields: Iterator[list[str]], places: dict[str, int], width: int) -> Iterator[Row]:
        progress = Progress(self.path)
        count = 0
        for count, record in enumerate(self.records(fields, HEADER + 1), HEADER + 1):
            progress.at(count)
            spot = Spot(self.path, count)
            wrong = self.wrong_in(record, width)
            if wrong:
                self.complaints.add(spot, wrong)
            elif not any(record):
                self.notes.left_out("rows that are empty", spot)
            else:
                yield Row(self.path, count, {column: record[place].strip() for column, place in places.items()})
        self.notes.rows = count
        progress.end(count)

    def wrong_in(self, record: list[str], width: int) -> str | None:
        """What is wrong with a row as such."""
        if len(record) != width:
            return f"it has {len(record)} fields, and there are {width} columns"
        whole = "".join(record)
        if whole.isprintable():  # most are, and have neither
            return None
        if UNREADABLE in whole:
            return f"it has bytes that aren't of the encoding {self.notes.encoding} (--encoding names another)"
        if CONTROL.search(whole):
            return "it has control characters"
        return None


def read_file(
    path: str | None, columns: tuple[str, ...], required: tuple[str, ...] = (), format: Format = Format()
) -> list[Row]:
    """The rows of a whole file, or an error that tells every row that is none. No file has no rows."""
    if not path:
        return []
    complaints = Complaints()
    rows = list(Export(path, columns, required, format, complaints, Notes("", path)).rows())
    if complaints.found:
        raise BookError("\n".join(map(str, complaints.found)))
    return rows
