"""The accepted commands of a book as a CSV that can be imported.

    python3 tools/commands.py BOOK [--table FILE | --program PATH] > commands.csv

The rows are in the order in which the commands were accepted, each under its reference, with moments as Unix seconds.
Imported into a fresh book of the same period they give equal tables. The book is compared with the program first.
"""

import csv
import sqlite3
import sys
from collections.abc import Iterable, Iterator
from dataclasses import dataclass
from datetime import datetime
from typing import IO

from outage_tools.cli import Parser, add_table_arguments, run_job
from outage_tools.compare import open_book

HEADER = ("kind", "ref", "f1", "f2", "f3", "f4", "f5", "f6")
MOST_FIELDS = 6


def read_second(text: str) -> int:
    """The second of a moment of a row: digits, or a civil moment with its offset; a ValueError where it is neither."""
    if text.isdigit():
        return int(text)
    moment = datetime.fromisoformat(text.replace("Z", "+00:00"))
    if moment.tzinfo is None:
        raise ValueError("a moment has its offset")
    return int(moment.timestamp())


def row_of(kind: str, ref: str, *fields: object) -> list[str]:
    """A row of CSV; None is an empty field."""
    texts = ["" if field is None else str(field) for field in fields]
    return [kind, ref, *texts, *[""] * (MOST_FIELDS - len(texts))]


@dataclass(frozen=True)
class Command:
    """An accepted command: its number, its reference, its kind and its fields, in which `-` is a service without end.

    `entry` is the number of the entry of a `switch`, a `correct` or a `withdraw`.
    """

    number: int
    ref: str
    kind: str
    fields: list[str]
    entry: int | None

    def row(self) -> list[str]:
        """Its row of CSV: an end that is none is an empty field."""
        fields = ["" if text == "-" and self.is_end(place) else text for place, text in enumerate(self.fields)]
        return row_of(self.kind, self.ref, *fields)

    def is_end(self, place: int) -> bool:
        """The field is the end of a service or a life: the last one, since a name may be `-` too."""
        return self.kind in ("connect", "revise", "device", "life") and place == len(self.fields) - 1 >= 2


def read_commands(database: sqlite3.Connection) -> Iterator[Command]:
    """The accepted commands in order. Entries are numbered as their switchings were accepted."""
    entries = 0
    for number, ref, body in database.execute("SELECT id, ref, body FROM cmd ORDER BY id"):
        kind, *fields = body.split(" ")
        entry = None
        if kind == "switch":
            entries += 1
            entry = entries
        elif kind in ("correct", "withdraw"):
            entry = int(fields[0])
        yield Command(number, ref, kind, fields, entry)


def write_rows(rows: Iterable[list[str]], out: IO[str]) -> None:
    """Writes rows of commands behind their header."""
    writer = csv.writer(out, lineterminator="\n")
    writer.writerow(HEADER)
    writer.writerows(rows)


def main() -> int:
    parser = Parser(description="Writes a book's accepted commands as a CSV that can be imported.")
    parser.add_argument("book", help="the book's file")
    add_table_arguments(parser)
    args = parser.parse_args()

    def job() -> None:
        with open_book(args.book, args.table, args.program) as found:
            write_rows((command.row() for command in read_commands(found.database)), sys.stdout)

    return run_job(job)
