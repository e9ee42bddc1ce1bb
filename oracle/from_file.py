"""The model's book of a book's file: its accepted commands, taken one after another.

    python3 oracle/from_file.py BOOK

It prints JSON: the annual table, the rows of interruptions, how many runs there are, and the first table of the file that
differs from the model's, if one does. What each command moved isn't found anew.
"""

import argparse
import json
import sqlite3
from contextlib import closing
from functools import cache
from pathlib import Path

from interruptions import interruption_lines
from model import Book, Run, first_difference
from state import Period

WITH_END = ("connect", "revise", "device", "life")  # kinds whose last field may be `-`, an end that is none


class Kept(Book):
    """A book that changes no more once its runs are asked for."""

    runs = cache(Book.runs)


def row_of(ref: str, body: str) -> list[str]:
    """The row of an accepted command."""
    kind, *fields = body.split(" ")
    if kind in WITH_END and fields[-1] == "-":
        fields[-1] = ""
    return [kind, ref, *fields, *[""] * (6 - len(fields))]


def book_of(path: Path) -> Kept:
    """The book of the commands that a file has."""
    with closing(sqlite3.connect(f"{path.absolute().as_uri()}?mode=ro", uri=True)) as database:
        ((first, days, zone),) = database.execute("SELECT day0, days, zone FROM meta")
        book = Kept(Period(first, days, zone), keeps_moves=False)
        for ref, body in database.execute("SELECT ref, body FROM cmd ORDER BY id"):
            book.act(row_of(ref, body))
    return book


def main() -> None:
    parser = argparse.ArgumentParser(description="Finds a book's figures anew from its commands.")
    parser.add_argument("book", type=Path, help="the book's file, which nobody has open")
    path = parser.parse_args().book
    book = book_of(path)
    found = {
        "table": [*book.table_lines()],
        "interruptions": [*interruption_lines(book)],
        "runs": len(book.runs()),
        "differs": first_difference(book, path),
    }
    print(json.dumps(found))


if __name__ == "__main__":
    main()
