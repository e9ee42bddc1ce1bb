"""Customers' own keys: a table that says which number of a book each key has.

A utility calls a customer by a key of up to 40 characters, as the number of a meter point (MaLo, MPAN, EAN, ESI); a book has
numbers of up to ten digits. So numbers are given out in the order in which the rows of the register come, and kept in a CSV file
with the columns `number,key`: the one that --keys names, or the file beside the book (`2024.keys.csv` beside `2024.db`). A number
is given once. A key may have several, each for a service of its own. The reference of a customer that came by its key has a
fingerprint of it, so a table that was changed is found out by the book, and refused by its row.
"""

import argparse
import csv
import hashlib
import re
import sqlite3
from collections.abc import Iterable, Mapping
from dataclasses import dataclass, field
from pathlib import Path
from typing import IO

from outage_tools.commands import read_commands
from outage_tools.errors import BookError
from outage_tools.lists import ListRow, read_list
from outage_tools.oms.complaints import BadRow
from outage_tools.oms.fields import shown
from outage_tools.oms.known import Service
from outage_tools.oms.writing import whole_file

COLUMNS = ("number", "key")
GREATEST_NUMBER = 4_294_967_295
LONGEST_KEY = 40
FINGERPRINT = 16  # hexadecimal digits of a key's SHA-256 in a reference
ROUNDED = re.compile(r"[0-9]+[.,]?[0-9]*[eE]\+?[0-9]+")  # what a spreadsheet makes of a long number
REF = re.compile(rf"CIS-[0-9]+-(K[0-9A-F]{{{FINGERPRINT}}})(?:-[0-9]+)?")
NUMBER = re.compile("[1-9][0-9]{0,9}")
MOST_TOLD = 20  # rows of a table that doesn't go with a book


def read_key(text: str) -> str:
    """A key as it stands in a field."""
    if not 1 <= len(text) <= LONGEST_KEY or not text.isprintable() or text != text.strip():
        raise BadRow(f"the customer {shown(text)} isn't a key of 1 to {LONGEST_KEY} characters")
    if ROUNDED.fullmatch(text):
        raise BadRow(
            f"the customer {shown(text)} is a number that a spreadsheet has rounded: export the column as text"
        )
    return text


def fingerprint(key: str) -> str:
    """What a reference tells of a key."""
    return f"K{hashlib.sha256(key.encode()).hexdigest()[:FINGERPRINT].upper()}"


def ref_of(number: int, key: str) -> str:
    """The reference under which a customer is connected by its key."""
    return f"CIS-{number}-{fingerprint(key)}"


def told_by(ref: str) -> str | None:
    """The fingerprint in a reference; None where there is none."""
    found = REF.fullmatch(ref)
    return found[1] if found else None


def plain(key: str) -> str:
    """A key without what a program may have changed in it: small letters, blanks, noughts at the beginning."""
    return re.sub(r"\s", "", key).upper().lstrip("0")


def beside(book: str | Path) -> Path:
    """Where a book's table of keys is, if no other file is named."""
    return Path(book).with_suffix(".keys.csv")


@dataclass
class Keys:
    """The keys of a table by their numbers, those that were given out in this run among them.

    `used` are the numbers for which a row of the register was found in this run.
    """

    path: Path
    keys: dict[int, str] = field(default_factory=dict)
    numbers: dict[str, list[int]] = field(default_factory=dict)
    rows: dict[int, ListRow] = field(default_factory=dict)  # of the file
    used: set[int] = field(default_factory=set)
    alike: dict[str, str] = field(default_factory=dict)  # the first key that looks so
    greatest: int = 0

    def add(self, number: int, key: str) -> None:
        self.keys[number] = key
        self.numbers.setdefault(key, []).append(number)
        self.alike.setdefault(plain(key), key)
        self.greatest = max(self.greatest, number)

    def give(self, key: str) -> int:
        """A number that nothing has had, for this key."""
        if self.greatest >= GREATEST_NUMBER:
            raise BadRow(f"the key {shown(key)} is new, and no number up to {GREATEST_NUMBER} is left for it")
        number = self.greatest + 1
        self.add(number, key)
        return number

    def is_like_another(self, key: str) -> bool:
        """There is a key that differs from this one in small letters, blanks or noughts at the beginning alone."""
        return self.alike.get(plain(key), key) != key

    def find(self, key: str, service: Service, customers: Mapping[int, Service]) -> int | None:
        """The number of the service that a row tells, of those that no row had so far: of a customer on this section, best since the
        same second; else one that the book hasn't. None where the key needs a further number."""
        free = [number for number in self.numbers.get(key, ()) if number not in self.used]
        here = [number for number in free if number in customers and customers[number].section == service.section]
        here.sort(key=lambda number: customers[number].since != service.since)
        return next(iter([*here, *(number for number in free if number not in customers)]), None)

    def text(self, number: int) -> str:
        """A customer's number with its key beside it; the key alone where the table's file doesn't have it."""
        key = self.keys.get(number)
        if key is None:
            return str(number)
        return f"{number} ({key})" if number in self.rows else key

    def save(self) -> None:
        """Writes the table where a number was given out."""
        if len(self.keys) > len(self.rows):
            with whole_file(self.path) as file:
                write_keys(sorted(self.keys.items()), file)


def write_keys(rows: Iterable[tuple[int, str]], file: IO[str]) -> None:
    """Numbers and keys behind their header."""
    writer = csv.writer(file, lineterminator="\n")
    writer.writerow(COLUMNS)
    writer.writerows(rows)


def read_keys(path: Path) -> Keys:
    """The keys of a table; a row that is none, or a number in two rows, is refused."""
    found = Keys(path)
    for row in read_list(str(path), COLUMNS):
        if not NUMBER.fullmatch(row["number"]) or int(row["number"]) > GREATEST_NUMBER:
            raise row.refused(f"the number {shown(row['number'])} isn't one from 1 to {GREATEST_NUMBER}")
        number = int(row["number"])
        if number in found.keys:
            raise row.refused(f"the number {number} stands in row {found.rows[number].number} already")
        try:
            found.add(number, read_key(row["key"]))
        except BadRow as error:
            raise row.refused(str(error)) from None
        found.rows[number] = row
    return found


def check_keys(keys: Keys, refs: Mapping[int, str]) -> None:
    """Each customer of a book has a row, with the key by which it came; `refs` are the references of the customers."""
    wrong = []
    for number, ref in refs.items():
        row, told = keys.rows.get(number), told_by(ref)
        if row is None:
            wrong.append(f"{keys.path}: no row has the number {number}, which a customer of the book has ({ref})")
        elif told is not None and told != fingerprint(row["key"]):
            wrong.append(
                str(row.refused(f"the customer {number} came by another key than {shown(row['key'])} ({ref})"))
            )
    if wrong:
        more = [f"and {len(wrong) - MOST_TOLD} more"] if len(wrong) > MOST_TOLD else []
        reason = (
            "the table of keys was changed, or is another book's" if keys.path.exists() else "there is no such table"
        )
        raise BookError("\n".join([f"{keys.path}: {reason}:", *wrong[:MOST_TOLD], *more]))


def path_of(named: str | None, book: str | Path | None) -> Path | None:
    """The table that is named; else the one beside the book, if there is one."""
    if named:
        return Path(named)
    return beside(book) if book is not None and beside(book).exists() else None


def keys_for(named: str | None, book: str | Path | None, refs: Mapping[int, str], is_wanted: bool) -> Keys | None:
    """The keys of a run over a register, none where customers have numbers of their own. A table that is named and isn't there is
    begun, unless the book has customers; one that the book's customers came by is wanted."""
    path = path_of(named, book)
    if path is None:
        if is_wanted and any(told_by(ref) for ref in refs.values()):
            there = f"{beside(book)} isn't there" if book is not None else "no table is named"
            raise BookError(f"the customers of {book} came by their keys, and {there}: --keys FILE names the table")
        return None
    keys = read_keys(path) if path.exists() else Keys(path)
    check_keys(keys, refs)
    return keys


def refs_of_customers(database: sqlite3.Connection) -> dict[int, str]:
    """The reference under which each customer of a book was connected."""
    return {int(each.fields[0]): each.ref for each in read_commands(database) if each.kind == "connect"}


def keys_shown(named: str | None, book: str | Path, database: sqlite3.Connection) -> Keys | None:
    """The keys that figures of a book show beside its customers' numbers; none where there is no table."""
    path = path_of(named, book)
    if path is None:
        return None
    keys = read_keys(path)
    check_keys(keys, refs_of_customers(database))
    return keys


def add_keys_argument(parser: argparse._ActionsContainer, text: str) -> None:
    """The word that names a table of keys."""
    parser.add_argument("--keys", metavar="FILE", help=f"{text} (BOOK.keys.csv beside the book, if it is there)")
