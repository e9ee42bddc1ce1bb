"""A plain office in Python and SQLite, to compare `outagebook import` with: it keeps the eleven tables of docs/reference/BOOK-FILE.md.

    python3 benches/make_year.py 10000 1 --csv > bench-data/year.csv
    python3 benches/plain_office.py bench-data/year.csv --book bench-data/plain.db

It makes a new book and acts each row of a CSV of commands in one transaction, as a Python programmer would write it:
what was said in dictionaries (state.py), the runs kept in step by windows (year.py), and of each command its row, what
it changed, what it moved and the new amounts. Standard library alone. It prints what was imported and the seconds.
"""

import argparse
import os
import sqlite3
import sys
import time
from pathlib import Path

import places  # noqa: F401, the modules of oracle/
from commands import Value
from make_year import DAYS, FIRST_DATE
from model import VERSION, kind_of
from state import End, Period, State
from tables import TABLES
from year import Book


class Amounts(dict[int, int]):
    """Amounts by key, with what those had that were set since somebody asked."""

    def __init__(self) -> None:
        super().__init__()
        self.before: dict[int, int] = {}

    def __setitem__(self, key: int, amount: int) -> None:
        self.before.setdefault(key, self.get(key, 0))
        super().__setitem__(key, amount)

    def taken(self) -> list[tuple[int, int, int]]:
        """The keys whose amounts differ from what they had, rising, with the difference and the amount."""
        before, self.before = self.before, {}
        return [(key, self[key] - before[key], self[key]) for key in sorted(before) if self[key] != before[key]]


class Office(State):
    """What was said, the runs and amounts that follow, and the tables."""

    def __init__(self, path: str | Path, period: Period, journal: str, synchronous: str) -> None:
        super().__init__(period)
        self.count = 0
        self.moved = 0
        self.book = Book(period.bounds)
        self.amounts = [Amounts(), Amounts(), Amounts()]
        self.book.by_cause, self.book.by_feeder, self.book.by_day = self.amounts
        self.database = sqlite3.connect(path, isolation_level=None)
        self.run = self.database.execute
        self.run(f"PRAGMA journal_mode = {journal}")
        self.run(f"PRAGMA synchronous = {synchronous}")
        self.run("PRAGMA foreign_keys = ON")
        self.create()

    def create(self) -> None:
        period = self.period
        days = len(period.bounds) - 1
        self.run("BEGIN")
        for statement in TABLES.split(";")[:-1]:
            self.run(statement)
        self.run("INSERT INTO meta VALUES (1, ?, ?, ?, ?)", (VERSION, period.days[0].isoformat(), days, period.zone))
        self.run("INSERT INTO cause VALUES (0, 'UNASSIGNED')")
        self.run("INSERT INTO node VALUES (0, 'GRID', 0, 0)")
        for dimension, keys in [(1, range(64)), (2, range(1, 256)), (3, range(days))]:
            rows = ((dimension, key) for key in keys)
            self.database.executemany("INSERT INTO posting VALUES (?, ?, 0)", rows)
        self.run("COMMIT")

    def known(self, ref: str) -> tuple[int, str] | None:
        """The number and the body of a reference's command, None where there is none."""
        row: tuple[int, str] | None = self.run("SELECT id, body FROM cmd WHERE ref = ?", (ref,)).fetchone()
        return row

    def accepted(self) -> int:
        return self.count

    def accept(self, ref: str, kind: str, values: list[Value], body: str) -> int:
        """The transaction of a command."""
        self.say(kind, values)
        self.book.act(kind, *body.split()[1:])
        self.count += 1
        self.run("BEGIN IMMEDIATE")
        self.run("INSERT INTO cmd VALUES (?, ?, ?)", (self.count, ref, body))
        getattr(self, f"write_{kind}")(*values)
        for dimension, amounts in enumerate(self.amounts, 1):
            taken = amounts.taken()
            self.moved += len(taken)
            moved = ((self.count, dimension, key, delta) for key, delta, _ in taken)
            self.database.executemany("INSERT INTO moved VALUES (?, ?, ?, ?)", moved)
            posted = ((amount, dimension, key) for key, _, amount in taken)
            self.database.executemany("UPDATE posting SET amount = ? WHERE dim = ? AND k = ?", posted)
        self.run("COMMIT")
        return self.count

    def write_cause(self, code: int, name: str) -> None:
        self.run("INSERT INTO cause VALUES (?, ?)", (code, name))

    def write_bus(self, name: str, feeder: int | None = None) -> None:
        row = self.book.node_of[name], name, kind_of(name, feeder), feeder or 0
        self.run("INSERT INTO node VALUES (?, ?, ?, ?)", row)

    write_section = write_bus

    def write_device(self, name: str, a: str, b: str, normal: str, since: int, until: End) -> None:
        nodes = self.book.node_of
        device = self.book.device_of[name]
        self.run("INSERT INTO device VALUES (?, ?, ?, ?, ?)", (device, name, nodes[a], nodes[b], normal == "closed"))
        self.run("INSERT INTO life VALUES (?, ?, ?)", (device, since, end_of(until)))

    def write_life(self, name: str, since: int, until: End) -> None:
        row = since, end_of(until), self.book.device_of[name]
        self.run("UPDATE life SET since = ?, until = ? WHERE device = ?", row)

    def write_connect(self, number: int, section: str, since: int, until: End) -> None:
        row = number, self.book.node_of[section], since, end_of(until)
        self.run("INSERT INTO customer VALUES (?, ?, ?, ?)", row)

    def write_revise(self, number: int, since: int, until: End) -> None:
        self.run("UPDATE customer SET since = ?, until = ? WHERE id = ?", (since, end_of(until), number))

    def write_switch(self, device: str, act: str, second: int, cause: int, crew: str) -> None:
        row = len(self.entries), 1, self.book.device_of[device], act == "close", second, cause, crew, 1
        self.run("INSERT INTO entry VALUES (?, ?, ?, ?, ?, ?, ?, ?)", row)

    def write_correct(self, number: int, revision: int, act: str, second: int, cause: int, crew: str) -> None:
        row = revision + 1, act == "close", second, cause, crew, number
        self.run("UPDATE entry SET rev = ?, pos = ?, second = ?, cause = ?, crew = ? WHERE id = ?", row)

    def write_withdraw(self, number: int, revision: int) -> None:
        self.run("UPDATE entry SET rev = ?, kept = 0 WHERE id = ?", (revision + 1, number))

    def write_mark(self, day: str, engineer: str) -> None:
        self.run("INSERT INTO mark VALUES (?, ?)", (self.period.index_of(day), engineer))

    def write_unmark(self, day: str, _engineer: str) -> None:
        self.run("DELETE FROM mark WHERE day = ?", (self.period.index_of(day),))


def end_of(until: End) -> int | None:
    return None if until == "-" else until


def main() -> int:
    parser = argparse.ArgumentParser(description="Imports CSV texts into a new book of SQLite and prints the seconds.")
    parser.add_argument("texts", nargs="+", help="the texts")
    parser.add_argument("--book", default=":memory:", help="the file of the new book (in memory)")
    parser.add_argument("--first", default=FIRST_DATE.isoformat(), help="the first day of the period")
    parser.add_argument("--days", type=int, default=DAYS, help="how many days it has")
    parser.add_argument("--zone", default="UTC0", help="the POSIX rule of the zone")
    parser.add_argument("--journal", choices=["wal", "delete"], default="wal")
    parser.add_argument("--synchronous", choices=["full", "normal", "off"], default="full")
    words = parser.parse_args()
    if os.path.exists(words.book):
        sys.exit(f"{words.book}: there is a book already")
    office = Office(words.book, Period(words.first, words.days, words.zone), words.journal, words.synchronous)
    status = 0
    for path in words.texts:
        with open(path, "rb") as text:
            data = text.read()
        clock, processor = time.perf_counter(), time.process_time()
        added, again, refusal = office.import_text(data)
        clock, processor = time.perf_counter() - clock, time.process_time() - processor
        print(f"added {added} again {again} seconds {clock:.2f} processor {processor:.2f}")
        if refusal:
            print(refusal, file=sys.stderr)
            status = 2
    office.database.close()
    print(f"W {sum(office.amounts[0].values())} moved {office.moved}")
    return status


if __name__ == "__main__":
    sys.exit(main())
