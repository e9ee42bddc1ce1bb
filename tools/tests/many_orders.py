"""Made networks and their years, each as two chains of books: one of rows with returns first, one of the same rows as time goes.

    cd tools && python3 -m tests.many_orders --seeds 500

A chain is a first export and three later ones, each taken against the chain's book as it is then. The model of `oracle/` makes
the books: after each export both have the same annual table, byte for byte. It ends with status 1 where one differs.
"""

import argparse
import csv
import io
import os
import shutil
import sqlite3
import sys
import tempfile
import time
from collections.abc import Iterable, Iterator, Sequence
from contextlib import closing, contextmanager
from dataclasses import dataclass, field
from pathlib import Path
from unittest import mock

from outage_tools.order import Command, Timed, returns_first
from tests import exports
from tests.made_exports import Year
from tests.support import made, model_answers

EXPORTS = 4
DATES = ("--date-format", "%d.%m.%Y %H:%M:%S")


def as_time_goes(rows: Iterable[Timed]) -> list[Command]:
    """The other order."""
    return [row.command for row in rows]


ORDERS = {"first": returns_first, "time": as_time_goes}


@contextmanager
def own_zone() -> Iterator[None]:
    """Years set the zone of the process: as it was, behind the block."""
    zone = os.environ.get("TZ")
    try:
        yield
    finally:
        os.environ.pop("TZ") if zone is None else os.environ.update(TZ=zone)
        time.tzset()


@dataclass
class Chains:
    """The two chains of one network: the rows of each so far."""

    year: Year
    folder: Path
    rows: dict[str, str] = field(default_factory=lambda: {order: "" for order in ORDERS})

    def name(self, order: str) -> str:
        return f"{self.year.seed}-{order}"

    @property
    def period(self) -> tuple[str, str, str]:
        return self.year.first_day.isoformat(), str(self.year.days), self.year.zone

    def export(self, books: Path | None) -> None:
        """Adds the rows of the year's export as it is now."""
        os.environ["TZ"] = self.year.zone
        time.tzset()
        if books:
            self.year.change()
        files = exports.arguments_of(self.folder, self.year.exports())
        for order, function in ORDERS.items():
            words = ["--first", self.period[0], "--days", self.period[1], "--zone", self.period[2]]
            if books:
                book = books / f"{self.name(order)}.db"
                words = ["--book", str(book), "--table", str(book.with_suffix(".table.txt"))]
            with mock.patch("outage_tools.oms.outages.returns_first", function):
                done = exports.run(*files, *DATES, *words)
            if done.status:
                raise ValueError(f"seed {self.year.seed}: {done.err}")
            self.rows[order] += done.out.partition("\n")[2] if self.rows[order] else done.out

    def texts(self) -> Iterator[tuple[Path, tuple[str, str, str]]]:
        """Where the rows of each chain are put, with the period."""
        for order, rows in self.rows.items():
            path = self.folder / f"{self.name(order)}.csv"
            path.write_text(rows)
            yield path, self.period


@dataclass(frozen=True)
class Seen:
    """What a run has seen: tables that were compared and those that differ, rows that came elsewhere, and how many of the
    switchings share their second."""

    tables: int
    differing: list[str]
    moved: int
    shared: int

    def __str__(self) -> str:
        return (
            f"{self.tables} annual tables in two orders, {len(self.differing)} differ; {self.moved} rows elsewhere,"
            f" {self.shared} switchings in a second with others"
        )


def switch_seconds(text: str) -> list[str]:
    """The moments of the switchings of a text."""
    return [row[4] for row in csv.reader(io.StringIO(text)) if row[0] == "switch"]


def check_taken(book: Path, text: str) -> None:
    """The book has all rows of its text."""
    with closing(sqlite3.connect(f"{book.as_uri()}?mode=ro", uri=True)) as database:
        taken = database.execute("SELECT count(*) FROM cmd").fetchone()[0]
    if taken != text.count("\n") - 1:
        raise ValueError(f"{book.name}: {taken} of {text.count(chr(10)) - 1} rows were taken")


@model_answers()  # the books have no moves, which the program refuses
def compared(folder: Path, seeds: Sequence[int], number_of_exports: int = EXPORTS) -> Seen:
    """Makes both chains of each network, and compares their tables after each export."""
    chains = [Chains(Year(seed, shares=True), folder / "texts") for seed in seeds]
    books: Path | None = None
    differing = []
    for number in range(number_of_exports):
        for chain in chains:
            chain.export(books)
        (folder / "list").write_text(
            "".join(f"{path} {' '.join(period)}\n" for chain in chains for path, period in chain.texts())
        )
        books = folder / f"books-{number}"
        made(books, "--list", str(folder / "list"), "--without-moves")
        for chain in chains:
            for order, rows in chain.rows.items():
                check_taken(books / f"{chain.name(order)}.db", rows)
            tables = {(books / f"{chain.name(order)}.table.txt").read_bytes() for order in ORDERS}
            if len(tables) > 1:
                differing.append(f"seed {chain.year.seed}, export {number + 1}")
    moved = sum(
        one != other
        for chain in chains
        for one, other in zip(chain.rows["first"].splitlines(), chain.rows["time"].splitlines())
    )
    seconds = [switch_seconds(chain.rows["first"]) for chain in chains]
    shared = sum(listed.count(second) > 1 for listed in seconds for second in listed)
    return Seen(number_of_exports * len(chains), differing, moved, shared)


def main() -> int:
    parser = argparse.ArgumentParser(description="Compares the tables of rows in two orders, over made networks.")
    parser.add_argument("--seeds", type=int, default=500, help="how many networks (500)")
    args = parser.parse_args()
    folder = Path(tempfile.mkdtemp(prefix="outagebook-orders-"))
    try:
        with own_zone():
            seen = compared(folder, range(args.seeds))
    finally:
        shutil.rmtree(folder)
    print("\n".join([str(seen), *seen.differing]))
    return 1 if seen.differing else 0


if __name__ == "__main__":
    sys.exit(main())
