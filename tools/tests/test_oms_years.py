"""Made networks and years: the book that the tool makes of exports has the table of the book made from rows by hand, and has it
again after each of three later exports.

MADE_YEARS=FROM-TO takes these seeds in place of the first few.
"""

import os
import shutil
import unittest
from collections.abc import Iterator
from pathlib import Path

from tests import exports, support
from tests.made_exports import Year

USUAL = "0-4"
LATER_EXPORTS = 3


@support.needs_program
class MadeYears(unittest.TestCase):
    def setUp(self) -> None:
        self.folder = support.folder() / "oms-made-years"
        zone = os.environ.get("TZ")
        self.addCleanup(lambda: os.environ.update(TZ=zone) if zone is not None else os.environ.pop("TZ", None))
        self.addCleanup(shutil.rmtree, self.folder, True)

    def new_folder(self) -> None:
        shutil.rmtree(self.folder, ignore_errors=True)
        self.folder.mkdir()

    def seeds(self) -> Iterator[int]:
        first, last = os.environ.get("MADE_YEARS", USUAL).split("-")
        yield from range(int(first), int(last))

    def new_book(self, year: Year, name: str) -> Path:
        return exports.new_book(self.folder / f"{name}.db", year.first_day.isoformat(), year.days, year.zone)

    def export_to(self, year: Year, book: Path, *words: object) -> str:
        """Imports what the tool makes of the year's exports."""
        files = exports.arguments_of(self.folder, year.exports())
        done = exports.run(*files, "--date-format", "%d.%m.%Y %H:%M:%S", *words)
        self.assertEqual(done.status, 0, done.err)
        status, said = exports.import_text(book, done.out)
        self.assertEqual(status, 0, said)
        return done.out

    def table_by_hand(self, year: Year, name: str) -> str:
        book = self.new_book(year, name)
        status, said = exports.import_text(book, year.rows_by_hand())
        self.assertEqual(status, 0, said)
        return exports.table_of(book)

    def look_at(self, year: Year) -> None:
        book = self.new_book(year, "tool")
        period = ["--first", year.first_day.isoformat(), "--days", year.days, "--zone", year.zone]
        self.export_to(year, book, *period)
        self.assertEqual(exports.table_of(book), self.table_by_hand(year, "hand-0"))
        for number in range(1, LATER_EXPORTS + 1):
            year.change()
            self.export_to(year, book, *exports.book_words(book))
            self.assertEqual(exports.table_of(book), self.table_by_hand(year, f"hand-{number}"), f"export {number}")
        self.assertEqual(self.export_to(year, book, *exports.book_words(book)), exports.HEADER)

    def test_tables_are_those_of_rows_by_hand(self) -> None:
        for seed in self.seeds():
            self.new_folder()
            with self.subTest(seed):
                self.look_at(Year(seed))


if __name__ == "__main__":
    unittest.main()
