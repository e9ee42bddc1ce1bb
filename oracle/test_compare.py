"""The comparison itself: what it asks a program for, that it sees each answer that is another, and which books it has.

    python3 oracle/test_compare.py

In place of a program the model answers, so none is needed.
"""

import contextlib
import io
import tempfile
import unittest
from collections import Counter
from collections.abc import Sequence
from functools import partial
from pathlib import Path
from unittest import mock

from cases import Case, compare
from compare import count, found_of, imported, index_text, old, said_of, served, texts, wanted_of
from interruptions import interruption_lines
from make_commands import period_of, text_of
from model import Book
from over_program import CREATED, SOUND, Difference, OneBook, PeriodWords, Said, first_of
from state import Period

BOUNDS = (300, 60, 86_400)
SEEDS = range(2_001, 2_009)


class ByModel(OneBook):
    """The answers of the model, one of them spoiled."""

    def __init__(self, folder: str, period: PeriodWords, spoiled: str) -> None:
        super().__init__("none", folder)
        self.model = Book(Period(*period))
        self.spoiled = spoiled
        self.imports = 0

    def run(self, job: str, *rest: str) -> Said:
        if job in ["export", "interruptions"]:
            return self.write(job, Path(rest[0]))
        if job == "indices":
            said = index_text(self.model, rest[1], int(rest[3])), "", 0
            return self.answer(f"indices {rest[1]} {rest[3]}", said)
        return self.answer(job, {"init": CREATED, "audit": SOUND, "table": self.table()}[job])

    def table(self) -> Said:
        return "".join(f"{line}\n" for line in self.model.table_lines()), "", 0

    def write(self, job: str, path: Path) -> Said:
        """Writes the lines of a job, and says how many."""
        lines = [*(self.model.moves_lines() if job == "export" else interruption_lines(self.model))]
        name = "moves" if job == "export" else "rows"
        path.write_text("".join(f"{line}\n" for line in lines) + ("\n" if name == self.spoiled else ""))
        return self.answer(job, (f"rows {len(lines) - 1}\n", "", 0))

    def take(self, data: bytes) -> Said:
        self.imports += 1
        return self.answer("import" if self.imports == 1 else "second import", said_of(*self.model.import_text(data)))

    def answer(self, job: str, said: Said) -> Said:
        return (f"{said[0]}\n", *said[1:]) if job == self.spoiled else said


def compared(seed: int, spoiled: str, counts: Counter[str]) -> Difference | None:
    """The first difference of a seed's book with one spoiled answer."""
    period, data = period_of(seed), text_of(seed)
    wanted = wanted_of(Book(Period(*period)), data, BOUNDS)
    count(counts, wanted)
    with tempfile.TemporaryDirectory() as folder:
        return first_of(wanted, found_of(ByModel(folder, period, spoiled), period, data, BOUNDS))


class Answers(unittest.TestCase):
    def test_none_differs(self) -> None:
        counts: Counter[str] = Counter()
        for seed in SEEDS:
            self.assertIsNone(compared(seed, "", counts))
        self.assertGreater(counts["rows of interruptions"], 20)
        self.assertGreater(counts["lines of indices"], 36 * len(SEEDS))

    def test_each_is_looked_at(self) -> None:
        """Whichever answer is another, it is the one that is named."""
        jobs = [*wanted_of(Book(Period(*period_of(2_001))), text_of(2_001), BOUNDS)]
        self.assertEqual(len(jobs), 8 + 6 * len(BOUNDS))
        for job in jobs:
            found = compared(2_001, job, Counter())
            self.assertEqual(found and found[0], job)

    def test_bounds_make_other_indices(self) -> None:
        """Among these books are interruptions between each two of the bounds."""
        books = [Book(Period(*period_of(seed))) for seed in range(2_001, 2_041)]
        for seed, book in enumerate(books, 2_001):
            book.import_text(text_of(seed))
        shown = [[index_text(book, "whole", over) for book in books] for over in BOUNDS]
        self.assertTrue(shown[0] != shown[1] != shown[2] != shown[0])


class Books(unittest.TestCase):
    def names(self, cases: Sequence[Case]) -> list[str]:
        return [case.name for case in cases]

    def test_samples_are_with_the_first_seed(self) -> None:
        self.assertEqual([name for name, _, _ in texts(2, 7)], ["seed 7", "seed 8"])
        first = [name for name, _, _ in texts(1)]
        self.assertEqual(first, ["the fortnight", "the fortnight, corrected", "the feeder of IEEE 1366", "seed 1"])

    def test_seeds_of_each_kind(self) -> None:
        self.assertEqual(self.names([*imported("none", 1, 7, BOUNDS)]), [f"seed 7 {period_of(7)}"])
        self.assertEqual(self.names([*served("none", 2, 7)]), ["seed 7, served", "seed 8, served"])
        made = ["seed 7 of version 1", "seed 8 of version 1", "seed 8, made one of version 1"]
        self.assertEqual(self.names([*old("none", 2, 7)]), made)
        self.assertEqual(len([*old("none", 1, 1)]), 3)


class SideBySide(unittest.TestCase):
    def said(self, cases: Sequence[Case], processes: int) -> tuple[int, str]:
        """What a comparison ends with and prints."""
        with contextlib.redirect_stdout(io.StringIO()) as printed:
            status = compare("books", cases, processes)
        return status, printed.getvalue()

    def test_counts_are_added_up(self) -> None:
        cases = [Case(f"seed {seed}", partial(compared, seed, "")) for seed in SEEDS]
        status, printed = self.said(cases, 1)
        self.assertEqual(status, 0)
        self.assertRegex(
            printed,
            r"\A8 books are those of the model, with [1-9]\d* rows of interruptions and [\d,]+ lines of indices\n\Z",
        )
        self.assertEqual(self.said(cases, 2), (0, printed))

    def test_first_difference_in_order(self) -> None:
        """Of two books that differ the first is told, and its text is kept, however many are compared at once."""
        spoiled = ["", "", "rows", "", "audit", ""]
        cases = [
            Case(f"book {place}", partial(compared, 2_001, job), b"%d" % place) for place, job in enumerate(spoiled)
        ]
        for processes in [1, 2]:
            with tempfile.TemporaryDirectory() as folder, mock.patch("cases.DATA", Path(folder) / "data"):
                status, printed = self.said(cases, processes)
                kept = (Path(folder) / "data/difference.csv").read_bytes()
            self.assertEqual((status, kept), (1, b"2"))
            self.assertTrue(printed.startswith("book 2: rows\nwanted "))


if __name__ == "__main__":
    unittest.main()
