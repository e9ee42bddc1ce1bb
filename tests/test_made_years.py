"""A made year with lives, acted by the plain model of oracle/ and by the plain book of year.py.

    python3 tests/test_made_years.py
"""

import unittest

import places  # noqa: F401, the modules of oracle/
from make_year import DAYS, FIRST_DATE, csv_lines, year_lines
from model import Book
from state import Period
from year import Book as YearBook


class MadeYears(unittest.TestCase):
    def test_lives_in_a_year(self) -> None:
        """A made year with lives: each command is accepted, and the windows of year.py find what the model finds."""
        lines = [*year_lines(80, 1, 60, "rising", 10, lives=30)]
        book, plain = Book(Period(FIRST_DATE.isoformat(), DAYS, "UTC0"), keeps_moves=False), YearBook()
        text = "".join(f"{row}\n" for row in csv_lines(lines))
        self.assertEqual(book.import_text(text.encode()), (len(lines), 0, None))
        for line in lines:
            plain.act(*line.split())
        self.assertEqual([body for _, body in book.commands], lines)
        amounts = book.amounts()
        for dimension, found in enumerate([plain.by_cause, plain.by_feeder, plain.by_day], 1):
            wanted = {key: amount for (other, key), amount in amounts.items() if other == dimension}
            self.assertEqual({key: amount for key, amount in found.items() if amount}, wanted)
        joined = sum(line.startswith("device JOINED-") for line in lines)
        self.assertEqual((joined, sum(line.startswith("life ") for line in lines)), (10, 30))


if __name__ == "__main__":
    unittest.main()
