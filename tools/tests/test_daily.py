"""Daily SAIDI from a list: the thresholds of the books that it stands for; rows that are refused; what is told."""

import csv
import math
import unittest
from collections.abc import Sequence
from datetime import date, timedelta
from fractions import Fraction
from pathlib import Path

from outage_tools.daily import ListedYear, read_daily, year_back, years_before
from outage_tools.errors import BookError
from outage_tools.major_days import Answer, about, answer_of, facts, read_years
from outage_tools.sums import Sums
from tests import support
from tests.test_major_days import FIRST, district, series, thresholds


def list_of(name: str, rows: Sequence[tuple[object, object]]) -> Path:
    return support.written(f"daily-{name}.csv", "".join(f"{day},{saidi}\n" for day, saidi in [("day", "saidi"), *rows]))


def decimals(value: Fraction) -> str:
    """Fifteen decimals, the last one rounded half up."""
    parts = (2 * 10**15 * value.numerator + value.denominator) // (2 * value.denominator)
    return f"{parts // 10**15}.{parts % 10**15:015}"


def year_in_question(days: int, back: int = 0) -> Sums:
    """A year whose first day lies so many days behind the tests' first one."""
    (year,) = read_years([district("all", 0, 1_000, [0] * days, skip=back)], own_numbers=True)
    return year


class Thresholds(unittest.TestCase):
    def test_those_of_numpy_and_r(self) -> None:
        """Earlier periods as a list give what numpy and R have given for them, for all cases that fit into five years."""
        rows, seen = thresholds("major_days_numpy.csv"), 0
        for case, periods in series().items():
            *before, last = sorted(periods)
            days = len(periods[last][1])
            daily: list[tuple[date, str]] = []
            for number in before[-5:]:
                served, seconds = periods[number]
                start = FIRST + timedelta(days=number * days)
                daily += [
                    (start + timedelta(days=place), decimals(Fraction(value, 60 * served)))
                    for place, value in enumerate(seconds)
                ]
            years = read_years([district("all", last, *periods[last])], own_numbers=True)
            found = answer_of(years, read_daily(str(list_of(case, daily)), years[-1].period.first))
            self.assertEqual(len(found.threshold.days), int(rows[case]["days"]), case)
            if rows[case]["alpha"]:
                seen += 1
                self.assertTrue(math.isclose(found.threshold.minutes, float(rows[case]["t_med"]), rel_tol=1e-9), case)
                above = [(each.day.date - years[-1].period.first).days for each in found.above]
                self.assertEqual(above, [int(day) for day in rows[case]["above"].split()], case)
        self.assertEqual(seen, 5)

    def test_books_and_a_list(self) -> None:
        """A book of the year before, and a list of the year before that, count as two periods."""
        seconds = [60_000, 3_600, 0]
        earlier = district("all", 0, 1_000, seconds, skip=0)
        later = district("all", 1, 1_000, seconds)
        years = read_years([earlier, later], own_numbers=True)
        first = years[-1].period.first
        path = list_of("both", [(first - timedelta(days=370), "1"), (first - timedelta(days=371), "0")])
        found = answer_of(years, read_daily(str(path), first))
        self.assertEqual(len(found.threshold.periods), 2)
        self.assertEqual((len(found.threshold.days), found.threshold.empty_days), (3, 2))

    def test_more_than_five_years_are_left_out(self) -> None:
        year = year_in_question(10)
        rows = [(date(2020 - back, 1, 1), back) for back in range(1, 8)]
        found = answer_of([year], read_daily(str(list_of("seven", rows)), FIRST))
        self.assertEqual([day.saidi for day in found.threshold.days], [5, 4, 3, 2, 1])
        self.assertEqual(len(found.threshold.left_out), 2)
        rows = [(date(2017, 5, 1), 1), (date(2019, 5, 1), 2)]
        said = "\n".join(about([year], answer_of([year], read_daily(str(list_of("gap", rows)), FIRST))))
        self.assertIn("No book or list has the days between 2017-12-31 and 2019-01-01.", said)


class Years(unittest.TestCase):
    def test_years_are_counted_back(self) -> None:
        first = date(2024, 2, 29)
        self.assertEqual([years_before(first, count) for count in (1, 4)], [date(2023, 2, 28), date(2020, 2, 29)])
        for day, wanted in (
            (date(2024, 2, 28), 1),
            (date(2023, 2, 28), 1),
            (date(2023, 2, 27), 2),
            (date(2020, 2, 28), 5),
        ):
            self.assertEqual(year_back(first, day), wanted, day)

    def test_what_is_told(self) -> None:
        rows = [(date(2019, 1, 1) + timedelta(days=place), "0.5") for place in range(363)]
        year = year_in_question(10)
        listed = read_daily(str(list_of("told", rows)), FIRST)
        said = "\n".join(about([year], answer_of([year], listed)))
        self.assertIn("There are lists of 1 of the 5 periods before", said)
        self.assertIn(
            "from 2019-01-01 to 2019-12-31 are from a list, which no program has counted. 2 of them aren't", said
        )
        self.assertNotIn("No book", said)
        self.assertIn("363 days have a daily SAIDI above 0; 0 have none", said)


class Refused(unittest.TestCase):
    def refused(self, why: str, *rows: tuple[object, object]) -> None:
        with self.assertRaisesRegex(BookError, why):
            read_daily(str(list_of("refused", rows)), FIRST)

    def test_rows(self) -> None:
        good = ("2019-12-30", "0.25")
        self.refused("row 2: '2019-12-32' is no day", good, ("2019-12-32", "1"))
        self.refused("row 1: '30.12.2019' is no day", ("30.12.2019", "1"))
        self.refused("row 2: '1e3' is no number of minutes", good, ("2019-12-31", "1e3"))
        self.refused("row 1: '-1' is no number", ("2019-12-31", "-1"))
        self.refused("row 1: '' is no number", ("2019-12-31", ""))
        self.refused("row 2: 2019-12-30 is there twice", good, good)
        self.refused("row 1: 2020-01-01 isn't before 2020-01-01", ("2020-01-01", "1"))

    def test_columns(self) -> None:
        path = support.written("daily-columns.csv", "date,saidi\n2019-12-31,1\n")
        with self.assertRaisesRegex(BookError, "it wants just day, saidi"):
            read_daily(str(path), FIRST)

    def test_a_year_that_a_book_has(self) -> None:
        years = read_years([district("all", number, 1_000, [60_000] * 10) for number in (0, 1)], own_numbers=True)
        listed: list[ListedYear] = read_daily(str(list_of("twice", [("2019-12-31", "1")])), years[-1].period.first)
        with self.assertRaisesRegex(BookError, "row 1: the list has days of the year from 2019-01-11, and a book"):
            answer_of(years, listed)

    def test_an_empty_list(self) -> None:
        year = year_in_question(10)
        with self.assertRaisesRegex(BookError, "one period alone"):
            answer_of([year], read_daily(str(list_of("empty", [])), FIRST))


class Command(unittest.TestCase):
    def test_a_book_and_a_list(self) -> None:
        """One book and a list give a threshold, the days above it, and rows that mark them."""
        made = support.fortnight()
        rows = [(date(2024, 3, 24) + timedelta(days=place), ("2", "8", "0")[place % 3]) for place in range(300)]
        path, folder = list_of("command", rows), support.folder() / "marks"
        page = support.folder() / "major.html"
        words = ["--daily", path, "--rows", "ENG-1", "-o", folder, "--page", page]
        done = support.run_tool("major_days", made.book, *words, table=made)
        self.assertEqual((done.returncode, done.stderr), (0, ""))
        logs = [math.log(2)] * 100 + [math.log(8)] * 100
        mean = sum(logs) / 200
        beta = math.sqrt(sum((value - mean) ** 2 for value in logs) / 199)
        self.assertIn(f"T_MED  {math.exp(mean + 2.5 * beta):.9f} minutes", done.stdout)
        self.assertIn("2025-03-30", done.stdout)
        with (folder / "the-fortnight.csv").open() as file:
            marks = [row["f1"] for row in csv.DictReader(file)]
        self.assertEqual(marks, ["2025-03-25", "2025-03-27", "2025-03-29"], "the 30th is marked already")
        self.assertIn("are from a list", page.read_text())

    def test_facts_without_two_days(self) -> None:
        year = year_in_question(3)
        answer: Answer = answer_of([year], read_daily(str(list_of("one", [("2019-12-31", "1")])), FIRST))
        self.assertEqual(set(facts(answer).values()), {"undefined"})
