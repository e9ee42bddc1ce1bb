"""The threshold of major event days, against numpy's and R's numbers; periods, marks and rows."""

import csv
import json
import math
import subprocess
import unittest
from array import array
from collections import defaultdict
from collections.abc import Sequence
from datetime import date, timedelta

from outage_tools.counts import SETS, Counts
from outage_tools.errors import BookError
from outage_tools.indices import FurtherCounts
from outage_tools.major_days import Answer, answer_of, about, by_period, facts, mark_rows, read_years
from outage_tools.many_pages import major_days_page
from outage_tools.report.major_days import histogram
from outage_tools.sums import District, PeriodKey, Sums
from tests import many_books
from tests.browser import assert_paper, needs_browser
from tests.many_books import books_of, district_rows, run, with_tables
from tests.support import PROGRAM, TESTS, needs_program

DATA = TESTS / "data"
FIRST = date(2020, 1, 1)
DAY = 86_400


def district(
    name: str, period: int, served: int, seconds: Sequence[int], marks: dict[int, str] | None = None, skip: int = 0
) -> District:
    """A district's part of a period of as many days as there are seconds of sustained interruptions."""
    days = len(seconds)
    counts = {each: Counts(sustained_seconds=sum(seconds)) for each in SETS}
    return District(
        name=name,
        period=PeriodKey(FIRST + timedelta(days=days * period + skip), days, "UTC0"),
        length=days * DAY,
        commands=1,
        served_seconds=served * days * DAY,
        causes={0: ("UNASSIGNED", sum(seconds))},
        feeders={},
        days=tuple(seconds),
        begun=tuple(seconds),
        marks=marks or {},
        counts=counts,
        further={each: FurtherCounts() for each in SETS},
        customers=array("I"),
    )


def series() -> dict[str, dict[int, tuple[int, list[int]]]]:
    """The series of each case: by period the customers served and the days' seconds."""
    found: dict[str, dict[int, tuple[int, list[int]]]] = defaultdict(dict)
    with (DATA / "major_days.csv").open() as file:
        for row in csv.DictReader(file):
            served, seconds = found[row["case"]].setdefault(int(row["period"]), (int(row["served"]), []))
            seconds.append(int(row["seconds"]))
    return found


def thresholds(name: str) -> dict[str, dict[str, str]]:
    with (DATA / name).open() as file:
        return {row["case"]: row for row in csv.DictReader(file)}


def answer(districts: Sequence[District]) -> tuple[list[Sums], Answer]:
    years = read_years(districts, own_numbers=True)
    return years, answer_of(years)


class ByOtherMeans(unittest.TestCase):
    def assert_equal_to(self, row: dict[str, str], found: Answer) -> None:
        threshold = found.threshold
        self.assertEqual(len(threshold.days), int(row["days"]))
        self.assertEqual(threshold.is_defined, row["alpha"] != "")
        if not threshold.is_defined:
            self.assertEqual((found.above, set(facts(found).values())), ((), {"undefined"}))
            return
        for name, value in (("alpha", threshold.alpha), ("beta", threshold.beta), ("t_med", threshold.minutes)):
            self.assertTrue(math.isclose(value, float(row[name]), rel_tol=1e-12), (name, value, row))
        above = [(each.day.date - found.year.period.first).days for each in found.above]
        self.assertEqual(above, [int(day) for day in row["above"].split()])

    def test_numpy_and_r(self) -> None:
        cases = series()
        for file in ("major_days_numpy.csv", "major_days_r.csv"):
            rows = thresholds(file)
            self.assertEqual(rows.keys(), cases.keys())
            for case, periods in cases.items():
                with self.subTest(case, file=file):
                    districts = [district("all", number, *each) for number, each in periods.items()]
                    self.assert_equal_to(rows[case], answer(districts)[1])

    def test_districts_are_added_up_first(self) -> None:
        """The same seconds and customers in three districts make the same threshold."""
        rows = thresholds("major_days_numpy.csv")
        for case, periods in series().items():
            districts = []
            for number, (served, seconds) in periods.items():
                parts = [[value // 4 for value in seconds], [value // 3 for value in seconds]]
                parts.append([value - one - other for value, one, other in zip(seconds, *parts)])
                sizes = [served // 2, served // 5, served - served // 2 - served // 5]
                districts += [district(f"d{n}", number, *each) for n, each in enumerate(zip(sizes, parts))]
            with self.subTest(case):
                self.assert_equal_to(rows[case], answer(districts)[1])


class Periods(unittest.TestCase):
    seconds = [0, 60_000, 3_600, 7_200, 0, 90_000, 5_400, 0, 0, 1_800]

    def year(self, number: int, skip: int = 0, marks: dict[int, str] | None = None) -> District:
        return district("all", number, 1_000, self.seconds, marks, skip)

    def said(self, *districts: District) -> str:
        return "\n".join(about(*answer(districts)))

    def test_one_period_alone_is_refused(self) -> None:
        with self.assertRaisesRegex(BookError, "one period alone"):
            answer([self.year(0)])

    def test_periods_that_overlap_are_refused(self) -> None:
        with self.assertRaisesRegex(BookError, "overlap"):
            by_period([self.year(0), self.year(1, skip=-1)])

    def test_fewer_than_five_and_gaps_are_told(self) -> None:
        said = self.said(self.year(0), self.year(1, skip=1))
        self.assertIn("books of 1 of the 5 periods before", said)
        self.assertIn("No book has the days between 2020-01-10 and 2020-01-12", said)
        self.assertIn("6 days have a daily SAIDI above 0; 4 have none", said)

    def test_more_than_five_are_left_out_and_told(self) -> None:
        said = self.said(*(self.year(number) for number in range(7)))
        self.assertIn("The days from 2020-01-01 to 2020-01-10 are more than 5 periods back", said)
        self.assertIn("30 days have a daily SAIDI above 0", said)
        self.assertNotIn("No book has", said)

    def test_districts_that_come_and_go_are_told(self) -> None:
        said = self.said(
            *(district(name, 0, 500, self.seconds) for name in ("north", "south")),
            *(district(name, 1, 500, self.seconds) for name in ("north", "west")),
        )
        self.assertIn("south: in the books from 2020-01-01, not in the last ones", said)
        self.assertIn("west: in the last books, not in those from 2020-01-01", said)

    def test_one_value_has_no_threshold_and_no_row(self) -> None:
        before = district("all", 0, 1_000, [0, 0, 9_000])
        years, found = answer([before, district("all", 1, 1_000, [10**9, 0, 0])])
        self.assertIn("there is no threshold", "\n".join(about(years, found)))
        self.assertEqual(len(mark_rows(found, "all", "ENG")), 1)

    def test_equal_values_have_a_threshold_that_they_touch(self) -> None:
        """A beta of 0: a day of just that daily SAIDI is too near to be told from the threshold."""
        before = district("all", 0, 1_000, [9_000, 9_000, 9_000])
        with self.assertRaisesRegex(BookError, "floating numbers can't tell"):
            answer([before, district("all", 1, 1_000, [9_000, 0, 0])])
        _, found = answer([before, district("all", 1, 1_000, [9_001, 8_999, 0])])
        self.assertEqual([each.day.date for each in found.above], [date(2020, 1, 4)])

    def test_marked_days_count_and_are_told(self) -> None:
        last = district("all", 1, 1_000, [10**8, 60, 0, 0, 0, 0, 0, 0, 0, 0], {0: "ENG-1", 1: "ENG-2"})
        years, found = answer([self.year(0, marks={5: "ENG"}), last])
        self.assertEqual([each.marked_in for each in found.above], [("all",)])
        self.assertIn("Marked and not above the threshold: 2020-01-12.", "\n".join(about(years, found)))
        self.assertEqual(mark_rows(found, "all", "ENG"), mark_rows(found, "all", "ENG")[:1])
        self.assertEqual(mark_rows(found, "other", "ENG")[1][:4], ["mark", "MED-2020-01-11", "2020-01-11", "ENG"])


class Pages(unittest.TestCase):
    def test_the_histogram_has_every_day_and_no_column_on_both_sides(self) -> None:
        for case, periods in series().items():
            _, found = answer([district("all", number, *each) for number, each in periods.items()])
            threshold = found.threshold
            bars, ticks = histogram(threshold.logarithms, threshold.logarithm if threshold.is_defined else None)
            self.assertEqual(sum(bar.value for bar in bars), len(threshold.days))
            self.assertEqual([tick for tick in ticks if not 0 <= tick.place <= len(bars)], [])
            self.assertEqual([bar for bar in bars if bar.is_apart and not bar.value], [])
            if threshold.is_defined:
                above = sum(logarithm > threshold.logarithm for logarithm in threshold.logarithms)
                self.assertEqual(sum(bar.value for bar in bars if bar.is_apart), above, case)
                self.assertEqual(ticks[-1].label, f"T_MED {threshold.minutes:.4g} min")

    def test_the_axis_of_the_histogram_is_in_minutes(self) -> None:
        """Daily SAIDI of 1, 10 and 100 minutes; the threshold at 20."""
        bars, ticks = histogram([math.log(minutes) for minutes in (1, 10, 100)], math.log(20))
        places = {tick.label: tick.place for tick in ticks}
        self.assertEqual(list(places), ["1 min", "10 min", "100 min", "T_MED 20 min"])
        full = [place for place, bar in enumerate(bars) if bar.value]
        for place, label in zip(full, list(places)):
            self.assertAlmostEqual(places[label], place + 0.5, delta=0.5 + 1e-9)
        self.assertEqual([bar.is_apart for bar in bars if bar.value], [False, False, True])
        self.assertLessEqual(places["10 min"], places["T_MED 20 min"])

    def test_the_page_is_whole(self) -> None:
        years, found = answer([district("all", number, *each) for number, each in series()["five"].items()])
        text = major_days_page(years, "A & B", "2025-02-03")
        self.assertIn("A &amp; B", text)
        self.assertIn(facts(found)["T_MED"], text)
        self.assertIn(str(found.above[0].day.date), text)
        self.assertIn('on <span class="whole">2025-02-03</span> from 6 books of 6 periods', text)
        self.assertNotIn("clause", text)
        years, found = answer([district("all", number, 1_000, [9_000, 60, 0]) for number in range(2)])
        self.assertEqual(found.above, ())
        self.assertIn("<h3>Days above it</h3>\n<p>There is none.</p>", major_days_page(years, "A"))

    @needs_browser
    def test_paper_has_the_title_the_date_the_books_state_and_numbers(self) -> None:
        years, _ = answer([district("all", number, *each) for number, each in series()["five"].items()])
        page = many_books.folder() / "major-paper.html"
        page.write_text(major_days_page(years, "A & B", "2025-02-03"), encoding="utf-8")
        title = f"A & B {years[-1].period.first} to {years[-1].period.last}"
        assert_paper(page, title, "2025-02-03", "6 books of 6 periods of 6 commands; compared with the program")


class Books(unittest.TestCase):
    """From books to rows, and the rows into a book."""

    def test_from_books_to_marks(self) -> None:
        quiet = district_rows("N", 1)
        stormy = [row.replace("2025-03-25T11:00", "2025-03-28T11:00") for row in quiet]
        more = [
            "switch,E5,N-B1,open,2025-03-30T10:00:00+02:00,3,CREW,",
            "switch,E6,N-B1,close,2025-03-30T10:20:00+02:00,3,CREW,",
        ]

        def moved(rows: list[str]) -> list[str]:
            return [
                row.replace("2025-03-", "2025-04-0")
                .replace("-025T", "-08T")
                .replace("-026T", "-09T")
                .replace("-028T", "-11T")
                .replace("-030T", "-13T")
                .replace("+01:00", "+02:00")
                for row in rows
            ]

        earlier = books_of("major-earlier", {"north": [*quiet, *more]})["north"]
        later = books_of(
            "major-later", {"north": moved([*stormy, *more])}, ("2025-04-07", 14, many_books.FORTNIGHT[2])
        )["north"]
        rows, page = many_books.folder() / "rows", many_books.folder() / "major.html"
        done = run(
            "major_days", *with_tables([later, earlier]), "--json", "--rows", "ENG-1", "-o", rows, "--page", page
        )
        self.assertEqual((done.returncode, done.stderr), (0, ""))
        found = json.loads(done.stdout)
        self.assertEqual([each["day"] for each in found["above"]], ["2025-04-08"])
        self.assertEqual(found["above"][0]["daily_saidi"], "4380/1")
        self.assertEqual(
            (rows / "north.csv").read_text(),
            "kind,ref,f1,f2,f3,f4,f5,f6\nmark,MED-2025-04-08,2025-04-08,ENG-1,,,,\n",
        )
        self.assertIn("2025-04-08", page.read_text())
        marked = [*moved([*stormy, *more]), *(rows / "north.csv").read_text().splitlines()[1:]]
        again = books_of("major-marked", {"north": marked}, ("2025-04-07", 14, many_books.FORTNIGHT[2]))["north"]
        done = run("major_days", *with_tables([earlier, again]), "--rows", "ENG-1", "-o", rows)
        self.assertIn("2025-04-08  4380/1 4380.000  marked in north", done.stdout)
        self.assertEqual((rows / "north.csv").read_text(), "kind,ref,f1,f2,f3,f4,f5,f6\n")

    @needs_program
    def test_the_histogram_in_a_books_report(self) -> None:
        """The report of a year with the books before it, tables by the program."""
        paths = []
        for name, first, rows in (
            ("report-earlier", "2025-03-24", district_rows("N", 1)),
            ("report-later", "2025-04-07", [row for row in district_rows("N", 1) if not row.startswith("switch")]),
        ):
            book, file = many_books.folder() / f"{name}.db", many_books.folder() / f"{name}.csv"
            file.write_text("\n".join(["kind,ref,f1,f2,f3,f4,f5,f6", *rows]))
            for words in (
                ["init", "--book", book, "--first", first, "--days", "14", "--zone", many_books.FORTNIGHT[2]],
                ["import", "--book", book, file],
            ):
                subprocess.run([str(PROGRAM), *map(str, words)], check=True, capture_output=True)
            paths.append(book)
        page = many_books.folder() / "report.html"
        done = run("report", paths[1], "-o", page, "--earlier", paths[0], "--program", PROGRAM)
        self.assertEqual((done.returncode, done.stdout, done.stderr), (0, "", ""))
        text = page.read_text()
        self.assertIn("Major event days", text)
        self.assertIn("there is no threshold", text)
        self.assertIn("Days by their daily SAIDI", text)

    def test_wrong_words(self) -> None:
        for arguments in ("", "a.db --rows ENG", "a.db -o x", "a.db --rows eng -o x", "a.db b.db --table x"):
            self.assertEqual(run("major_days", *arguments.split()).returncode, 64, arguments)


if __name__ == "__main__":
    unittest.main()
