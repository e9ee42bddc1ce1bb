"""Major event days by the 2.5 beta method of IEEE Std 1366-2012: a threshold by the days of up to five years before.

    outagebook-major-days BOOK.. [--daily FILE] [--csv | --json] [--rows ENGINEER -o FOLDER]
                          [--page FILE [--name NAME]] [--own-numbers] [--processes N | --cluster ADDRESS]
                          [--table FILE .. | --program PATH]

The books are those of a year and of the years before it, of one district or of many: books of one period are added up.
Years before that have no books may come from a list of daily SAIDI (daily.py).
The latest period is the one in question; the threshold T_MED = exp(alpha + 2.5 beta) comes from the natural logarithms of
the daily SAIDI of the five periods before it, alpha their mean and beta their standard deviation. Nothing is marked here:
an engineer does that, and --rows writes what may be imported.
"""

import csv
import json
import math
import statistics
import sys
from collections import defaultdict
from collections.abc import Iterator, Sequence
from dataclasses import dataclass
from datetime import date, timedelta
from fractions import Fraction
from pathlib import Path

from outage_tools.cli import Parser, add_page_arguments, run_job
from outage_tools.counts import decimal_text, fraction_text
from outage_tools.daily import ListedPeriod, ListedYear, read_daily
from outage_tools.errors import BookError
from outage_tools.sums import District, PeriodKey, Sums, add_book_arguments, add_up, read_districts, tables_given

MOST_YEARS = 5
FACTOR = 2.5
LEAST_DAYS = 2  # a standard deviation of one value isn't defined
NEAR = 1e-9  # of two logarithms: nearer than what floating numbers tell apart for sure


@dataclass(frozen=True)
class Day:
    """A day with its daily SAIDI in minutes."""

    date: date
    saidi: Fraction

    @property
    def logarithm(self) -> float:
        """The natural logarithm of the daily SAIDI, which is above 0."""
        return math.log(self.saidi.numerator) - math.log(self.saidi.denominator)


@dataclass(frozen=True)
class Before:
    """A period before the year in question: its days with a daily SAIDI above 0, and how many have none."""

    period: PeriodKey | ListedPeriod
    days: tuple[Day, ...]
    empty_days: int


@dataclass(frozen=True)
class Threshold:
    """The threshold by the days of the years before."""

    periods: tuple[PeriodKey | ListedPeriod, ...]
    left_out: tuple[PeriodKey | ListedPeriod, ...]  # periods before the five
    days: tuple[Day, ...]  # with a daily SAIDI above 0
    empty_days: int  # without a sustained interruption that began on them

    @property
    def logarithms(self) -> list[float]:
        return [day.logarithm for day in self.days]

    @property
    def is_defined(self) -> bool:
        return len(self.days) >= LEAST_DAYS

    @property
    def alpha(self) -> float:
        return statistics.fmean(self.logarithms)

    @property
    def beta(self) -> float:
        """The standard deviation of a sample: the squares are divided by one less than their number."""
        return statistics.stdev(self.logarithms)

    @property
    def logarithm(self) -> float:
        """The logarithm of T_MED."""
        return self.alpha + FACTOR * self.beta

    @property
    def minutes(self) -> float:
        """T_MED."""
        return math.exp(self.logarithm)


@dataclass(frozen=True)
class MajorDay:
    """A day of the year in question whose daily SAIDI is above the threshold."""

    day: Day
    marked_in: tuple[str, ...]


@dataclass(frozen=True)
class Answer:
    """The year in question with its threshold and the days above it."""

    year: Sums
    threshold: Threshold
    above: tuple[MajorDay, ...]
    marked_below: tuple[date, ...]  # days that are marked and not above the threshold


# Periods.


def by_period(districts: Sequence[District]) -> dict[PeriodKey, list[District]]:
    """The books of each period, in the order of the periods, which don't overlap."""
    found: dict[PeriodKey, list[District]] = defaultdict(list)
    for each in districts:
        found[each.period].append(each)
    periods = sorted(found)
    for earlier, later in zip(periods, periods[1:]):
        if later.first <= earlier.last:
            raise BookError(f"the periods {earlier} and {later} overlap")
    return {period: found[period] for period in periods}


def gaps(periods: Sequence[PeriodKey | ListedPeriod]) -> Iterator[str]:
    """What periods that don't follow one another leave open."""
    what = "book or list" if any(isinstance(period, ListedPeriod) for period in periods) else "book"
    for earlier, later in zip(periods, periods[1:]):
        if later.first != earlier.last + timedelta(days=1):
            yield f"No {what} has the days between {earlier.last} and {later.first}."


def changes(years: Sequence[Sums]) -> Iterator[str]:
    """What periods that aren't of the same districts leave open."""
    for each in years[:-1]:
        here = {district.name for district in each.districts}
        there = {district.name for district in years[-1].districts}
        if len(here) > 1 or len(there) > 1:
            if here - there:
                yield f"{', '.join(sorted(here - there))}: in the books from {each.period.first}, not in the last ones."
            if there - here:
                yield f"{', '.join(sorted(there - here))}: in the last books, not in those from {each.period.first}."


def days_of(sums: Sums) -> tuple[list[Day], int]:
    """The days with a daily SAIDI above 0, and how many have none."""
    days, empty = [], 0
    for number, saidi in enumerate(sums.daily_saidi()):
        if saidi:
            days.append(Day(sums.period.day(number), saidi))
        else:
            empty += 1
    return days, empty


def before_of(sums: Sums) -> Before:
    """A period by its books."""
    days, empty = days_of(sums)
    return Before(sums.period, tuple(days), empty)


def before_by_list(year: ListedYear) -> Before:
    """A period by a list."""
    days = tuple(Day(day.date, day.saidi) for day in year.days if day.saidi)
    return Before(year.period, days, len(year.days) - len(days))


def periods_before(years: Sequence[Sums], listed: Sequence[ListedYear]) -> list[Before]:
    """The periods before the last one, by books and by a list, which don't have the same year."""
    for year in listed:
        for each in years[:-1]:
            if year.period.first <= each.period.last and each.period.first <= year.period.last:
                raise year.days[0].row.refused(
                    f"the list has days of the year from {year.period.first}, and a book that from {each.period.first}:"
                    " leave one of them out"
                )
    before = [*map(before_of, years[:-1]), *map(before_by_list, listed)]
    return sorted(before, key=lambda each: each.period.first)


def threshold_of(before: Sequence[Before]) -> Threshold:
    """The threshold by the last five of some periods."""
    used, left_out = before[-MOST_YEARS:], before[:-MOST_YEARS]
    return Threshold(
        tuple(each.period for each in used),
        tuple(each.period for each in left_out),
        tuple(day for each in used for day in each.days),
        sum(each.empty_days for each in used),
    )


def answer_of(years: Sequence[Sums], listed: Sequence[ListedYear] = ()) -> Answer:
    """The days of the last period above the threshold of those before it."""
    if len(years) < 2 and not listed:
        raise BookError("a threshold needs books of an earlier period: there are those of one period alone")
    year, threshold = years[-1], threshold_of(periods_before(years, listed))
    above: list[MajorDay] = []
    if threshold.is_defined:
        for day in days_of(year)[0]:
            if abs(day.logarithm - threshold.logarithm) < NEAR:
                raise BookError(
                    f"{day.date}: a daily SAIDI of {fraction_text(day.saidi)} minutes lies so near to the threshold"
                    f" {threshold.minutes:.9f} that floating numbers can't tell which is greater"
                )
            if day.logarithm > threshold.logarithm:
                number = (day.date - year.period.first).days
                above.append(MajorDay(day, year.marked_in.get(number, ())))
    dates = {each.day.date for each in above}
    below = tuple(year.period.day(number) for number in year.marked_in if year.period.day(number) not in dates)
    return Answer(year, threshold, tuple(above), below)


def read_years(districts: Sequence[District], own_numbers: bool) -> list[Sums]:
    """The books of each period added up, in the order of the periods."""
    return [add_up(each, own_numbers) for each in by_period(districts).values()]


# Writing.


def about(years: Sequence[Sums], answer: Answer) -> Iterator[str]:
    """What is to be said of the threshold, line by line."""
    threshold = answer.threshold
    yield (
        "Daily SAIDI: the sustained interruptions that begin on a day, whole, in minutes per customer served of their"
        " period; marked days count as the others do."
    )
    for period in threshold.left_out:
        yield f"The days from {period.first} to {period.last} are more than {MOST_YEARS} periods back, and left out."
    listed = [period for period in threshold.periods if isinstance(period, ListedPeriod)]
    kinds = "books" if not listed else "lists" if len(listed) == len(threshold.periods) else "books and lists"
    if len(threshold.periods) < MOST_YEARS:
        yield (
            f"There are {kinds} of {len(threshold.periods)} of the {MOST_YEARS} periods before: all their days are used, as"
            " the standard says."
        )
    yield from gaps([*threshold.left_out, *threshold.periods, answer.year.period])
    yield from changes(years)
    for period in listed:
        missing = period.days - period.listed
        told = f" {missing} of them aren't in it, and count as days without an interruption." if missing else ""
        yield f"The days from {period.first} to {period.last} are from a list, which no program has counted.{told}"
    yield (
        f"{len(threshold.days)} days have a daily SAIDI above 0; {threshold.empty_days} have none, and no logarithm: they"
        " are left out."
    )
    if not threshold.is_defined:
        yield "A standard deviation needs two values at least: there is no threshold, and no day is above it."
    if answer.marked_below:
        yield f"Marked and not above the threshold: {', '.join(map(str, answer.marked_below))}."


def facts(answer: Answer) -> dict[str, str]:
    """The numbers of the threshold by name; they are floating ones, to nine decimals."""
    threshold = answer.threshold
    if not threshold.is_defined:
        return {"alpha": "undefined", "beta": "undefined", "T_MED": "undefined"}
    return {
        "alpha": f"{threshold.alpha:.9f}",
        "beta": f"{threshold.beta:.9f}",
        "T_MED": f"{threshold.minutes:.9f}",
    }


COLUMNS = ("day", "daily_saidi", "daily_saidi_3", "marked_in")


def rows_above(answer: Answer) -> Iterator[list[str]]:
    for each in answer.above:
        saidi = each.day.saidi
        yield [str(each.day.date), fraction_text(saidi), decimal_text(saidi), " ".join(each.marked_in)]


def write_text(years: Sequence[Sums], answer: Answer) -> None:
    for line in about(years, answer):
        print(f"# {line}")
    for name, value in facts(answer).items():
        print(f"{name:<6} {value}{' minutes' if name == 'T_MED' and answer.threshold.is_defined else ''}")
    for day, saidi, decimals, marked in rows_above(answer):
        print(f"{day}  {saidi} {decimals}{f'  marked in {marked}' if marked else ''}")


def write_csv(_years: Sequence[Sums], answer: Answer) -> None:
    writer = csv.writer(sys.stdout, lineterminator="\n")
    writer.writerow(COLUMNS)
    writer.writerows(rows_above(answer))


def write_json(years: Sequence[Sums], answer: Answer) -> None:
    threshold = answer.threshold
    whole = {
        "about": list(about(years, answer)),
        "year": str(answer.year.period),
        "before": [str(period) for period in threshold.periods],
        "days_used": len(threshold.days),
        "days_without": threshold.empty_days,
        **facts(answer),
        "above": [dict(zip(COLUMNS, row)) for row in rows_above(answer)],
    }
    json.dump(whole, sys.stdout, indent=1)
    print()


def mark_rows(answer: Answer, district: str, engineer: str) -> list[list[str]]:
    """The rows that mark the days above the threshold in a district's book, without those that it has marked."""
    rows = [["kind", "ref", *(f"f{number}" for number in range(1, 7))]]
    for each in answer.above:
        if district not in each.marked_in:
            rows.append(["mark", f"MED-{each.day.date}", str(each.day.date), engineer, "", "", "", ""])
    return rows


def write_rows(answer: Answer, folder: str, engineer: str) -> None:
    """A file of rows for each district of the year."""
    try:
        Path(folder).mkdir(parents=True, exist_ok=True)
        for each in answer.year.districts:
            with (Path(folder) / f"{each.name}.csv").open("w", newline="", encoding="ascii") as file:
                csv.writer(file, lineterminator="\n").writerows(mark_rows(answer, each.name, engineer))
    except OSError as error:
        raise BookError(f"{folder}: {error.strerror}") from None


def main() -> int:
    parser = Parser(description="Finds the days of a year above the threshold of the years before it.")
    add_book_arguments(parser)
    parser.add_argument(
        "--daily",
        metavar="FILE",
        help="a CSV of day and saidi (minutes): daily SAIDI of years before that have no book",
    )
    form = parser.add_mutually_exclusive_group()
    form.add_argument("--csv", dest="write", action="store_const", const=write_csv, default=write_text, help="as CSV")
    form.add_argument("--json", dest="write", action="store_const", const=write_json, help="as JSON")
    parser.add_argument("--rows", metavar="ENGINEER", help="write rows that mark the days, in an engineer's name")
    parser.add_argument("-o", "--output", metavar="FOLDER", help="where --rows writes a file for each district")
    parser.add_argument("--page", metavar="FILE", help="write a page with the histogram too")
    add_page_arguments(parser, "Major event days")
    args = parser.parse_args()
    tables = tables_given(parser, args.books, args.table)
    if (args.rows is None) != (args.output is None):
        parser.error("--rows ENGINEER and -o FOLDER are given together")
    if args.rows is not None and not is_engineer(args.rows):
        parser.error("an engineer is 1 to 16 of A-Z, 0-9, - and _")

    def job() -> None:
        districts = read_districts(args.books, tables, args.program, args.processes, cluster=args.cluster)
        years = read_years(districts, args.own_numbers)
        listed = read_daily(args.daily, years[-1].period.first) if args.daily else []
        answer = answer_of(years, listed)
        if args.rows:
            write_rows(answer, args.output, args.rows)
        if args.page:
            from outage_tools.many_pages import major_days_page
            from outage_tools.report import write

            write(args.page, major_days_page(years, args.name, args.date, listed))
        args.write(years, answer)

    return run_job(job)


def is_engineer(text: str) -> bool:
    """A name as a book reads it."""
    return 1 <= len(text) <= 16 and all(letter in "ABCDEFGHIJKLMNOPQRSTUVWXYZ0123456789-_" for letter in text)
