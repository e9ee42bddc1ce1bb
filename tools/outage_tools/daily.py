"""Daily SAIDI of earlier years from a list, for those who have no books of these years.

The list is a CSV with the columns `day` (2024-12-31) and `saidi` (minutes, 0 or more). Its days are taken year by year, counted
back from the first day of the year in question. A row that can't be taken is refused by its number.
"""

import re
from collections import defaultdict
from collections.abc import Sequence
from dataclasses import dataclass
from datetime import date, timedelta
from fractions import Fraction

from outage_tools.lists import ListRow, read_list

COLUMNS = ("day", "saidi")
NUMBER = re.compile(r"[0-9]{1,9}(\.[0-9]{1,15})?")


@dataclass(frozen=True)
class ListedDay:
    """A day of a list, with its daily SAIDI in minutes and its row."""

    date: date
    saidi: Fraction
    row: ListRow


@dataclass(frozen=True, order=True)
class ListedPeriod:
    """A year of a list: the days from the first to the last that it could have, and how many it has."""

    first: date
    last: date
    listed: int

    @property
    def days(self) -> int:
        return (self.last - self.first).days + 1

    def __str__(self) -> str:
        return f"{self.first} days {self.days} by a list"


@dataclass(frozen=True)
class ListedYear:
    """A year of a list with its days."""

    period: ListedPeriod
    days: tuple[ListedDay, ...]


def day_of(row: ListRow) -> ListedDay:
    """A row of the list."""
    try:
        day = date.fromisoformat(row["day"])
    except ValueError:
        raise row.refused(f"{row['day']!r} is no day such as 2024-12-31") from None
    if not NUMBER.fullmatch(row["saidi"]):
        raise row.refused(f"{row['saidi']!r} is no number of minutes such as 0.25")
    return ListedDay(day, Fraction(row["saidi"]), row)


def years_before(first: date, count: int) -> date:
    """The day so many years before."""
    try:
        return first.replace(year=first.year - count)
    except ValueError:  # 29 February
        return first.replace(year=first.year - count, day=28)


def year_back(first: date, day: date) -> int:
    """In which year before a first day another day lies: 1 for the last one."""
    count = 1
    while day < years_before(first, count):
        count += 1
    return count


def read_daily(path: str, first: date) -> list[ListedYear]:
    """The years of a list before the first day of the year in question, the earliest first."""
    seen: set[date] = set()
    years: dict[int, list[ListedDay]] = defaultdict(list)
    for row in read_list(path, COLUMNS):
        day = day_of(row)
        if day.date >= first:
            raise row.refused(f"{day.date} isn't before {first}, the first day of the year in question")
        if day.date in seen:
            raise row.refused(f"{day.date} is there twice")
        seen.add(day.date)
        years[year_back(first, day.date)].append(day)
    return [listed_year(first, count, years[count]) for count in sorted(years, reverse=True)]


def listed_year(first: date, count: int, days: Sequence[ListedDay]) -> ListedYear:
    end = years_before(first, count - 1) - timedelta(days=1)
    period = ListedPeriod(years_before(first, count), end, len(days))
    return ListedYear(period, tuple(sorted(days, key=lambda day: day.date)))
