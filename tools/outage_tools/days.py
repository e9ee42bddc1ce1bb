"""The days of a period in both readings, and its months."""

from collections import defaultdict
from dataclasses import dataclass
from datetime import date

from outage_tools.compare import Checked
from outage_tools.counts import SETS, Counts, Rates
from outage_tools.forms import Figures, Value
from outage_tools.rates import (
    GROUP_COLUMNS,
    GroupRow,
    both,
    counts_by,
    group_values,
    quotient_columns,
    yes_if,
)
from outage_tools.rows import DAY, Period


@dataclass(frozen=True)
class DayRow:
    """A day: its length, the customer-seconds posted in it, what begins on it, and who marked it, if anyone did."""

    day: date
    seconds: int
    posted: int
    begun: Rates
    engineer: str | None

    @property
    def is_marked(self) -> bool:
        return self.engineer is not None


def day_rows(found: Checked) -> list[DayRow]:
    """Every day of the period."""
    book, period = found.book, found.book.period
    begun = counts_by(found.interruptions, lambda each: period.day_of(each.since))
    return [
        DayRow(
            day=day,
            seconds=period.bounds[number + 1] - period.bounds[number],
            posted=book.postings[DAY, number],
            begun=Rates(begun.get(number, Counts()), found.whole["all"].served, period.length),
            engineer=book.marks.get(number),
        )
        for number, day in enumerate(period.days)
    ]


def days(found: Checked) -> Figures:
    """Every day of the period, with the book's seconds and the standard's daily SAIDI."""
    columns = {
        "day": "the date",
        "seconds": "how long the day is",
        "customer_seconds": "the book's: customer-seconds without supply in this day, momentary ones too",
        "sustained_begun": "customers' sustained interruptions that begin on this day",
        "momentary_begun": "customers' momentary interruptions that begin on this day",
        "customer_seconds_begun": "customer-seconds of the sustained ones that begin on this day, whole",
        **quotient_columns("daily_saidi", "the standard's: minutes of those per customer served of the period"),
        "marked": "yes where the day is marked",
        "engineer": "who marked it",
    }
    about = [
        "Two readings of a day, which differ where an interruption runs past midnight or is momentary:",
        "customer_seconds is the book's: each second counts in the day in which it lies. The days add up to W.",
        "daily_saidi is the standard's: a sustained interruption counts whole on the day on which it begins. The days add"
        " up to SAIDI; days are chosen to be marked by it.",
    ]
    return Figures("days", about, columns, [day_values(row) for row in day_rows(found)])


def day_values(row: DayRow) -> list[Value]:
    begun = row.begun.counts
    return [
        row.day.isoformat(),
        row.seconds,
        row.posted,
        begun.sustained,
        begun.momentary,
        begun.sustained_seconds,
        *both(row.begun.saidi),
        yes_if(row.is_marked),
        row.engineer or "",
    ]


def months_of_days(period: Period) -> list[str]:
    """The month of each day, as `2025-03`."""
    return [day.strftime("%Y-%m") for day in period.days]


def unmarked_seconds(found: Checked) -> dict[int, int]:
    """The customer-seconds of the unmarked interruptions that lie in each day."""
    seconds: dict[int, int] = defaultdict(int)
    for each in found.counted("unmarked"):
        for day, length in found.book.period.parts(each.since, each.until):
            seconds[day] += each.customers * length
    return seconds


def month_seconds(found: Checked) -> dict[str, dict[str, int]]:
    """The customer-seconds that lie in each month: the book's, and those of the unmarked interruptions."""
    unmarked = unmarked_seconds(found)
    seconds: dict[str, dict[str, int]] = {name: defaultdict(int) for name in SETS}
    for number, month in enumerate(months_of_days(found.book.period)):
        seconds["all"][month] += found.book.postings[DAY, number]
        seconds["unmarked"][month] += unmarked[number]
    return seconds


def month_rows(found: Checked) -> list[GroupRow]:
    """The months' parts of the period."""
    selected, seconds = found.selected("month"), month_seconds(found)
    return [GroupRow(key, name, seconds[name][key], selected[name][key]) for key in selected["all"] for name in SETS]


def months(found: Checked) -> Figures:
    """SAIDI, SAIFI and CAIDI of each month, over the customers served in it."""
    about = [
        "The month's part of the period; an interruption counts whole in the month in which it begins.",
        "Customers served are an average over that part: its S / P.",
        "customer_seconds counts each second in the month in which it lies.",
    ]
    rows = [[row.name, *group_values(row)] for row in month_rows(found)]
    return Figures("months", about, {"month": "year and month", **GROUP_COLUMNS}, rows)
