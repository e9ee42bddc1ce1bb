"""The part on major event days: the threshold by the periods before, the days above it, and all days by their daily SAIDI."""

import math
from collections import Counter
from collections.abc import Sequence
from dataclasses import dataclass
from html import escape

from outage_tools.charts import Bar, Tick, legend
from outage_tools.daily import ListedYear
from outage_tools.major_days import Answer, Threshold, about, answer_of, facts
from outage_tools.report.pictures import DAY_DECIMALS, drawn
from outage_tools.report.pieces import COMPUTED, Column, Part, TableRow, decimal, numbers, table
from outage_tools.sums import Sums

BINS = 40  # of a histogram, at most
TEN = math.log(10)
VALUE_HEADS = [Column(""), Column("value", "code")]
DAY_HEADS = [Column("day"), *numbers("daily SAIDI, min"), Column("marked in", "long")]
HISTOGRAM = "Days by their daily SAIDI", "days"
HISTOGRAM_NOTE = (
    "Days before the year by their daily SAIDI in minutes, on an axis on which each number is ten times the one before. The"
    " columns set apart lie above the threshold."
)


def major_days_part(years: Sequence[Sums], listed: Sequence[ListedYear] = (), marked: str = "") -> Part:
    """The latest period's days against the threshold of the periods before it, behind a table of the marked ones."""
    answer = answer_of(years, listed)
    said = "".join(f"<li>{escape(line)}</li>" for line in about(years, answer))
    content = f"""
<p>The threshold T_MED by the 2.5 beta method of IEEE Std 1366-2012, and the days above it. It marks nothing: an engineer
decides.</p>
<ul class="soft">{said}</ul>{marked}
{threshold_text(answer)}
{histogram_text(answer.threshold)}"""
    return Part("major-days", "Major event days", COMPUTED, content)


def threshold_text(answer: Answer) -> str:
    """The numbers of the threshold, and the days above it."""
    values = [TableRow([which, value]) for which, value in facts(answer).items()]
    rows = [
        TableRow([each.day.date, decimal(each.day.saidi, DAY_DECIMALS), ", ".join(each.marked_in) or "nowhere"])
        for each in answer.above
    ]
    days = table(DAY_HEADS, rows) if rows else "<p>There is none.</p>"
    return f"""
<p>T_MED = exp(alpha + 2.5 beta), in minutes; alpha is the mean and beta the standard deviation of the logarithms of the
{len(answer.threshold.days)} daily SAIDI of the periods before.</p>
{table(VALUE_HEADS, values, "The threshold")}
<h3>Days above it</h3>
{days}"""


def histogram_text(threshold: Threshold) -> str:
    """How many days have which daily SAIDI; the columns at or above the threshold are set apart."""
    bars, ticks = histogram(threshold.logarithms, threshold.logarithm if threshold.is_defined else None)
    return f"""
<h3>Daily SAIDI of the periods before</h3>
{legend(["days", "days above the threshold"])}
{drawn(bars, *HISTOGRAM, HISTOGRAM_NOTE, ticks=ticks)}"""


@dataclass(frozen=True)
class Bins:
    """Columns of equal width over logarithms: the lower bound of the first, the width of each, and how many there are."""

    start: float
    width: float
    count: int

    def place(self, logarithm: float) -> float:
        """Where a logarithm lies, in columns from the first one's bound."""
        return (logarithm - self.start) / self.width

    def bounds(self, number: int) -> tuple[float, float]:
        """The minutes between which a column lies."""
        low = self.start + number * self.width
        return math.exp(low), math.exp(low + self.width)


def bins_of(logarithms: Sequence[float], threshold: float | None) -> Bins:
    """Columns for all logarithms and for the threshold, which is a bound of two of them: none lies on both its sides."""
    least, most = min(logarithms), max([*logarithms, threshold if threshold is not None else -math.inf])
    width = max((most - least) / (BINS - 1), 1e-9)
    start = least if threshold is None else threshold - width * math.ceil((threshold - least) / width)
    return Bins(start, width, math.floor((most - start) / width) + 1)


def histogram(logarithms: Sequence[float], threshold: float | None) -> tuple[list[Bar], list[Tick]]:
    """A column for the days whose daily SAIDI lies between two bounds, and the minutes below the columns."""
    if not logarithms:
        return [], []
    bins = bins_of(logarithms, threshold)
    days = Counter(min(bins.count - 1, math.floor(bins.place(logarithm))) for logarithm in logarithms)
    first_above = bins.count if threshold is None else round(bins.place(threshold))
    bars = []
    for number in range(bins.count):
        low, high = bins.bounds(number)
        title = f"{low:.4g} to {high:.4g} minutes: {days[number]} days"
        bars.append(Bar("", days[number], title, number >= first_above and days[number] > 0))
    return bars, ticks_of(bins, threshold)


def ticks_of(bins: Bins, threshold: float | None) -> list[Tick]:
    """The powers of ten below the columns, in minutes, and the threshold as a line."""
    powers = range(math.ceil(bins.start / TEN), math.floor((bins.start + bins.count * bins.width) / TEN) + 1)
    ticks = [Tick(bins.place(power * TEN), f"{10.0**power:g} min") for power in powers]
    if threshold is not None:
        ticks.append(Tick(bins.place(threshold), f"T_MED {math.exp(threshold):.4g} min", has_line=True))
    return ticks
