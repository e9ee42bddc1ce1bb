"""The part that sets the years beside one another: this one and up to five before it, with a picture."""

from collections.abc import Iterator, Sequence
from fractions import Fraction

from outage_tools.charts import Bar, legend
from outage_tools.counts import SETS, quotient
from outage_tools.major_days import MOST_YEARS
from outage_tools.report.earlier import are_alike, period_text
from outage_tools.report.pictures import drawn
from outage_tools.report.pieces import (
    COMPUTED,
    NONE,
    SET_NAMES,
    Column,
    Part,
    TableRow,
    change,
    decimal,
    length_of,
    minutes,
    number,
    numbers,
    table,
)
from outage_tools.sums import Sums

TITLE = "SAIDI of the years"
NOTE = "Minutes per customer served; above each column SAIDI of all days."
INDICES = {"SAIDI, min": "SAIDI", "SAIFI": "SAIFI", "CAIDI, min": "CAIDI"}
HEADS = [Column("period"), *numbers("customers served", "marked days")]
HEADS += numbers(*(title for index in INDICES for title in (index, "change")))


def change_between(now: Sums, before: Sums | None, index: str, which: str) -> str:
    """The change of an index to the period before, where both have one length."""
    if before is None or not are_alike(now.period, before.period):
        return NONE
    return change(now.indices(which)[index], before.indices(which)[index])


def index_text(index: str, value: Fraction | None) -> str:
    return decimal(value) if index == "SAIFI" else minutes(value)


def year_rows(years: Sequence[Sums], which: str, before_all: Sums | None) -> Iterator[TableRow]:
    """The periods, the page's own set apart at the left."""
    for before, sums in zip([before_all, *years], years):
        cells: list[object] = [period_text(sums.period), minutes(quotient(sums.served_seconds, sums.length))]
        cells.append(number(len(sums.marked_in)))
        for index in INDICES.values():
            value = sums.indices(which)[index]
            cells += [index_text(index, value), change_between(sums, before, index, which)]
        yield TableRow(cells, sums is years[-1])


def year_bar(sums: Sums) -> Bar:
    """SAIDI without major event days, and on top of it what these add."""
    whole, without = (sums.indices(name)["SAIDI"] for name in SETS)
    label = period_text(sums.period) if sums.period.days >= 365 else str(sums.period.first)
    added = length_of(whole) - length_of(without)
    title = f"{period_text(sums.period)}: {minutes(whole)} min, {minutes(without)} {SET_NAMES['unmarked']}"
    return Bar(label, length_of(without), title, more=added, says=minutes(whole))


def years_part(years: Sequence[Sums]) -> Part:
    """SAIDI, SAIFI and CAIDI of the years, with and without major event days."""
    shown, left = years[-MOST_YEARS - 1 :], years[: -MOST_YEARS - 1]
    before = left[-1] if left else None
    has_marks = any(sums.marked_in for sums in shown)
    tables = [
        f"<h3>{SET_NAMES[name].capitalize()}</h3>\n"
        + table(HEADS, year_rows(shown, name, before), f"The years, {SET_NAMES[name]}")
        for name in (SETS if has_marks else SETS[:1])
    ]
    without = "" if has_marks else "\n<p>No day of these periods is marked as a major event day.</p>"
    meanings = ["without major event days", "what major event days add"] if has_marks else []
    content = f"""
{legend(meanings) if meanings else ""}
{drawn([year_bar(sums) for sums in shown], TITLE, "minutes per customer", NOTE)}{without}
<p>Change is that to the period before, in per cent of it; there is none where the periods differ in length.</p>
{"".join(tables)}"""
    return Part("years", "The years before", COMPUTED, content)
