"""The parts of a page that have pictures: days, months and causes, each with its table."""

from collections.abc import Iterable, Mapping, Sequence
from dataclasses import dataclass, field
from datetime import date
from fractions import Fraction

from outage_tools.causes import CauseGroup, CauseRow, cause_group_rows, cause_rows
from outage_tools.charts import NARROW, Bar, Tick, bars_below, columns, legend, lines_of_bars
from outage_tools.compare import Checked
from outage_tools.counts import SETS, Rates
from outage_tools.days import DayRow, day_rows, month_rows
from outage_tools.lists import Groups
from outage_tools.rates import GroupRow
from outage_tools.report.pieces import (
    COMPUTED,
    PROVED,
    SET_NAMES,
    Column,
    Part,
    TableRow,
    behind,
    decimal,
    figure,
    hours,
    length_of,
    minutes,
    number,
    numbers,
    per_cent,
    table,
)
from outage_tools.report.style import PICTURE_STYLE

LONG = 62  # days: in a longer period the firsts of months are labelled


@dataclass(frozen=True)
class Days:
    """The days in both readings: their rows, and a bar for each."""

    rows: list[DayRow]
    posted: list[Bar] = field(default_factory=list)
    standard: list[Bar] = field(default_factory=list)


def days_of(found: Checked) -> Days:
    days = Days(day_rows(found))
    for row in days.rows:
        mark = ", marked" if row.is_marked else ""
        day = row.day.isoformat()
        label = day_label(row.day, len(days.rows))
        title = f"{day}{mark}: {hours(row.posted)} customer-hours"
        days.posted.append(Bar(label, row.posted / 3_600, title, row.is_marked))
        title = f"{day}{mark}: {decimal(row.begun.saidi)} minutes per customer"
        days.standard.append(Bar(label, length_of(row.begun.saidi), title, row.is_marked))
    return days


def day_label(day: date, days: int) -> str:
    """What stands below a day: its date, or of a long period the month on its first day alone."""
    if days <= LONG:
        return day.isoformat()
    return day.isoformat()[:7] if day.day == 1 else ""


def drawn(bars: list[Bar], title: str, unit: str, note: str, source: str = "", ticks: Sequence[Tick] = ()) -> str:
    """Columns with their words, drawn for wide screens and for narrow ones."""
    narrow = columns(bars, title, unit, NARROW, ticks)
    return figure(columns(bars, title, unit, ticks=ticks), note, "columns", source, narrow)


POSTED = "Customer-hours without supply, day by day", "customer-hours"
STANDARD = "Daily SAIDI, day by day", "minutes per customer"
MONTHS = "SAIDI by month", "minutes per customer"
CAUSES = "Customer-hours without supply by cause"
POSTED_NOTE = (
    "Customer-hours without supply in each day, as the program posted them: each second in the day in which it lies,"
    " momentary interruptions too."
)
STANDARD_NOTE = (
    "Daily SAIDI as the standard counts it to choose marked days: a sustained interruption whole on the day on which it"
    " begins, per customer served of the period. The days add up to SAIDI."
)
DAY_HEADS = [
    Column("day"),
    *numbers("customer-hours in it", "daily SAIDI, min", "sustained begun", "momentary begun"),
    Column("marked"),
]
DAY_DECIMALS = 2  # of a daily SAIDI, which mostly is less than a minute


def picture(found: Checked) -> str:
    """The picture of the days as a file of its own, for other pages."""
    return as_file(columns(days_of(found).posted, *POSTED))


def as_file(drawing: str) -> str:
    """A drawing as a file of its own."""
    begin, _, rest = drawing.partition(">")
    return f'{begin} xmlns="http://www.w3.org/2000/svg"><style>{PICTURE_STYLE}</style>{rest}\n'


def own_pictures(found: Checked) -> dict[str, str]:
    """The pictures of days, months and causes as files, by their names."""
    days = days_of(found)
    return {
        "days": as_file(columns(days.posted, *POSTED)),
        "daily-saidi": as_file(columns(days.standard, *STANDARD)),
        "months": as_file(columns(month_bars(found), *MONTHS)),
        "causes": as_file(lines_of_bars(cause_bars(found), CAUSES)),
    }


def day_row(row: DayRow) -> TableRow:
    cells = [
        row.day,
        hours(row.posted),
        decimal(row.begun.saidi, DAY_DECIMALS),
        number(row.begun.counts.sustained),
        number(row.begun.counts.momentary),
        f"by {row.engineer}" if row.is_marked else "",
    ]
    return TableRow(cells, row.is_marked)


def day_part(found: Checked) -> Part:
    """Days as bars, in both readings."""
    days = days_of(found)
    meanings = ["a day", "a marked day"] if found.book.marks else []
    content = f"""
{legend(meanings) if meanings else ""}
{drawn(days.posted, *POSTED, POSTED_NOTE, PROVED)}
{drawn(days.standard, *STANDARD, STANDARD_NOTE, COMPUTED)}"""
    return Part("days", "Days", "", content)


def marked_days(found: Checked) -> str:
    """The marked days, where there are any."""
    rows = [day_row(row) for row in day_rows(found) if row.is_marked]
    return f"\n<h3>Marked days</h3>\n{table(DAY_HEADS, rows, 'Marked days')}" if rows else ""


def day_table_part(found: Checked) -> Part:
    """The figures of the days, for the end of a page."""
    rows = [day_row(row) for row in day_rows(found) if row.posted or row.is_marked or row.begun.counts.momentary]
    summary = f"The {len(rows)} days with interruptions or a mark"
    content = f"""
<p>Customer-hours without supply that lie in the day, momentary interruptions too; minutes per customer served of the
sustained interruptions that begin on it.</p>
{behind(summary, table(DAY_HEADS, rows), len(rows))}"""
    return Part("day-figures", "Appendix: the days", COMPUTED, content)


# Figures of both sets in one row.


def rates_heads(found: Checked) -> list[Column]:
    """SAIFI, SAIDI and CAIDI of all days, and where a day is marked without major event days too."""
    titles = ("SAIFI", "SAIDI, min", "CAIDI, min")
    if not found.book.marks:
        return numbers(*titles)
    return [column for name in SET_NAMES.values() for column in numbers(*titles, over=name)]


def rates_cells(found: Checked, rates_of: Mapping[str, Rates]) -> list[str]:
    """The cells of rates_heads, by the rates of both sets."""
    shown = [rates_of[name] for name in (SETS if found.book.marks else SETS[:1])]
    return [cell for each in shown for cell in (decimal(each.saifi), minutes(each.saidi), minutes(each.caidi))]


def by_name(rows: Iterable[GroupRow]) -> dict[int | str, dict[str, GroupRow]]:
    """Rows of both sets by the month or the feeder that they are of."""
    found: dict[int | str, dict[str, GroupRow]] = {}
    for row in rows:
        found.setdefault(row.name, {})[row.set] = row
    return found


GROUP_HEADS = numbers("customers served", "customer-hours", "sustained", "momentary")


def group_cells(found: Checked, sets: Mapping[str, GroupRow]) -> list[str]:
    """The cells of GROUP_HEADS and rates_heads."""
    whole = sets["all"]
    counts = number(whole.rates.counts.sustained), number(whole.rates.counts.momentary)
    rates = {name: row.rates for name, row in sets.items()}
    return [minutes(whole.rates.customers), hours(whole.seconds), *counts, *rates_cells(found, rates)]


def saidi_bar(label: str, saidi: Fraction | None, is_apart: bool = False) -> Bar:
    return Bar(label, length_of(saidi), f"{label}: {minutes(saidi)} min", is_apart)


def month_bars(found: Checked) -> list[Bar]:
    return [saidi_bar(str(name), sets["all"].rates.saidi) for name, sets in by_name(month_rows(found)).items()]


def month_part(found: Checked) -> Part:
    """SAIDI by month, and its table."""
    months = by_name(month_rows(found))
    note = "Minutes per customer served of the month, all interruptions that begin in it."
    rows = [TableRow([name, *group_cells(found, sets)]) for name, sets in months.items()]
    content = f"""
{drawn(month_bars(found), *MONTHS, note)}
{table([Column("month"), *GROUP_HEADS, *rates_heads(found)], rows)}"""
    return Part("months", MONTHS[0], PROVED, content)


CAUSE_HEADS = [
    Column("cause"),
    *numbers("code", "customer-hours", "share", "sustained", "momentary", "SAIFI", "SAIDI, min", "CAIDI, min"),
]


def cause_row(row: CauseRow) -> TableRow:
    rates = row.rates
    indices = decimal(rates.saifi), minutes(rates.saidi), minutes(rates.caidi)
    counts = number(rates.counts.sustained), number(rates.counts.momentary)
    return TableRow([row.name, row.code, hours(row.posted), per_cent(row.share), *counts, *indices])


def cause_bars(found: Checked) -> list[Bar]:
    return [
        Bar(f"{row.name} ({row.code})", row.posted / 3_600, f"{row.name}: {hours(row.posted)} customer-hours")
        for row in cause_rows(found)
        if row.posted
    ]


def cause_part(found: Checked) -> Part:
    """Causes, greatest first."""
    rows = cause_rows(found)
    note = "Customer-hours without supply under each cause, as the program posted them."
    summary = "The figures of this picture; the shares are computed here"
    content = f"""
{figure(bars_below(cause_bars(found), CAUSES), note, "below")}
{behind(summary, table(CAUSE_HEADS, map(cause_row, rows)), len(rows))}"""
    return Part("causes", "Causes, greatest first", PROVED, content)


CAUSE_GROUP_HEADS = [Column("group"), *numbers("customer-hours", "share", "sustained", "momentary")]


def cause_group_row(found: Checked, sets: Mapping[str, CauseGroup]) -> TableRow:
    whole = sets["all"]
    counts = whole.rates.counts
    cells = [whole.name or "in no group", hours(whole.seconds), per_cent(whole.share)]
    cells += [number(counts.sustained), number(counts.momentary)]
    cells += rates_cells(found, {name: group.rates for name, group in sets.items()})
    return TableRow([*cells, ", ".join(whole.causes)])


def cause_group_part(found: Checked, groups: Groups) -> Part:
    """Groups of causes apart: planned and unplanned."""
    sets: dict[str, dict[str, CauseGroup]] = {}
    for row in cause_group_rows(found, groups):
        sets.setdefault(row.name, {})[row.set] = row
    heads = [*CAUSE_GROUP_HEADS, *rates_heads(found), Column("causes", "long")]
    shown = table(heads, (cause_group_row(found, each) for each in sets.values()))
    content = f"""
<p>An interruption has the cause of the switching that cut off. All are over all customers served, so the groups' SAIFI and
SAIDI add up to the book's.</p>
{shown}"""
    return Part("cause-groups", "Groups of causes", COMPUTED, content)
