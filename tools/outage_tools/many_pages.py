"""Pages of many books: the sums of all districts, and the days of a year against the threshold of the years before it."""

from collections.abc import Sequence
from html import escape

from outage_tools import charts, figures, indices, report
from outage_tools.counts import SETS, decimal_text, quotient, quotient_text
from outage_tools.daily import ListedYear
from outage_tools.report import Column, TableRow
from outage_tools.sums import DISTRICT_COLUMNS, District, PeriodKey, Sums, about, district_rows, marks_that_differ

ADDED = (
    "Each district's book was compared with its program's annual table before anything was added up; the sums, and the"
    " indices as quotients of the sums, are computed here and exact."
)


def page_of(title: str, body: Sequence[str], state: str, date: str) -> str:
    """A whole page, in the style of the report of one book; on paper its title, the books' state and the date at the edges."""
    style = f"{report.STYLE}{report.paper_style(title, state, date)}"
    return (
        '<!DOCTYPE html>\n<html lang="en"><head><meta charset="utf-8">'
        '<meta name="viewport" content="width=device-width, initial-scale=1">'
        f"<title>{escape(title)}</title><style>{style}</style></head>\n<body>{''.join(body)}\n</body></html>\n"
    )


def title_of(name: str, period: PeriodKey) -> str:
    return f"{name} {period.first} to {period.last}"


def top(name: str, period: PeriodKey, state: str, date: str) -> str:
    """The heading, and below it which books the page was written from, and when."""
    on = f'on <span class="whole">{escape(date)}</span> ' if date else ""
    return f"""
<h1>{escape(name)}: <span class="whole">{period.first}</span> to <span class="whole">{period.last}</span></h1>
<p class="soft">Written {on}from {escape(state)}.</p>"""


def state_of(districts: Sequence[District], what: str) -> str:
    """Which state of the books a page shows."""
    return f"{what} of {report.number(sum(each.commands for each in districts))} commands; compared with the program"


# The sums.


def sums_page(sums: Sums, name: str, date: str = "") -> str:
    """The page of all districts of a period."""
    state = state_of(sums.districts, f"{len(sums.districts)} districts' books")
    parts = [top(name, sums.period, state, date), heading(sums), tiles(sums), index_part(sums), district_part(sums)]
    parts += [day_part(sums), cause_part(sums), feeder_part(sums)]
    parts.append(f"\n<footer><p>{report.COMPUTED} {escape(ADDED)}</p></footer>")
    return page_of(title_of(name, sums.period), parts, state, date)


def heading(sums: Sums) -> str:
    served = decimal_text(quotient(sums.served_seconds, sums.length)) or "undefined"
    return f"""
<p class="soft">{sums.period.days} days, zone {escape(sums.period.zone)}, {len(sums.districts)} districts. P is
{report.number(sums.length)} seconds, S is {report.number(sums.served_seconds)} customer-seconds in service, so {served}
customers (S / P) were served on average. W is {report.number(sums.total)} customer-seconds without supply, or
{report.hours(sums.total)} customer-hours.</p>
{said_part(sums)}"""


def said_part(sums: Sums) -> str:
    """What is to be said of the sums; days that not all books mark are a list of their own."""
    marks = list(marks_that_differ(sums))
    said = "".join(f'<p class="soft">{escape(line)}</p>' for line in about(sums) if line not in marks)
    if not marks:
        return said
    days = "".join(f"<li>{escape(line)}</li>" for line in marks)
    return said + report.behind(
        f"{len(marks)} days that not all books mark", f'<ul class="soft">{days}</ul>', len(marks)
    )


def figures_of_sums(sums: Sums) -> dict[str, str]:
    """The lines of the indices, as the annual table has them."""
    words: dict[str, str] = {}
    for name in SETS:
        for index, value in sums.indices(name).items():
            words[f"{index} {name}"] = quotient_text(value)
        words[f"SUSTAINED {name}"] = str(sums.counts[name].sustained)
        words[f"MOMENTARY {name}"] = str(sums.counts[name].momentary)
    return words


def tiles(sums: Sums) -> str:
    return report.tiles(report.boxes(figures_of_sums(sums), bool(sums.marked_in)))


def index_part(sums: Sums) -> str:
    """Both sets of the fifteen quotients, and of the indices that no annual table has."""
    further = {name: sums.further_indices(name) for name in SETS}
    return f"""
<h2>Indices of all districts {report.COMPUTED}</h2>
<p>Three decimals, and behind them the exact fraction in lowest terms; of ASAI five decimals. {said_of_marks(sums)} By IEEE Std
1366-2012; an interruption of more than 300 seconds is sustained. {figures.TERMS}</p>
{report.index_table(figures_of_sums(sums), bool(sums.marked_in))}
<h3>Further indices {report.COMPUTED}</h3>
<p>{indices.TERMS}</p>
{report.further_table(further, bool(sums.marked_in))}"""


def said_of_marks(sums: Sums) -> str:
    """What figures without major event days are; that no book marks a day."""
    if not sums.marked_in:
        return "No book marks a day as a major event day."
    return "<i>Without major event days</i> leaves out each interruption that begins on a day that its own book marks."


def cell_of(value: object) -> object:
    """A whole number with its thousands apart; a quotient that isn't there is undefined."""
    return report.number(value) if isinstance(value, int) else value or "undefined"


def district_part(sums: Sums) -> str:
    """SAIDI of each district, and the table behind it."""
    rows = [dict(zip(DISTRICT_COLUMNS, row)) for row in district_rows(sums)]
    bars = []
    for row in rows[:-1]:
        saidi = str(row["saidi_3"])
        bars.append(
            charts.Bar(str(row["district"]), float(saidi or 0), f"{row['district']}: {saidi or 'undefined'} min")
        )
    shown = {
        "district": "district",
        "commands": "commands",
        "customers served": "customers_served_3",
        "customer-seconds": "customer_seconds",
        "share of W": "share_3",
        "marked days": "marked_days",
        "sustained": "sustained",
        "momentary": "momentary",
        "SAIFI": "saifi_3",
        "SAIDI, min": "saidi_3",
        "CAIDI, min": "caidi_3",
    }
    cells = [TableRow([cell_of(row[column]) for column in shown.values()]) for row in rows]
    heads = [Column("district"), *report.numbers(*list(shown)[1:])]
    picture = charts.bars_below(bars, "SAIDI by district")
    note = "Minutes per customer served of the district, all interruptions of its sections."
    return f"""
<h2>Districts {report.COMPUTED}</h2>
{report.figure(picture, note, "below")}
{report.behind("The figures of this picture", report.table(heads, cells), len(cells))}"""


def day_part(sums: Sums) -> str:
    """Days in both readings, with those that some book marks set apart."""
    posted: list[charts.Bar] = []
    standard: list[charts.Bar] = []
    cells: list[TableRow] = []
    for number, (amount, daily) in enumerate(zip(sums.days, sums.daily_saidi())):
        day, names = str(sums.period.day(number)), sums.marked_in.get(number, ())
        mark = f", marked in {len(names)} of {len(sums.districts)}" if names else ""
        label = report.day_label(sums.period.day(number), sums.period.days)
        decimals = decimal_text(daily) or "undefined"
        hours = f"{day}{mark}: {report.hours(amount)} customer-hours"
        posted.append(charts.Bar(label, amount / 3_600, hours, bool(names)))
        title = f"{day}{mark}: {decimals} minutes per customer"
        standard.append(charts.Bar(label, float(daily or 0), title, bool(names)))
        if amount or names:
            cells.append(TableRow([day, report.number(amount), decimals, ", ".join(names)], bool(names)))
    heads = [Column("day"), *report.numbers("customer-seconds in it", "daily SAIDI, min"), Column("marked in", "long")]
    return f"""
<h2>Days</h2>
{charts.legend(["a day", "a day that a book marks"])}
{report.drawn(posted, "Customer-hours without supply, day by day", "customer-hours",
              "Customer-hours without supply in each day: each second in the day in which it lies.", report.COMPUTED)}
{report.drawn(standard, "Daily SAIDI, day by day", "minutes per customer",
              "Daily SAIDI: a sustained interruption whole on the day on which it begins, per customer served.",
              report.COMPUTED)}
{report.behind(f"The {len(cells)} days with interruptions or a mark", report.table(heads, cells), len(cells))}"""


def cause_part(sums: Sums) -> str:
    """Causes by their names, greatest first."""
    causes = sorted((cause for cause in sums.causes if cause.amount), key=lambda cause: (-cause.amount, cause.name))
    bars = [
        charts.Bar(cause.name, cause.amount / 3_600, f"{cause.name}: {report.hours(cause.amount)} customer-hours")
        for cause in causes
    ]
    cells = [
        TableRow(
            [cause.code_text, cause.name, report.number(cause.amount), decimal_text(quotient(cause.amount, sums.total))]
        )
        for cause in causes
    ]
    heads = [Column("cause"), Column("name"), *report.numbers("customer-seconds", "share of W")]
    return f"""
<h2>Causes, greatest first {report.COMPUTED}</h2>
{report.figure(charts.bars_below(bars, "Customer-hours without supply by cause"),
               "Customer-hours without supply under each cause's name, of all districts.", "below")}
{report.behind("The figures of this picture", report.table(heads, cells), len(cells))}"""


def feeder_part(sums: Sums) -> str:
    """The feeders with the most customer-seconds, each with its district."""
    feeders = [(amount, each.name, feeder) for each in sums.districts for feeder, amount in each.feeders.items()]
    worst = sorted(feeders, key=lambda one: (-one[0], one[1:]))[: report.WORST]
    heads = [Column("district"), *report.numbers("feeder", "customer-seconds", "share of W")]
    rows = [
        TableRow([name, feeder, report.number(amount), decimal_text(quotient(amount, sums.total))])
        for amount, name, feeder in worst
    ]
    return f"""
<h2>Feeders {report.COMPUTED}</h2>
<p>The {len(rows)} of {len(feeders)} with the most customer-seconds without supply.</p>
{report.table(heads, rows)}"""


# Major event days.


def major_days_page(years: Sequence[Sums], name: str, date: str = "", listed: Sequence[ListedYear] = ()) -> str:
    """The page of a year's days against the threshold of the years before it."""
    period, books = years[-1].period, [each for year in years for each in year.districts]
    state = state_of(books, f"{len(books)} books of {len(years)} periods")
    parts = [top(name, period, state, date), report.major_days_part(years, listed).text]
    return page_of(title_of(name, period), parts, state, date)
