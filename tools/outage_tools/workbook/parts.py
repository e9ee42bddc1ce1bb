"""Which sheets a workbook has, in their order, and the sheets that say how each is made."""

from collections.abc import Callable, Iterator, Sequence
from dataclasses import dataclass, field
from fractions import Fraction

from outage_tools import figures
from outage_tools.above import customers_above
from outage_tools.causes import cause_groups
from outage_tools.compare import Checked
from outage_tools.events import DEFAULT_RULE, Rule
from outage_tools.filings import filing
from outage_tools.forms import Figures
from outage_tools.indices import HOURS, Loads
from outage_tools.keys import Keys
from outage_tools.lists import Groups, Names, with_names
from outage_tools.section_groups import groups
from outage_tools.versions import Made
from outage_tools.workbook.recount import recount
from outage_tools.workbook.sheets import MOST_ROWS, Cell, Sheet, parts_of, sheet_of

TESTED = "tested: added up by a tool of the interruptions that the program lists"
SELECTED = "counts and indices are the program's, proved; the rest is tested"
MIXED = "those from the program are proved; the others are tested"
BY_PROGRAM = ("months", "feeders", "ranking", "causes", "sections")  # sheets of what it says of each
ABOUT_COLUMNS = {
    "what": "a fact of the book, or the name of a sheet",
    "is": "the fact, or what the sheet shows",
    "made by": "what made it",
    "proved or tested": "whether a proof says that it is right, or tests alone",
}


@dataclass(frozen=True)
class Wanted:
    """What a workbook has beside the figures that every one has: a user's lists, filings, the name, the date."""

    name: str = "Outage book"
    date: str = ""
    names: Names | None = None
    cause_groups: Groups | None = None
    section_groups: Groups | None = None
    rule: Rule | None = None
    hours: Sequence[Fraction] = HOURS
    loads: Loads | None = None
    least: int | None = None  # sustained interruptions of the customers that are listed by number
    keys: Keys | None = None  # of customers, beside their numbers
    filings: Sequence[str] = field(default_factory=tuple)
    earlier: Checked | None = None  # the book of the year before, for the ranks of feeders


def named(shown: Figures, found: Checked, wanted: Wanted) -> Figures:
    """With the names of feeders, where there is a list of them."""
    if wanted.names is None or "feeder" not in shown.columns:
        return shown
    return with_names(shown, wanted.names, found.book)


def by_tool(name: str) -> str:
    return f"outagebook-figures BOOK {name}"


def figure_sheets(found: Checked, wanted: Wanted) -> Iterator[Sheet]:
    """A sheet of each figure but interruptions."""
    indices = figures.indices(found, wanted.hours, wanted.loads)
    yield sheet_of(indices, by_tool("indices"), MIXED)
    shown: dict[str, Callable[[], Figures]] = {
        "months": lambda: figures.months(found),
        "feeders": lambda: figures.feeders(found),
        "ranking": lambda: figures.ranking(found, wanted.earlier),
        "causes": lambda: figures.causes(found),
        "sections": lambda: figures.sections(found),
        "days": lambda: figures.days(found),
        "customers": lambda: figures.customers(found),
        "events": lambda: figures.events(found, wanted.rule or DEFAULT_RULE),
    }
    for name, make in shown.items():
        yield sheet_of(named(make(), found, wanted), by_tool(name), SELECTED if name in BY_PROGRAM else TESTED)
    if wanted.section_groups is not None:
        yield sheet_of(groups(found, wanted.section_groups), by_tool("groups"), TESTED)
    if wanted.cause_groups is not None:
        yield sheet_of(cause_groups(found, wanted.cause_groups), by_tool("cause-groups"), TESTED)
    for name in ("switchings", "lives"):
        yield sheet_of(
            figures.FIGURES[name](found), by_tool(name), "the amounts moved are the program's; the rest is tested"
        )


def further_sheets(found: Checked, wanted: Wanted) -> Iterator[Sheet]:
    """What is there if it is asked for: filings, customers by number."""
    for name in wanted.filings:
        made = f"outagebook-workbook BOOK --filing {name}"
        yield sheet_of(filing(found, name, wanted.cause_groups), made, "by line: the column `from`")
    if wanted.least is not None:
        listed = named(customers_above(found, wanted.least, wanted.keys), found, wanted)
        yield sheet_of(listed, f"outagebook-workbook BOOK --above {wanted.least}", TESTED)


def facts(found: Checked, wanted: Wanted, made: Made) -> Iterator[tuple[str, str]]:
    """What a workbook is of, and what made it."""
    period = found.book.period
    commands, last = found.database.execute(
        "SELECT count(*), (SELECT ref FROM cmd ORDER BY id DESC LIMIT 1) FROM cmd"
    ).fetchone()
    yield "name", wanted.name
    if wanted.date:
        yield "written on", wanted.date
    yield "period", f"{period.days[0]} to {period.days[-1]}, {len(period.days)} days, zone {period.zone.text}"
    yield "state of the book", f"{commands} commands{f', the last one {last}' if last else ''}"
    yield "program", made.program
    yield "program, sha256", made.program_sum
    yield "tools, sha256", made.tools_sum
    yield "sustained", "an interruption of more than 300 seconds; one of at most 300 is momentary"
    yield "unmarked", "without the interruptions that begin on a day that an engineer has marked as a major event day"
    yield "exact", "a column `.., exact` has the fraction in lowest terms as text; the number has its decimals, rounded half up"
    yield "compared", "before anything was written, the customer-seconds and counts of the interruptions were equal to the program's"


def about(found: Checked, wanted: Wanted, made: Made, sheets: Sequence[Sheet]) -> Sheet:
    """The first sheet: the book, the program, and how each sheet is made."""
    rows: list[list[Cell]] = [[name, text, "", ""] for name, text in facts(found, wanted, made)]
    for sheet in sheets:
        rows.append([f"sheet {sheet.name}", " ".join(sheet.about), f"{sheet.source}; {made.program}", sheet.program])
    return Sheet("about", [], list(ABOUT_COLUMNS), rows)


def meanings(sheets: Sequence[Sheet]) -> Sheet:
    """The last sheet: what each column is."""
    rows: list[list[Cell]] = [
        [sheet.name, column, sheet.meanings.get(column, "")] for sheet in sheets for column in sheet.columns
    ]
    return Sheet("columns", [], ["sheet", "column", "is"], rows)


def sheets_of(found: Checked, wanted: Wanted, made: Made, most: int = MOST_ROWS) -> list[Sheet]:
    """All sheets of a workbook; one with more rows than `most` is parted."""
    rows = sheet_of(named(figures.interruptions(found), found, wanted), "outagebook-figures BOOK interruptions", TESTED)
    interruptions = list(parts_of(rows, most))
    others = [part for sheet in figure_sheets(found, wanted) for part in parts_of(sheet, most)]
    further = [part for sheet in further_sheets(found, wanted) for part in parts_of(sheet, most)]
    sheets = [*further, recount(found, interruptions), *others, *interruptions]
    return [about(found, wanted, made, sheets), *sheets, meanings(sheets)]
