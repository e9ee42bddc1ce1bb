"""The cover of a page: whose it is, how its figures are made, what they are made of, and a line to sign."""

from collections.abc import Iterable, Iterator, Mapping
from dataclasses import dataclass
from html import escape
from pathlib import Path

from outage_tools.compare import Checked
from outage_tools.errors import BookError
from outage_tools.filings import PLANNED, codes_of, names_of
from outage_tools.lists import Groups, read_list
from outage_tools.major_days import periods_before, threshold_of
from outage_tools.report.earlier import Earlier
from outage_tools.report.head import State, clock_words
from outage_tools.report.pieces import number
from outage_tools.versions import Made

TITLES = {
    "utility": "Utility",
    "number": "Utility number",
    "address": "Address",
    "responsible person": "Responsible person",
    "phone": "Phone",
    "prepared for": "Prepared for",
    "exports": "Exports",
}
CSV_COLUMNS = ("name", "value")
STANDARD = "IEEE Std 1366-2012"
LIMIT = (
    "An interruption of more than 300 seconds (five minutes) is sustained: it counts in SAIFI, SAIDI, CAIDI, CAIFI, ASAI and"
    " CEMI. One of 300 seconds or less is momentary: it counts in MAIFI and CEMSMI alone."
)
OVER_THE_END = (
    "An outage that begins before the period or goes on after it, as over New Year, counts with the part that lies in the"
    " period. So it is an interruption of each of the two periods, and in each its part alone says whether it is sustained."
)
AVERAGE = (
    "Customers served are an average over the period: the seconds in service of all customers, divided by the seconds of the"
    " period."
)

Facts = Mapping[str, str]  # what a cover says, by the names of TITLES


@dataclass(frozen=True)
class Sources:
    """What a page was made of: the book's file, the lists and the earlier books that were given, the program and the tools
    by version."""

    book: str
    made: Made
    lists: tuple[str, ...] = ()
    earlier: tuple[str, ...] = ()


@dataclass(frozen=True)
class Cover:
    """A cover: a user's facts, and the sources of the page."""

    facts: Facts
    sources: Sources


# Reading.


def fact_lines(path: str) -> Iterator[tuple[str, str, str]]:
    """What a cover's file says: where, the name, the value. A file `.csv` has the columns `name,value`."""
    if path.lower().endswith(".csv"):
        for row in read_list(path, CSV_COLUMNS):
            yield f"row {row.number}", row["name"], row["value"]
        return
    try:
        lines = Path(path).read_text(encoding="utf-8-sig").splitlines()
    except (OSError, UnicodeDecodeError) as error:
        raise BookError(f"{path} can't be read: {error}") from None
    for place, line in enumerate(lines, 1):
        name, _, value = line.partition(":")
        if line.strip():
            yield f"line {place}", name, value.strip()


def read_facts(path: str) -> Facts:
    """The facts of a cover, each once and with a value."""
    facts: dict[str, str] = {}
    for where, said, value in fact_lines(path):
        name = " ".join(said.lower().replace("_", " ").split())
        if name not in TITLES:
            raise BookError(f"{path}: {where}: {said.strip()!r} is no fact of a cover: {', '.join(TITLES)}")
        if name in facts:
            raise BookError(f"{path}: {where}: {name} comes twice")
        if not value:
            raise BookError(f"{path}: {where}: {name} has no value")
        facts[name] = value
    return facts


# Writing.


def rows_text(rows: Iterable[tuple[str, str]]) -> str:
    """Facts with their titles."""
    inner = "".join(f"<dt>{escape(title)}</dt><dd>{escape(text)}</dd>" for title, text in rows)
    return f'<dl class="facts">{inner}</dl>'


def major_text(found: Checked, earlier: Earlier | None) -> str:
    """The rule of major event days, and which are marked."""
    days = found.book.period.days
    marked = ", ".join(f"{days[day]} by {engineer}" for day, engineer in found.book.marks.items())
    said = f"Whole days that an engineer marks: {marked or 'none is marked'}."
    if earlier is None:
        return f"{said} The threshold of the 2.5 beta method is not computed on these pages."
    threshold = threshold_of(periods_before(earlier.years, ()))
    if not threshold.is_defined:
        return f"{said} The periods before have too few days for a threshold of the 2.5 beta method."
    first, last = threshold.periods[0].first, threshold.periods[-1].last
    value = f"{threshold.minutes:.3f} minutes of daily SAIDI"
    return f"{said} The threshold of the 2.5 beta method is {value}, by the days from {first} to {last}."


def planned_text(found: Checked, groups: Groups | None) -> str:
    """How planned interruptions are treated."""
    codes = codes_of(groups, PLANNED)
    if not codes:
        return "Counted as all others; no list says which causes are planned."
    return f"Counted as all others, and shown apart. Planned are those of the causes {names_of(found, codes)}."


def method_rows(found: Checked, earlier: Earlier | None, groups: Groups | None) -> list[tuple[str, str]]:
    return [
        ("Standard", STANDARD),
        ("Sustained and momentary", LIMIT),
        ("Major event days", major_text(found, earlier)),
        ("Planned interruptions", planned_text(found, groups)),
        ("Outages over the period's ends", OVER_THE_END),
        ("Customers served", AVERAGE),
        ("Clock", clock_words(found)),
    ]


def source_rows(cover: Cover, state: State) -> list[tuple[str, str]]:
    sources, made = cover.sources, cover.sources.made
    last = f", the last one {state.last}" if state.last else ""
    rows = [("Book", f"{sources.book}: {number(state.commands)} commands{last}")]
    if exports := cover.facts.get("exports"):
        rows.append((TITLES["exports"], exports))
    if sources.lists:
        rows.append(("Lists", ", ".join(sources.lists)))
    if sources.earlier:
        rows.append(("Books of the years before", ", ".join(sources.earlier)))
    rows.append(("Program", made.text))
    return [*rows, ("Tools", f"sha256 {made.tools_sum}, {made.python}")]


def signature(facts: Facts) -> str:
    """A line to sign."""
    who = facts.get("responsible person", "")
    below = f"Signature{f' of {escape(who)}' if who else ''}"
    return f'<div class="sign"><p>Place and date</p><p>{below}</p></div>'


def cover_text(found: Checked, cover: Cover, state: State, earlier: Earlier | None, groups: Groups | None) -> str:
    """The cover below the heading: a sheet of its own on paper."""
    facts = [(title, cover.facts[name]) for name, title in TITLES.items() if name in cover.facts and name != "exports"]
    return f"""
<section id="cover">
{rows_text(facts)}
<h2>Method</h2>
{rows_text(method_rows(found, earlier, groups))}
<h2>Sources</h2>
{rows_text(source_rows(cover, state))}
{signature(cover.facts)}
</section>"""
