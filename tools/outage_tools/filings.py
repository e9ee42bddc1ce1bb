"""What a form asks of a period, line by line: EIA-861 (Schedule 3, Part B) and the indicators of European regulators (CEER).

Lines of all causes are the words of the program's annual table, or its indices by another limit. Of lines of some causes alone,
by a list of groups of causes, the program's counts by cause are added up. What a book can't say is an empty line, which says why.
"""

from collections.abc import Callable, Iterator
from dataclasses import dataclass
from datetime import date
from fractions import Fraction

from outage_tools.causes import rates_of_causes
from outage_tools.compare import Checked, figures_of_table
from outage_tools.counts import SETS, Rates, decimal_text
from outage_tools.forms import Figures, Value
from outage_tools.interruptions import LONGEST_MOMENTARY
from outage_tools.lists import Groups

PROGRAM, TOOL, NOWHERE = "program, proved", "tool, tested", ""
PLANNED, LOSS_OF_SUPPLY = "planned", "loss of supply"
THREE_MINUTES = 180
LIMITS = {
    THREE_MINUTES: "interruptions of more than 3 minutes",
    LONGEST_MOMENTARY: "interruptions of more than 300 seconds",
}
INDICES = ("SAIDI", "SAIFI")  # by kinds of causes
UNITS = {
    "SAIDI": "minutes per customer",
    "SAIFI": "interruptions per customer",
    "CAIDI": "minutes per interruption",
    "MAIFI": "interruptions per customer",
}
WITHOUT_VALUE = "undefined: there is nothing to divide by"

COLUMNS = {
    "line": "what the form asks for",
    "unit": "its unit",
    "value": "three decimals, rounded half up, or a whole number; empty where the book can't say it",
    "numerator": "the exact value is this",
    "denominator": "divided by this",
    "from": "program, proved: of the annual table or `outagebook indices`, for these marked days; tool, tested: the program's counts by cause, added up",
    "note": "what is to be known of the line",
}


@dataclass(frozen=True)
class Line:
    """A line of a form; no value: the book can't say it, or it is undefined."""

    name: str
    unit: str
    value: Fraction | int | str | None
    source: str
    note: str = ""

    def cells(self) -> list[Value]:
        """The values of COLUMNS."""
        if isinstance(self.value, Fraction):
            exact: list[Value] = [self.value.numerator, self.value.denominator]
            return [self.name, self.unit, decimal_text(self.value), *exact, self.source, self.note]
        return [self.name, self.unit, "" if self.value is None else self.value, "", "", self.source, self.note]


def index_line(index: str, of: str, value: Fraction | None, source: str, note: str = "") -> Line:
    """A line of an index."""
    notes = [each for each in (note, WITHOUT_VALUE if value is None else "") if each]
    return Line(f"{index} {of}", UNITS[index], value, source, "; ".join(notes))


def empty_line(index: str, of: str, why: str) -> Line:
    """A line of an index that the book can't say."""
    return Line(f"{index} {of}", UNITS.get(index, ""), None, NOWHERE, why)


# What both forms have.


def said_by_program(found: Checked, index: str, which: str) -> Fraction | None:
    """An index of one of the two sets, as the annual table says it."""
    words = figures_of_table(found.table)[f"{index} {which}"]
    return None if words == "undefined" else Fraction(words.split()[0])


def is_calendar_year(days: tuple[date, ...]) -> bool:
    first, last = days[0], days[-1]
    return first.year == last.year and (first.month, first.day, last.month, last.day) == (1, 1, 12, 31)


def facts(found: Checked) -> Iterator[Line]:
    """The period, the customers, the marked days."""
    book = found.book
    days, served = book.period.days, found.whole["all"].customers
    note = "" if is_calendar_year(days) else "not a calendar year: its figures are those of these days alone"
    yield Line("period", "", f"{days[0]} to {days[-1]}", PROGRAM, note)
    marked = ", ".join(str(days[number]) for number in book.marks)
    note = f"marked: {marked}" if marked else "no day is marked: the figures without such days are those of all days"
    yield Line("major event days", "days", len(book.marks), PROGRAM, note)
    yield Line(
        "customers served on average", "customers", served, PROGRAM, "S / P of the annual table" if served else ""
    )


def rate_lines(rates: Rates, indices: tuple[str, ...], of: str, source: str, note: str = "") -> Iterator[Line]:
    return (index_line(index, of, rates.indices[index], source, note) for index in indices)


def codes_of(groups: Groups | None, name: str) -> set[int]:
    """The causes of a group of the list."""
    return {code for code, group in (groups or {}).items() if group.casefold() == name}


def names_of(found: Checked, codes: set[int]) -> str:
    return ", ".join(name for code, name in found.book.causes.items() if code in codes) or "none"


def missing_group(groups: Groups | None, name: str) -> str:
    """Why a line is empty that wants a group of causes."""
    if groups is None:
        return f"the book doesn't tell these causes apart: --causes FILE names them, in a group '{name}'"
    return f"the list of causes has no group '{name}'"


# The forms.


def eia_861(found: Checked, groups: Groups | None) -> Iterator[Line]:
    """Schedule 3, Part B: with major event days, without them, and with them but without loss of supply."""
    indices = ("SAIDI", "SAIFI", "CAIDI")
    yield from facts(found)
    for which, of in zip(SETS, ("with major event days", "without major event days")):
        for index in indices:
            yield index_line(index, of, said_by_program(found, index, which), PROGRAM)
    of, supply = "with major event days minus loss of supply", codes_of(groups, LOSS_OF_SUPPLY)
    if supply:
        rates = rates_of_causes(found, set(found.book.causes) - supply, "all")
        yield from rate_lines(rates, indices, of, TOOL, f"without the causes {names_of(found, supply)}")
    else:
        yield from (empty_line(index, of, missing_group(groups, LOSS_OF_SUPPLY)) for index in indices)
    served = found.whole["all"].customers
    whole = None if served is None else (2 * served.numerator + served.denominator) // (2 * served.denominator)
    yield Line("number of customers", "customers", whole, PROGRAM, "S / P, rounded half up to a whole number")
    yield Line("highest distribution voltage", "kV", None, NOWHERE, "a book has no voltages")
    yield Line("outages recorded automatically", "yes or no", None, NOWHERE, "a book doesn't say how rows came")


def ceer(found: Checked, groups: Groups | None) -> Iterator[Line]:
    """Planned and unplanned interruptions, of all events and without exceptional ones."""
    yield from facts(found)
    events = dict(zip(SETS, ("all events", "without exceptional events")))
    planned = codes_of(groups, PLANNED)
    kinds = {"unplanned": set(found.book.causes) - planned, PLANNED: planned}
    for over, limit in LIMITS.items():
        for kind, codes in kinds.items():
            for which, of in events.items():
                name = f"{kind}, {of}, {limit}"
                if planned:
                    rates, note = rates_of_causes(found, codes, which, over), f"causes {names_of(found, codes)}"
                    yield from rate_lines(rates, INDICES, name, TOOL, note)
                else:
                    yield from (empty_line(index, name, missing_group(groups, PLANNED)) for index in INDICES)
        for which, of in events.items():
            whole = found.selected("whole", over)[which]["whole"]
            yield from rate_lines(whole, INDICES, f"planned and unplanned, {of}, {limit}", PROGRAM)
    maifi = found.selected("whole", THREE_MINUTES)["all"]["whole"].maifi
    yield index_line("MAIFI", "interruptions of at most 3 minutes", maifi, PROGRAM)
    yield Line("by voltage level", "", None, NOWHERE, "a book has no voltages")
    yield Line("energy not supplied", "MWh", None, NOWHERE, "a book has no power")


FILINGS: dict[str, Callable[[Checked, Groups | None], Iterator[Line]]] = {"eia861": eia_861, "ceer": ceer}
TITLES = {
    "eia861": "EIA-861, Schedule 3, Part B, for those who count by IEEE Std 1366",
    "ceer": "Indicators of the Council of European Energy Regulators",
}


def filing(found: Checked, name: str, groups: Groups | None) -> Figures:
    """A form's lines. Its own current instructions say how it wants them rounded and where each goes."""
    about = [
        f"{TITLES[name]}: check the form's current instructions.",
        "`without major event days` leaves out the interruptions that begin on marked days; an engineer marks them.",
    ]
    return Figures(f"filing {name}", about, COLUMNS, [line.cells() for line in FILINGS[name](found, groups)])
