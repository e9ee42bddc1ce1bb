"""The first page: the four indices that most ask for, what they say in words, and a few further ones."""

from collections.abc import Iterator, Mapping, Sequence
from dataclasses import dataclass, field
from fractions import Fraction
from html import escape

from outage_tools.compare import Checked
from outage_tools.causes import rates_of_causes
from outage_tools.counts import SETS
from outage_tools.filings import PLANNED, codes_of
from outage_tools.indices import HOURS, OF_PROGRAM, hours_text
from outage_tools.lists import Groups
from outage_tools.report.earlier import Earlier, are_alike, period_text
from outage_tools.report.exact import FurtherIndices
from outage_tools.report.pieces import (
    COMPUTED,
    PROVED,
    SET_NAMES,
    Column,
    TableRow,
    change,
    decimal,
    minutes,
    numbers,
    per_cent,
    table,
)

UNITS = {
    "SAIDI": "minutes per customer",
    "SAIFI": "interruptions per customer",
    "CAIDI": "minutes per interruption",
    "ASAI": "of the time served",
}
ABOVE_ALL = (
    "CEMI-1 can be above 100 %: it counts each customer who was in service at any time, and divides by the customers served"
    " on average, which those who came or went raise by a part of one alone."
)
PARTED = "The large figures are from the program; the planned and the unplanned ones are computed here."
MEANINGS = {
    "MAIFI": "momentary interruptions (300 seconds or less) per customer served",
    "CAIFI": "sustained interruptions per customer that had one",
    "CTAIDI": "minutes without supply per customer that had a sustained interruption",
}


@dataclass(frozen=True)
class Box:
    """A box: an index, its value, its unit, and further values of it, each with what it is."""

    index: str
    value: str
    unit: str
    lines: list[tuple[str, str]] = field(default_factory=list)


def box_value(index: str, value: Fraction | None) -> str:
    """Minutes with one decimal, SAIFI with two; ASAI in per cent."""
    if index == "ASAI":
        return per_cent(value, 3)
    return decimal(value, 2 if index in ("SAIFI", "CAIFI", "MAIFI") else 1)


def fraction_of(words: str) -> Fraction | None:
    """The value of an index by the words of a table."""
    return None if words == "undefined" else Fraction(words.split()[0])


def box_of(index: str, table_words: Mapping[str, str], has_marks: bool) -> Box:
    """An index by the words of a table; without major event days too where a day is marked."""
    values = {name: box_value(index, fraction_of(table_words[f"{index} {name}"])) for name in SETS}
    without = [(SET_NAMES["unmarked"], values["unmarked"])] if has_marks else []
    return Box(index, values["all"], UNITS[index], without)


def boxes(table_words: Mapping[str, str], has_marks: bool) -> list[Box]:
    """The four indices that most ask for."""
    return [box_of(index, table_words, has_marks) for index in UNITS]


def tiles(shown: Sequence[Box]) -> str:
    """Boxes beside one another."""
    cells = []
    for box in shown:
        lines = "".join(
            f'<span class="line">{escape(what)} <strong>{escape(value)}</strong></span>' for what, value in box.lines
        )
        cells.append(
            f'<div class="tile"><span>{box.index}</span><b>{escape(box.value)}</b><span>{box.unit}</span>{lines}</div>'
        )
    return f'<div class="tiles">{"".join(cells)}</div>'


# What stands below the values of a book's boxes.


def planned_lines(found: Checked, groups: Groups | None, index: str) -> list[tuple[str, str]]:
    """Planned and unplanned interruptions apart, where a list of causes has a group of that name."""
    planned = codes_of(groups, PLANNED)
    if not planned or index == "ASAI":
        return []
    kinds = {PLANNED: planned, "unplanned": set(found.book.causes) - planned}
    rates = {kind: rates_of_causes(found, codes, "all") for kind, codes in kinds.items()}
    return [(kind, box_value(index, each.indices[index])) for kind, each in rates.items()]


def earlier_lines(earlier: Earlier | None, index: str) -> list[tuple[str, str]]:
    """The value of the year before, and the change since then where both periods have one length."""
    if earlier is None:
        return []
    now, before = (sums.indices("all")[index] for sums in (earlier.year, earlier.before))
    lines = [(period_text(earlier.before.period), box_value(index, before))]
    if index != "ASAI" and are_alike(earlier.year.period, earlier.before.period):
        lines.append(("change since", change(now, before)))
    return lines


# Words and tables.


def in_words(found: Checked) -> str:
    """What the four indices say."""
    rates = found.whole["all"]
    if not rates.served:
        return "No customer was in service."
    each = (
        f", in {decimal(rates.saifi, 2)} interruptions of {minutes(rates.caidi)} minutes each"
        if rates.caidi is not None
        else ""
    )
    return (
        f"Of {minutes(rates.customers)} customers served, each was without supply for {minutes(rates.saidi)} minutes on average{each}."
        " Interruptions of more than five minutes count (sustained ones); shorter ones are momentary."
    )


def said_of_marks(found: Checked) -> str:
    """Which days are marked; that none is, once for the whole page."""
    days = [str(found.book.period.days[day]) for day in found.book.marks]
    if not days:
        return (
            "No day is marked as a major event day: figures without major event days would be those of all days, and aren't"
            " shown a second time on these pages."
        )
    marked = "A day is marked as a major event day" if len(days) == 1 else "Days marked as major event days"
    return (
        f"{marked}: {', '.join(days)}. Figures without major event days leave out each interruption that begins on it."
    )


def set_columns(found: Checked) -> dict[str, str]:
    """The sets that are shown, with their names."""
    return dict(SET_NAMES) if found.book.marks else {"all": SET_NAMES["all"]}


def further_rows(
    found: Checked, table_words: Mapping[str, str], indices: FurtherIndices, earlier: Earlier | None
) -> Iterator[TableRow]:
    """MAIFI, CAIFI and CTAIDI, with those of the year before."""
    for index, meaning in MEANINGS.items():
        own = index == "CAIFI"
        values = [
            fraction_of(table_words[f"{index} {name}"]) if own else indices[name][index] for name in set_columns(found)
        ]
        if earlier is not None:
            before = earlier.before
            values.append(before.indices("all")[index] if own else before.further_indices("all")[index])
        shown = [box_value(index, value) for value in values]
        yield TableRow([index, *shown, meaning, "the program" if own or index in OF_PROGRAM else "this page's tool"])


def further_text(
    found: Checked, table_words: Mapping[str, str], indices: FurtherIndices, earlier: Earlier | None
) -> str:
    before = [] if earlier is None else [period_text(earlier.before.period)]
    heads = [Column("index"), *numbers(*set_columns(found).values(), *before)]
    heads += [Column("what it is", "long"), Column("from")]
    return table(heads, further_rows(found, table_words, indices, earlier), "Further indices")


def customers_rows(found: Checked, share_of: Mapping[str, Sequence[Fraction | None]]) -> list[TableRow]:
    """A row of each set that is shown."""
    return [TableRow([name, *map(per_cent, share_of[which])]) for which, name in set_columns(found).items()]


def many_text(found: Checked, table_words: Mapping[str, str]) -> str:
    """CEMI in per cent."""
    shares = {name: [fraction_of(table_words[f"CEMI-{n} {name}"]) for n in range(1, 11)] for name in set_columns(found)}
    heads = [Column(""), *numbers(*map(str, range(1, 11)), over="interruptions or more")]
    return table(heads, customers_rows(found, shares), "Customers with many interruptions")


def long_text(found: Checked, indices: FurtherIndices) -> str:
    """CELID in per cent: by the longest interruption, and by all of a customer's sustained ones."""
    shares = {
        name: [indices[name][f"CELID-{kind}-{hours_text(hours)}"] for kind in "ST" for hours in HOURS]
        for name in set_columns(found)
    }
    titles = [f"{hours_text(hours)} h" for hours in HOURS]
    heads = [Column(""), *numbers(*titles, over="in one interruption, or longer")]
    heads += numbers(*titles, over="in all its interruptions, or longer")
    return table(heads, customers_rows(found, shares), "Customers with long interruptions")


def summary(
    found: Checked,
    table_words: Mapping[str, str],
    indices: FurtherIndices,
    groups: Groups | None,
    earlier: Earlier | None,
) -> str:
    """The boxes, their words, and the tables below them."""
    shown, is_apart = [], bool(codes_of(groups, PLANNED))
    for box in boxes(table_words, bool(found.book.marks)):
        further = [*planned_lines(found, groups, box.index), *earlier_lines(earlier, box.index)]
        shown.append(Box(box.index, box.value, box.unit, [*box.lines, *further]))
    return f"""
<section id="summary">
{tiles(shown)}
<p>{escape(in_words(found))} {escape(said_of_marks(found))} {PARTED if is_apart else ""}</p>
{further_text(found, table_words, indices, earlier)}
<h3>Customers with many interruptions (CEMI, in per cent of those served) {PROVED}</h3>
{many_text(found, table_words)}
<p>{escape(ABOVE_ALL)}</p>
<h3>Customers with long interruptions (CELID, in per cent of those served) {COMPUTED}</h3>
{long_text(found, indices)}
</section>"""
