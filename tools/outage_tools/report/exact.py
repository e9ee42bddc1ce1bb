"""The appendix of exact figures: both sets by the words of the program's annual table, and what they are counted from."""

from collections.abc import Iterable, Mapping
from fractions import Fraction
from html import escape

from outage_tools import indices as further
from outage_tools.compare import Checked
from outage_tools.counts import SETS, decimal_text, fraction_text, index_decimals
from outage_tools.figures import TERMS, meaning_of
from outage_tools.lists import Groups
from outage_tools.report.pieces import (
    COMPUTED,
    PROVED,
    SET_NAMES,
    Column,
    Part,
    TableRow,
    decimal,
    number,
    numbers,
    table,
)
from outage_tools.rows import CAUSE
from outage_tools.section_groups import Counted, counted_groups

FurtherIndices = Mapping[str, Mapping[str, Fraction | None]]  # of both sets, by name


def value_text(index: str, words: str) -> str:
    """The figure of an index that everybody looks for: its decimals."""
    fraction, _, decimals = words.rpartition(" ")
    return decimal_text(Fraction(fraction), index_decimals(index)) if "/" in fraction else decimals


def formula(definition: str) -> str:
    """A definition as a formula on one line."""
    return definition.replace(" x ", " \u00d7 ").replace(" - ", " \u2212 ").replace(" ", "\u00a0")


def meaning_text(unit: str, definition: str) -> str:
    """The unit and the definition of an index."""
    return f"{unit}: {formula(definition)}"


def sets_shown(has_marks: bool) -> dict[str, str]:
    """The columns of a table of both sets: which they are of, and their heads. Without a marked day both are one."""
    return dict(SET_NAMES) if has_marks else {" ".join(SETS): SET_NAMES["all"]}


def value_cell(sets: str, index: str, words: str) -> str:
    """The figure of a set, and behind it the fraction in lowest terms that it stands for."""
    fraction = words.rpartition(" ")[0]
    exact = f' <span class="fraction">{escape(fraction)}</span>' if fraction else ""
    return f'<td data-set="{sets}"><b>{escape(value_text(index, words))}</b>{exact}</td>'


def index_row(index: str, table_words: Mapping[str, str], meaning: str, has_marks: bool) -> str:
    cells = "".join(
        value_cell(sets, index, table_words[f"{index} {sets.split()[0]}"]) for sets in sets_shown(has_marks)
    )
    return f'<tr><td><strong>{index}</strong></td>{cells}<td class="long">{escape(meaning)}</td></tr>'


def rows_table(rows: Iterable[str], has_marks: bool) -> str:
    heads = ("index", *sets_shown(has_marks).values(), "unit and definition")
    cells = "".join(f'<th scope="col">{head}</th>' for head in heads)
    body = "\n".join(rows)
    return f'<table class="indices"><thead><tr>{cells}</tr></thead><tbody>\n{body}</tbody></table>'


def index_table(table_words: Mapping[str, str], has_marks: bool) -> str:
    """Both sets by the words of a table: each figure before its fraction."""
    names = [which.removesuffix(" all") for which in table_words if which.endswith(" all")]
    rows = (index_row(name, table_words, meaning_text(*meaning_of(name)), has_marks) for name in names)
    return rows_table(rows, has_marks)


def further_table(indices: FurtherIndices, has_marks: bool) -> str:
    """The indices that no program prints, in the same form."""
    words = {
        f"{name} {which}": "undefined" if value is None else f"{fraction_text(value)} {decimal_text(value)}"
        for which, values in indices.items()
        for name, value in values.items()
    }
    rows = (index_row(name, words, meaning_text(*further.meaning_of(name)), has_marks) for name in indices[SETS[0]])
    return rows_table(rows, has_marks)


def exact_part(found: Checked, table_words: Mapping[str, str], indices: FurtherIndices) -> Part:
    """All indices of both sets as exact fractions."""
    book, has_marks = found.book, bool(found.book.marks)
    total = sum(amount for (dim, _), amount in book.postings.items() if dim == CAUSE)
    content = f"""
<p>The figures of the program's annual table: three decimals, and behind them the exact fraction in lowest terms; of ASAI
five decimals. By IEEE Std 1366-2012; an interruption of more than 300 seconds is sustained.</p>
<p>{TERMS} Here P is {number(book.period.length)}, S {number(found.whole["all"].served)} and S / P
{decimal(found.whole["all"].customers)}; W, the customer-seconds without supply, momentary
interruptions too, is {number(total)}.</p>
{index_table(table_words, has_marks)}
<h3>Further indices {COMPUTED}</h3>
<p>{further.TERMS}</p>
{further_table(indices, has_marks)}"""
    return Part("exact", "Appendix: exact figures", PROVED, content)


COUNT_HEADS = [Column("group"), Column("interruptions"), *numbers("customers served", "W", "CI", "CSI", "MI", "CN")]
GROUP_TITLES = {"sum": "all groups together", "book": "the book's own"}


def count_row(row: Counted) -> TableRow:
    counts = row.rates.counts
    amounts = row.customer_seconds, counts.sustained, counts.sustained_seconds, counts.momentary, counts.with_some[0]
    served = decimal(row.rates.customers)
    cells = [GROUP_TITLES.get(row.row, row.name), SET_NAMES[row.set], served, *map(number, amounts)]
    return TableRow(cells, row.row != "group")


def group_counts_part(found: Checked, groups: Groups) -> Part:
    """What the indices of groups of sections are counted from."""
    shown = SETS if found.book.marks else SETS[:1]
    rows = [count_row(row) for row in counted_groups(found, groups) if row.set in shown]
    content = f"""
<p>W and CSI are customer-seconds; CI are customers' sustained interruptions, MI their momentary ones, CN the customers with
a sustained one.</p>
{table(COUNT_HEADS, rows)}"""
    return Part("group-counts", "Appendix: counts of the groups of sections", COMPUTED, content)
