"""The part on the worst served customers: how many interruptions of which cause they had."""

from collections import Counter
from collections.abc import Iterable

from outage_tools.compare import Checked
from outage_tools.customers import Served, served_customers
from outage_tools.interruptions import Interruption
from outage_tools.lists import Names
from outage_tools.report.feeders import feeder_name
from outage_tools.report.pieces import COMPUTED, Column, Part, TableRow, clock, number, numbers, table
from outage_tools.rows import Book

HEADS = [
    Column("section"),
    Column("feeder", "name"),
    *numbers("customers", "sustained", "momentary", "longest, h:mm", "in all, h:mm"),
    Column("causes of the sustained ones", "long"),
    Column("of the momentary ones", "long"),
]


def counts_by_cause(book: Book, had: Iterable[Interruption]) -> str:
    """How many interruptions have which cause, the most first: `TREE 3, WIND 1`, a cause and its number on one line."""
    counts = Counter(book.causes.get(each.cause, str(each.cause)) for each in had)
    return ", ".join(
        f"{cause}\u00a0{count}" for cause, count in sorted(counts.items(), key=lambda one: (-one[1], one[0]))
    )


def customer_row(book: Book, served: Served, names: Names) -> TableRow:
    section, momentary = book.sections[served.block.section], [each for each in served.had if not each.is_sustained]
    cells = [
        section.name,
        feeder_name(section.feeder, names),
        number(served.block.customers),
        len(served.sustained),
        len(momentary),
        clock(served.longest),
        clock(served.seconds),
        counts_by_cause(book, served.sustained),
        counts_by_cause(book, momentary),
    ]
    return TableRow(cells)


def customer_part(found: Checked, names: Names, most: int) -> Part:
    """The worst served customers, those of equal service together."""
    groups = [served for served in served_customers(found) if served.had]
    rows = [customer_row(found.book, served, names) for served in groups[:most]]
    shown = f"All {number(len(groups))}" if len(rows) == len(groups) else f"{len(rows)} of {number(len(groups))}"
    content = f"""
<p>{shown} groups of equal service with interruptions: customers of one section who were in service at the same time had the
same interruptions. The most sustained interruptions first, then the longest one. Hours and minutes are rounded to a
minute.</p>
{table(HEADS, rows, "Worst served customers", "cards")}"""
    return Part("customers", "Worst served customers", COMPUTED, content)
