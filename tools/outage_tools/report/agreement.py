"""The part of a page that sets the counts of an outage management system beside the book's."""

from fractions import Fraction
from html import escape

from outage_tools.agree import Agreement, TicketRow, about, exact_text, sections_text
from outage_tools.compare import Checked
from outage_tools.report.pieces import COMPUTED, NONE, Column, Part, TableRow, number, numbers, signed, table

MOST_TICKETS = 25
MOST_SECTIONS = 4
HEADS = [
    Column("ticket"),
    *numbers("customers, OMS", "book", "more"),
    *numbers("minutes, OMS", "book", "more"),
    Column("sections", "long"),
    Column("why", "long"),
]


def optional(value: int | None) -> str:
    return NONE if value is None else number(value)


def ticket_row(found: Checked, row: TicketRow) -> TableRow:
    told, here = row.told, row.found
    minutes = told.customer_minutes if told else None
    cells = [
        row.name,
        optional(told.customers if told else None),
        optional(here.customers if here else None),
        NONE if row.customers_more is None else signed(row.customers_more),
        NONE if minutes is None else exact_text(minutes),
        optional(round(Fraction(here.customer_seconds, 60)) if here else None),
        NONE if row.minutes_more is None else signed(round(row.minutes_more)),
        sections_text(found.book, here, MOST_SECTIONS),
        "; ".join(row.why),
    ]
    return TableRow(cells)


def agreement_part(found: Checked, agreement: Agreement) -> Part:
    """The tickets that differ for another reason than rounding, and the sums of both sides."""
    sums = " ".join(escape(line) for line in about(agreement))
    different = [row for row in agreement.rows if not row.is_rounded]
    rest = len(agreement.rows) - len(different) - sum(row.is_untold for row in agreement.rows)
    shown = f", the first {MOST_TICKETS} of {number(len(different))}" if len(different) > MOST_TICKETS else ""
    rows = [ticket_row(found, row) for row in different[:MOST_TICKETS]]
    content = f"""
<p>Customers and customer-minutes that the outage management system counts, beside those of the book; minutes of the book are
rounded here. {sums}</p>
<p>Tickets that are equal, or equal but for rounded minutes: {number(rest)}. Those that differ for another reason{shown}, the
greatest difference first:</p>
{table(HEADS, rows) if rows else "<p>There is none.</p>"}"""
    return Part("agreement", "Beside the OMS's own counts", COMPUTED, content)
