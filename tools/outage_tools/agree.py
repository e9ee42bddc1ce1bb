"""The outage management system's own counts beside the book's, ticket by ticket, the greatest difference first.

    python3 tools/agree.py BOOK OMS.csv [--csv | --json] [--most N] [--by-step] [--fail-above SHARE]
                           [--table FILE | --program PATH]

OMS.csv has the columns `ticket`, `customers` and `customer_minutes`. What belongs to a ticket in the book is said in
tickets.py and in docs/use/CHECKING.md. The book is compared with the program first. The status is 0, or 3 where tickets differ by a
greater share than that of `--fail-above`.
"""

import argparse
import re
from collections.abc import Iterable, Iterator
from dataclasses import dataclass, replace
from fractions import Fraction

from outage_tools.cli import Parser, add_table_arguments, run_job
from outage_tools.compare import Checked, open_book
from outage_tools.counts import decimal_text
from outage_tools.errors import BookError
from outage_tools.forms import Figures, Value, write_csv, write_json, write_text
from outage_tools.implausible.limits import add_fail_argument
from outage_tools.oms.complaints import BadRow, Complaints
from outage_tools.oms.fields import identifier
from outage_tools.oms.files import Format, Row, add_format_arguments, format_of, read_file
from outage_tools.oms.outages import COUNTS
from outage_tools.oms.steps import cancelled_words
from outage_tools.rows import Block, Book, Entry
from outage_tools.suspects import Difference, Suspect, suspects_of
from outage_tools.tickets import Part, Ticket, Tickets, customers_of, tickets_of

REQUIRED = COUNTS[:3]
LONGEST_TICKET = 24
FIRST_PAGE = 10  # rows
MOST_SECTIONS = 4  # in a text
HALF_A_MINUTE = Fraction(1, 2)
ABOVE = 3  # tickets differ by a greater share than --fail-above


# What the outage management system counts.


@dataclass(frozen=True)
class Told:
    """The OMS's counts of a ticket; None where its file leaves one empty."""

    customers: int | None
    customer_minutes: Fraction | None


def customers_told(text: str) -> int | None:
    if text and not re.fullmatch("[0-9]{1,12}", text):
        raise BadRow(f"customers {text!r} isn't a whole number")
    return int(text) if text else None


def minutes_told(text: str) -> Fraction | None:
    """A number, with decimals behind a point or a comma. A comma before three digits may part thousands: it is refused."""
    if not text:
        return None
    if not re.fullmatch("[0-9]{1,15}([.,][0-9]{1,9})?", text):
        raise BadRow(f"customer_minutes {text!r} isn't a number")
    if re.fullmatch("[0-9]{1,3},[0-9]{3}", text):
        raise BadRow(f"customer_minutes {text!r}: the comma may part thousands or decimals; write a point, or none")
    return Fraction(text.replace(",", "."))


def read_told(rows: Iterable[Row], by_step: bool, cancelled: frozenset[str] = cancelled_words()) -> dict[str, Told]:
    """The counts by ticket. A ticket's rows say the same or nothing; by step, each has its own, and they are added up."""
    complaints = Complaints()
    told: dict[str, Told] = {}
    for row in rows:
        with complaints.about(row):
            if row["status"].lower() not in cancelled:
                ticket = identifier(row["ticket"], LONGEST_TICKET, "the ticket")
                here = Told(customers_told(row["customers"]), minutes_told(row["customer_minutes"]))
                before = told.get(ticket, Told(None, None))
                told[ticket] = sum_of(before, here) if by_step else same_of(before, here, ticket)
    if complaints.found:
        listed = "\n".join(str(complaint) for complaint in complaints.found)
        raise BookError(f"rows can't be read:\n{listed}")
    return told


def read_counts(
    path: str, by_step: bool = False, format: Format = Format(), cancelled: Iterable[str] = ()
) -> dict[str, Told]:
    """The counts that a file tells."""
    return read_told(read_file(path, COUNTS, REQUIRED, format), by_step, cancelled_words(cancelled))


def sum_of(before: Told, here: Told) -> Told:
    """The counts of two steps of a ticket in one."""
    if here.customers is not None:
        before = replace(before, customers=(before.customers or 0) + here.customers)
    if here.customer_minutes is not None:
        before = replace(before, customer_minutes=(before.customer_minutes or 0) + here.customer_minutes)
    return before


def same_of(before: Told, here: Told, ticket: str) -> Told:
    """The counts of a ticket that two rows tell; none is another one than before."""
    if here.customers is not None and before.customers not in (None, here.customers):
        raise BadRow(f"ticket {ticket} had {before.customers} customers before: --by-step adds up the rows of a ticket")
    if here.customer_minutes is not None and before.customer_minutes not in (None, here.customer_minutes):
        raise BadRow(f"ticket {ticket} had other customer_minutes before: --by-step adds up the rows of a ticket")
    customers = before.customers if here.customers is None else here.customers
    return Told(customers, before.customer_minutes if here.customer_minutes is None else here.customer_minutes)


# Both sides of a ticket.


@dataclass(frozen=True)
class TicketRow:
    """A ticket with the counts of the OMS and of the book; None where one side doesn't have it. `why` are the facts of the book
    that may make them differ."""

    name: str
    told: Told | None
    found: Ticket | None
    why: tuple[str, ...]

    @property
    def customers_more(self) -> int | None:
        """How many customers more the book counts; None where the OMS counts none of an own ticket."""
        if self.told and self.told.customers is None:
            return None
        here = self.found.customers if self.found else 0
        return here - ((self.told and self.told.customers) or 0)

    @property
    def minutes_more(self) -> Fraction | None:
        """How many customer-minutes more the book counts."""
        if self.told and self.told.customer_minutes is None:
            return None
        here = Fraction(self.found.customer_seconds if self.found else 0, 60)
        return here - ((self.told and self.told.customer_minutes) or 0)

    @property
    def is_untold(self) -> bool:
        """The OMS's file has the ticket and none of its counts."""
        return self.told == Told(None, None)

    @property
    def is_equal(self) -> bool:
        return not self.is_untold and not self.customers_more and not self.minutes_more

    @property
    def is_rounded(self) -> bool:
        """Equal but for what whole minutes explain: half a minute for each interruption of a customer."""
        interruptions = self.found.interruptions if self.found else 0
        return not self.customers_more and abs(self.minutes_more or Fraction(0)) <= interruptions * HALF_A_MINUTE

    def rank(self) -> tuple[bool, Fraction, int, str]:
        """The greatest difference of minutes first, then of customers; behind them what rounding explains."""
        return self.is_rounded, -abs(self.minutes_more or Fraction(0)), -abs(self.customers_more or 0), self.name


@dataclass(frozen=True)
class Agreement:
    """All tickets of both sides, the greatest difference first, what in the book belongs to no ticket, and the sections that may
    be where the two differ."""

    rows: tuple[TicketRow, ...]
    of_none: tuple[Part, ...]
    suspects: tuple[Suspect, ...]

    def customers_told(self) -> int:
        return sum(row.told.customers or 0 for row in self.rows if row.told)

    def minutes_told(self) -> Fraction:
        return sum((row.told.customer_minutes or Fraction(0) for row in self.rows if row.told), Fraction(0))

    def customers_found(self) -> int:
        return sum(row.found.customers for row in self.rows if row.found)

    def seconds_found(self) -> int:
        return sum(row.found.customer_seconds for row in self.rows if row.found)

    def seconds_untold(self) -> int:
        """The book's customer-seconds of tickets of which the OMS tells no customer-minutes."""
        return sum(
            row.found.customer_seconds
            for row in self.rows
            if row.found and (row.told is None or row.told.customer_minutes is None)
        )

    def seconds_of_none(self) -> int:
        return sum(part.customer_seconds for part in self.of_none)

    def share(self) -> Fraction:
        """By which part of the OMS's customers, or of its customer-minutes if that is more, tickets differ; those that are told by one
        side alone with all of theirs, what rounding explains not at all. 1 where the OMS counts none."""
        different = [row for row in self.rows if not row.is_rounded]
        customers = sum(abs(row.customers_more or 0) for row in different)
        minutes = sum((abs(row.minutes_more or Fraction(0)) for row in different), Fraction(0))
        return max(part_of(Fraction(customers), Fraction(self.customers_told())), part_of(minutes, self.minutes_told()))


def part_of(part: Fraction, whole: Fraction) -> Fraction:
    """A part of a whole; 1 where the whole is nothing and the part isn't."""
    return part / whole if whole else Fraction(int(part > 0))


def agreement_of(found: Checked, told: dict[str, Told], prefix: str = "OMS-") -> Agreement:
    """The counts of a book beside those of an OMS. The customer-seconds of all tickets and of none add up to W."""
    tickets = tickets_of(found, prefix, told)
    rows = []
    for name in dict.fromkeys([*told, *tickets.by_name]):
        row = TicketRow(name, told.get(name), tickets.by_name.get(name), ())
        rows.append(replace(row, why=tuple(reasons(found.book, tickets, row))))
    suspects = suspects_of(differences_of(found.book, rows))
    return Agreement(tuple(sorted(rows, key=TicketRow.rank)), tuple(tickets.of_none), tuple(suspects))


def differences_of(book: Book, rows: Iterable[TicketRow]) -> Iterator[Difference]:
    """By how many customers tickets of both sides differ, with their sections in the book."""
    for row in rows:
        if row.told and row.found and row.customers_more is not None:
            sections = {book.sections[node].name: customers for node, customers in row.found.sections().items()}
            yield Difference(row.name, row.customers_more, sections)


# Why they may differ: what the book knows of it.


def reasons(book: Book, tickets: Tickets, row: TicketRow) -> Iterator[str]:
    """What an OMS may count in another way, or not at all; nothing where both counts are equal."""
    if row.is_equal:
        return
    if row.is_rounded and not row.is_untold:
        yield "minutes that are rounded"
        return
    if row.told is None:
        yield "the OMS's file has no such ticket"
    if row.is_untold:
        yield "the OMS's file leaves its counts empty"
    if row.found is None:
        yield "the book has no switching of it"
    elif any(entry.is_kept for entry in row.found.entries):
        yield from reasons_of(book, tickets, row.found)
    else:
        yield "all its switchings were withdrawn"


def reasons_of(book: Book, tickets: Tickets, ticket: Ticket) -> Iterator[str]:
    """What in a ticket of the book may make a difference."""
    if not ticket.parts:
        yield "its switchings cut nobody off"
    yield from already_out(book, tickets, ticket)
    yield from ends_elsewhere(book, tickets, ticket)
    momentary = [part for part in ticket.parts if not part.is_sustained]
    if momentary:
        seconds = sum(part.customer_seconds for part in momentary)
        yield f"momentary: {customers_of(momentary)} customers, {minutes_text(Fraction(seconds, 60))} of the minutes"
    if ticket.interruptions != ticket.customers:
        yield f"{ticket.interruptions} interruptions: some customers had more than one"
    partly = [part for part in ticket.parts if (part.since, part.until) != (part.run.since, part.run.until)]
    if partly:
        yield f"service of {customers_of(partly)} customers began or ended in it"


def already_out(book: Book, tickets: Tickets, ticket: Ticket) -> Iterator[str]:
    """Sections beside a device that the ticket opened which were without supply by another ticket already; else the customers behind
    it who were, by a ticket or by none."""
    openings = [entry for entry in ticket.entries if entry.is_kept and not entry.closes]
    ends = ((node, entry.second) for entry in openings for node in ends_of(book, entry))
    others = {tickets.out_at(node, second) for node, second in ends} - {None, ticket.name}
    if others:
        yield f"what it opened was out already by {', '.join(sorted(filter(None, others)))}"
        return
    owners, blocks = set[str](), set[Block]()
    for entry in openings:
        for node in tickets.feeding.behind(entry.device, entry.second):
            run = tickets.run_at(node, entry.second)
            if run is not None and run[1] != ticket.name:
                found = [each for each in tickets.blocks.get(node, ()) if each.since <= entry.second < each.until]
                blocks.update(found)
                owners.update([run[1] or "no ticket"] if found else [])
    if blocks:
        customers = sum(block.customers for block in blocks)
        yield f"{customers} customers behind what it opened were out already by {', '.join(sorted(owners))}"


def ends_of(book: Book, entry: Entry) -> tuple[int, int]:
    """The nodes that the device of an entry joins."""
    device = book.devices[entry.device]
    return device.a, device.b


def ends_elsewhere(book: Book, tickets: Tickets, ticket: Ticket) -> Iterator[str]:
    """Interruptions that began before the period, aren't over at its end, or were begun or ended by something else."""
    first = [part for part in ticket.parts if part.run.since == book.period.first]
    last = [part for part in ticket.parts if part.run.until == book.period.end]
    if first:
        yield f"{customers_of(first)} customers were out from the period's first second"
    if last:
        yield f"{customers_of(last)} customers are out still at the period's end"
    if any(part.run.cutter is None or part.run.cutter.number not in tickets.of_entry for part in ticket.parts):
        yield "it ended an outage that no ticket began"
    enders = {tickets.of_entry.get(part.run.ender.number, "no ticket") for part in ticket.parts if part.run.ender}
    if any(part.run.ender is None and part.run.until != book.period.end for part in ticket.parts):
        enders.add("the life of a device")
    others = sorted(enders - {ticket.name})
    if others:
        yield f"ended by {', '.join(others)}"


# Writing.


def minutes_text(minutes: Fraction) -> str:
    """A whole number, or three decimals, rounded half up in their amount."""
    if minutes.denominator == 1:
        return str(minutes)
    text = decimal_text(abs(minutes))
    return f"-{text}" if minutes < 0 and text != "0.000" else text


def exact_text(number: Fraction) -> str:
    """A number with as many decimals as it has: that of a text, or sixty times it."""
    digits = 0
    while (number * 10**digits).denominator != 1:
        digits += 1
    text = str(abs(int(number * 10**digits))).rjust(digits + 1, "0")
    sign = "-" if number < 0 else ""
    return f"{sign}{text[:-digits]}.{text[-digits:]}" if digits else f"{sign}{text}"


def shown(value: int | None) -> Value:
    return "" if value is None else value


def sections_text(book: Book, ticket: Ticket | None, most: int | None) -> str:
    """The sections that were interrupted, with their customers."""
    if ticket is None:
        return ""
    listed = [f"{book.sections[node].name} {customers}" for node, customers in ticket.sections().items()]
    rest = len(listed) - most if most and len(listed) > most else 0
    return ", ".join(listed[: len(listed) - rest]) + (f" and {rest} more" if rest else "")


def suspects_text(suspects: Iterable[Suspect]) -> str:
    """The sections that may be where both sides differ; empty where there are none."""
    texts = []
    for each in suspects:
        rest = len(each.sections) - MOST_SECTIONS
        names = ", ".join(each.sections[:MOST_SECTIONS]) + (f" and {rest} more" if rest > 0 else "")
        texts.append(f"{names} {abs(each.more)} {'more' if each.more > 0 else 'fewer'} in {each.tickets} tickets")
    return f"Sections whose tickets differ alike: {'; '.join(texts)}." if texts else ""


MEANINGS = {
    "ticket": "the ticket",
    "oms_customers": "customers by the OMS; empty where it has no such ticket or leaves them out",
    "book_customers": "customers of the interruptions that belong to the ticket in the book, each once; empty where it has none",
    "more": "how many customers more the book counts",
    "oms_minutes": "customer-minutes by the OMS",
    "book_minutes": "customer-minutes of those interruptions, three decimals",
    "more_minutes": "how many customer-minutes more the book counts, three decimals",
    "book_seconds": "customer-seconds of those interruptions, exact",
    "more_seconds": "how many customer-seconds more the book counts, exact",
    "interruptions": "customers' interruptions: a customer that had two counts twice",
    "sections": "the sections that were interrupted, with their customers",
    "why": "what in the book may make the two differ",
}
NOT_IN_TEXT = ("book_seconds", "more_seconds", "interruptions")


def values_of(book: Book, row: TicketRow, most_sections: int | None) -> dict[str, Value]:
    """A ticket's values by their columns."""
    told, found, more = row.told, row.found, row.minutes_more
    minutes = told.customer_minutes if told else None
    return {
        "ticket": row.name,
        "oms_customers": shown(told.customers if told else None),
        "book_customers": shown(found.customers if found else None),
        "more": shown(row.customers_more),
        "oms_minutes": "" if minutes is None else exact_text(minutes),
        "book_minutes": "" if found is None else minutes_text(Fraction(found.customer_seconds, 60)),
        "more_minutes": "" if more is None else minutes_text(more),
        "book_seconds": shown(found.customer_seconds if found else None),
        "more_seconds": "" if more is None else exact_text(60 * more),
        "interruptions": shown(found.interruptions if found else None),
        "sections": sections_text(book, found, most_sections),
        "why": "; ".join(row.why),
    }


def about(agreement: Agreement) -> list[str]:
    """The sums of both sides, and how many tickets agree."""
    rows = agreement.rows
    both = [row for row in rows if row.told and row.found and not row.is_untold]
    untold = sum(row.is_untold for row in rows)
    equal = sum(row.is_equal for row in both)
    rounded = sum(row.is_rounded for row in both) - equal
    found, alone, of_none = (
        minutes_text(Fraction(seconds, 60))
        for seconds in (agreement.seconds_found(), agreement.seconds_untold(), agreement.seconds_of_none())
    )
    return [
        f"Customers and customer-minutes: the OMS {agreement.customers_told()} and {exact_text(agreement.minutes_told())},"
        f" the book {agreement.customers_found()} and {found}, {alone} of them where the OMS tells no minutes; of no ticket"
        f" {of_none}.",
        f"Tickets in both: {len(both)}, of which {equal} equal, {rounded} equal but for rounded minutes,"
        f" {len(both) - equal - rounded} different. In the OMS alone: {sum(row.found is None for row in rows)},"
        f" in the book alone: {sum(row.told is None for row in rows)}, without counts: {untold}.",
        *filter(None, [suspects_text(agreement.suspects)]),
    ]


def share_text(agreement: Agreement, fail_above: Fraction) -> str:
    """The share by which tickets differ, and the one that is still right."""
    shares = (decimal_text(100 * share, 3) for share in (agreement.share(), fail_above))
    return "Tickets differ by {}% of what the OMS counts; --fail-above {}%.".format(*shares)


def figures_of(book: Book, agreement: Agreement, most: int | None, fail_above: Fraction | None = None) -> Figures:
    """All tickets with all columns; where `most` is given, as a text: what a person looks at, of the first tickets."""
    listed = agreement.rows[:most] if most else agreement.rows
    rows = [values_of(book, row, MOST_SECTIONS if most is not None else None) for row in listed]
    columns = {name: text for name, text in MEANINGS.items() if most is None or name not in NOT_IN_TEXT}
    lines = about(agreement)
    if fail_above is not None:
        lines.append(share_text(agreement, fail_above))
    if len(listed) < len(agreement.rows):
        lines.append(f"The first {len(listed)} of {len(agreement.rows)} tickets; --most 0 shows all.")
    return Figures("agreement", lines, columns, [[row[name] for name in columns] for row in rows])


def add_count_arguments(parser: argparse._ActionsContainer) -> None:
    """The words that say how the OMS's counts are written."""
    parser.add_argument(
        "--by-step", action="store_true", help="each row of a ticket has the counts of a step: they are added up"
    )
    parser.add_argument("--prefix", default="OMS-", help="what the references of outages begin with (OMS-)")
    parser.add_argument(
        "--cancelled", metavar="WORD", action="append", default=[], help="as outagebook-from-oms takes it"
    )
    parser.add_argument(
        "--ordinary", metavar="WORD", action="append", help="taken, so that all tools take the same words"
    )
    add_format_arguments(parser)


def counts_of(args: argparse.Namespace) -> dict[str, Told]:
    """The counts of the file that the words name."""
    return read_counts(args.oms, args.by_step, format_of(args), args.cancelled)


def make_parser() -> Parser:
    parser = Parser(description="Shows the counts of an outage management system next to a book's, ticket by ticket.")
    parser.add_argument("book", help="the book's file")
    parser.add_argument("oms", help="a CSV with the columns ticket, customers, customer_minutes")
    form = parser.add_mutually_exclusive_group()
    form.add_argument("--csv", dest="write", action="store_const", const=write_csv, default=write_text, help="as CSV")
    form.add_argument("--json", dest="write", action="store_const", const=write_json, help="as JSON")
    parser.add_argument(
        "--most",
        metavar="N",
        type=int,
        default=FIRST_PAGE,
        help=f"how many tickets a text shows ({FIRST_PAGE}); 0: all",
    )
    add_fail_argument(parser, "end with status 3 if tickets differ by more of the OMS's customers or minutes, as 1%%")
    add_count_arguments(parser)
    add_table_arguments(parser)
    return parser


def main() -> int:
    parser = make_parser()
    args = parser.parse_args()
    if args.most < 0:
        parser.error("--most is a number from 0 on")

    status = 0

    def job() -> None:
        nonlocal status
        told = counts_of(args)
        with open_book(args.book, args.table, args.program) as found:
            agreement = agreement_of(found, told, args.prefix)
            most = args.most if args.write is write_text else None
            args.write(figures_of(found.book, agreement, most, args.fail_above))
        status = ABOVE if args.fail_above is not None and agreement.share() > args.fail_above else 0

    return run_job(job) or status
