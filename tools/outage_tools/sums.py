"""Many books of one period added up: the annual table of a utility whose districts have a book each.

    outagebook-sum BOOK.. [--json | --districts | --further | -o FILE [--name NAME]] [--own-numbers]
                   [--hours H ..] [--processes N | --cluster ADDRESS] [--table FILE .. | --program PATH]

Each book is compared with its program's table first. Then seconds in service, customer-seconds, interruptions and
customers are added up, and each index is its quotient of the sums: nothing is rounded. Books that don't belong together
are refused with the reason: another period, a district that is given twice, a customer's number that two books have.
"""

import csv
import json
import sys
from array import array
from collections import Counter, defaultdict
from collections.abc import Iterator, Sequence
from dataclasses import dataclass, field
from datetime import date, timedelta
from fractions import Fraction
from functools import partial, reduce
from heapq import merge
from itertools import pairwise, repeat
from operator import add
from pathlib import Path

from outage_tools.cli import Parser, add_page_arguments, run_job
from outage_tools.compare import Checked, open_book
from outage_tools.counts import SETS, Counts, Rates, decimal_text, fraction_text, quotient, quotient_text
from outage_tools.errors import BookError
from outage_tools.indices import HOURS, FurtherCounts, further_counts, further_indices, read_hours
from outage_tools.parallel import add_spread_arguments, over_books
from outage_tools.rows import CAUSE, DAY, FEEDER


@dataclass(frozen=True, order=True)
class PeriodKey:
    """What books have to share to be added up: the first day, the number of days, the rule of the zone."""

    first: date
    days: int
    zone: str

    @property
    def last(self) -> date:
        return self.first + timedelta(days=self.days - 1)

    def day(self, number: int) -> date:
        return self.first + timedelta(days=number)

    def __str__(self) -> str:
        return f"{self.first} days {self.days} zone {self.zone}"


@dataclass(frozen=True)
class District:
    """What a book adds to the sums, after it was compared with its program's table."""

    name: str
    period: PeriodKey
    length: int  # P, in seconds
    commands: int
    served_seconds: int  # S
    causes: dict[int, tuple[str, int]]  # a code's name and customer-seconds
    feeders: dict[int, int]
    days: tuple[int, ...]  # customer-seconds that fall on each day
    begun: tuple[int, ...]  # customer-seconds of the sustained interruptions that begin on each day, whole
    marks: dict[int, str]
    counts: dict[str, Counts]
    further: dict[str, FurtherCounts]
    customers: "array[int]" = field(repr=False)  # their numbers, rising

    @property
    def total(self) -> int:
        """W."""
        return sum(amount for _, amount in self.causes.values())


@dataclass
class CauseSum:
    """A cause of all districts, by its name, with the codes that the books have for it."""

    name: str
    codes: set[int] = field(default_factory=set)
    amount: int = 0

    @property
    def code_text(self) -> str:
        return str(min(self.codes)) if len(self.codes) == 1 else "-"


@dataclass(frozen=True)
class Sums:
    """The districts of one period, added up."""

    districts: tuple[District, ...]
    period: PeriodKey
    length: int
    served_seconds: int
    causes: tuple[CauseSum, ...]
    days: tuple[int, ...]
    begun: tuple[int, ...]
    marked_in: dict[int, tuple[str, ...]]  # the districts that mark a day
    counts: dict[str, Counts]
    further: dict[str, FurtherCounts]

    @property
    def total(self) -> int:
        return sum(self.days)

    def rates(self, name: str) -> Rates:
        """The counts of one of the two sets, over the customers served."""
        return Rates(self.counts[name], self.served_seconds, self.length)

    def indices(self, name: str) -> dict[str, Fraction | None]:
        """The fifteen quotients of one of the two sets."""
        return self.rates(name).indices

    def further_indices(self, name: str) -> dict[str, Fraction | None]:
        """MAIFI, MAIFI_E, CTAIDI, CELID and CEMSMI of one of the two sets."""
        return further_indices(self.rates(name), self.further[name])

    def daily_saidi(self) -> list[Fraction | None]:
        """Of each day the standard's: minutes of the sustained interruptions that begin on it, per customer served."""
        return [quotient(seconds * self.length, 60 * self.served_seconds) for seconds in self.begun]


# A book's part.


def name_of(path: str) -> str:
    """A district's name: that of its book's file without the ending."""
    return Path(path).stem


def district_of(path: str, found: Checked, hours: Sequence[Fraction] = HOURS) -> District:
    """What a compared book adds; `hours` are those of CELID."""
    book = found.book
    begun = [0] * len(book.period.days)
    for each in found.interruptions:
        if each.is_sustained:
            begun[book.period.day_of(each.since)] += each.customer_seconds
    (commands,) = found.database.execute("SELECT count(*) FROM cmd").fetchone()
    return District(
        name=name_of(path),
        period=PeriodKey(book.period.days[0], len(book.period.days), book.period.zone.text),
        length=book.period.length,
        commands=commands,
        served_seconds=found.whole["all"].served,
        causes={code: (name, book.postings[CAUSE, code]) for code, name in book.causes.items()},
        feeders={
            feeder: book.postings[FEEDER, feeder]
            for feeder in sorted({section.feeder for section in book.sections.values()})
        },
        days=tuple(book.postings[DAY, number] for number in range(len(book.period.days))),
        begun=tuple(begun),
        marks=dict(book.marks),
        counts=found.counts,
        further={name: further_counts(found, name, hours) for name in SETS},
        customers=array("I", (number for number, in found.database.execute("SELECT id FROM customer ORDER BY id"))),
    )


def read_district(path: str, table: str | None, program: str, hours: Sequence[Fraction] = HOURS) -> District:
    """The part of the book in a file, compared first."""
    with open_book(path, table, program) as found:
        return district_of(path, found, hours)


def read_districts(
    paths: Sequence[str],
    tables: Sequence[str | None],
    program: str,
    processes: int | None = None,
    hours: Sequence[Fraction] = HOURS,
    cluster: str | None = None,
) -> list[District]:
    """The parts of many books, in the order given."""
    return over_books(partial(read_district, hours=hours), paths, tables, program, processes, cluster)


# Adding up.


def refuse_strangers(districts: Sequence[District], own_numbers: bool) -> None:
    """Books that don't belong together, with the reason."""
    first = districts[0]
    for each in districts[1:]:
        if each.period != first.period:
            raise BookError(
                f"{each.name} and {first.name} are books of different periods: {each.period}, and {first.period}"
            )
    for name, count in Counter(each.name for each in districts).items():
        if count > 1:
            raise BookError(f"{name} is given {count} times: a district is one book, whose file has its name")
    if not own_numbers:
        refuse_shared_customers(districts)


def refuse_shared_customers(districts: Sequence[District]) -> None:
    """A customer whose number two books have would be counted twice."""
    numbers = merge(*(zip(each.customers, repeat(place)) for place, each in enumerate(districts)))
    for (number, place), (next_number, other) in pairwise(numbers):
        if number == next_number:
            raise BookError(
                f"customer {number} is in {districts[place].name} and in {districts[other].name}, and would be counted"
                " twice; if each district has numbers of its own, give --own-numbers"
            )


def add_causes(districts: Sequence[District]) -> tuple[CauseSum, ...]:
    """Causes by their names, in the order of their codes; those with several codes at the end."""
    found: dict[str, CauseSum] = {}
    for each in districts:
        for code, (name, amount) in each.causes.items():
            cause = found.setdefault(name, CauseSum(name))
            cause.codes.add(code)
            cause.amount += amount
    return tuple(sorted(found.values(), key=lambda cause: (len(cause.codes) > 1, min(cause.codes), cause.name)))


def add_up(districts: Sequence[District], own_numbers: bool = False) -> Sums:
    """The sums of books that belong together. `own_numbers`: each district numbers its customers by itself."""
    if not districts:
        raise BookError("there is no book to add up")
    refuse_strangers(districts, own_numbers)
    marked: dict[int, list[str]] = defaultdict(list)
    for each in districts:
        for day in each.marks:
            marked[day].append(each.name)
    return Sums(
        districts=tuple(districts),
        period=districts[0].period,
        length=districts[0].length,
        served_seconds=sum(each.served_seconds for each in districts),
        causes=add_causes(districts),
        days=tuple(map(sum, zip(*(each.days for each in districts)))),
        begun=tuple(map(sum, zip(*(each.begun for each in districts)))),
        marked_in={day: tuple(names) for day, names in sorted(marked.items())},
        counts={name: reduce(add, (each.counts[name] for each in districts)) for name in SETS},
        further={name: reduce(add, (each.further[name] for each in districts)) for name in SETS},
    )


# Writing.


def marks_that_differ(sums: Sums) -> Iterator[str]:
    """The days that some books mark and others don't: these days' interruptions are left out of a part of the customers."""
    for day, names in sums.marked_in.items():
        others = [each.name for each in sums.districts if each.name not in names]
        if others:
            yield f"{sums.period.day(day)} is marked in {', '.join(names)}, not in {', '.join(others)}."


def about(sums: Sums) -> Iterator[str]:
    """What is to be said of the sums."""
    yield (
        f"{len(sums.districts)} books added up, each equal to its program's table: "
        + ", ".join(f"{each.name} ({each.commands} commands)" for each in sums.districts)
    )
    for cause in sums.causes:
        if len(cause.codes) > 1:
            yield f"{cause.name} has the codes {', '.join(map(str, sorted(cause.codes)))}: causes are added up by name."
    yield from marks_that_differ(sums)


def mark_text(sums: Sums, day: int) -> str:
    """The words behind a day."""
    count = len(sums.marked_in.get(day, ()))
    if count == len(sums.districts):
        return " marked"
    return f" marked in {count} of {len(sums.districts)}" if count else ""


def further_lines(sums: Sums) -> Iterator[str]:
    """The indices that no program's table has, in the same form."""
    for name in SETS:
        for index, value in sums.further_indices(name).items():
            yield f"{index:<10} {name:<9}{quotient_text(value)}"


def table_lines(sums: Sums) -> Iterator[str]:
    """The lines of the annual table; behind a feeder stands the district that it belongs to."""
    yield f"OUTAGE BOOK {sums.period}"
    yield f"P {sums.length} S {sums.served_seconds} W {sums.total}"
    for cause in sums.causes:
        yield f"cause {cause.code_text:>3} {cause.name:<24}{cause.amount:>16}"
    for each in sums.districts:
        for feeder, amount in each.feeders.items():
            yield f"feeder {feeder:>3}{amount:>40} {each.name}"
    for number, amount in enumerate(sums.days):
        if amount or number in sums.marked_in:
            yield f"day {sums.period.day(number)}{amount:>36}{mark_text(sums, number)}"
    for name in SETS:
        for index, value in sums.indices(name).items():
            yield f"{index:<10}{name:<9}{quotient_text(value)}"
        yield f"{'SUSTAINED':<10}{name:<9}{sums.counts[name].sustained}"
        yield f"{'MOMENTARY':<10}{name:<9}{sums.counts[name].momentary}"


DISTRICT_COLUMNS = (
    ["district", "commands", "customers_served", "customers_served_3", "customer_seconds", "share_3", "marked_days"]
    + ["sustained", "momentary", "saifi", "saifi_3", "saidi", "saidi_3", "caidi", "caidi_3"]
)  # fmt: skip


def district_rows(sums: Sums) -> Iterator[list[object]]:
    """A row for each district, over its own customers served, and one for all."""
    for each in sums.districts:
        yield district_row(each.name, each.commands, add_up([each], own_numbers=True), sums.total)
    yield district_row("all", sum(each.commands for each in sums.districts), sums, sums.total)


def district_row(name: str, commands: int, sums: Sums, total: int) -> list[object]:
    indices, counts = sums.indices("all"), sums.counts["all"]
    served = quotient(sums.served_seconds, sums.length)
    row: list[object] = [name, commands, fraction_text(served), decimal_text(served), sums.total]
    row += [decimal_text(quotient(sums.total, total)), len(sums.marked_in), counts.sustained, counts.momentary]
    for index in ("SAIFI", "SAIDI", "CAIDI"):
        row += [fraction_text(indices[index]), decimal_text(indices[index])]
    return row


def write_table(sums: Sums) -> None:
    for line in about(sums):
        print(f"# {line}")
    for line in table_lines(sums):
        print(line)


def write_further(sums: Sums) -> None:
    print(
        "# Computed here, in no program's table: MAIFI, MAIFI_E, CTAIDI, CELID and CEMSMI, over the same customers served."
    )
    for line in further_lines(sums):
        print(line)


def write_districts(sums: Sums) -> None:
    writer = csv.writer(sys.stdout, lineterminator="\n")
    writer.writerow(DISTRICT_COLUMNS)
    writer.writerows(district_rows(sums))


def index_texts(sums: Sums, name: str) -> dict[str, str | int]:
    """The quotients and the two counts of a set."""
    texts: dict[str, str | int] = {index: fraction_text(value) for index, value in sums.indices(name).items()}
    return texts | {"SUSTAINED": sums.counts[name].sustained, "MOMENTARY": sums.counts[name].momentary}


def write_json(sums: Sums) -> None:
    """All that the table has, with exact fractions as texts."""
    whole = {
        "about": list(about(sums)),
        "first": sums.period.first.isoformat(),
        "days": sums.period.days,
        "zone": sums.period.zone,
        "period_seconds": sums.length,
        "served_seconds": sums.served_seconds,
        "customer_seconds": sums.total,
        "causes": [{"name": c.name, "codes": sorted(c.codes), "customer_seconds": c.amount} for c in sums.causes],
        "feeders": [
            {"district": each.name, "feeder": feeder, "customer_seconds": amount}
            for each in sums.districts
            for feeder, amount in each.feeders.items()
        ],
        "by_day": [
            {
                "day": sums.period.day(number).isoformat(),
                "customer_seconds": amount,
                "daily_saidi": fraction_text(daily),
                "marked_in": list(sums.marked_in.get(number, ())),
            }
            for number, (amount, daily) in enumerate(zip(sums.days, sums.daily_saidi()))
        ],
        "indices": {name: index_texts(sums, name) for name in SETS},
        "further": {
            name: {index: fraction_text(value) for index, value in sums.further_indices(name).items()} for name in SETS
        },
        "districts": [dict(zip(DISTRICT_COLUMNS, row)) for row in district_rows(sums)],
    }
    json.dump(whole, sys.stdout, indent=1)
    print()


def add_book_arguments(parser: Parser) -> None:
    """The words of tools that read many books."""
    parser.add_argument("books", nargs="+", metavar="BOOK", help="the books' files; a file's name is its district's")
    parser.add_argument(
        "--own-numbers", action="store_true", help="each district has customers' numbers of its own: none is compared"
    )
    add_spread_arguments(parser)
    parser.add_argument(
        "--table", action="append", metavar="FILE", default=[], help="a book's annual table, once for each book"
    )
    parser.add_argument("--program", metavar="PATH", default="outagebook", help="the program that prints the tables")


def tables_given(parser: Parser, books: Sequence[str], tables: Sequence[str]) -> list[str | None]:
    """The tables of the books, None for each where the program prints them."""
    if tables and len(tables) != len(books):
        parser.error("--table is given once for each book, in their order, or not at all")
    return list(tables) or [None] * len(books)


def main() -> int:
    parser = Parser(description="Adds up the books of one period, each compared with its program's table first.")
    add_book_arguments(parser)
    form = parser.add_mutually_exclusive_group()
    form.add_argument(
        "--json", dest="write", action="store_const", const=write_json, default=write_table, help="as JSON"
    )
    form.add_argument(
        "--districts", dest="write", action="store_const", const=write_districts, help="a CSV row for each district"
    )
    form.add_argument(
        "--further",
        dest="write",
        action="store_const",
        const=write_further,
        help="MAIFI, MAIFI_E, CTAIDI, CELID and CEMSMI",
    )
    form.add_argument("-o", "--output", metavar="FILE", help="write a page of all books in place of the table")
    parser.add_argument("--hours", nargs="+", type=read_hours, metavar="H", default=HOURS, help="those of CELID")
    add_page_arguments(parser, "All districts")
    args = parser.parse_args()
    tables = tables_given(parser, args.books, args.table)
    if args.processes is not None and args.processes < 1:
        parser.error("--processes is 1 or more")

    def job() -> None:
        districts = read_districts(args.books, tables, args.program, args.processes, args.hours, args.cluster)
        sums = add_up(districts, args.own_numbers)
        if args.output:
            from outage_tools.many_pages import sums_page
            from outage_tools.report import write

            write(args.output, sums_page(sums, args.name, args.date))
        else:
            args.write(sums)

    return run_job(job)
