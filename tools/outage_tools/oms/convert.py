"""Exports of other systems into rows of commands: outages of an outage management system, network, customers, causes.

    python3 tools/from_oms.py --causes causes.csv --gis gis.csv --customers customers.csv --oms oms.csv --zone RULE
                              --first DATE --days N [-o rows.csv] [--report FILE]
    python3 tools/from_oms.py --causes causes.csv --oms oms.csv --book BOOK [--table FILE | --program PATH] [-o rows.csv]

docs/use/IMPORTING.md says what each file holds. With --book the rows are those that the book doesn't have yet: what is new, a
`correct` with its revision where a ticket was changed, a `withdraw` where it was cancelled, a `revise` where a service
was, a `life` where the beginning or the end of a device's life is another. References come from the ticket, so rows that
are imported twice count once. All rows are checked against one another, the period and the book. Where one can't be taken
nothing is written: all such rows are told, and the status is 1. What was left out or changed of others is told too.
"""

import argparse
import re
from collections.abc import Iterable, Iterator
from contextlib import ExitStack
from dataclasses import dataclass, field
from itertools import chain, islice
from pathlib import Path

from outage_tools.cli import Once, Parser, add_table_arguments, print_error, run_job
from outage_tools.commands import write_rows
from outage_tools.compare import open_book
from outage_tools.errors import BookError
from outage_tools.keys import Keys, add_keys_argument, keys_for
from outage_tools.oms import causes, customers, network, outages, told
from outage_tools.oms.complaints import Notes, lines_of
from outage_tools.oms.conversion import Conversion
from outage_tools.oms.fields import LATEST_MOMENT
from outage_tools.oms.files import Export, Format, Row, add_format_arguments, format_of
from outage_tools.oms.known import Known, known_of
from outage_tools.oms.services import Meters
from outage_tools.oms.steps import Step, StepReader, cancelled_words, ordinary_words
from outage_tools.oms.writing import whole_file, whole_output
from outage_tools.rows import Period, period_of
from outage_tools.zone import Zone

MOST_DAYS = 366
MOST_PREFIX = 8
EXPORTS = {
    "oms": "outages and restoration steps",
    "gis": "buses, sections and devices",
    "customers": "customers and their services",
    "causes": "causes: the book's codes and names, and the other system's terms",
}
COLUMNS = {
    "oms": outages.COLUMNS,
    "gis": network.COLUMNS,
    "customers": customers.COLUMNS,
    "causes": causes.COLUMNS,
    "counts": outages.COUNTS,
}


@dataclass
class Run:
    """The files of a run, and what was read of them."""

    args: argparse.Namespace
    conversion: Conversion
    format: Format
    formats: dict[str, Format] = field(default_factory=dict)  # of exports that are written otherwise
    files: list[Notes] = field(default_factory=list)
    steps: list[Step] = field(default_factory=list)  # of outages, as far as they can be read
    meters: Meters | None = None  # of single services, where the register has them

    def rows(self, export: str, columns: tuple[str, ...], required: tuple[str, ...]) -> tuple[Iterable[Row], Notes]:
        """The rows of an export, none where it isn't given, and the notes on them."""
        path: str | None = getattr(self.args, export)
        notes = Notes(export, path or "")
        if not path:
            return (), notes
        self.files.append(notes)
        form = self.formats.get(export, self.format)
        return Export(path, columns, required, form, self.conversion.complaints, notes).rows(), notes

    def commands(self) -> Iterator[list[str]]:
        """The commands of all files, as far as their rows can be taken."""
        conversion, args = self.conversion, self.args
        found = causes.Causes(conversion)
        yield from found.read(*self.rows("causes", causes.COLUMNS, causes.REQUIRED))
        grid = network.Network(conversion)
        if args.gis:
            yield from grid.read(*self.rows("gis", network.COLUMNS, network.REQUIRED))
        register, register_notes = self.rows("customers", customers.COLUMNS, customers.REQUIRED)
        register = iter(register)
        begin = list(islice(register, 1))  # with it the columns are known
        rows, notes = self.rows("oms", outages.COLUMNS, outages.REQUIRED)
        if "meter" in register_notes.columns:
            rows = list(rows)
            self.meters = Meters(conversion, grid)
            self.meters.find(rows)
        people = customers.Customers(conversion, grid, self.meters)
        yield from people.read(chain(begin, register), register_notes)
        if self.meters is not None:
            self.meters.note(rows, notes)
        reader = StepReader(conversion, grid, found, args.prefix, args.crew)
        events = outages.Outages(conversion, grid, reader, args.overlaps == "join", notes)
        yield from events.commands(rows)
        self.steps = events.read
        if not conversion.complaints.found:
            self.check_given(grid)

    def check_given(self, grid: network.Network) -> None:
        """What the files can't be checked against isn't guessed, and a column's name that no file has is no slip of the pen: it may
        be for a file that isn't given."""
        read = {each for notes in self.files for each in notes.renamed}
        given = {column for notes in self.files for column in COLUMNS[notes.export]}
        elsewhere = {column for columns in COLUMNS.values() for column in columns} - given
        for theirs, ours in self.format.columns:
            if (theirs, ours) not in read and ours not in elsewhere:
                raise BookError(f"no file has a column {theirs!r} that --column names as {ours}")
        if (self.args.oms or self.args.customers) and not grid.is_known:
            raise BookError("outages and customers are checked against the network: give --gis or --book")
        if self.args.oms and self.conversion.period is None:
            raise BookError("outages are checked against the period: give --book, or --first, --days and --zone")

    def told(self) -> told.Told:
        return told.Told(self.files, self.conversion.complaints.found)

    def refuse(self) -> None:
        """Nothing is written where a row can't be taken."""
        complaints = self.conversion.complaints.found
        if complaints:
            reported = "\n".join(lines_of(complaints, "--report FILE tells"))
            raise BookError(f"rows can't be read, and nothing was written:\n{reported}")


def zone_argument(text: str) -> Zone:
    """The zone of a rule on the command line."""
    try:
        return Zone(text)
    except ValueError as error:
        raise argparse.ArgumentTypeError(str(error)) from None


def prefix_argument(text: str) -> str:
    if not re.fullmatch(f"[A-Z0-9_-]{{0,{MOST_PREFIX}}}", text):
        raise argparse.ArgumentTypeError(f"{text!r} isn't up to {MOST_PREFIX} of A-Z, 0-9, - and _")
    return text


def days_argument(text: str) -> int:
    if not re.fullmatch("[0-9]{1,3}", text) or not 1 <= int(text) <= MOST_DAYS:
        raise argparse.ArgumentTypeError(f"{text!r} isn't a number from 1 to {MOST_DAYS}")
    return int(text)


def make_parser() -> Parser:
    """The words that tell the exports, and what they are for."""
    parser = Parser(description="Writes rows of commands from exports of other systems.")
    add_export_arguments(parser)
    parser.add_argument("--book", metavar="BOOK", help="the book that the rows are for, as far as it is")
    add_table_arguments(parser)
    return parser


def add_export_arguments(parser: Parser, are_required: bool = False) -> None:
    """The options that name the exports, and how they are read."""
    for export, text in EXPORTS.items():
        parser.add_argument(f"--{export}", metavar="FILE", action=Once, required=are_required, help=text)
    add_outage_arguments(parser, are_required)
    add_keys_argument(parser, "the customers have keys of their own: the table of their numbers, which goes on")
    add_format_arguments(parser)


def add_outage_arguments(parser: Parser, are_required: bool = False) -> None:
    """The options that say how rows of outages are taken."""
    parser.add_argument(
        "--zone",
        metavar="RULE",
        type=zone_argument,
        required=are_required,
        help="the POSIX rule of local times (that of the book)",
    )
    parser.add_argument(
        "--prefix", type=prefix_argument, default="OMS-", help="what the references of outages begin with (OMS-)"
    )
    parser.add_argument(
        "--cancelled",
        metavar="WORD",
        action="append",
        default=[],
        help="a value of the column status that means a mistake, apart from cancelled; may be given several times",
    )
    parser.add_argument(
        "--ordinary",
        metavar="WORD",
        action="append",
        default=[],
        help="a value of the column status that isn't worth a note, as closed, completed and restored aren't",
    )
    parser.add_argument("--crew", default="OMS", help="the crew if a row names none (OMS)")


def add_period_arguments(parser: Parser, are_required: bool = False) -> None:
    """The options of a new book's period, and what becomes of steps that overlap."""
    parser.add_argument(
        "--first", metavar="DATE", required=are_required, help="the period's first day, if there is no book yet"
    )
    parser.add_argument("--days", metavar="N", type=days_argument, required=are_required, help="how many days it has")
    add_overlaps_argument(parser)


def add_overlaps_argument(parser: Parser) -> None:
    parser.add_argument(
        "--overlaps",
        choices=["refuse", "join"],
        default="refuse",
        help="what to do with steps of one device that overlap: refuse them, or make one outage of them (refuse)",
    )


def own_parser() -> Parser:
    """The words of this tool."""
    parser = make_parser()
    add_period_arguments(parser)
    parser.add_argument("-o", dest="output", metavar="FILE", type=Path, help="where the rows go (standard output)")
    parser.add_argument(
        "--report", metavar="FILE", type=Path, help="what was read, left out and changed, as text, or as JSON by .json"
    )
    return parser


def check_words(parser: Parser, args: argparse.Namespace) -> None:
    """Words that don't go together end the run."""
    if not (args.oms or args.gis or args.customers or args.causes):
        parser.error("no file is given")
    if args.book and (args.first or args.days):
        parser.error("--first and --days are for a book that isn't made yet: leave them out, or --book")
    if (args.first or args.days) and not (args.first and args.days and args.zone):
        parser.error("--first, --days and --zone make the period together")


def conversion_of(args: argparse.Namespace, known: Known) -> Conversion:
    """What the run knows before it reads."""
    period: Period | None = known.book.period if known.book else None
    if args.first:
        try:
            period = period_of(args.first, args.days, args.zone.text)
        except (ValueError, OverflowError) as error:
            raise BookError(f"the period can't be read: {error}") from None
        if period.first < 0 or period.end > LATEST_MOMENT:
            raise BookError("the period isn't between 1970 and 5138, as a book's seconds have to be")
    words = cancelled_words(args.cancelled), ordinary_words(args.ordinary)
    keys = keys_for(args.keys, args.book, known.customer_refs, bool(args.customers))
    return Conversion(args.zone or (period.zone if period else None), period, known, tuple(args.dates), *words, keys)


def save_keys(keys: Keys | None) -> None:
    """Keeps the numbers that were given out in a run, before its rows are there."""
    if keys is not None:
        keys.save()


def write_report(path: Path, run: Run) -> None:
    with whole_file(path) as file:
        file.write(told.report_text(path, run.told()))


def convert(args: argparse.Namespace, known: Known) -> None:
    """Writes the rows, and what there is to tell of them."""
    run = Run(args, conversion_of(args, known), format_of(args))
    with whole_file(args.output) if args.output else whole_output() as out:
        write_rows(run.commands(), out)
        if args.report:
            write_report(args.report, run)
        run.refuse()
        save_keys(run.conversion.keys)
    for line in told.lines_of_notes(run.files):
        print_error(f"note: {line}")


def run_words(args: argparse.Namespace) -> None:
    with ExitStack() as stack:
        known = Known()
        if args.book:
            known = known_of(stack.enter_context(open_book(args.book, args.table, args.program)))
        convert(args, known)


def main() -> int:
    parser = own_parser()
    args = parser.parse_args()
    check_words(parser, args)
    return run_job(lambda: run_words(args))
