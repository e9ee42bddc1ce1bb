"""A book's figures as a workbook of spreadsheets (XLSX), and filings.

    outagebook-workbook BOOK -o FILE.xlsx [--filing eia861|ceer ..] [--above N] [--causes FILE] [--names FILE] [--by FILE]
                        [--earlier BOOK] [--ticket RULE] [--hours H ..] [--kva FILE] [--name NAME] [--date DATE] [--table FILE | --program PATH]
    outagebook-workbook BOOK --filing eia861|ceer [--causes FILE]

Without -o the lines of one filing are printed as CSV. docs/use/FILING.md says what the sheets have.
"""

from argparse import ArgumentTypeError, Namespace
from contextlib import ExitStack
from pathlib import Path

from outage_tools import indices as further
from outage_tools.cli import Parser, add_page_arguments, add_table_arguments, run_job
from outage_tools.compare import Checked, open_book
from outage_tools.figures import add_list_arguments
from outage_tools.filings import FILINGS, filing
from outage_tools.forms import write_csv
from outage_tools.keys import add_keys_argument, keys_shown
from outage_tools.lists import read_cause_groups, read_names, read_section_groups
from outage_tools.versions import made_by
from outage_tools.workbook.parts import Wanted, sheets_of
from outage_tools.workbook.writing import write_workbook


def read_least(text: str) -> int:
    """A number of interruptions: 1 or more."""
    if not text.isascii() or not text.isdigit() or not 1 <= int(text) <= 50_000:
        raise ArgumentTypeError(f"{text!r} is no number from 1 to 50000")
    return int(text)


def add_sheet_arguments(parser: Parser) -> None:
    """The words that say what a workbook has beside the figures that every one has."""
    parser.add_argument(
        "--filing", action="append", choices=list(FILINGS), default=[], help="the lines of a form, as a sheet or as CSV"
    )
    parser.add_argument(
        "--above",
        metavar="N",
        type=read_least,
        help="a sheet of the customers, by number, with N or more sustained interruptions",
    )
    add_list_arguments(parser)
    parser.add_argument("--by", metavar="FILE", help="a CSV of section and group: the indices of groups of sections")
    parser.add_argument("--earlier", metavar="BOOK", help="the book of the year before, for the ranks of its feeders")
    parser.add_argument("--hours", nargs="+", type=further.read_hours, metavar="H", help="the hours of CELID")
    parser.add_argument("--kva", metavar="FILE", help="connected kVA by section or customer, for ASIFI and ASIDI")
    add_keys_argument(parser, "customers' own keys, to show beside their numbers")


def wanted_by(found: Checked, args: Namespace, earlier: Checked | None) -> Wanted:
    """What the words of the command line ask for, with the lists read."""
    book = found.book
    keys = keys_shown(args.keys, args.book, found.database)
    return Wanted(
        name=args.name,
        date=args.date,
        names=read_names(args.names, book) if args.names else None,
        cause_groups=read_cause_groups(args.causes, book) if args.causes else None,
        section_groups=read_section_groups(args.by, book) if args.by else None,
        rule=args.ticket,
        hours=args.hours or further.HOURS,
        loads=further.loads_of(args.kva, found, keys) if args.kva else None,
        least=args.above,
        keys=keys,
        filings=tuple(dict.fromkeys(args.filing)),
        earlier=earlier,
    )


def parser_of_workbook() -> Parser:
    parser = Parser(description="Writes a book's figures as a workbook of spreadsheets, or the lines of a form as CSV.")
    parser.add_argument("book", help="the book's file")
    parser.add_argument("-o", "--output", metavar="FILE", help="the workbook to write, as year.xlsx")
    add_sheet_arguments(parser)
    add_page_arguments(parser, "Outage book")
    add_table_arguments(parser)
    return parser


def main() -> int:
    parser = parser_of_workbook()
    args = parser.parse_args()
    if args.output is None and len(args.filing) != 1:
        parser.error("-o FILE says where the workbook goes; without it, one --filing is printed as CSV")
    if args.output is not None and Path(args.output).suffix.lower() != ".xlsx":
        parser.error(f"-o {args.output}: a workbook's name ends with .xlsx")

    def job() -> None:
        with ExitStack() as books:
            found = books.enter_context(open_book(args.book, args.table, args.program))
            has_earlier = args.earlier is not None
            earlier = books.enter_context(open_book(args.earlier, None, args.program)) if has_earlier else None
            wanted = wanted_by(found, args, earlier)
            if args.output is None:
                write_csv(filing(found, args.filing[0], wanted.cause_groups))
                return
            sheets = sheets_of(found, wanted, made_by(args.table, args.program))
            write_workbook(Path(args.output), sheets, f"{wanted.name} {found.book.period.days[0]}")

    return run_job(job)
