"""From raw connectivity to the sections of a book: lines, transformers and switches cut into what the other tools take.

    python3 tools/sections.py --edges edges.csv --source NODE [--customers customers.csv] -o FOLDER
                              [--oms oms.csv | --only-opened oms.csv] [--device KINDS] [--word MEANING=WORDS] ..
    python3 tools/sections.py --cim model.xml | --opendss master.dss .. -o FOLDER
    python3 tools/sections.py .. -o FOLDER --as EARLIER --book BOOK --at MOMENT [--table FILE | --program PATH]
                              [--import [--causes causes.csv]]

FOLDER gets gis.csv, customers.csv and, if tickets are given, oms.csv, in the form of docs/use/IMPORTING.md; names.csv, which says
what each edge is in them; feeders.csv, the circuit of each feeder's number. All is written, or nothing: whatever can't be cut is told
by its row, and the status is 1. With --import the book gets what it doesn't have of them, by the program, all of it or nothing.
docs/use/NETWORK.md says what is refused and what is left out.
"""

import argparse
from collections import Counter
from dataclasses import dataclass
from pathlib import Path

from outage_tools.cli import Once, Parser, add_table_arguments, print_error, run_job
from outage_tools.compare import open_book
from outage_tools.district_files import read_rows
from outage_tools.errors import BookError
from outage_tools.keys import add_keys_argument, keys_for
from outage_tools.oms.convert import save_keys
from outage_tools.oms.complaints import BadRow
from outage_tools.oms.files import Row, add_format_arguments, format_of
from outage_tools.oms.known import Known, known_of
from outage_tools.oms.network import MOST_NODES
from outage_tools.oms.told import lines_of_notes
from outage_tools.oms.writing import whole_file
from outage_tools.sections.changed import Change
from outage_tools.sections.cim import read_cim
from outage_tools.sections.cut import Choice
from outage_tools.sections.edges import DEVICE_KINDS, Labels, labels_of
from outage_tools.sections.importing import ROWS, Loading, add_import_arguments, check_import_words, import_rows
from outage_tools.sections.ledger import Ledger, ledger_of
from outage_tools.sections.loads import numbers_in, take_customers
from outage_tools.sections.making import Maker
from outage_tools.sections.model import Earlier, Model
from outage_tools.sections.opendss import read_opendss
from outage_tools.sections.reading import Reading, Tickets, read_customers, read_edges, read_sources, read_tickets
from outage_tools.sections.there import There, there_of
from outage_tools.sections.words import kinds_argument, word_argument, words_of
from outage_tools.sections.writing import Tables, report_lines, tables_of, write_tables


def make_parser() -> Parser:
    parser = Parser(description="Cuts raw connectivity (lines, transformers, switches) into the sections of a book.")
    network = parser.add_mutually_exclusive_group(required=True)
    network.add_argument(
        "--edges", metavar="FILE", action=Once, help="the edges: name, kind, from, to, normal, circuit"
    )
    network.add_argument("--opendss", metavar="FILE", action=Once, help="the same as a script of OpenDSS")
    network.add_argument("--cim", metavar="FILE", nargs="+", action=Once, help="the same as a model in CIM RDF/XML")
    parser.add_argument("--sources", metavar="FILE", action=Once, help="the nodes of the sources")
    parser.add_argument(
        "--source", metavar="NODE", action="append", default=[], help="the node of a source; may be given several times"
    )
    parser.add_argument("--customers", metavar="FILE", action=Once, help="customers, each with its transformer")
    tickets = parser.add_mutually_exclusive_group()
    tickets.add_argument("--oms", metavar="FILE", action=Once, help="outages and restoration steps")
    tickets.add_argument(
        "--only-opened",
        metavar="FILE",
        action=Once,
        help="the same, for a coarse network: devices are those that a ticket names, or that are normally open",
    )
    parser.add_argument("-o", dest="output", metavar="FOLDER", type=Path, required=True, help="where the files go")
    parser.add_argument("--report", metavar="FILE", type=Path, help="what was read, left out, noticed and refused")
    add_book_arguments(parser)
    parser.add_argument(
        "--since", metavar="DATE", help="from when the loads of a model are served, if no customers are given"
    )
    parser.add_argument(
        "--label", choices=["name", "mrid"], default="name", help="what an object of CIM is called by (name)"
    )
    add_cut_arguments(parser)
    add_format_arguments(parser)
    return parser


def add_book_arguments(parser: Parser) -> None:
    """The words of a book that was made of an earlier run."""
    parser.add_argument(
        "--as", dest="earlier", metavar="FOLDER", type=Path, help="the folder of an earlier run, whose names stay"
    )
    parser.add_argument(
        "--book", metavar="FILE", help="the book that was made of the earlier run: what changed since then"
    )
    parser.add_argument("--at", metavar="MOMENT", help="from when the network is as this export has it")
    add_keys_argument(parser, "with --book: the table of its customers' keys")
    add_table_arguments(parser)
    add_import_arguments(parser)


def add_cut_arguments(parser: Parser) -> None:
    """The words that say what a device is."""
    parser.add_argument(
        "--device",
        metavar="KINDS",
        type=kinds_argument,
        default=frozenset(DEVICE_KINDS),
        help=f"the kinds of edges that are devices ({','.join(DEVICE_KINDS)})",
    )
    parser.add_argument(
        "--join",
        metavar="NAME",
        action="append",
        default=[],
        help="an edge that is no device though its kind is; may be given several times",
    )
    parser.add_argument(
        "--word",
        metavar="MEANING=WORDS",
        dest="words",
        action="append",
        default=[],
        type=word_argument,
        help="the export's words for a kind or a position, as closed=on,1,NC; may be given several times",
    )
    parser.add_argument("--meshed", action="store_true", help="loops of closed devices are meant: they are only told")


def earlier_of(folder: Path | None) -> Earlier:
    """What an earlier run named."""
    found = Earlier()
    if folder is None:
        return found
    try:
        for row in read_rows(str(folder / "names.csv"), ("label", "kind", "became", "name")):
            if row["became"] == "device":
                found.names.setdefault(row["label"], []).append(row["name"])
            elif row["became"] == "customers":
                found.customers[row["label"]] = numbers_in(row["name"])
            elif row["name"]:
                found.became[row["label"]] = row["name"]
            if row["kind"] == "meter":
                found.meters.append(row["label"])
        feeders = read_rows(str(folder / "feeders.csv"), ("feeder", "name"))
        found.feeders = {row["name"]: int(row["feeder"]) for row in feeders}
    except ValueError as error:
        raise BookError(f"{folder} has a number that is none: {error}") from None
    return found


def joined_of(names: list[str], labels: Labels) -> frozenset[str]:
    """The edges of --join."""
    found = {name: labels.find(name) for name in names}
    unknown = [name for name, label in found.items() if label is None]
    if unknown:
        raise BookError(f"--join: no edge is called {', '.join(unknown)}")
    return frozenset(label for label in found.values() if label is not None)


def read_all(args: argparse.Namespace, reading: Reading) -> Tickets | None:
    """Reads all files of a run; an error where a row can't be read."""
    if args.edges:
        read_edges(reading, args.edges)
    elif args.opendss:
        read_opendss(reading, args.opendss)
    else:
        read_cim(reading, args.cim, args.label == "mrid")
    read_sources(reading, args.sources, args.source)
    if args.customers:
        read_customers(reading, args.customers)
    path = args.oms or args.only_opened
    tickets = read_tickets(reading, path) if path else None
    reading.refuse()
    reading.check_columns()
    return tickets


def choice_of(args: argparse.Namespace, reading: Reading, tickets: Tickets | None) -> Choice:
    labels = labels_of(reading.raw.edges)
    opened = None
    if args.only_opened and tickets:
        opened = frozenset(label for name in tickets.devices() if (label := labels.find(name)) is not None)
    return Choice(args.device, joined_of(args.join, labels), opened)


def print_summary(model: Model, folder: Path, files: list[str]) -> None:
    """How much there was, and how much there is."""
    kinds = Counter(edge.kind for edge in model.raw.edges.values())
    print(f"edges {len(model.raw.edges)}: {', '.join(f'{kind} {count}' for kind, count in kinds.most_common())}")
    nodes, devices = Counter(node.feeder is None for node in model.nodes), Counter(
        each.is_closed for each in model.devices
    )
    print(f"buses {nodes[True]}, sections {nodes[False]}, feeders {len(model.feeders)}")
    print(f"devices {devices.total()}, of these normally open {devices[False]}")
    if model.raw.has_customers:
        print(f"customers {len(model.sections)}, on sections {len(set(model.sections.values()))}")
    print(f"written to {folder}: {', '.join(files)}")


@dataclass(frozen=True)
class Book:
    """What the book has, the moment of the change, and the exports that went in before."""

    known: Known
    there: There
    ledger: Ledger


def make(args: argparse.Namespace, reading: Reading, book: Book | None, said: list[str]) -> tuple[Model, Tables]:
    """Reads all, and makes what is written."""
    tickets = read_all(args, reading)
    earlier = earlier_of(args.earlier)
    numbers = {} if args.customers else take_customers(reading.raw, args.since, earlier.customers)
    there = book.there if book else None
    made = Maker(reading, choice_of(args, reading, tickets), earlier, args.meshed, there, said).model(tickets)
    change = Change(there, made, reading.complaints, said) if there else None

    def name_in(row: Row, label: str) -> str:
        """That of the row's moments, where the device has had several in the book."""
        name = made.names_of(label)[0]
        if change:
            with reading.complaints.about(row):
                name = change.name_in(row, label)
        return name

    tables = tables_of(made, reading, tickets, numbers, name_in)
    tables = {name: (columns, list(rows)) for name, (columns, rows) in tables.items()}
    reading.refuse()
    if book and args.imports:
        loading = Loading(args, book.known, reading, made, tickets)
        tables[ROWS] = loading.table(tables)
        reading.refuse()
        reading.files += loading.files
        save_keys(loading.keys)
    return made, tables


def book_of(args: argparse.Namespace) -> Book:
    with open_book(args.book, args.table, args.program) as found:
        known = known_of(found)
    keys = keys_for(args.keys, args.book, known.customer_refs, bool(args.customers))
    try:
        there = there_of(known, args.at, tuple(args.dates), keys, args.zone)
    except BadRow as error:
        raise BookError(str(error)) from None
    ledger = ledger_of(args.book)
    if args.imports:
        ledger.check(there.at, args.earlier)
    return Book(known, there, ledger)


def job(args: argparse.Namespace, reading: Reading) -> None:
    said: list[str] = []
    try:
        book = book_of(args) if args.book else None
        made, tables = make(args, reading, book, said)
        write_tables(args.output, tables)
    finally:
        if args.report:
            with whole_file(args.report) as file:
                file.writelines(f"{line}\n" for line in report_lines(reading, said))
    print_summary(made, args.output, list(tables))
    if len(made.nodes) >= MOST_NODES:
        said.append(
            f"{len(made.nodes) + 1} nodes with GRID, and a book takes {MOST_NODES}: --only-opened, or outagebook-districts"
        )
    for line in (*lines_of_notes(reading.files), *(f"{args.book or args.output}: {each}" for each in said)):
        print_error(f"note: {line}")
    if book and args.imports:
        print(import_rows(args, book.ledger, book.there.text(book.there.at)), end="")


def check_words(parser: Parser, args: argparse.Namespace) -> None:
    """Words that don't go together end the run."""
    if (args.book is None) != (args.at is None):
        parser.error("--book and --at go together")
    if args.book and not args.earlier:
        parser.error("--book wants --as: the folder of the run of which the book was made")
    check_import_words(parser, args)


def main() -> int:
    parser = make_parser()
    args = parser.parse_args()
    check_words(parser, args)
    try:
        words = words_of(args.words)
    except ValueError as error:
        parser.error(str(error))
    return run_job(lambda: job(args, Reading(words, format_of(args))))
