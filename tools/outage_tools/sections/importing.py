"""The rows of an export, put into the book by the run that cuts it: all of them, or none.

What the cut writes is turned into rows of commands as outagebook-from-oms does it. Complaints and notes about a row name the user's own
file. The rows are kept beside the other files, and the program imports them whole.
"""

import argparse
import tempfile
from dataclasses import dataclass, field, replace
from pathlib import Path

from outage_tools.cli import Once, Parser
from outage_tools.commands import HEADER
from outage_tools.errors import BookError
from outage_tools.keys import Keys
from outage_tools.oms import convert
from outage_tools.oms.complaints import HEADER as HEADER_ROW
from outage_tools.oms.complaints import Notes
from outage_tools.oms.files import Format, Spot
from outage_tools.oms.known import Known
from outage_tools.program import run_program
from outage_tools.sections.ledger import Ledger, sum_of
from outage_tools.sections.model import Model
from outage_tools.sections.reading import Reading, Tickets
from outage_tools.sections.writing import Table, Tables, write_tables

ROWS = "rows.csv"
EXPORTS = ("gis", "customers", "oms")
REFUSED = 2  # the program's status where a row is refused, and the book is as it was
ONLY_HERE = ("causes", "zone", "prefix", "cancelled", "ordinary", "crew", "overlaps")


def add_import_arguments(parser: Parser) -> None:
    """The words of an import."""
    parser.add_argument(
        "--import",
        dest="imports",
        action="store_true",
        help="with --book: put into the book what it doesn't have yet, all of it or nothing; the words of"
        " outagebook-from-oms that follow go with it",
    )
    parser.add_argument("--causes", metavar="FILE", action=Once, help=convert.EXPORTS["causes"])
    convert.add_outage_arguments(parser)
    convert.add_overlaps_argument(parser)


def check_import_words(parser: Parser, args: argparse.Namespace) -> None:
    """Words that don't go together end the run."""
    if args.imports and not args.book:
        parser.error("--import wants --book")
    if args.imports and args.output.resolve() == args.earlier.resolve():
        parser.error("--import wants a folder of its own for each export: -o and --as are one")
    given = [name for name in ONLY_HERE if getattr(args, name) != parser.get_default(name)]
    if given and not args.imports:
        parser.error(f"--{given[0]} goes with --import")


@dataclass
class Loading:
    """The rows that a book doesn't have of an export, and the keys that were given out for them."""

    args: argparse.Namespace
    known: Known
    reading: Reading
    model: Model
    tickets: Tickets | None
    files: list[Notes] = field(default_factory=list)
    keys: Keys | None = None

    def table(self, tables: Tables) -> Table:
        """The rows of commands of what the cut writes; what can't be taken of them is with the reading's complaints."""
        with tempfile.TemporaryDirectory() as name:
            folder = Path(name)
            write_tables(folder, {f"{each}.csv": tables[f"{each}.csv"] for each in EXPORTS if f"{each}.csv" in tables})
            run = self.run(folder)
            rows = list(run.commands())
        self.files, self.keys = run.files, run.conversion.keys
        told = {str(folder / f"{export}.csv"): export for export in EXPORTS}
        spots = {export: self.spots(export) for export in EXPORTS}
        for each in run.conversion.complaints.found:
            place = self.place(told.get(each.file), each.file, each.row, spots)
            self.reading.complaints.found.append(replace(each, file=place.file, row=place.number))
        for notes in self.files:
            export = told.get(notes.file)
            if export == "gis":
                notes.file = str(self.args.output / "gis.csv")
                continue
            for listed in notes.noted.values():
                listed[:] = [self.place(export, notes.file, row, spots).number for row in listed]
            notes.file = self.place(export, notes.file, HEADER_ROW, spots).file
        return HEADER, rows

    def run(self, folder: Path) -> convert.Run:
        """A run of outagebook-from-oms over a folder's files, which are of this tool's own form; the causes are of the user's."""
        paths = {each: str(path) if (path := folder / f"{each}.csv").exists() else None for each in EXPORTS}
        words = argparse.Namespace(**vars(self.args) | paths | {"first": None, "days": None})
        own = Format(dates=self.reading.format.dates)
        return convert.Run(words, convert.conversion_of(words, self.known), own, {"causes": self.reading.format})

    def spots(self, export: str) -> list[Spot | None]:
        """The user's row from which each row of a file comes. Buses, sections, and devices that have ended come from none."""
        edges = self.model.raw.edges
        if export == "gis":
            devices = (edges.get(each.label) for each in self.model.devices)
            return [*[None] * len(self.model.nodes), *(edge.spot if edge else None for edge in devices)]
        if export == "customers":
            rows = enumerate(self.model.raw.customers)
            return [each.spot for number, each in rows for _ in range(len(self.model.parts.get(number, ())) or 1)]
        return [Spot(each.file, each.number) for each in self.tickets.rows] if self.tickets else []

    def place(self, export: str | None, file: str, row: int, spots: dict[str, list[Spot | None]]) -> Spot:
        """The user's row; that of the file that is written, where there is none."""
        if export is None:
            return Spot(file, row)
        there = spots[export]
        found = there[row - 1] if row else next((each for each in there if each), None)
        if found is None:
            return Spot(str(self.args.output / f"{export}.csv"), row)
        return found if row else Spot(found.file, row)


def import_rows(args: argparse.Namespace, ledger: Ledger, at: str) -> str:
    """What the program prints of the import of a folder's rows. The ledger has the export before, and loses it where the book is as it
    was for certain."""
    rows = args.output / ROWS
    ledger.write((at, str(args.output), sum_of(args.output)))
    done = run_program(args.program, "import", "--whole", "--book", args.book, rows)
    if done.returncode == REFUSED:
        ledger.write()
    if done.returncode:
        left = (
            "is as it was" if done.returncode == REFUSED else f"is as it was, or has all of {rows}: give the same again"
        )
        raise BookError(f"import of {rows}: {done.stderr.strip() or f'status {done.returncode}'}; {args.book} {left}")
    return done.stdout
