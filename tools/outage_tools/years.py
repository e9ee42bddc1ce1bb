"""Years side by side: the figures of several books, each compared with the program first.

    python3 tools/years.py 2023.db 2024.db .. [--csv] [--processes N | --cluster ADDRESS] [--program PATH]
    python3 tools/years.py 2023.db 2024.db --table 2023.txt --table 2024.txt

A line for each figure: the period, P, S, W and the customers served, both sets of indices and counts, the
customer-seconds by cause's name and by feeder. The columns are the books in the order args. Where a book has no such
cause or feeder the field is empty.
"""

import csv
import sys

from outage_tools.cli import Parser, run_job
from outage_tools.compare import Checked, open_book
from outage_tools.counts import SETS, decimal_text, index_text
from outage_tools.parallel import add_spread_arguments, over_books
from outage_tools.rows import CAUSE, FEEDER


def lines_of(found: Checked) -> dict[str, str]:
    """A book's figures by their names."""
    book, period = found.book, found.book.period
    lines = {
        "first day": period.days[0].isoformat(),
        "days": str(len(period.days)),
        "zone": period.zone.text,
        "P, seconds": str(period.length),
        "S, customer-seconds": str(found.whole["all"].served),
        "W, customer-seconds": str(sum(amount for (dim, _), amount in book.postings.items() if dim == CAUSE)),
        "customers served, S / P": decimal_text(found.whole["all"].customers),
        "marked days": str(len(book.marks)),
    }
    for name in SETS:
        for index, value in found.whole[name].indices.items():
            lines[f"{index} {name}"] = index_text(index, value)
        lines[f"SUSTAINED {name}"] = str(found.counts[name].sustained)
        lines[f"MOMENTARY {name}"] = str(found.counts[name].momentary)
    for code, cause in book.causes.items():
        lines[f"cause {cause}, customer-seconds"] = str(book.postings[CAUSE, code])
    for feeder in sorted({section.feeder for section in book.sections.values()}):
        lines[f"feeder {feeder}, customer-seconds"] = str(book.postings[FEEDER, feeder])
    return lines


def read_lines(path: str, table: str | None, program: str) -> dict[str, str]:
    """The figures of the book in a file, compared first."""
    with open_book(path, table, program) as found:
        return lines_of(found)


def side_by_side(books: list[dict[str, str]]) -> list[list[str]]:
    """The figures that any of the books has, with each book's; causes and feeders after what all have."""
    names = [name for name in books[0] if not name.startswith(("cause ", "feeder "))]
    for kind in ("cause ", "feeder "):
        found = {name: None for book in books for name in book if name.startswith(kind)}
        names += sorted(found, key=number_of_feeder) if kind == "feeder " else list(found)
    return [[name, *(book.get(name, "") for book in books)] for name in names]


def number_of_feeder(name: str) -> int:
    return int(name.split(",")[0].split()[1])


def main() -> int:
    parser = Parser(description="Shows the figures of several books side by side.")
    parser.add_argument("books", nargs="+", help="the books' files")
    parser.add_argument("--csv", action="store_true", help="as CSV")
    parser.add_argument(
        "--table", action="append", metavar="FILE", default=[], help="a book's annual table, once for each"
    )
    parser.add_argument("--program", metavar="PATH", default="outagebook", help="the program that prints the tables")
    add_spread_arguments(parser)
    args = parser.parse_args()
    if args.table and len(args.table) != len(args.books):
        parser.error("--table is given once for each book, in their order, or not at all")

    def job() -> None:
        tables = args.table or [None] * len(args.books)
        books = over_books(read_lines, args.books, tables, args.program, args.processes, args.cluster)
        rows = [["figure", *args.books], *side_by_side(books)]
        if args.csv:
            csv.writer(sys.stdout, lineterminator="\n").writerows(rows)
            return
        widths = [max(len(row[place]) for row in rows) for place in range(len(rows[0]))]
        for row in rows:
            print("  ".join(cell.ljust(width) for cell, width in zip(row, widths)).rstrip())

    return run_job(job)
