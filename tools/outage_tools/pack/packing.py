"""A pack of one period, to hand in: a folder or a ZIP file that is there whole or not at all.

    outagebook-pack BOOK FOLDER|FILE.zip [--name NAME] [--date DATE] [--filing eia861|ceer ..] [--above N] [--causes FILE]
                    [--names FILE] [--by FILE] [--program PATH]

It has the book as of one commit, the annual table, the moves, the commands, the rows of interruptions, the workbook, the
report, and a manifest. The same book, words and versions give the same bytes. docs/use/FILING.md says more.
"""

import os
import shutil
import sqlite3
import tempfile
from argparse import Namespace
from collections.abc import Iterator
from contextlib import closing, contextmanager
from pathlib import Path
from typing import Any

from outage_tools.cli import Parser, print_error, read_date, run_job
from outage_tools.compare import Checked, open_book
from outage_tools.copies import copy_of
from outage_tools.errors import BookError, Differs
from outage_tools.filings import FILINGS
from outage_tools.keys import add_keys_argument, keys_shown, refs_of_customers, told_by, write_keys
from outage_tools.pack.archive import write_zip, zlib_version
from outage_tools.pack.files import (
    BOOK,
    KEYS,
    LISTS,
    Order,
    list_file,
    own_copy,
    write_program_files,
    write_tool_files,
)
from outage_tools.pack.manifest import NAME, Manifest, packed
from outage_tools.placing import check_free, new_file
from outage_tools.program import run_program
from outage_tools.versions import Made, made_by, sum_of
from outage_tools.workbook.command import read_least
from outage_tools.workbook.writing import version_of_writer


def put_book(path: Path, folder: Path) -> Path:
    """The book as of one commit, in one file: what its log has is written into it, as the program does when it ends."""
    with copy_of(path.resolve()) as copy:
        try:
            with closing(sqlite3.connect(str(copy), isolation_level=None)) as database:
                database.execute("PRAGMA wal_checkpoint(TRUNCATE)")
        except sqlite3.Error as error:
            raise BookError(f"{path} is no book: {error}") from None
        shutil.copyfile(copy, folder / BOOK)
    return folder / BOOK


def check_audit(book: Path, program: str) -> None:
    """The program's audit of the book."""
    with own_copy(book) as copy:
        done = run_program(program, "audit", "--book", copy)
    if done.stdout.strip() != "audit ok":
        raise Differs("audit of the book", done.stdout.strip() or done.stderr.strip(), "audit ok")


def about(found: Checked, order: Order, made: Made) -> dict[str, Any]:
    """What the manifest says beside the files."""
    period = found.book.period
    commands, last = found.database.execute(
        "SELECT count(*), (SELECT ref FROM cmd ORDER BY id DESC LIMIT 1) FROM cmd"
    ).fetchone()
    return {
        "period": {"first": str(period.days[0]), "days": len(period.days), "zone": period.zone.text},
        "commands": commands,
        "last": last or "",
        "program": made.program,
        "program_sha256": made.program_sum,
        "tools_sha256": made.tools_sum,
        "made_with": [made.python, version_of_writer(), f"SQLite {sqlite3.sqlite_version}", zlib_version()],
        "asked": order.as_json(),
    }


def put_lists(args: Namespace, folder: Path) -> list[str]:
    """The user's lists, as they are."""
    given = [name for name in LISTS if getattr(args, name)]
    for name in given:
        to = list_file(folder, name)
        to.parent.mkdir(exist_ok=True)
        try:
            shutil.copyfile(getattr(args, name), to)
        except OSError as error:
            raise BookError(f"{getattr(args, name)} can't be read: {error.strerror}") from None
    return given


def put_keys(args: Namespace, found: Checked, folder: Path) -> list[str]:
    """The keys of the book's customers, where there is a table of them; rows of other books' customers stay out."""
    keys = keys_shown(args.keys, args.book, found.database)
    if keys is None:
        if any(map(told_by, refs_of_customers(found.database).values())):
            print_error(f"note: no table of keys: {args.pack} has the numbers of customers alone (--keys FILE)")
        return []
    to = list_file(folder, KEYS)
    to.parent.mkdir(exist_ok=True)
    with to.open("w", encoding="utf-8", newline="") as file:
        write_keys(((number, keys.keys[number]) for number in sorted(refs_of_customers(found.database))), file)
    return [KEYS]


def fill(folder: Path, args: Namespace) -> None:
    """All files of a pack, the manifest last."""
    book = put_book(Path(args.book), folder)
    check_audit(book, args.program)
    given = put_lists(args, folder)
    made = made_by(None, args.program)
    write_program_files(book, folder, args.program)
    with open_book(str(book), None, args.program) as found:
        lists = {name: Path(getattr(args, name)) for name in given}
        lists |= {name: list_file(folder, name) for name in put_keys(args, found, folder)}
        order = Order(args.name, args.date or "", list(dict.fromkeys(args.filing)), args.above, list(lists))
        write_tool_files(found, order, lists, folder, made)
        manifest = Manifest(about(found, order, made), packed(folder))
    (folder / NAME).write_text(manifest.text(), encoding="utf-8")


@contextmanager
def new_folder(path: Path) -> Iterator[Path]:
    """A folder that gets its name once the block has ended well."""
    check_free(path)
    try:
        made = Path(tempfile.mkdtemp(prefix=f".{path.name[:50]}-", dir=path.parent))
    except OSError as error:
        raise BookError(f"{path} can't be made: {error.strerror}") from None
    try:
        yield made
        mask = os.umask(0)
        os.umask(mask)
        made.chmod(0o777 & ~mask)
        check_free(path)
        made.rename(path)
    finally:
        shutil.rmtree(made, ignore_errors=True)


def pack_folder(path: Path, args: Namespace) -> str:
    """A pack in a new folder; answers the manifest's sum."""
    with new_folder(path) as folder:
        fill(folder, args)
        return sum_of(folder / NAME)


def pack_zip(path: Path, args: Namespace) -> str:
    """A pack in a new ZIP file; answers the manifest's sum."""
    check_free(path)
    with tempfile.TemporaryDirectory(prefix="outagebook-") as name:
        fill(Path(name), args)
        with new_file(path) as file:
            write_zip(Path(name), file)
        return sum_of(Path(name) / NAME)


def parser_of_pack() -> Parser:
    parser = Parser(description="Packs a book with its table, rows, workbook and report, to hand in.")
    parser.add_argument("book", help="the book's file")
    parser.add_argument("pack", help="the new folder, or the new file if its name ends with .zip")
    parser.add_argument("--name", default="Outage book", help="what headings begin with, as the utility's name")
    parser.add_argument("--date", type=read_date, help="the date of writing, if the pages are to have one")
    parser.add_argument("--filing", action="append", choices=list(FILINGS), default=[], help="the lines of a form")
    parser.add_argument(
        "--above", metavar="N", type=read_least, help="customers, by number, with N or more sustained interruptions"
    )
    parser.add_argument("--causes", metavar="FILE", help="a CSV of cause (its name or code) and group")
    parser.add_argument("--names", metavar="FILE", help="a CSV of feeder, name and substation")
    parser.add_argument("--by", metavar="FILE", help="a CSV of section and group")
    add_keys_argument(parser, "customers' own keys, which the pack has beside their numbers")
    parser.add_argument("--program", metavar="PATH", default="outagebook", help="the program (outagebook on the path)")
    return parser


def main() -> int:
    args = parser_of_pack().parse_args()

    def job() -> None:
        path = Path(args.pack)
        own = pack_zip(path, args) if path.suffix.lower() == ".zip" else pack_folder(path, args)
        print(f"packed {path}")
        print(f"sha256 of its {NAME}: {own}")
        if path.is_file():
            print(f"sha256 of {path.name}: {sum_of(path)}")

    return run_job(job)
