"""A pack, checked on another machine: sums, the program's audit, and whether its figures are what the program prints.

    outagebook-verify FOLDER|FILE.zip [--replay] [--program PATH]

Each file that isn't as it should be is named, with status 2. The program alone says whether the book is whole, and what its
table and its moves are; the other files are read, and made again by these tools. --replay imports the commands into a
fresh book too, which has to give the same table and moves.
"""

import csv
import sqlite3
import tempfile
from collections.abc import Callable, Iterator
from contextlib import closing, contextmanager
from dataclasses import dataclass, field
from pathlib import Path

from outage_tools.cli import Parser, print_error, run_job
from outage_tools.compare import open_book
from outage_tools.errors import BookError, Differs
from outage_tools.filings import FILINGS
from outage_tools.keys import check_keys, read_keys, refs_of_customers
from outage_tools.pack.archive import same_bytes, unpack, write_zip, zlib_version
from outage_tools.pack.files import (
    BOOK,
    COMMANDS,
    INTERRUPTIONS,
    KEYS,
    LISTS,
    MOVES,
    REPORT,
    TABLE,
    WORKBOOK,
    Order,
    list_file,
    own_copy,
    tool_files,
    write_program_files,
    write_tool_files,
)
from outage_tools.pack.manifest import NAME, Changed, Manifest, differing, read_manifest
from outage_tools.pack.shown import compare_shown, report_shows, rows_differ, words_of_table, workbook_differs
from outage_tools.program import answer_of, run_program
from outage_tools.versions import Made, made_by, sum_of
from outage_tools.workbook.writing import version_of_writer

STATUS_DIFFERS = 2


@dataclass
class Findings:
    """What a check has found: what holds, what is to be known, and what differs, by file."""

    holds: list[str] = field(default_factory=list)
    notes: list[str] = field(default_factory=list)
    wrong: list[tuple[str, str]] = field(default_factory=list)

    def say(self, name: str, ok: str, why: str | None) -> None:
        """A file holds, or differs with why."""
        if why is None:
            self.holds.append(f"{name}: {ok}")
        else:
            self.wrong.append((name, why))


# By the program alone.


def audit(pack: Path, program: str, found: Findings) -> bool:
    with own_copy(pack / BOOK) as copy:
        done = run_program(program, "audit", "--book", copy)
    said = done.stdout.strip() or done.stderr.strip()
    found.say(BOOK, "the program's audit is ok", None if said == "audit ok" else f"the program's audit says: {said}")
    return said == "audit ok"


def compare_program_files(pack: Path, program: str, found: Findings) -> str:
    """The table and the moves of the pack are what the program prints of its book; answers the program's table."""
    with tempfile.TemporaryDirectory(prefix="outagebook-") as name:
        write_program_files(pack / BOOK, Path(name), program)
        for file, what in ((TABLE, "what the program prints"), (MOVES, "what the program exports")):
            is_same = same_bytes(pack / file, Path(name) / file)
            found.say(file, f"{what} of this book", None if is_same else f"it isn't {what} of this book")
        return (Path(name) / TABLE).read_text(encoding="ascii")


def compare_commands(pack: Path, program: str, found: Findings) -> None:
    """Each row of the commands is a command of the book, and there are as many."""
    with own_copy(pack / BOOK) as copy:
        with closing(sqlite3.connect(f"{copy.as_uri()}?mode=ro", uri=True)) as database:
            (count,) = database.execute("SELECT count(*) FROM cmd").fetchone()
        done = run_program(program, "import", "--book", copy, pack / COMMANDS)
    said = " ".join([done.stdout.strip(), done.stderr.strip()]).strip()
    ok, why = f"{count} commands, all of them the book's", f"the book has {count} commands; imported again: {said}"
    found.say(COMMANDS, ok, None if done.returncode == 0 and said == f"added 0 again {count}" else why)


def replay(pack: Path, manifest: Manifest, program: str, found: Findings) -> None:
    """The commands, imported into a fresh book of the period, give the same table and moves."""
    period = manifest.about["period"]
    with tempfile.TemporaryDirectory(prefix="outagebook-") as name:
        book = Path(name) / "replayed.db"
        words = ("--first", period["first"], "--days", period["days"], "--zone", period["zone"])
        answer_of(program, "init", "--book", book, *words)
        done = run_program(program, "import", "--book", book, pack / COMMANDS)
        if done.returncode:
            found.wrong.append((COMMANDS, f"a fresh book doesn't take it: {done.stderr.strip()}"))
            return
        (Path(name) / TABLE).write_text(answer_of(program, "table", "--book", book), encoding="ascii")
        answer_of(program, "export", "--book", book, Path(name) / MOVES)
        differ = [file for file in (TABLE, MOVES) if not same_bytes(pack / file, Path(name) / file)]
        why = f"imported into a fresh book it doesn't give {' and '.join(differ)}" if differ else None
        found.say(COMMANDS, "imported into a fresh book it gives the same table and moves", why)


# By the tools.


def compare_figures(pack: Path, table: str, found: Findings) -> None:
    """The rows give the program's counts, and the indices that the files show are the program's."""
    words = words_of_table(table)
    ok = f"its {len(words)} indices and counts are the program's"
    look(
        found,
        INTERRUPTIONS,
        "its rows give the program's counts, W and SAIDI",
        lambda: rows_differ(pack / INTERRUPTIONS, table),
    )
    rows = None if INTERRUPTIONS in dict(found.wrong) else pack / INTERRUPTIONS
    look(found, WORKBOOK, ok, lambda: workbook_differs(pack / WORKBOOK, rows, words))
    look(found, REPORT, ok, lambda: compare_shown(report_shows(pack / REPORT), words))


def compare_keys(pack: Path, manifest: Manifest, found: Findings) -> None:
    """Each number of the table of keys is a customer of the book, and each customer has the key by which it came."""
    if KEYS not in order_of(manifest).lists:
        return
    path = list_file(pack, KEYS)
    with own_copy(pack / BOOK) as copy:
        with closing(sqlite3.connect(f"{copy.as_uri()}?mode=ro", uri=True)) as database:
            refs = refs_of_customers(database)
    try:
        keys = read_keys(path)
        check_keys(keys, refs)
        others = [str(number) for number in keys.keys if number not in refs]
        ok = f"{len(keys.keys)} keys, each of a customer of the book"
        found.say(f"lists/{path.name}", ok, f"the book has no customer {', '.join(others[:5])}" if others else None)
    except BookError as error:
        found.wrong.append((f"lists/{path.name}", str(error)))


def look(found: Findings, name: str, ok: str, differs: Callable[[], str | None]) -> None:
    """Reads a file's figures; a file that can't be read is named too."""
    try:
        found.say(name, ok, differs())
    except (KeyError, ValueError, IndexError, UnicodeDecodeError, csv.Error, BookError) as error:
        found.wrong.append((name, f"its figures can't be read: {error!r}"))


def order_of(manifest: Manifest) -> Order:
    asked = manifest.about["asked"]
    if not set(asked["lists"]) <= {*LISTS, KEYS} or not set(asked["filings"]) <= FILINGS.keys():
        raise BookError(f"{NAME} asks for lists or filings that are not known here: {asked}")
    return Order(asked["name"], asked["date"], asked["filings"], asked["above"], asked["lists"])


def made_again(pack: Path, manifest: Manifest, program: str, found: Findings) -> None:
    """The files of the tools, made again of the pack's book: the same tools give the same bytes."""
    order, about = order_of(manifest), manifest.about
    here = made_by(None, program)
    versions = Made(about["program"], about["program_sha256"], about["tools_sha256"], about["made_with"][0])
    with tempfile.TemporaryDirectory(prefix="outagebook-") as name:
        try:
            with open_book(str(pack / BOOK), None, program) as opened:
                lists = {each: list_file(pack, each) for each in order.lists}
                write_tool_files(opened, order, lists, Path(name), versions)
        except Differs as differs:
            found.wrong.append((BOOK, f"the tools count something else: {differs}"))
            return
        except BookError as error:
            found.notes.append(f"not made again: {error}")
        files = [file for file in tool_files(order) if (Path(name) / file).exists()]
        differ = [file for file in files if not same_bytes(pack / file, Path(name) / file)]
    is_same = (here.tools_sum, here.python) == (versions.tools_sum, versions.python)
    is_same = is_same and (WORKBOOK not in files or version_of_writer() in about["made_with"])
    same = [file for file in files if file not in differ]
    if same:
        found.holds.append(f"made again, byte for byte: {', '.join(same)}")
    if differ and is_same:
        found.wrong += [(file, "made again of this book by the same tools it is another one") for file in differ]
    elif differ:
        found.notes.append(f"the tools here have other versions, and make other bytes of: {', '.join(differ)}")


# The whole.


@contextmanager
def opened(path: Path) -> Iterator[tuple[Path, list[tuple[str, str]]]]:
    """The folder of a pack; of a ZIP file its files in a folder that goes away, and those that are damaged."""
    if path.is_dir():
        yield path, []
        return
    with tempfile.TemporaryDirectory(prefix="outagebook-") as name:
        yield Path(name), unpack(path, Path(name))


def compare_zip(path: Path, folder: Path, manifest: Manifest, found: Findings) -> None:
    """A ZIP file has nothing but its files, as the same zlib writes them."""
    with tempfile.TemporaryDirectory(prefix="outagebook-") as name:
        again = Path(name) / "again.zip"
        with again.open("wb") as file:
            write_zip(folder, file)
        if same_bytes(path, again):
            found.holds.append(f"{path.name}: nothing but these files")
        elif zlib_version() in manifest.about["made_with"]:
            found.wrong.append((path.name, "bytes outside of its files were changed"))
        else:
            found.notes.append(f"{path.name} was packed by another zlib: only its files were compared")


def verify(path: Path, program: str, has_replay: bool) -> Findings:
    """What is found in a pack. Files whose sums differ end it: the program isn't asked about them."""
    found = Findings()
    with opened(path) as (pack, damaged):
        found.wrong += damaged
        if not (pack / NAME).exists():
            if damaged:
                return found
            raise BookError(f"{path} is no pack: it has no {NAME}")
        try:
            manifest = read_manifest(pack / NAME)
        except Changed as changed:
            found.wrong.append((NAME, str(changed)))
            return found
        names = {name for name, _ in damaged}
        found.wrong += [each for each in differing(pack, manifest) if each[0] not in names]
        if found.wrong:
            return found
        found.holds.append(f"{len(manifest.files)} files: sizes and sums as in the manifest")
        if path.is_file():
            compare_zip(path, pack, manifest, found)
        if found.wrong:
            return found
        compare_versions(manifest, program, found)
        if audit(pack, program, found):
            table = compare_program_files(pack, program, found)
            compare_commands(pack, program, found)
            if has_replay:
                replay(pack, manifest, program, found)
            compare_keys(pack, manifest, found)
            compare_figures(pack, table, found)
            made_again(pack, manifest, program, found)
        found.notes.append(f"sha256 of {NAME}: {sum_of(pack / NAME)}")
    return found


def compare_versions(manifest: Manifest, program: str, found: Findings) -> None:
    """By which program it was packed, and by which it is checked."""
    about, here = manifest.about, made_by(None, program)
    is_same = about["program_sha256"] == here.program_sum
    found.notes.append(f"packed by {about['program']}, sha256 {about['program_sha256']}")
    found.notes.append("checked by the same file" if is_same else f"checked by {here.text}")


def main() -> int:
    parser = Parser(description="Checks a pack: its sums, its book, and whether its figures are the program's.")
    parser.add_argument("pack", help="the folder, or the ZIP file")
    parser.add_argument("--replay", action="store_true", help="import the commands into a fresh book too")
    parser.add_argument("--program", metavar="PATH", default="outagebook", help="the program (outagebook on the path)")
    args = parser.parse_args()
    status = 0

    def job() -> None:
        nonlocal status
        found = verify(Path(args.pack), args.program, args.replay)
        for line in [*found.holds, *found.notes]:
            print(line)
        for name, why in found.wrong:
            print_error(f"differs: {name}: {why}")
        print("not verified" if found.wrong else "verified")
        status = STATUS_DIFFERS if found.wrong else 0

    return run_job(job) or status
