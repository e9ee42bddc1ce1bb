"""Kills the program in the middle of imports, and sees that nothing is lost.

    python3 tests/soak.py [--kills N] [--seed N] [--program FILE] [--folder FOLDER] [--quick]

An import of the sample fortnight is killed (SIGKILL) at a random moment; then `audit` has to say `audit ok`, the
commands in the book have to be the first rows of the text, no fewer than after the kill before, and their table has to
be that of a book of as many rows that nobody killed. The import goes on with the same text until it comes to its end;
then the table and the export are compared with the sample's, and a new book is begun, until there were so many kills.
It ends with status 1 at the first thing that is wrong, and leaves that book in the folder. --quick: 50 kills.
"""

import argparse
import csv
import random
import shutil
import sqlite3
import subprocess
import sys
import tempfile
import time
from collections import Counter
from collections.abc import Iterable
from contextlib import closing
from pathlib import Path

from places import EXAMPLES, FORTNIGHT, PROGRAM

TEXT = EXAMPLES / "fortnight.csv"


class Wrong(Exception):
    """What was seen and should not be."""


class Office:
    """A book of the fortnight in a folder, by the program's subcommands."""

    def __init__(self, program: str | Path, folder: Path) -> None:
        self.program, self.folder, self.book = program, folder, folder / "book.db"
        first, days, zone = FORTNIGHT
        self.run("init", "--first", first, "--days", str(days), "--zone", zone)

    def words(self, job: str, *rest: str | Path) -> list[str | Path]:
        return [self.program, job, "--book", self.book, *rest]

    def run(self, job: str, *rest: str | Path) -> str:
        """What a job prints; it has to end well."""
        ended = subprocess.run(self.words(job, *rest), capture_output=True, text=True, check=False)
        if ended.returncode:
            raise Wrong(f"{job} ended with {ended.returncode}: {ended.stdout}{ended.stderr}")
        return ended.stdout

    def kill_import(self, seconds: float) -> bool:
        """Begins an import and kills it after so many seconds. True says that it was killed, not done before."""
        child = subprocess.Popen(self.words("import", TEXT), stdout=subprocess.DEVNULL)
        try:
            status = child.wait(seconds)
        except subprocess.TimeoutExpired:
            child.kill()
            status = child.wait()
        if status not in (0, -9):
            raise Wrong(f"an import ended with {status}")
        return status == -9

    def refs(self) -> list[str]:
        """The references of the commands in the book, in order."""
        with closing(sqlite3.connect(f"file:{self.book}?mode=ro", uri=True)) as database:
            return [ref for (ref,) in database.execute("SELECT ref FROM cmd ORDER BY id")]


def refs_of_text() -> list[str]:
    with TEXT.open(newline="", encoding="ascii") as text:
        return [row["ref"] for row in csv.DictReader(text)]


def tables_of_prefixes(program: str | Path, counts: Iterable[int]) -> dict[int, str]:
    """The annual table of a book of so many first rows, for each count: what nobody killed."""
    lines = TEXT.read_text(encoding="ascii").splitlines(keepends=True)
    tables = {}
    with tempfile.TemporaryDirectory() as folder:
        for count in counts:
            place = Path(folder) / str(count)
            place.mkdir()
            part = place / "part.csv"
            part.write_text("".join(lines[: count + 1]), encoding="ascii")
            office = Office(program, place)
            office.run("import", part)
            tables[count] = office.run("table")
    return tables


def look_after_kill(office: Office, wanted: list[str], before: int, tables: dict[int, str]) -> int:
    """The number of commands that a killed import has left; they are the first, and as many as before at least."""
    if office.run("audit") != "audit ok\n":
        raise Wrong("audit finds a difference")
    refs = office.refs()
    if refs != wanted[: len(refs)] or len(refs) < before:
        raise Wrong(f"{len(refs)} commands, which aren't the first, or fewer than {before}")
    if len(refs) not in tables:
        tables.update(tables_of_prefixes(office.program, [len(refs)]))
    if office.run("table") != tables[len(refs)]:
        raise Wrong(f"the table of {len(refs)} commands is another one")
    return len(refs)


def look_at_end(office: Office) -> None:
    moves = office.folder / "moves.csv"
    office.run("export", moves)
    for name, said in [("table.txt", office.run("table")), ("moves.csv", moves.read_text(encoding="ascii"))]:
        if said != (EXAMPLES / f"fortnight.{name}").read_text(encoding="ascii"):
            raise Wrong(f"at the end {name} is another one")


def soak(program: str | Path, folder: Path, kills: int, seed: int) -> tuple[int, Counter[int]]:
    """Kills imports until there were so many kills; answers how many books, and how many kills left how many commands."""
    random.seed(seed)
    wanted, tables, left = refs_of_text(), dict[int, str](), Counter[int]()
    books = 0
    whole = 0.1
    while left.total() < kills:
        place = folder / f"book-{books}"
        place.mkdir()
        office, count = Office(program, place), 0
        while left.total() < kills:
            begun = time.perf_counter()
            if not office.kill_import(random.uniform(0, whole)):
                whole = max(0.02, 1.2 * (time.perf_counter() - begun))
                break
            count = look_after_kill(office, wanted, count, tables)
            left[count] += 1
        count = len(office.refs())
        said = office.run("import", TEXT)
        if said != f"added {len(wanted) - count} again {count}\n":
            raise Wrong(f"after {count} commands the import says {said}")
        look_at_end(office)
        shutil.rmtree(place)
        books += 1
    return books, left


def words_of(description: str) -> argparse.Namespace:
    """The words of the command line, with the number of kills and the folder as they count."""
    parser = argparse.ArgumentParser(description=description)
    parser.add_argument("--kills", type=int, default=1000)
    parser.add_argument("--quick", action="store_true", help="50 kills")
    parser.add_argument("--seed", type=int, default=1)
    parser.add_argument("--program", default=PROGRAM, help="the program (that of crates/outagebook)")
    parser.add_argument("--folder", type=Path, help="where books are made (a temporary folder)")
    words = parser.parse_args()
    words.kills = 50 if words.quick else words.kills
    words.folder = Path(words.folder or tempfile.mkdtemp(prefix="soak-"))
    words.folder.mkdir(exist_ok=True)
    return words


def show(books: int, left: Counter[int]) -> None:
    print(
        f"{left.total()} kills over {books} books; {len(left)} different numbers of commands were left, {min(left)} to {max(left)}"
    )


def main() -> int:
    words = words_of("Kills imports of the sample fortnight at random moments.")
    try:
        books, left = soak(words.program, words.folder, words.kills, words.seed)
    except Wrong as wrong:
        print(f"{wrong}\nthe books are in {words.folder}")
        return 1
    show(books, left)
    print("nothing was lost")
    return 0


if __name__ == "__main__":
    sys.exit(main())
