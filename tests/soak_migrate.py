"""Kills the program in the middle of migrations, and sees that the book is whole: that of version 1, or that of version 2.

    python3 tests/soak_migrate.py [--kills N] [--seed N] [--program FILE] [--folder FOLDER] [--quick]

The sample fortnight of version 1 (examples/fortnight/version-1.sql) is migrated, and that is killed (SIGKILL) at a random moment.
Then all rows of all tables have to be those of version 1 or those of a book that was migrated and not killed. Then `migrate`
has to say which of them it was, the audit `audit ok`, and the annual table has to be the one that the program of version 1
printed. It ends with status 1 at the first thing that is wrong, and leaves that book in the folder. --quick: 50 kills.
"""

import random
import shutil
import sqlite3
import subprocess
import sys
import time
from collections import Counter
from contextlib import closing
from pathlib import Path

from places import EXAMPLES
from soak import Wrong, words_of

SQL = EXAMPLES / "version-1.sql"
TABLE = EXAMPLES / "version-1.table.txt"
SAID = {1: "migrated\n", 2: "version 2\n"}


def run(program: str | Path, job: str, book: Path) -> str:
    """What a job prints; it has to end well."""
    ended = subprocess.run([program, job, "--book", book], capture_output=True, text=True, check=False)
    if ended.returncode:
        raise Wrong(f"{job} ended with {ended.returncode}: {ended.stdout}{ended.stderr}")
    return ended.stdout


def rows_of(book: Path) -> dict[str, list[tuple[object, ...]]]:
    """All rows of all tables."""
    with closing(sqlite3.connect(f"file:{book}?mode=ro", uri=True)) as database:
        tables = [name for (name,) in database.execute("SELECT name FROM sqlite_master WHERE type = 'table'")]
        return {table: sorted(database.execute(f"SELECT * FROM {table}"), key=repr) for table in tables}


def new_place(folder: Path, number: int | str, start: Path) -> Path:
    """A folder with a book of version 1."""
    place = folder / f"book-{number}"
    place.mkdir()
    shutil.copyfile(start, place / "book.db")
    return place


def look_at_end(program: str | Path, book: Path, version: int) -> None:
    """What the next migration of a book says that has this version, and what is there then."""
    table = TABLE.read_text("ascii")
    for job, wanted in [("migrate", SAID[version]), ("migrate", SAID[2]), ("audit", "audit ok\n"), ("table", table)]:
        if (said := run(program, job, book)) != wanted:
            raise Wrong(f"over version {version} {job} says {said}")


def is_killed(program: str | Path, book: Path, seconds: float) -> bool:
    """Begins a migration and kills it after so many seconds. True says that it was killed, not done before."""
    child = subprocess.Popen([program, "migrate", "--book", book], stdout=subprocess.DEVNULL)
    try:
        status = child.wait(seconds)
    except subprocess.TimeoutExpired:
        child.kill()
        status = child.wait()
    if status not in (0, -9):
        raise Wrong(f"a migration ended with {status}")
    return status == -9


def soak(program: str | Path, folder: Path, kills: int, seed: int) -> Counter[int]:
    """Kills so many migrations; answers how many left which version."""
    random.seed(seed)
    start = folder / "start.db"
    with closing(sqlite3.connect(start)) as database:
        database.executescript(SQL.read_text("ascii"))
    place = new_place(folder, "whole", start)
    begun = time.perf_counter()
    run(program, "migrate", place / "book.db")
    whole = time.perf_counter() - begun
    rows = {1: rows_of(start), 2: rows_of(place / "book.db")}
    left, number = Counter[int](), 0
    while left.total() < kills:
        place, number = new_place(folder, number, start), number + 1
        if is_killed(program, place / "book.db", random.uniform(0, 1.1 * whole)):
            found = rows_of(place / "book.db")
            versions = [version for version, wanted in rows.items() if found == wanted]
            if not versions:
                raise Wrong("a part of a migration was left")
            look_at_end(program, place / "book.db", versions[0])
            left[versions[0]] += 1
        shutil.rmtree(place)
    return left


def main() -> int:
    words = words_of("Kills migrations of the sample fortnight of version 1 at random moments.")
    try:
        left = soak(words.program, words.folder, words.kills, words.seed)
    except Wrong as wrong:
        print(f"{wrong}\nthe books are in {words.folder}")
        return 1
    print(f"{left.total()} kills; version 1 was left {left[1]} times, version 2 {left[2]} times, a part never")
    return 0


if __name__ == "__main__":
    sys.exit(main())
