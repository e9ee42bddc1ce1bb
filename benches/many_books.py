"""Makes the books of several districts and measures what the tools of many books cost: seconds, memory, and how they grow.

    python3 tools/tests/own_postgres.py python3 benches/many_books.py FOLDER --districts 5 15 50 \\
        [--customers 100000] [--entries 10000] [--made 5] [--plain] [--program PATH]

FOLDER keeps the books, one a seed, each a made year (make_year.py), and their annual tables, so that a second run makes
only what is missing. --made N makes so many by the program (or by the plain office, --plain), and further districts are
copies of these under other names: each is read, compared, added up and loaded as any other, since the tools look at names
and commands alone.

Then, for each number of districts, in rising order: the sum of all, their load into the warehouse in PostgreSQL (libpq's
environment says where), which has those of the number before already, the load again, the time of some views over all; and
that SAIDI of the sum and of the warehouse are one fraction, or it ends with 1. Tables are printed once before and told by
themselves: of the program the tools' own seconds have the list of interruptions alone. Processor seconds are those of a
command with all that it started; PostgreSQL's stand beside them.
"""

import argparse
import os
import shutil
import subprocess
import sys
import time
from dataclasses import dataclass
from pathlib import Path

ROOT = Path(__file__).resolve().parent.parent
FIRST, DAYS, ZONE = "2024-01-01", "366", "UTC0"
VIEWS = {
    "company": "SELECT saidi FROM outagebook.company WHERE \"set\" = 'all'",
    "district": "SELECT count(saidi) FROM outagebook.district",
    "feeders": "SELECT count(saidi) FROM outagebook.feeders",
    "months": "SELECT count(saidi) FROM outagebook.months",
    "causes": "SELECT count(saidi) FROM outagebook.causes",
    "between, a quarter": "SELECT count(saidi) FROM outagebook.between('2024-04-01', '2024-06-30')",
}
ROWS = "SELECT count(*), pg_size_pretty(pg_database_size(current_database())) FROM outagebook.interruption"


@dataclass(frozen=True)
class Ran:
    """What a command printed, and what it took with all that it started: seconds, processor seconds, MB of one process."""

    text: str
    clock: float
    processor: float
    memory: int


def run(*words: object, output: Path | None = None) -> Ran:
    """Runs a command to its end; its text goes to a file where one is given."""
    began = time.perf_counter()
    child = subprocess.Popen([str(word) for word in words], stdout=subprocess.PIPE, text=True)
    assert child.stdout is not None
    text = child.stdout.read()
    _, status, used = os.wait4(child.pid, 0)
    child.returncode = os.waitstatus_to_exitcode(status)
    if child.returncode:
        raise subprocess.CalledProcessError(child.returncode, child.args)
    if output is not None:
        output.write_text(text)
    return Ran(text, time.perf_counter() - began, used.ru_utime + used.ru_stime, used.ru_maxrss // 1_024)


def psql(statement: str) -> Ran:
    return run("psql", "-AtqXc", statement)


def server_seconds() -> float:
    """PostgreSQL's processor seconds so far: those of its first process and of its children that have ended."""
    pid = psql("SELECT split_part(pg_read_file('postmaster.pid'), E'\\n', 1)").text.strip()
    fields = Path(f"/proc/{pid}/stat").read_text().rpartition(")")[2].split()
    return sum(map(int, fields[11:15])) / os.sysconf("SC_CLK_TCK")


def tell(step: str, books: int, ran: Ran, server: float = 0.0) -> None:
    """A line of a step over so many books."""
    each = f"{ran.clock / books:.2f} and {ran.processor / books:.2f} s each" if books else "none"
    beside = f", PostgreSQL {server:.1f} s of them more" if server else ""
    print(
        f"{step}: {ran.clock:.1f} s, {ran.processor:.1f} s of processors ({each}){beside}, {ran.memory} MB at most in one"
        " process",
        flush=True,
    )


# The books.


def make_book(folder: Path, number: int, given: argparse.Namespace) -> None:
    """A district's book and its table, where they aren't there."""
    book, text, table = (folder / f"d{number}.{ending}" for ending in ("db", "csv", "txt"))
    if not book.exists():
        words = [given.entries, number, "--customers", given.customers, "--csv"]
        run(sys.executable, ROOT / "benches/make_year.py", *words, output=text)
        making = folder / "making.db"  # what is cut off isn't taken for a book
        for old in folder.glob("making.db*"):
            old.unlink()
        if given.plain:
            ran = run(sys.executable, ROOT / "benches/plain_office.py", text, "--book", making, "--synchronous", "off")
        else:
            run(given.program, "init", "--book", making, "--first", FIRST, "--days", DAYS, "--zone", ZONE)
            ran = run(given.program, "import", "--book", making, text)
        for file in folder.glob("making.db*"):
            file.rename(folder / file.name.replace("making", book.stem))
        text.unlink()
        tell(f"book {number} made", 1, ran)
    if not table.exists():
        printed = folder / "printing.txt"
        tell(f"table {number} printed", 1, run(given.program, "table", "--book", book, output=printed))
        printed.rename(table)


def copy_book(folder: Path, number: int, of: int) -> None:
    """A district that is a copy of a made one, where it isn't there."""
    for ending in ("db-wal", "txt", "db"):
        file, copy = folder / f"d{of}.{ending}", folder / f"d{number}.{ending}"
        if file.exists() and not copy.exists():
            shutil.copyfile(file, copy)


def make_books(folder: Path, most: int, given: argparse.Namespace) -> None:
    made = min(given.made or most, most)
    for number in range(1, made + 1):
        make_book(folder, number, given)
    for number in range(made + 1, most + 1):
        copy_book(folder, number, (number - 1) % made + 1)
    copies = f", {most - made} are copies of the others" if made < most else ""
    size = sum(file.stat().st_size for file in folder.glob("d1.db*"))
    print(f"{most} books{copies}; the first has {size / 1e6:.1f} MB", flush=True)


# The tools.


def tool(name: str, *words: object) -> Ran:
    return run(sys.executable, ROOT / f"tools/{name}.py", *words)


def measure(folder: Path, program: str, districts: int, before: int) -> None:
    """The tools over so many districts, of which the warehouse has those before."""
    books = [folder / f"d{number}.db" for number in range(1, districts + 1)]
    tables = [word for book in books for word in ("--table", book.with_suffix(".txt"))]
    words = [*books, *tables, "--program", program]
    ran = tool("sum", *words, "--own-numbers")
    tell(f"sum, {districts} districts", districts, ran)
    saidi = next(line.split()[2] for line in ran.text.splitlines() if line.startswith("SAIDI     all"))
    for step, new in (
        (f"load, {districts} districts, {before} of them there", districts - before),
        ("load again", districts),
    ):
        server = server_seconds()
        ran = tool("warehouse", "load", *words)
        tell(f"{step}, {districts} districts" if step == "load again" else step, new, ran, server_seconds() - server)
    psql("VACUUM ANALYZE")
    for name, statement in VIEWS.items():
        server = server_seconds()
        ran = psql(statement)
        print(f"view {name}, {districts} districts: {ran.clock:.2f} s, PostgreSQL {server_seconds() - server:.2f} s")
        if name == "company":
            if ran.text.strip() != saidi:
                sys.exit(f"SAIDI differs: the sum has {saidi}, the warehouse {ran.text.strip()}")
            print(f"SAIDI of the sum and of the warehouse, {districts} districts: {saidi}", flush=True)
    print(f"interruptions and size of the database, {districts} districts: {psql(ROWS).text.strip()}", flush=True)


def main() -> None:
    words = argparse.ArgumentParser(description="Measures what the tools of many books cost.")
    words.add_argument("folder", type=Path)
    words.add_argument("--districts", type=int, nargs="+", default=[3, 6])
    words.add_argument("--customers", type=int, default=20_000, help="of each district")
    words.add_argument("--entries", type=int, default=2_000, help="of each district's year, even")
    words.add_argument(
        "--made", type=int, help="so many books are made, the others are copies of them; unasked all are"
    )
    words.add_argument("--plain", action="store_true", help="make the books by the plain office")
    words.add_argument("--program", default=ROOT / "crates/outagebook/out/outagebook")
    given = words.parse_args()
    given.folder.mkdir(parents=True, exist_ok=True)
    make_books(given.folder, max(given.districts), given)
    psql("DROP SCHEMA IF EXISTS outagebook CASCADE")
    tool("warehouse", "create")
    before = 0
    for districts in sorted(set(given.districts)):
        measure(given.folder, given.program, districts, before)
        before = districts


if __name__ == "__main__":
    main()
