"""A made year through the program's jobs, beside the plain office in Python and SQLite: seconds, memory, every row.

    python3 benches/import_year.py [--entries N] [--customers N] [--lives N] [--seed N] [--program FILE] [--folder FOLDER]

It makes the year as CSV, then a book: `init`, `import`, the same import again, `table`, `export`, `interruptions`,
`audit`. Its rows are then read by Python's sqlite3 (benches/read_rows.py), which a load or an audit is compared with.
A second book takes the same text by `import --whole`, a third by the plain office (benches/plain_office.py). All rows
of the eleven tables of the three books are compared. The books lie in the folder, bench-data/ where none is named: a
commit takes what its disk takes.
"""

import argparse
import sqlite3
import subprocess
import sys
import tempfile
from collections.abc import Sequence
from contextlib import closing
from pathlib import Path

from make_year import DAYS, FIRST_DATE, csv_lines, year_lines
from places import BENCHES, DATA, PROGRAM

TABLES = ["meta", "cause", "node", "device", "life", "customer", "entry", "mark", "cmd", "moved", "posting"]


def measure(words: Sequence[object]) -> tuple[float, float, float, str]:
    """The seconds by the clock and of the processor, the peak in MB and the output of a process."""
    # By way of GNU time, a small process: a peak would begin with that of the one which it is started from.
    with tempfile.NamedTemporaryFile("r") as figures:
        timed = ["/usr/bin/time", "-f", "%e %U %S %M", "-o", figures.name, *map(str, words)]
        ended = subprocess.run(timed, stdout=subprocess.PIPE, text=True, check=False)
        if ended.returncode:
            sys.exit(f"{' '.join(map(str, words))}: status {ended.returncode}\n{ended.stdout}")
        clock, user, system, peak = map(float, figures.read().split())
    return clock, user + system, peak / 1024, ended.stdout


def show(name: str, words: Sequence[object]) -> None:
    clock, processor, peak, output = measure(words)
    said = output.splitlines()[0]
    print(f"| {name} | {clock:.2f} | {processor:.2f} | {peak:.1f} | {said} |", flush=True)


def make_text(path: Path, words: argparse.Namespace) -> None:
    lines = year_lines(words.entries, words.seed, words.customers, "rising", 0, words.lives)
    path.write_text("".join(f"{line}\n" for line in csv_lines(lines)), encoding="ascii")


def clear(*paths: Path) -> None:
    """Takes away books of earlier runs, with the files beside them."""
    for path in paths:
        for beside in path.parent.glob(f"{path.name}*"):
            beside.unlink()


def first_difference(one: Path, other: Path) -> str | None:
    """The first table in which two books differ, None where there is none."""
    with closing(sqlite3.connect(one)) as database:
        database.execute("ATTACH ? AS other", (str(other),))
        for table in TABLES:
            for a, b in [("main", "other"), ("other", "main")]:
                query = f"SELECT * FROM {a}.{table} EXCEPT SELECT * FROM {b}.{table} LIMIT 1"
                if database.execute(query).fetchone():
                    return table
    return None


def main() -> int:
    parser = argparse.ArgumentParser(description="Times the jobs of the program over a made year.")
    parser.add_argument("--entries", type=int, default=10_000, help="even")
    parser.add_argument("--customers", type=int, default=100_000)
    parser.add_argument(
        "--lives", type=int, default=0, help="devices that join, and ties and lines that are taken down"
    )
    parser.add_argument("--seed", type=int, default=1)
    parser.add_argument("--program", default=PROGRAM, help="the program (that of crates/outagebook)")
    parser.add_argument("--folder", type=Path, default=DATA, help="where books are made")
    words = parser.parse_args()
    words.folder.mkdir(exist_ok=True)
    names = ["import.csv", "import.db", "import-whole.db", "import-plain.db"]
    text, book, whole, plain = (words.folder / name for name in names)
    moves, rows = words.folder / "import-moves.csv", words.folder / "import-interruptions.csv"
    make_text(text, words)
    clear(book, whole, plain)
    print("| Job | clock, s | processor, s | peak, MB | says |")
    print("|---|---|---|---|---|")
    period = ["--first", FIRST_DATE.isoformat(), "--days", str(DAYS), "--zone", "UTC0"]
    job = [words.program]
    show("init", [*job, "init", "--book", book, *period])
    show("import", [*job, "import", "--book", book, text])
    show("the same import again", [*job, "import", "--book", book, text])
    show("table", [*job, "table", "--book", book])
    show("export", [*job, "export", "--book", book, moves])
    show("interruptions", [*job, "interruptions", "--book", book, rows])
    show("audit", [*job, "audit", "--book", book])
    show("its rows read in Python", [sys.executable, BENCHES / "read_rows.py", book])
    subprocess.run([*job, "init", "--book", whole, *period], check=True, stdout=subprocess.DEVNULL)
    show("import --whole", [*job, "import", "--whole", "--book", whole, text])
    show("plain office, import", [sys.executable, BENCHES / "plain_office.py", text, "--book", plain])
    table = first_difference(book, plain) or first_difference(whole, plain)
    print(f"the books differ in table {table}" if table else "all rows of the three books are equal")
    return 1 if table else 0


if __name__ == "__main__":
    sys.exit(main())
