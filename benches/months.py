"""A made year of monthly exports of a network that changes, put into a book month by month: how long each takes, and its most memory.

    python3 benches/months.py FOLDER [--spans 32] [--program PATH]

Each line of the made utility is so many spans; with 32 it has 20,000 edges. At the end the interruptions of each customer are compared
with those on the raw edges (tools/tests/counted_months.py).
"""

import argparse
import os
import subprocess
import sys
import time
from collections.abc import Iterable
from pathlib import Path

ROOT = Path(__file__).resolve().parent.parent
sys.path.insert(0, str(ROOT / "tools"))

from outage_tools.compare import open_book  # noqa: E402
from tests.counted_months import causes_text, counted  # noqa: E402
from tests.made_grid import PERIOD, moment  # noqa: E402
from tests.made_months import MONTHS, Year, made_year  # noqa: E402
from tests.test_sections_made import WORDS, by_customer  # noqa: E402

PROGRAM = ROOT / "crates/outagebook/out/outagebook"


def run(*words: object) -> tuple[str, float, float]:
    """The last line that a program prints, the seconds of the processor and the MB that it takes with those that it runs."""
    begin = os.times()
    child = subprocess.Popen(
        [str(word) for word in words], stdout=subprocess.PIPE, stderr=subprocess.DEVNULL, text=True
    )
    assert child.stdout is not None
    said = child.stdout.read().splitlines()
    _, status, used = os.wait4(child.pid, 0)
    if status:
        raise SystemExit(f"{words[1]} ended with status {status}: {said}")
    seconds = os.times().children_user + os.times().children_system - begin.children_user - begin.children_system
    return said[-1] if said else "", seconds, used.ru_maxrss / 1_024


def files_of(year: Year, month: int, folder: Path) -> list[str]:
    """The exports of a month, as words for the tool."""
    texts: list[tuple[str, Iterable[str]]] = [
        ("edges", year.edge_lines(month)),
        ("customers", year.customer_lines(month)),
    ]
    if month:
        texts.append(("oms", year.oms_lines(month)))
    words = [word for source in year.grid.sources for word in ("--source", source)]
    for name, lines in texts:
        path = folder / f"{name}.csv"
        path.write_text("".join(f"{line}\n" for line in lines))
        words += [f"--{name}", str(path)]
    return [*words, *WORDS]


def begin(year: Year, folder: Path, program: Path) -> Path:
    """The book of the network that the year began with."""
    first, book, rows = folder / "0", folder / "year.db", folder / "rows.csv"
    period = ("--first", PERIOD[0], "--days", PERIOD[1], "--zone", PERIOD[2])
    (folder / "causes.csv").write_text(causes_text())
    run(sys.executable, ROOT / "tools/sections.py", *files_of(year, 0, folder), "-o", first)
    files = ("--gis", first / "gis.csv", "--customers", first / "customers.csv")
    run(sys.executable, ROOT / "tools/from_oms.py", *files, *period, "-o", rows)
    run(program, "init", "--book", book, *period)
    run(program, "import", "--whole", "--book", book, rows)
    return book


def main() -> int:
    parser = argparse.ArgumentParser(
        description="Puts a made year of monthly exports into a book, and prints what it takes."
    )
    parser.add_argument("folder", type=Path, help="a new folder for all of it")
    parser.add_argument("--spans", type=int, default=32, help="how many edges each line is (32)")
    parser.add_argument("--program", type=Path, default=PROGRAM, help="the program (that of this clone)")
    args = parser.parse_args()
    args.folder.mkdir(parents=True)
    year = made_year(1, 2, 3, 20, 12, args.spans)
    book = begin(year, args.folder, args.program)
    print(
        f"{len(year.exports[0].edges)} edges, {len(year.exports[0].register)} customers, {len(year.steps)} rows of tickets"
    )
    for month in MONTHS:
        words = ("--as", args.folder / str(month - 1), "-o", args.folder / str(month), "--book", book, "--import")
        at = moment(year.exports[month].at)
        files = files_of(year, month, args.folder)
        more = ("--at", at, "--causes", args.folder / "causes.csv", "--program", args.program)
        said, seconds, most = run(sys.executable, ROOT / "tools/sections.py", *files, *words, *more)
        print(f"{at[:10]}: {said}, {seconds:.1f} s of the processor, {most:.0f} MB")
    before = time.process_time()
    count = {number: [(since, until) for since, until, _ in listed] for number, listed in counted(year).items()}
    with open_book(str(book), program=str(args.program)) as found:
        print("equal to the raw edges" if by_customer(found) == count else "NOT EQUAL to the raw edges")
    print(f"the count on the raw edges: {time.process_time() - before:.1f} s")
    return 0


if __name__ == "__main__":
    sys.exit(main())
