"""A year that is over, imported in four orders of its switchings, beside the plain office given the same rows in the same order.

    python3 benches/year_orders.py [--entries N] [--customers N] [--lives N] [--order ORDER ..] [--no-plain] [--folder FOLDER]

For each order: `init`, `import`, `table`, `audit`, with the seconds of the processor, the peak of memory, the file's size and
how many amounts its commands moved. The annual table has to be the same in each. The plain office is
benches/plain_office.py; its rows are compared with the book's. Books lie in the folder, bench-data/ where none is named.
"""

import argparse
import sqlite3
import sys
from contextlib import closing
from pathlib import Path

from import_year import clear, first_difference, measure
from make_year import DAYS, FIRST_DATE, csv_lines, year_lines
from orders import Order, in_order
from places import BENCHES, DATA, PROGRAM


def rows_moved(book: Path) -> int:
    with closing(sqlite3.connect(book)) as database:
        (count,) = database.execute("SELECT COUNT(*) FROM moved").fetchone()
    return int(count)


def measure_order(order: Order, words: argparse.Namespace, lines: list[str]) -> str:
    """Imports a year in an order, prints a row of figures, and answers its annual table."""
    text, book, plain = (words.folder / f"order-{order}{end}" for end in [".csv", ".db", "-plain.db"])
    ordered = in_order(lines, order)
    text.with_suffix(".txt").write_text("".join(f"{line}\n" for line in ordered), encoding="ascii")
    text.write_text("".join(f"{row}\n" for row in csv_lines(ordered)), encoding="ascii")
    clear(book, plain)
    job, at = [words.program], ["--book", book]
    measure([*job, "init", *at, "--first", FIRST_DATE.isoformat(), "--days", DAYS, "--zone", "UTC0"])
    _, imported, _, _ = measure([*job, "import", *at, text])
    _, tabled, peak, table = measure([*job, "table", *at])
    _, audited, _, _ = measure([*job, "audit", *at])
    size = book.stat().st_size / 1_000_000
    cells = [str(order), f"{imported:.2f}", f"{tabled:.2f}", f"{audited:.2f}", f"{peak:.0f}", f"{size:.1f}"]
    cells += [f"{rows_moved(book):,}"]
    if not words.no_plain:
        _, by_python, _, _ = measure([sys.executable, BENCHES / "plain_office.py", text, "--book", plain])
        differs = first_difference(book, plain)
        cells += [f"{by_python:.1f}", f"{imported / by_python:.3f}", f"differ in {differs}" if differs else "equal"]
    print(f"| {' | '.join(cells)} |", flush=True)
    return table


def main() -> int:
    parser = argparse.ArgumentParser(description="Imports a year that is over in several orders.")
    parser.add_argument("--entries", type=int, default=10_000, help="even")
    parser.add_argument("--customers", type=int, default=100_000)
    parser.add_argument("--lives", type=int, default=0, help="devices that join, and lines that are taken down")
    parser.add_argument("--order", type=Order, choices=list(Order), nargs="*", default=list(Order))
    parser.add_argument("--no-plain", action="store_true", help="without the plain office")
    parser.add_argument("--program", default=PROGRAM, help="the program (that of crates/outagebook)")
    parser.add_argument("--folder", type=Path, default=DATA, help="where books are made")
    words = parser.parse_args()
    words.folder.mkdir(exist_ok=True)
    lines = list(year_lines(words.entries, 1, words.customers, "rising", 0, words.lives))
    names = ["order", "import, s", "table, s", "audit, s", "peak of table, MB", "file, MB", "rows moved"]
    names += [] if words.no_plain else ["plain office, s", "ratio", "all rows"]
    print(f"| {' | '.join(names)} |\n|{'---|' * len(names)}", flush=True)
    tables = {measure_order(order, words, lines) for order in words.order}
    print("the annual tables are equal" if len(tables) == 1 else f"{len(tables)} DIFFERENT annual tables")
    return 0 if len(tables) == 1 else 1


if __name__ == "__main__":
    sys.exit(main())
