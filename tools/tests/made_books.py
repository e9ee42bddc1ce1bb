"""Makes the book files of the tests: of each text the eleven tables and the annual table by the oracle's model.

    python3 tools/tests/made_books.py FOLDER [--seeds N | --list FILE] [--without-moves]

The model acts commands and finds everything anew each time; the tools share nothing with it, so their tests compare two
programs. FOLDER gets NAME.csv, NAME.db and NAME.table.txt of the sample fortnight, of the corrected one and of N random
books, and prints the name, the period's first day, its days and the zone of each. It is a program of its own because
the oracle's modules have names that the tools' commands have too.
"""

import argparse
import sqlite3
import sys
from collections.abc import Iterator
from contextlib import closing
from pathlib import Path

# The oracle's modules import one another by their names.
sys.path[0] = str(Path(__file__).resolve().parents[2] / "oracle")

from compare import texts  # noqa: E402
from model import Book  # noqa: E402
from state import Period  # noqa: E402
from tables import TABLES  # noqa: E402

Listed = tuple[str, tuple[str, int, str], bytes]


def write_book(book: Book, path: Path) -> None:
    """A book's rows in a new file with a write-ahead log, as the program leaves it."""
    path.unlink(missing_ok=True)
    with closing(sqlite3.connect(str(path))) as database:
        database.execute("PRAGMA journal_mode = wal")
        database.execute("PRAGMA synchronous = off")
        database.executescript(TABLES)
        for table, rows in book.tables().items():
            for row in rows:
                database.execute(f"INSERT INTO {table} VALUES ({', '.join('?' * len(row))})", row)
        database.commit()


def listed(path: Path) -> Iterator[Listed]:
    """The name, the period and the bytes of each text of a list."""
    for line in path.read_text().splitlines():
        text, first, days, zone = line.split()
        yield Path(text).stem, (first, int(days), zone), Path(text).read_bytes()


def main() -> None:
    parser = argparse.ArgumentParser(description="Makes the book files of the tests.")
    parser.add_argument("folder", type=Path)
    parser.add_argument("--seeds", type=int, default=60)
    parser.add_argument(
        "--list", type=Path, help="texts in place of these: lines of FILE, FIRST, DAYS and ZONE, by spaces"
    )
    parser.add_argument(
        "--without-moves", action="store_true", help="leave `moved` empty, which takes most of the time"
    )
    args = parser.parse_args()
    for name, period, data in listed(args.list) if args.list else texts(args.seeds):
        book = Book(Period(*period), keeps_moves=not args.without_moves)
        book.import_text(data)
        name = name.replace(" ", "-").replace(",", "")
        (args.folder / f"{name}.csv").write_bytes(data)
        write_book(book, args.folder / f"{name}.db")
        lines = "".join(f"{line}\n" for line in book.table_lines())
        (args.folder / f"{name}.table.txt").write_text(lines, encoding="ascii")
        print(name, *period)


if __name__ == "__main__":
    main()
