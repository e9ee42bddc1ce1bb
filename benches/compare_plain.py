"""Compares the plain office with the plain model of oracle/, over the texts that oracle/compare.py has.

    python3 benches/compare_plain.py [--seeds N]

For each text: what an import says, the same import again, and every row of the eleven tables. It ends with status 1 at
the first difference; the text is then bench-data/difference.csv.
"""

import argparse
import sys
import tempfile
from collections import Counter
from functools import partial

import places  # noqa: F401, the modules of oracle/
from cases import Case, compare
from compare import Difference, PeriodWords, said_of, texts
from model import Book, first_difference
from plain_office import Office
from state import Period


def difference(period: PeriodWords, data: bytes, counts: Counter[str]) -> Difference | None:
    """The first import, or table of the database, in which the plain office and the model differ, with what each has."""
    book = Book(Period(*period))
    wanted = [said_of(*book.import_text(data)) for _ in range(2)]
    with tempfile.TemporaryDirectory() as folder:
        office = Office(f"{folder}/book.db", Period(*period), "wal", "off")
        found = [said_of(*office.import_text(data)) for _ in range(2)]
        office.database.close()
        counts["accepted commands"] += book.accepted()
        if found != wanted:
            return "import", wanted, found
        table = first_difference(book, f"{folder}/book.db")
    return (f"table {table}", None, None) if table else None


def main() -> int:
    parser = argparse.ArgumentParser(description="Compares the plain office with the plain model.")
    parser.add_argument("--seeds", type=int, default=200, help="how many random books (200)")
    words = parser.parse_args()
    cases = [
        Case(f"{name} {period}", partial(difference, period, data), data) for name, period, data in texts(words.seeds)
    ]
    return compare("books of the plain office", cases)


if __name__ == "__main__":
    sys.exit(main())
