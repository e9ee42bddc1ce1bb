"""All rows of a book, table by table in the order of their keys, by Python's sqlite3: what a load or an audit is compared with.

    python3 benches/read_rows.py BOOK

It says how many rows each table has, and keeps none of them.
"""

import sqlite3
import sys
from contextlib import closing

ORDERS = {
    "meta": "id",
    "cause": "code",
    "node": "id",
    "device": "id",
    "life": "device",
    "customer": "id",
    "entry": "id",
    "mark": "day",
    "cmd": "id",
    "moved": "cmd, dim, k",
    "posting": "dim, k",
}


def main() -> None:
    if len(sys.argv) != 2:
        sys.exit(__doc__)
    with closing(sqlite3.connect(f"file:{sys.argv[1]}?mode=ro", uri=True)) as book:
        counts = []
        for table, order in ORDERS.items():
            count = sum(1 for _row in book.execute(f"SELECT * FROM {table} ORDER BY {order}"))
            counts.append(f"{table} {count}")
    print(" ".join(counts))


if __name__ == "__main__":
    main()
