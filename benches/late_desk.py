"""A life that ends late in a made year, at the desk, beside a switching of the same second: milliseconds, medians.

    python3 benches/late_desk.py [--breakers N] [--days N] [--program FILE] [--folder FOLDER]

It serves a copy of the book that `import_year.py --lives 60` left in the folder, bench-data/ where none is named. Some breakers
in turn, each by four POST /commands over one kept connection: a switching that opens it so many days before the period's end,
the withdrawal of that, a life that ends at that second, the whole life again. Each is on the disk before its reply. What each
moves is compared: the second undoes the first, and the fourth the third.
"""

import argparse
import json
import shutil
import sqlite3
import sys
import time
from contextlib import closing
from pathlib import Path
from statistics import median

from desk import Server
from import_year import clear
from make_year import DAY, END
from places import DATA, PROGRAM

NAMES = ["a switching", "its withdrawal", "a life that ends then", "the whole life again"]
Moved = list[tuple[str, int | str, int]]  # the dimension, the key and by how much


def request(fields: dict[str, str]) -> bytes:
    body = json.dumps(fields, separators=(",", ":"))
    return f"POST /commands HTTP/1.1\r\nHost: localhost\r\nContent-Length: {len(body)}\r\n\r\n{body}".encode()


def commands(breaker: int, second: int, entry: int) -> list[dict[str, str]]:
    """The four commands of a breaker; the switching gets this entry's number."""
    device, ref = f"BREAKER-{breaker}", f"LATE-{breaker}-{second}"
    return [
        {"kind": "switch", "ref": f"{ref}-1", "f1": device, "f2": "open", "f3": str(second), "f4": "1", "f5": "CREW-1"},
        {"kind": "withdraw", "ref": f"{ref}-2", "f1": str(entry), "f2": "1"},
        {"kind": "life", "ref": f"{ref}-3", "f1": device, "f3": str(second)},
        {"kind": "life", "ref": f"{ref}-4", "f1": device},
    ]


def act(server: Server, fields: dict[str, str]) -> tuple[float, Moved]:
    """The milliseconds from the request to its reply, and what the command moved."""
    begin = time.perf_counter()
    [(status, body)] = server.client.ask([request(fields)])
    took = (time.perf_counter() - begin) * 1e3
    if not status.startswith(b"HTTP/1.1 200"):
        sys.exit(f"{fields}: {status.decode()} {body.decode()}")
    return took, [(dimension, key, amount) for dimension, key, amount in json.loads(body)["moved"]]


def undoes(before: Moved, after: Moved) -> bool:
    return [(dimension, key, -amount) for dimension, key, amount in after] == before


def measure(server: Server, breakers: list[int], second: int, entry: int) -> None:
    """The line of a second: the median of each of the four commands."""
    taken: list[list[float]] = []
    for place, breaker in enumerate(breakers):
        took, moved = zip(*(act(server, fields) for fields in commands(breaker, second, entry + place)))
        if not (undoes(moved[0], moved[1]) and undoes(moved[2], moved[3])):
            sys.exit(f"BREAKER-{breaker}: what was undone isn't what was done")
        taken.append(list(took))
    medians = [median(times) for times in zip(*taken)]
    figures = " | ".join(f"{took:.1f}" for took in medians)
    print(f"| {(END - second) // DAY} | {figures} | {medians[2] / medians[0]:.2f} |", flush=True)


def main() -> None:
    parser = argparse.ArgumentParser(description="Times a late life at the desk, beside a switching of its second.")
    parser.add_argument("--breakers", type=int, default=6, help="how many take turns")
    parser.add_argument("--days", type=int, nargs="*", default=[1, 10], help="how long before the period's end")
    parser.add_argument("--program", default=PROGRAM, help="the program (that of crates/outagebook)")
    parser.add_argument("--folder", type=Path, default=DATA, help="where the book of import_year.py stands")
    words = parser.parse_args()
    book = words.folder / "late-desk.db"
    clear(book)
    shutil.copyfile(words.folder / "import.db", book)
    with closing(sqlite3.connect(book)) as database:
        (entries,) = database.execute("SELECT count(*) FROM entry").fetchone()
    breakers = [100 * number + 1 for number in range(words.breakers)]
    server = Server([words.program, "serve", "--book", book, "--port", "0"])
    try:
        print(f"| Days before the end, ms | {' | '.join(NAMES)} | ratio of the third to the first |")
        print("|---|---|---|---|---|---|")
        for turn, days in enumerate(words.days):
            measure(server, breakers, END - days * DAY, entries + 1 + turn * words.breakers)
    finally:
        server.end()


if __name__ == "__main__":
    main()
