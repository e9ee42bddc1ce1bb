"""Plans and the supply at seconds of a made year, at the desk: milliseconds by the clock, medians.

    python3 benches/planned.py [--requests N] [--perf] [--program FILE] [--folder FOLDER]

It serves a copy of the book that `year_orders.py --order returns` left in the folder, bench-data/ where none is named. Each
plan opens or closes a random device, away from its normal position, at a random second; each supply is of a random second.
With `--perf`, Debian's linux-perf samples the desk during the plans, and the share of the decision is printed: of the
samples, those in the crates that `Book::decide` is made of.
"""

import argparse
import json
import random
import shutil
import signal
import sqlite3
import subprocess
import sys
import time
from collections.abc import Iterator
from contextlib import closing, contextmanager
from pathlib import Path
from statistics import median

from desk import Server, view
from import_year import clear
from places import DATA, PROGRAM

DECIDING = ("ob_net", "ob_sweep", "ob_sheet", "ob_post", "ob_cust", "ob_state")


def plan_request(rng: random.Random, devices: list[tuple[str, int]], seconds: range) -> bytes:
    """A plan of a switching away from the normal position."""
    name, normal = rng.choice(devices)
    act = "open" if normal else "close"
    fields = {"kind": "switch", "f1": name, "f2": act, "f3": str(rng.choice(seconds)), "f4": "1", "f5": "CREW-1"}
    body = json.dumps(fields, separators=(",", ":"))
    return f"POST /plan HTTP/1.1\r\nHost: localhost\r\nContent-Length: {len(body)}\r\n\r\n{body}".encode()


@contextmanager
def sampled(server: Server, samples: Path | None) -> Iterator[None]:
    """Samples the desk meanwhile, where a file is named for it."""
    if samples is None:
        yield
        return
    pid = str(server.process.pid)
    words = ["perf", "record", "-q", "-e", "cpu-clock", "-F", "2000", "-p", pid, "-o", str(samples)]
    with subprocess.Popen(words) as perf:
        time.sleep(1)
        yield
        perf.send_signal(signal.SIGINT)


def share_of_decision(samples: Path) -> float:
    """The part of the samples that lies in the crates of a decision."""
    words = ["perf", "report", "-i", str(samples), "--stdio", "--no-children", "-s", "symbol"]
    lines = subprocess.run(words, capture_output=True, text=True, check=True).stdout.splitlines()
    found = [line.split(maxsplit=1) for line in lines if line.strip() and not line.startswith("#")]
    return sum(float(share.rstrip("%")) for share, rest in found if any(name in rest for name in DECIDING)) / 100


def measure(server: Server, what: str, requests: list[bytes]) -> None:
    """Prints a line: the median, what 95 of 100 stay below, and the mean number of bytes."""
    taken: list[float] = []
    sizes: list[int] = []
    for request in requests:
        begin = time.perf_counter()
        [(status, body)] = server.client.ask([request])
        taken.append((time.perf_counter() - begin) * 1e3)
        sizes.append(len(body))
        if not status.startswith(b"HTTP/1.1 200"):
            sys.exit(f"{request.decode()}: {status.decode()} {body.decode()}")
    most = sorted(taken)[len(taken) * 95 // 100]
    print(f"| {what} | {median(taken):.2f} | {most:.2f} | {sum(sizes) // len(sizes):,} |", flush=True)


def main() -> None:
    parser = argparse.ArgumentParser(description="Times plans and the supply at seconds of a made year, at the desk.")
    parser.add_argument("--requests", type=int, default=300, help="of each kind (300)")
    parser.add_argument("--perf", action="store_true", help="the share of the decision, by linux-perf")
    parser.add_argument("--program", default=PROGRAM, help="the program (that of crates/outagebook)")
    parser.add_argument("--folder", type=Path, default=DATA, help="where the book of year_orders.py stands")
    words = parser.parse_args()
    book = words.folder / "planned.db"
    clear(book)
    shutil.copyfile(words.folder / "order-returns.db", book)
    with closing(sqlite3.connect(book)) as database:
        devices: list[tuple[str, int]] = database.execute("SELECT name, normal FROM device").fetchall()
        ((first, last),) = database.execute("SELECT min(second), max(second) FROM entry").fetchall()
    rng, seconds = random.Random(1), range(first, last)
    plans = [plan_request(rng, devices, seconds) for _ in range(words.requests)]
    supplies = [view(f"/supply/{rng.choice(seconds)}") for _ in range(words.requests)]
    samples = words.folder / "planned.perf" if words.perf else None
    server = Server([words.program, "serve", "--book", book, "--port", "0"])
    try:
        print("| Requests | median, ms | 95 of 100 below | bytes |\n|---|---|---|---|")
        measure(server, "supply", supplies)
        with sampled(server, samples):
            measure(server, "plan", plans)
    finally:
        server.end()
    if samples is not None:
        print(f"{share_of_decision(samples):.3f} of the processor's samples during the plans are of the decision")


if __name__ == "__main__":
    main()
