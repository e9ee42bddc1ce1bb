"""What the program's lists of a book cost beside its annual table: seconds of the processor, in turn, and the size of each text.

    python3 benches/lists.py BOOK [--turns N] [--by KEY ..] [--program FILE]

BOOK may be one that year_orders.py has left. `table` comes first in each turn, then `interruptions`, then `indices` by each key.
The least seconds of all turns are printed, and how often those of `table` go into them.
"""

import argparse
import os
import subprocess
import tempfile
from pathlib import Path

from places import PROGRAM

KEYS = ["whole", "feeder", "cause", "section", "month", "day"]


def seconds_of(words: list[str | Path], output: Path) -> float:
    """Runs the program, what it prints into a file: the seconds of the processor."""
    with output.open("wb") as file:
        child = subprocess.Popen(words, stdout=file)
        _, status, used = os.wait4(child.pid, 0)
    child.returncode = os.waitstatus_to_exitcode(status)
    if child.returncode:
        raise SystemExit(f"{words[1]}: status {child.returncode}")
    return float(used.ru_utime + used.ru_stime)


def main() -> None:
    words = argparse.ArgumentParser(description="Measures the program's lists of a book.")
    words.add_argument("book", type=Path)
    words.add_argument("--turns", type=int, default=3)
    words.add_argument("--by", nargs="+", choices=KEYS, default=KEYS)
    words.add_argument("--program", type=Path, default=PROGRAM, help="the program (that of crates/outagebook)")
    said = words.parse_args()
    seconds: dict[str, list[float]] = {}
    sizes: dict[str, int] = {}
    with tempfile.TemporaryDirectory(prefix="lists-") as name:
        printed, rows = Path(name) / "printed", Path(name) / "rows.csv"
        start: list[str | Path] = [said.program]
        at: list[str | Path] = ["--book", said.book]
        for _ in range(said.turns):
            for job in ["table", "interruptions", *(f"indices --by {key}" for key in said.by)]:
                rows.unlink(missing_ok=True)
                kind, *more = job.split()
                ends: list[str | Path] = [rows] if kind == "interruptions" else [*more]
                seconds.setdefault(job, []).append(seconds_of([*start, kind, *at, *ends], printed))
                sizes[job] = (rows if kind == "interruptions" else printed).stat().st_size
    print("| text | s | by `table` | bytes |\n|---|---|---|---|")
    for job, found in seconds.items():
        print(f"| `{job}` | {min(found):.2f} | {min(found) / min(seconds['table']):.2f} | {sizes[job]:,} |")


if __name__ == "__main__":
    main()
