"""An act and a year's import by two builds of the program in turn: is the later one slower?

    python3 benches/two_programs.py BEFORE AFTER [--entries N] [--customers N] [--lives N] [--rounds N] [--folder FOLDER]

BEFORE and AFTER are programs. In each round both take their turn, the first one changing, so that a machine whose speed changes
slows both. An act is a switching that moves a cause, a feeder and a day, as in act_rows.py: a long import less a short one.
The year is that of import_year.py. The books lie in a file system in memory, where none is named, and those of the year are
compared row by row in each round.
"""

from __future__ import annotations

import argparse
import subprocess
import sys
import tempfile
from collections.abc import Callable
from pathlib import Path
from statistics import median

from act_rows import Seconds, act_of_program
from import_year import first_difference, make_text, measure
from make_year import DAYS, FIRST_DATE

Turns = list[tuple[Seconds, Seconds]]


def import_of_year(program: str, text: Path, book: Path) -> Seconds:
    """The seconds of an import of a text into a new book, by the clock and of the processor."""
    first, days = FIRST_DATE.isoformat(), str(DAYS)
    made = [program, "init", "--book", str(book), "--first", first, "--days", days, "--zone", "UTC0"]
    subprocess.run(made, check=True, stdout=subprocess.DEVNULL)
    clock, processor, _, _ = measure([program, "import", "--book", book, text])
    return clock, processor


def in_turn(rounds: int, run: Callable[[int], Seconds], look: Callable[[], None]) -> Turns:
    """What both take, round by round; each begins every second round. A look follows each round."""
    turns = []
    for number in range(rounds):
        order = [0, 1] if number % 2 == 0 else [1, 0]
        taken = {which: run(which) for which in order}
        look()
        turns.append((taken[0], taken[1]))
    return turns


def tell(name: str, turns: Turns, unit: float, digits: int) -> None:
    """A line: the medians of both and of their ratios, by the clock and of the processor."""
    figures = []
    for which in [0, 1]:
        before, after = ([turn[of][which] for turn in turns] for of in [0, 1])
        ratios = sorted(b / a for a, b in zip(before, after))
        figures += [f"{median(before) * unit:.{digits}f}", f"{median(after) * unit:.{digits}f}"]
        figures.append(f"{median(ratios):.3f} ({ratios[0]:.3f} to {ratios[-1]:.3f})")
    print(f"| {name} | {' | '.join(figures)} |", flush=True)


def main() -> None:
    parser = argparse.ArgumentParser(description="Times an act and a year's import by two builds of the program.")
    parser.add_argument("programs", nargs=2, metavar="PROGRAM", help="the earlier build, then the later one")
    parser.add_argument("--acts", type=int, default=10_000, help="how many acts an import has; at most 50,000")
    parser.add_argument("--entries", type=int, default=10_000, help="of the year; even")
    parser.add_argument("--customers", type=int, default=100_000)
    parser.add_argument(
        "--lives", type=int, default=60, help="devices that join, and ties and lines that are taken down"
    )
    parser.add_argument("--seed", type=int, default=1)
    parser.add_argument("--rounds", type=int, default=4, help="how often each is timed; even")
    parser.add_argument("--folder", default="/dev/shm", help="where the books are made")
    words = parser.parse_args()
    print("| What | clock, before | after | ratio | processor, before | after | ratio |")
    print("|---|---|---|---|---|---|---|")
    acts = in_turn(
        words.rounds, lambda which: act_of_program(words.programs[which], words.folder, words.acts), lambda: None
    )
    tell("an act, us", acts, 1e6, 0)
    with tempfile.TemporaryDirectory(dir=words.folder) as place:
        text = Path(place) / "year.csv"
        books = [Path(place) / "before.db", Path(place) / "after.db"]
        make_text(text, words)

        def look() -> None:
            table = first_difference(*books)
            if table:
                sys.exit(f"the books differ in table {table}")
            for beside in Path(place).glob("*.db*"):
                beside.unlink()

        year = in_turn(words.rounds, lambda which: import_of_year(words.programs[which], text, books[which]), look)
    tell("a year's import, s", year, 1, 2)


if __name__ == "__main__":
    main()
