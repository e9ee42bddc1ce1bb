"""The time that the rows of one command take by Python's sqlite3, and an act of the program that writes as many.

    python3 benches/act_rows.py [--acts N] [--moved N] [--folder FOLDER] [--memory FOLDER] [--program FILE]

An act is a lookup of its reference and one transaction: a row of `cmd`, one of `entry`, some of `moved` and as many
updates of `posting`, over the eleven tables with foreign keys. In memory and in a file, with a write-ahead log and
synchronous = FULL. By Python's sqlite3 the rows are made up, and nothing of a book is computed. The program imports as
many switchings of some breakers in turn, each of which moves a cause, a feeder and a day; its time is that of the import
less that of a tenth of it, so without its start. It keeps no book in memory alone, so its book then lies in a file system
in memory, beside one of Python's there. The two take turns, so that a machine whose speed changes slows both.
"""

import argparse
import os
import sqlite3
import subprocess
import sys
import tempfile
import time
from collections.abc import Callable
from contextlib import closing
from pathlib import Path
from statistics import median

from places import PROGRAM
from plain_office import Office
from state import Period

FIRST = 1_704_067_200
BATCH = 500
BREAKERS = 100
Seconds = tuple[float, float]  # by the clock, and of the processor


def first_rows() -> list[list[str]]:
    """A cause, and sections behind one breaker each."""
    rows = [["cause", "C1", "1", "STORM", "", "", "", ""]]
    for breaker in range(BREAKERS):
        rows.append(["section", f"N{breaker}", f"S{breaker}", "1", "", "", "", ""])
    for breaker in range(BREAKERS):
        rows.append(["device", f"D{breaker}", f"B{breaker}", "GRID", f"S{breaker}", "closed", "", ""])
    return rows


def switching(turn: int) -> tuple[int, bool]:
    """The breaker of a switching, and whether it closes: each breaker in turn is opened and closed."""
    return turn // 2 % BREAKERS, turn % 2 == 1


def act(run: Callable[..., sqlite3.Cursor], number: int, turn: int, places: list[tuple[int, int]]) -> None:
    """The statements of a command that enters a switching; a place is a dimension and a key."""
    ref = f"OUT-{turn}"
    if run("SELECT id, body FROM cmd WHERE ref = ?", (ref,)).fetchone():
        raise ValueError(ref)
    second = FIRST + turn
    breaker, closes = switching(turn)
    text = f"switch B{breaker} {'close' if closes else 'open'} {second} 1 CREW-1"
    run("BEGIN IMMEDIATE")
    run("INSERT INTO cmd VALUES (?, ?, ?)", (number, ref, text))
    entry = turn + 1, 1, breaker, closes, second, 1, "CREW-1", 1
    run("INSERT INTO entry VALUES (?, ?, ?, ?, ?, ?, ?, ?)", entry)
    for dimension, key in places:
        run("INSERT INTO moved VALUES (?, ?, ?, ?)", (number, dimension, key, -1 if closes else 1))
    for dimension, key in places:
        run("UPDATE posting SET amount = ? WHERE dim = ? AND k = ?", (0 if closes else 1, dimension, key))
    run("COMMIT")


def measure(path: Path, acts: int, moved: int) -> list[Seconds]:
    """The seconds of an act by the clock and of the processor, batch by batch."""
    office = Office(path, Period("2024-01-01", 366, "UTC0"), "wal", "full")
    before = first_rows()
    for row in before:
        office.act(row)
    places = [(1, 1), (2, 1), *((3, day) for day in range(moved - 2))][:moved]
    seconds = []
    for batch in range(acts // BATCH):
        clock, processor = time.perf_counter(), time.process_time()
        for turn in range(BATCH * batch, BATCH * (batch + 1)):
            act(office.run, len(before) + turn + 1, turn, places)
        clock, processor = time.perf_counter() - clock, time.process_time() - processor
        seconds.append((clock / BATCH, processor / BATCH))
    office.database.close()
    return seconds


def csv_text(acts: int) -> str:
    """Switchings of the breakers, a second after the other: each moves a cause, a feeder and the one day."""
    rows = [["kind", "ref", *(f"f{i}" for i in range(1, 7))], *first_rows()]
    for breaker in range(BREAKERS):
        rows.append(["connect", f"P{breaker}", str(breaker + 1), f"S{breaker}", "0", "", "", ""])
    for turn in range(acts):
        breaker, closes = switching(turn)
        act = "close" if closes else "open"
        rows.append(["switch", f"OUT-{turn}", f"B{breaker}", act, str(FIRST + turn), "1", "CREW-1", ""])
    return "".join(",".join(row) + "\n" for row in rows)


def run_import(program: str | Path, folder: str | None, acts: int) -> Seconds:
    """The seconds of an import of so many switchings into a new book, by the clock and of the processor."""
    with tempfile.TemporaryDirectory(dir=folder) as place:
        text, book = (Path(place) / name for name in ["acts.csv", "acts.db"])
        text.write_text(csv_text(acts), encoding="ascii")
        made = [program, "init", "--book", book, "--first", "2024-01-01", "--days", "1", "--zone", "UTC0"]
        subprocess.run(made, check=True, stdout=subprocess.DEVNULL)
        clock = time.perf_counter()
        child = subprocess.Popen([program, "import", "--book", book, text], stdout=subprocess.DEVNULL)
        usage = os.wait4(child.pid, 0)[2]
        clock = time.perf_counter() - clock
        with closing(sqlite3.connect(book)) as database:
            (moved,) = database.execute("SELECT count(*) FROM moved").fetchone()
        if moved != 3 * acts:
            sys.exit(f"{acts} acts moved {moved} amounts")
    return clock, usage.ru_utime + usage.ru_stime


def act_of_program(program: str | Path, folder: str | None, acts: int) -> Seconds:
    """The seconds of an act, a long import less a short one."""
    long, short = run_import(program, folder, acts), run_import(program, folder, acts // 10)
    clock, processor = ((a - b) / (acts - acts // 10) for a, b in zip(long, short))
    return clock, processor


def act_of_python(folder: str | None, acts: int, moved: int) -> Seconds:
    """The seconds of an act by Python's sqlite3, the median of its batches, by the clock and of the processor."""
    with tempfile.TemporaryDirectory(dir=folder) as place:
        seconds = measure(Path(place) / "book.db", acts, moved)
    clock, processor = (median(times) for times in zip(*seconds))
    return clock, processor


def compare(name: str, folder: str | None, words: argparse.Namespace) -> None:
    """Both by turns, and what each takes; the ratios are those of a turn."""
    turns = []
    for _ in range(words.rounds):
        plain = act_of_python(folder, words.acts, words.moved)
        turns.append((plain, act_of_program(words.program, folder, words.acts)))
    figures = []
    for which in [0, 1]:
        python, of_program = ([turn[of][which] for turn in turns] for of in [0, 1])
        ratios = sorted(b / a for a, b in zip(python, of_program))
        figures += [f"{median(of_program) * 1e6:.0f}", f"{median(python) * 1e6:.0f}"]
        figures.append(f"{median(ratios):.2f} ({ratios[0]:.2f} to {ratios[-1]:.2f})")
    print(f"| {name} | {' | '.join(figures)} |", flush=True)


def main() -> None:
    parser = argparse.ArgumentParser(
        description="Times the rows of one command by Python's sqlite3 and by the program."
    )
    parser.add_argument("--acts", type=int, default=10_000, help="how many acts, in batches of 500; at most 50,000")
    parser.add_argument("--moved", type=int, default=3, help="how many amounts an act of Python's moves, 1 to 368")
    parser.add_argument("--rounds", type=int, default=5, help="how often each is timed")
    parser.add_argument("--folder", help="where the books in files are made (that of temporary files)")
    parser.add_argument("--memory", default="/dev/shm", help="a folder of a file system in memory")
    parser.add_argument("--program", default=PROGRAM, help="the program (that of crates/outagebook)")
    words = parser.parse_args()
    print("| An act, us | by the clock | Python's | ratio | processor | Python's | ratio |")
    print("|---|---|---|---|---|---|---|")
    compare("file system in memory", words.memory, words)
    compare("file", words.folder, words)


if __name__ == "__main__":
    main()
