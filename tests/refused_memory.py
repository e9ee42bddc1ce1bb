"""Each request for memory refused in turn, each read and each write failing in turn, in every job of a small book.

    python3 tests/refused_memory.py [--program FILE] [--what memory|read|write ..] [--only JOB ..] [--first N] [--every N]

The jobs: `init`, an import that a row stops, the changed text, `table`, `export`, `interruptions`, `audit`. Each is run with its
first request refused, with its second, and so on until a run meets none. A refused run has to end with status 1 and a line of a fault on
standard error, without counts, or as if nothing had been refused (but for its line on standard error, which may be what was
refused). The book is whole then (`audit ok`, where there is one), and the same job again does what was left of it: no command is
lost and none is there twice. All later jobs print what they print where nothing is refused, and in the end the rows of all eleven
tables are the same. It ends with status 1 at the first run where that is not so. What is refused is chosen by refuse.c, which
`cc` builds: so this wants Linux with the GNU C library.

Most of some 7,000 requests for memory of a job are those of the book's loading, so all of them take hours; `--every 50` takes some of them.
"""

import argparse
import os
import re
import shutil
import sqlite3
import subprocess
import sys
import tempfile
from collections import Counter
from collections.abc import Sequence
from itertools import count
from pathlib import Path

from import_year import TABLES
from places import PROGRAM, TESTS

HEADER = "kind,ref,f1,f2,f3,f4,f5,f6\n"
ROWS = "cause,R1,3,STORM,,,,\nbus,R2,BUS-A,,,,,\nsection,R3,S1,1,,,,\n"
TEXTS = {"stopped.csv": HEADER + ROWS + "section,R4,S1,2,,,,\n", "changed.csv": HEADER + ROWS + "section,R4,S2,1,,,,\n"}
JOBS = [
    ("init", "--first", "2024-01-01", "--days", "1", "--zone", "UTC0"),
    ("import", "stopped.csv"),
    ("import", "changed.csv"),
    ("table",),
    ("export", "moves.csv"),
    ("interruptions", "interruptions.csv"),
    ("audit",),
]
Said = tuple[str, str, int]  # printed, told, status
Refusal = tuple[Path, str, int]  # the library, the kind of request, which of them
Rows = dict[str, list[tuple[object, ...]]]
FAULT = re.compile(r"fault (2[0-4]) [A-Za-z]+\n")
COUNTS = re.compile(r"added (\d+) again (\d+)\n")


class Wrong(Exception):
    """A run that did what it must not."""


def run(program: Path, folder: Path, job: Sequence[str], refusal: Refusal | None = None) -> tuple[Said, bool]:
    """What a job prints, tells and ends with; and whether the refusal was met."""
    told = folder / "told"
    told.unlink(missing_ok=True)
    names = (
        {}
        if refusal is None
        else dict(zip(["LD_PRELOAD", "REFUSE_WHAT", "REFUSE_NTH"], map(str, refusal)), REFUSE_TOLD=str(told))
    )
    words: list[str | Path] = [program, job[0], "--book", "book.db", *job[1:]]
    done = subprocess.run(words, cwd=folder, env=os.environ | names, capture_output=True, text=True, timeout=120)
    return (done.stdout, done.stderr, done.returncode), told.exists()


def rows_of(folder: Path) -> Rows:
    """All rows of the eleven tables."""
    with sqlite3.connect(folder / "book.db") as database:
        return {table: sorted(database.execute(f"SELECT * FROM {table}"), key=repr) for table in TABLES}


def texts_of(folder: Path) -> str:
    """What the jobs wrote into files."""
    return "".join((folder / job[-1]).read_text() for job in JOBS if job[0] in ("export", "interruptions"))


def wanted_again(job: Sequence[str], wanted: Said, found: Said) -> bool:
    """Whether the same job, after its refused run, was answered as it should be."""
    if job[0] == "init":
        return found in [wanted, ("", "refused 17 BadBook\n", 2)]
    if job[0] == "import":
        was, now = COUNTS.fullmatch(wanted[0]), COUNTS.fullmatch(found[0])
        total = [sum(map(int, counts.groups())) if counts else None for counts in [was, now]]
        return total[0] == total[1] and found[1:] == wanted[1:]
    return found == wanted


def goes_on(
    program: Path, folder: Path, place: int, wanted: list[Said], end: tuple[Rows, str], refusal: Refusal
) -> str | None:
    """A job with one request refused, and then it again and all after it: what it answered, or None where no request was that far."""
    first, met = run(program, folder, JOBS[place], refusal)
    if not met:
        return None
    fault = FAULT.fullmatch(first[1])
    done = first in [wanted[place], (wanted[place][0], "", wanted[place][2])]
    if not done and not (fault and first[2] == 1 and not COUNTS.search(first[0])):
        raise Wrong(f"answered {first}")
    if place > 0 and (audited := run(program, folder, ("audit",))[0]) != ("audit ok\n", "", 0):
        raise Wrong(f"answered {first}, then the audit {audited}")
    again, _ = run(program, folder, JOBS[place])
    if not wanted_again(JOBS[place], wanted[place], again):
        raise Wrong(f"answered {first}, then {again}")
    for later in range(place + 1, len(JOBS)):
        if (found := run(program, folder, JOBS[later])[0]) != wanted[later]:
            raise Wrong(f"answered {first}, then {' '.join(JOBS[later])}: {found}")
    if (rows_of(folder), texts_of(folder)) != end:
        raise Wrong(f"answered {first}, and in the end other rows")
    return "as if nothing were refused" if done else first[1].strip()


def refuse_each(program: Path, library: Path, what: str, words: argparse.Namespace, work: Path) -> None:
    """Every job with each request of one kind refused in turn."""
    start, states, wanted = work / "start", [], []
    start.mkdir()
    for name, text in TEXTS.items():
        (start / name).write_text(text)
    for place, job in enumerate(JOBS):
        states.append(shutil.copytree(start, work / f"before-{place}"))
        wanted.append(run(program, start, job)[0])
    end = rows_of(start), texts_of(start)
    for place, job in enumerate(JOBS):
        if words.only and job[0] not in words.only:
            continue
        told = Counter[str]()
        for nth in count(words.first, words.every):
            folder = shutil.copytree(states[place], work / "now")
            try:
                answer = goes_on(program, folder, place, wanted, end, (library, what, nth))
            except Wrong as wrong:
                sys.exit(f"{what} {nth} of {' '.join(job)}: {wrong}")
            shutil.rmtree(folder)
            if answer is None:
                break
            told[answer] += 1
        answers = ", ".join(f"{runs} {answer}" for answer, runs in sorted(told.items()))
        print(
            f"| {what} | {job[0]} {job[-1] if len(job) == 2 else ''} | {sum(told.values())} | {answers} |",
            flush=True,
        )


def built_library(folder: Path) -> Path:
    """What refuses requests, built into a folder."""
    library = folder / "refuse.so"
    subprocess.run(["cc", "-O2", "-shared", "-fPIC", "-o", library, TESTS / "refuse.c"], check=True)
    return library


def main() -> int:
    parser = argparse.ArgumentParser(description="Each request for memory, read and write refused in turn.")
    parser.add_argument("--program", default=PROGRAM, help="the program (that of crates/outagebook)")
    parser.add_argument("--what", nargs="+", default=["memory", "read", "write"], choices=["memory", "read", "write"])
    parser.add_argument("--only", nargs="+", help="the jobs whose requests are refused (all)")
    parser.add_argument("--first", type=int, default=1, help="the first request that is refused (1)")
    parser.add_argument(
        "--every", type=int, default=1, help="which of them from there on: each second one, .. (1, all)"
    )
    words = parser.parse_args()
    with tempfile.TemporaryDirectory() as folder:
        library = built_library(Path(folder))
        print("| Refused | Job | Runs | Answers |\n|---|---|---|---|")
        for what in words.what:
            work = Path(folder) / what
            work.mkdir()
            refuse_each(Path(words.program).resolve(), library, what, words, work)
    return 0


if __name__ == "__main__":
    sys.exit(main())
