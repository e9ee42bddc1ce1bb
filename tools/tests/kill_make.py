"""Kills outagebook-make at random moments: each time the book is there whole, or there is none and no other file.

    cd tools && python3 -m tests.kill_make --kills 100 [--program PATH] [--seed N]

Half of the moments are drawn over a whole run, the others over its last part, in which the file gets its name. Without
--program the oracle's model stands in for the program, so that a run takes a second or two.
"""

import argparse
import random
import shutil
import stat
import subprocess
import sys
import tempfile
import time
from dataclasses import dataclass
from pathlib import Path

from outage_tools.compare import open_book
from tests import exports, support

STAND_IN = support.TESTS / "made_program.py"
LAST_PART = 0.8  # of a run's time
LONGEST_END = 10.0  # seconds that the end of a killed run's children may take


def stand_in(folder: Path) -> Path:
    """A program of the model's."""
    path = folder / "outagebook"
    path.write_text(f'#!/bin/sh\nexec {sys.executable} {STAND_IN} "$@"\n')
    path.chmod(path.stat().st_mode | stat.S_IXUSR)
    return path


@dataclass
class Maker:
    """Runs of the tool over the samples: into a folder of their own, made in another one."""

    folder: Path
    program: Path

    def __post_init__(self) -> None:
        self.target, self.work = self.folder / "target", self.folder / "work"
        self.target.mkdir(parents=True)
        self.work.mkdir()
        self.book, self.page = self.target / "book.db", self.target / "page.html"

    def command(self, *words: object) -> list[str]:
        files = [word for name in exports.EXPORTS for word in (f"--{name}", str(support.EXPORTS / f"{name}.csv"))]
        counts = ["--counts", str(support.EXPORTS / "oms-counts.csv")]
        own = ["--program", str(self.program), "--work-folder", str(self.work), "--report", str(self.page)]
        command = [sys.executable, str(support.TOOLS / "make.py"), str(self.book)]
        return [*command, *files, *exports.PERIOD, *counts, *own, *map(str, words)]

    def run(self, *words: object) -> "subprocess.CompletedProcess[str]":
        return subprocess.run(self.command(*words), capture_output=True, text=True, check=False)

    def kill_after(self, seconds: float) -> bool:
        """Begins a run, and kills it: whether it had ended before."""
        child = subprocess.Popen(self.command(), stdout=subprocess.DEVNULL, stderr=subprocess.DEVNULL)
        try:
            child.wait(seconds)
            return True
        except subprocess.TimeoutExpired:
            child.kill()
            child.wait()
            return False

    def files(self) -> set[str]:
        """The files next to the book's place, hidden ones too."""
        return {path.name for path in self.target.iterdir()}

    def clear(self) -> None:
        for path in self.target.iterdir():
            path.unlink()

    def children(self) -> list[str]:
        """Processes that still work in the folder of a run."""
        found = []
        for path in Path("/proc").glob("[0-9]*/cmdline"):
            try:
                command = path.read_bytes().replace(b"\0", b" ").decode(errors="replace")
            except OSError:
                continue
            if f"{self.work}/" in command:
                found.append(command)
        return found

    def have_ended(self) -> bool:
        """The children of a killed run end too."""
        since = time.monotonic()
        while self.children():
            if time.monotonic() - since > LONGEST_END:
                return False
            time.sleep(0.05)
        return True


def table_of(maker: Maker) -> Path:
    """The annual table of the samples' book, by the program."""
    copy = maker.folder / "book.db"
    rows = maker.folder / "rows.csv"
    files = [word for name in exports.EXPORTS for word in (f"--{name}", str(support.EXPORTS / f"{name}.csv"))]
    rows.write_text(exports.run(*files, *exports.PERIOD).out)
    period = [*exports.PERIOD]
    for words in (["init", *period], ["import", str(rows)], ["table"]):
        command = [str(maker.program), words[0], "--book", str(copy), *words[1:]]
        done = subprocess.run(command, capture_output=True, text=True, check=True)
    table = maker.folder / "wanted.txt"
    table.write_text(done.stdout)
    return table


def wrong_after(maker: Maker, table: Path, commands: int) -> str | None:
    """What isn't as it should be behind a killed run; None where all is."""
    files = maker.files()
    if not files <= {"book.db", "page.html"} or files == {"page.html"}:
        return f"these files are there: {sorted(files)}"
    if not maker.have_ended():
        return f"children go on: {maker.children()}"
    if "book.db" in files:
        with open_book(str(maker.book), str(table), str(maker.program)) as found:
            count = found.database.execute("SELECT count(*) FROM cmd").fetchone()[0]
            if count != commands:
                return f"the book has {count} commands of {commands}"
    return None


@dataclass(frozen=True)
class Seen:
    """How many runs were killed, how many of them had made the book or had ended, and what was wrong."""

    kills: int
    whole: int
    ended: int
    wrong: list[str]

    def __str__(self) -> str:
        return (
            f"{self.kills} runs: {self.ended} had ended before, {self.whole} left the whole book,"
            f" {self.kills - self.whole} none; {len(self.wrong)} wrong"
        )


def killed(maker: Maker, kills: int, seed: int) -> Seen:
    """Kills so many runs; a last one, which isn't killed, makes the book and leaves nothing behind."""
    draw = random.Random(f"kills {seed}")
    table = table_of(maker)
    since = time.monotonic()
    done = maker.run()
    length = time.monotonic() - since
    if done.returncode != 0:
        raise ValueError(done.stderr)
    commands = (maker.folder / "rows.csv").read_text().count("\n") - 1
    whole = ended = 0
    wrong = []
    for number in range(kills):
        maker.clear()
        begin = LAST_PART * length if number % 2 else 0.0
        ended += maker.kill_after(draw.uniform(begin, 1.1 * length))
        whole += maker.book.exists()
        found = wrong_after(maker, table, commands)
        if found:
            wrong.append(f"run {number + 1}: {found}")
    maker.clear()
    done = maker.run()
    if done.returncode != 0 or maker.files() != {"book.db", "page.html"} or [*maker.work.iterdir()]:
        wrong.append(f"the last run: {done.stderr} {sorted(maker.files())} {[*maker.work.iterdir()]}")
    return Seen(kills, whole, ended, wrong)


def main() -> int:
    parser = argparse.ArgumentParser(description="Kills outagebook-make at random moments.")
    parser.add_argument("--kills", type=int, default=100, help="how many runs (100)")
    parser.add_argument("--seed", type=int, default=1, help="what the moments are drawn from (1)")
    parser.add_argument("--program", type=Path, help="the program (the model stands in)")
    args = parser.parse_args()
    folder = Path(tempfile.mkdtemp(prefix="outagebook-kills-"))
    try:
        seen = killed(Maker(folder / "runs", args.program or stand_in(folder)), args.kills, args.seed)
    finally:
        shutil.rmtree(folder)
    print("\n".join([str(seen), *seen.wrong]))
    return 1 if seen.wrong else 0


if __name__ == "__main__":
    sys.exit(main())
