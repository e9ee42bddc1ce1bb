"""Runs of the program, for the comparisons with the plain model."""

import os
import subprocess
from pathlib import Path

ROOT = Path(__file__).resolve().parent.parent
PROGRAM = Path(os.environ.get("OUTAGEBOOK", ROOT / "crates/outagebook/out/outagebook"))

PeriodWords = tuple[str, int, str]  # first day, days, zone
Said = tuple[str, str, int]  # printed, told on standard error, status
Difference = tuple[str, object, object]  # a job or a table, what was wanted and what was found

CREATED: Said = ("created\n", "", 0)
SOUND: Said = ("audit ok\n", "", 0)


class OneBook:
    """The program over one book in a folder."""

    def __init__(self, program: str | Path, folder: str | Path) -> None:
        self.program = program
        self.book = Path(folder) / "book.db"

    def words(self, job: str, *rest: str) -> list[str | Path]:
        return [self.program, job, "--book", self.book, *rest]

    def run(self, job: str, *rest: str) -> Said:
        """What a job prints, tells and ends with."""
        done = subprocess.run(self.words(job, *rest), capture_output=True, text=True)
        return done.stdout, done.stderr, done.returncode

    def create(self, period: PeriodWords) -> Said:
        first, days, zone = period
        return self.run("init", "--first", first, "--days", str(days), "--zone", zone)

    def take(self, data: bytes) -> Said:
        """What the import of a text says."""
        text = self.book.with_name("text.csv")
        text.write_bytes(data)
        return self.run("import", str(text))


def first_of(wanted: dict[str, object], found: dict[str, object]) -> Difference | None:
    """The first job whose answer isn't the wanted one."""
    for job, answer in wanted.items():
        if found.get(job) != answer:
            return job, answer, found.get(job)
    return None
