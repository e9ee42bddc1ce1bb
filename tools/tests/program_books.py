"""Books that the real program makes, for the tests that want it."""

import contextlib
import shutil
import subprocess
from collections.abc import Iterable
from functools import lru_cache
from pathlib import Path

from outage_tools.serving import Desk, served
from tests import support

HEADER = "kind,ref,f1,f2,f3,f4,f5,f6"
FORTNIGHT = ("2025-03-24", "14", "CET-1CEST,M3.5.0,M10.5.0/3")


def run_program(*arguments: object) -> subprocess.CompletedProcess[str]:
    command = [str(support.PROGRAM), *map(str, arguments)]
    return subprocess.run(command, capture_output=True, text=True, check=False)


def new_book(name: str, period: tuple[str, str, str], *texts: Path) -> Path:
    """A new book of a period with some texts, all rows of which it takes."""
    path = fresh(name)
    first, days, zone = period
    done = run_program("init", "--book", path, "--first", first, "--days", days, "--zone", zone)
    if done.returncode:
        raise AssertionError(done.stderr)
    for text in texts:
        done = run_program("import", "--book", path, text)
        if done.returncode:
            raise AssertionError(done.stderr)
    return path


def fresh(name: str) -> Path:
    """A file for a book, where there is none."""
    path = support.folder() / f"{name}.db"
    for old in support.folder().glob(f"{path.name}*"):
        old.unlink()
    return path


@lru_cache(maxsize=None)
def sample() -> Path:
    return new_book("program-sample", FORTNIGHT, support.EXAMPLES / "fortnight.csv")


def fortnight(name: str) -> Path:
    """A book of the sample fortnight."""
    path = fresh(name)
    for file in support.folder().glob(f"{sample().name}*"):
        shutil.copyfile(file, file.with_name(file.name.replace(sample().name, path.name)))
    return path


def table_of(book: Path) -> list[str]:
    """The annual table that the program prints."""
    done = run_program("table", "--book", book)
    if done.returncode:
        raise AssertionError(done.stderr)
    return done.stdout.splitlines()


def text_of(rows: Iterable[str]) -> str:
    """A text of some rows, each with eight fields."""
    return "".join(f"{row}{',' * (7 - row.count(','))}\n" for row in (HEADER, *rows))


def at_work(book: Path) -> contextlib.AbstractContextManager[Desk]:
    """A book that the program has open."""
    return served(str(support.PROGRAM), book)
