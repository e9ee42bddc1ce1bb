"""For the tests of exports: the samples, changed samples, and runs of the tool in this process."""

import contextlib
import io
import subprocess
import sys
from dataclasses import dataclass
from pathlib import Path
from unittest import mock

from outage_tools.oms import convert
from tests import support

ZONE = "CET-1CEST,M3.5.0,M10.5.0/3"
PERIOD = ["--first", "2025-10-20", "--days", "14", "--zone", ZONE]
EXPORTS = ("causes", "gis", "customers", "oms")
HEADER = "kind,ref,f1,f2,f3,f4,f5,f6\n"


@dataclass(frozen=True)
class Done:
    """How a run ended, and what it printed."""

    status: int
    out: str
    err: str

    @property
    def complaints(self) -> list[str]:
        """The rows that it complained about, without their folders."""
        return [line.rsplit("/", 1)[-1] for line in self.err.splitlines() if ": row " in line or ": the line" in line]


def run(*arguments: object) -> Done:
    """A run of the tool."""
    out, err = io.StringIO(), io.StringIO()
    words = ["from_oms.py", *map(str, arguments)]
    with mock.patch.object(sys, "argv", words), contextlib.redirect_stdout(out), contextlib.redirect_stderr(err):
        try:
            status = convert.main()
        except SystemExit as end:
            status = end.code if isinstance(end.code, int) else 1
    return Done(status, out.getvalue(), err.getvalue())


def sample(name: str) -> str:
    return (support.EXPORTS / f"{name}.csv").read_text()


def arguments_of(folder: Path, texts: dict[str, str]) -> list[str]:
    """The files of exports, the samples where none is given, as words for the tool."""
    folder.mkdir(exist_ok=True)
    words = []
    for name in EXPORTS:
        path = folder / f"{name}.csv"
        path.write_text(texts.get(name, sample(name)))
        words += [f"--{name}", str(path)]
    return words


def changed(name: str, *changes: tuple[str, str]) -> str:
    """A sample in which each text, which stands in it once, is another."""
    text = sample(name)
    for old, new in changes:
        if text.count(old) != 1:
            raise ValueError(f"{old!r} stands {text.count(old)} times in {name}.csv")
        text = text.replace(old, new)
    return text


def program(*words: object) -> subprocess.CompletedProcess[str]:
    """A run of the built program."""
    return subprocess.run([support.PROGRAM, *map(str, words)], capture_output=True, text=True, check=False)


def program_at(path: str, *words: object) -> str:
    """What a program prints that is run and ends well."""
    done = subprocess.run([path, *map(str, words)], capture_output=True, text=True, check=False)
    if done.returncode:
        raise AssertionError(done.stderr)
    return done.stdout


def new_book(path: Path, first: str = "2025-10-20", days: int = 14, zone: str = ZONE) -> Path:
    """A book without commands, made by the program."""
    done = program("init", "--book", path, "--first", first, "--days", days, "--zone", zone)
    if done.returncode != 0:
        raise ValueError(done.stderr)
    return path


def import_text(book: Path, text: str) -> tuple[int, str]:
    """The status of an import, and what it said."""
    path = book.with_suffix(".rows.csv")
    path.write_text(text)
    done = program("import", "--book", book, path)
    return done.returncode, (done.stdout + done.stderr).strip()


def book_words(book: Path) -> list[str]:
    return ["--book", str(book), "--program", str(support.PROGRAM)]


def table_of(book: Path) -> str:
    return program("table", "--book", book).stdout
