"""For the tests: books made by the oracle's model, in a folder that goes away when the tests end."""

import atexit
import contextlib
import html
import os
import re
import shutil
import sqlite3
import subprocess
import sys
import tempfile
import unittest
from collections.abc import Iterable, Iterator
from dataclasses import dataclass
from functools import lru_cache
from pathlib import Path

from outage_tools.compare import Checked, open_book

TESTS = Path(__file__).resolve().parent
TOOLS = TESTS.parent
ROOT = TOOLS.parent
EXAMPLES = ROOT / "examples/fortnight"
EXPORTS = ROOT / "examples/exports"
DEPLOY = ROOT / "deploy"
PROGRAM = Path(os.environ.get("OUTAGEBOOK", ROOT / "crates/outagebook/out/outagebook"))
SEEDS = 60


def has_program() -> bool:
    """There is a built program, or one is named: where that isn't there, a test that wants it fails."""
    return "OUTAGEBOOK" in os.environ or PROGRAM.exists()


needs_program = unittest.skipUnless(has_program(), "the program isn't built, and OUTAGEBOOK names none")


@dataclass(frozen=True)
class Made:
    """A made book: its file, its text, its annual table, its period as the model takes it."""

    name: str
    book: Path
    text: Path
    table: Path
    period: tuple[str, str, str]


@lru_cache(maxsize=None)
def folder() -> Path:
    path = Path(tempfile.mkdtemp(prefix="outagebook-tests-"))
    atexit.register(shutil.rmtree, path, ignore_errors=True)
    return path


def made(where: Path, *arguments: str) -> list[Made]:
    """What made_books.py makes in a folder."""
    where.mkdir(parents=True)
    command = [sys.executable, str(TESTS / "made_books.py"), str(where), *arguments]
    lines = subprocess.run(command, check=True, capture_output=True, text=True).stdout.splitlines()
    books = []
    for line in lines:
        name, first, days, zone = line.split()
        book, text, table = (where / f"{name}.{suffix}" for suffix in ("db", "csv", "table.txt"))
        books.append(Made(name, book, text, table, (first, days, zone)))
    return books


def edge_rows() -> Iterator[str]:
    """A text with what random books seldom have: interruptions of exactly 300 and of 301 seconds, twelve of one customer,
    several switchings in one second that come in either order."""
    yield "kind,ref,f1,f2,f3,f4,f5,f6"
    yield from ["cause,C1,1,WIND,,,,", "cause,C2,2,TREE,,,,", "section,N1,S1,1,,,,", "section,N2,S2,2,,,,"]
    yield from ["device,D1,B1,GRID,S1,closed,,", "device,D2,B2,S1,S2,closed,,"]
    yield from ["connect,P1,1,S1,0,,,", "connect,P2,2,S2,0,,,", "connect,P3,3,S2,1704100000,1704180000,,"]
    said = [("B1", "open", 1_000, 1), ("B1", "close", 1_300, 1), ("B1", "open", 2_000, 1), ("B1", "close", 2_301, 1)]
    for turn in range(11):
        said += [("B2", "open", 10_000 + 1_000 * turn, 2), ("B2", "close", 10_400 + 1_000 * turn, 2)]
    said += [("B2", "close", 40_000, 1), ("B2", "open", 40_000, 2), ("B2", "close", 41_000, 1)]
    said += [
        ("B2", "open", 50_000, 1),
        ("B2", "close", 50_000, 1),
        ("B2", "open", 50_000, 2),
        ("B2", "close", 50_700, 1),
    ]
    said += [
        ("B1", "open", 86_000, 1),
        ("B1", "close", 90_000, 1),
        ("B2", "open", 100_000, 2),
        ("B2", "close", 100_300, 2),
    ]
    for number, (device, act, second, cause) in enumerate(said, 1):
        yield f"switch,E{number},{device},{act},{1_704_067_200 + second},{cause},K1,"
    yield "mark,M1,2024-01-02,ENG,,,,"


@lru_cache(maxsize=None)
def books() -> tuple[Made, ...]:
    """The sample fortnight, the corrected one, sixty random books, and one of what these seldom have."""
    edges = folder() / "edges.csv"
    edges.write_text("".join(f"{row}\n" for row in edge_rows()))
    return (*made(folder() / "books", "--seeds", str(SEEDS)), *made_of("edges", [(edges, ("2024-01-01", "2", "UTC0"))]))


@lru_cache(maxsize=None)
def opened(made: Made) -> Checked:
    """A made book, compared and kept open until the tests end."""
    stack = contextlib.ExitStack()
    atexit.register(stack.close)
    return stack.enter_context(open_book(str(made.book), str(made.table)))


@lru_cache(maxsize=None)
def model_folder() -> Path:
    """A folder in which made_program.py is the program."""
    path = folder() / "model" / "outagebook"
    path.parent.mkdir()
    path.write_text(f'#!/bin/sh\nexec "{sys.executable}" -ES "{TESTS}/made_program.py" "$@"\n')
    path.chmod(0o755)
    return path.parent


def program_folder() -> Path:
    """A folder in which the built program lies; model_folder() where there is none."""
    if not PROGRAM.exists():
        return model_folder()
    path = folder() / "bin" / "outagebook"
    path.parent.mkdir()
    path.symlink_to(PROGRAM.resolve())
    return path.parent


os.environ["PATH"] = f"{program_folder()}:{os.environ['PATH']}"  # tools run it where a test names no program


@contextlib.contextmanager
def model_answers() -> Iterator[None]:
    """The model takes the place of the program, which refuses to read a book with a changed row."""
    before = os.environ["PATH"]
    os.environ["PATH"] = f"{model_folder()}:{before}"
    try:
        yield
    finally:
        os.environ["PATH"] = before


def fortnight() -> Made:
    return books()[0]


def made_of(name: str, texts: Iterable[tuple[Path, tuple[str, str, str]]]) -> list[Made]:
    """The books of some texts."""
    listed = folder() / f"{name}.list"
    listed.write_text("".join(f"{text} {' '.join(period)}\n" for text, period in texts))
    return made(folder() / name, "--list", str(listed))


def edges() -> Made:
    """The last of the made books, in which no device's life begins or ends."""
    return books()[-1]


def run_tool(tool: str, *arguments: object, table: Made | None = None) -> subprocess.CompletedProcess[str]:
    """Runs a tool as a program; with the table of a made book."""
    command = [sys.executable, str(TOOLS / f"{tool}.py"), *map(str, arguments)]
    if table is not None:
        command += ["--table", str(table.table)]
    return subprocess.run(command, capture_output=True, text=True, check=False)


def written(name: str, text: str) -> Path:
    """A text in a file of the tests' folder."""
    path = folder() / name
    path.write_text(text)
    return path


def text_of(page_text: str) -> str:
    """What a page, or a part of one, says without its tags."""
    return re.sub(r"\s+", " ", html.unescape(re.sub("<[^>]*>", " ", page_text.rpartition("<body>")[2])))
