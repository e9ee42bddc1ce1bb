"""For the tests of many books: networks and their parts, made once by made_districts.py in a folder that goes away.

OUTAGEBOOK_LONG=1 takes 200 networks in place of 60.
"""

import atexit
import os
import shutil
import sqlite3
import subprocess
import sys
import tempfile
from collections.abc import Iterable, Sequence
from dataclasses import replace
from functools import lru_cache
from pathlib import Path

from outage_tools.compare import Checked, figures_of_table, open_book
from tests.support import TESTS, TOOLS

IS_LONG = bool(os.environ.get("OUTAGEBOOK_LONG"))
SEEDS = range(1, 201 if IS_LONG else 61)
FORTNIGHT = ("2025-03-24", 14, "CET-1CEST,M3.5.0,M10.5.0/3")


@lru_cache(maxsize=None)
def folder() -> Path:
    path = Path(tempfile.mkdtemp(prefix="outagebook-many-"))
    atexit.register(shutil.rmtree, path, ignore_errors=True)
    return path


def make(*words: object) -> None:
    command = [sys.executable, str(TESTS / "made_districts.py"), *map(str, words)]
    subprocess.run(command, check=True, capture_output=True)


@lru_cache(maxsize=None)
def cut_networks(with_ties: bool = False) -> Path:
    """The folder of the seeds' whole networks and their two parts."""
    path = folder() / ("ties" if with_ties else "parts")
    make(path, "--seeds", SEEDS[0], SEEDS[-1], *(["--ties"] if with_ties else []))
    return path


def table_of(book: Path) -> Path:
    """The annual table beside a made book."""
    return book.with_name(f"{book.stem}.table.txt")


def parts_of(where: Path, seed: int) -> list[Path]:
    return [where / f"{seed}-{part}.db" for part in ("a", "b")]


def figures_of(lines: Iterable[str]) -> dict[str, str]:
    """What an annual table says; a feeder's lines, which a sum has for each district, are added up."""
    feeders: dict[str, int] = {}
    others = []
    for line in lines:
        words = line.split()
        if words[0] == "feeder":
            feeders[words[1]] = feeders.get(words[1], 0) + int(words[2])
        elif words[0] != "#":
            others.append(line)
    return {**figures_of_table(others), **{f"feeder {feeder}": str(amount) for feeder, amount in feeders.items()}}


def books_of(name: str, texts: dict[str, Sequence[str]], period: tuple[str, int, str] = FORTNIGHT) -> dict[str, Path]:
    """The books of some texts, by their names: each is rows without the header."""
    where = folder() / name
    where.mkdir(parents=True)
    lines = []
    for book, rows in texts.items():
        text = where / "texts" / f"{book}.csv"
        text.parent.mkdir(exist_ok=True)
        text.write_text("".join(f"{row}\n" for row in ["kind,ref,f1,f2,f3,f4,f5,f6", *rows]))
        lines.append(f"{text} {' '.join(map(str, period))}\n")
    (where / "list").write_text("".join(lines))
    make(where, "--texts", where / "list")
    return {book: where / f"{book}.db" for book in texts}


@lru_cache(maxsize=None)
def opened(book: Path) -> Checked:
    """A made book, compared with the model's table; its database is in memory, so that hundreds take no open file. What the program
    is asked for later it says of the made file itself."""
    with open_book(str(book), str(table_of(book))) as found:
        database = sqlite3.connect(":memory:")
        found.database.backup(database)
    return replace(found, database=database, file=book)


def run(tool: str, *words: object, **environment: str) -> "subprocess.CompletedProcess[str]":
    """Runs a tool by its thin command."""
    command = [sys.executable, str(TOOLS / f"{tool}.py"), *map(str, words)]
    return subprocess.run(command, capture_output=True, text=True, check=False, env={**os.environ, **environment})


def with_tables(books: Iterable[Path]) -> list[str]:
    """The words that name some made books, and their tables."""
    listed = list(books)
    return [*map(str, listed), *(word for book in listed for word in ("--table", str(table_of(book))))]


def district_rows(prefix: str, customer: int, feeder: int = 1, code: int = 3) -> list[str]:
    """A small district: a bus, two sections with a device each, three customers, a sustained and a momentary outage."""
    p = prefix
    return [
        f"cause,C1,{code},STORM,,,,",
        f"bus,N1,{p}-BUS,,,,,",
        f"section,N2,{p}-S1,{feeder},,,,",
        f"section,N3,{p}-S2,{feeder},,,,",
        f"device,D1,{p}-I,GRID,{p}-BUS,closed,,",
        f"device,D2,{p}-B1,{p}-BUS,{p}-S1,closed,,",
        f"device,D3,{p}-B2,{p}-S1,{p}-S2,closed,,",
        f"connect,K1,{customer},{p}-S1,0,,,",
        f"connect,K2,{customer + 1},{p}-S2,0,,,",
        f"connect,K3,{customer + 2},{p}-S2,0,,,",
        f"switch,E1,{p}-B1,open,2025-03-25T10:00:00+01:00,{code},CREW,",
        f"switch,E2,{p}-B1,close,2025-03-25T11:00:00+01:00,{code},CREW,",
        f"switch,E3,{p}-B2,open,2025-03-26T10:00:00+01:00,{code},CREW,",
        f"switch,E4,{p}-B2,close,2025-03-26T10:05:00+01:00,{code},CREW,",
    ]
