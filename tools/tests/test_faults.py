"""Faults planted one at a time in the package's files: its own comparison catches each, over the made books."""

import csv
import itertools
import shutil
import sqlite3
import sys
import unittest
from collections.abc import Iterator
from contextlib import closing, contextmanager
from functools import lru_cache
from importlib import import_module
from pathlib import Path

from outage_tools.program import answer_of
from tests import support

FILES = ["rows.py", "interruptions.py", "counts.py", "selections.py", "compare.py"]
FAULTS = {
    "a sustained interruption of 300 seconds": (
        "self.seconds > LONGEST_MOMENTARY",
        "self.seconds >= LONGEST_MOMENTARY",
    ),
    "an end that is taken a second late": (
        "second_of(since), second_of(until)",
        "second_of(since), second_of(until) + 1",
    ),
    "a beginning that is taken a second late": (
        "second_of(since), second_of(until)",
        "second_of(since) + 1, second_of(until)",
    ),
    "customers of equal service counted once": ("customers[place] += int(count)", "customers[place] = int(count)"),
    "a cause that isn't told": ("about[place] = causes[cause]", "about[place] = 0"),
    "a section taken for another": ("place = nodes[section]", "place = max(nodes.values())"),
    "a mark that is looked for a day late": ("self.period.day_of(second) in", "self.period.day_of(second) + 1 in"),
    "a mark that is never looked for": ("return self.period.day_of(second) in self.marks", "return False"),
    "customers with ten interruptions that aren't read": ("for n in range(1, 11)]", "for n in range(1, 10)]"),
    "customers of another number of interruptions": ('customers_of(row[f"cemi_{n}"]', 'customers_of(row["cemi_1"]'),
    "a count that is read twice": ('("sustained", "sustained_customer_seconds"', '("sustained", "sustained"'),
    "momentary ones among the sustained": ("if each.is_sustained:", "if True:"),
}


def is_of_package(name: str) -> bool:
    return name.split(".")[0] == "outage_tools"


def planted_package(folder: Path, old: str, new: str) -> None:
    """A copy of the package with a text replaced, which stands in it once."""
    shutil.copytree(
        support.TOOLS / "outage_tools", folder / "outage_tools", ignore=shutil.ignore_patterns("__pycache__")
    )
    files = {folder / "outage_tools" / name for name in FILES}
    texts = {file: file.read_text() for file in files}
    count = sum(text.count(old) for text in texts.values())
    if count != 1:
        raise ValueError(f"{old!r} stands {count} times in {', '.join(FILES)}")
    for file, text in texts.items():
        file.write_text(text.replace(old, new))


@contextmanager
def imported_from(folder: Path) -> Iterator[None]:
    """The package is that of a folder, and afterwards the one that it was before."""
    own = {name: sys.modules.pop(name) for name in list(sys.modules) if is_of_package(name)}
    sys.path.insert(0, str(folder))
    try:
        yield
    finally:
        sys.path.remove(str(folder))
        for name in list(filter(is_of_package, sys.modules)):
            del sys.modules[name]
        sys.modules.update(own)


@lru_cache(maxsize=None)
def listed(made: support.Made) -> list[list[str]]:
    """The rows of a made book's interruptions."""
    return [*csv.reader(support.opened(made).rows_file.read_text().splitlines())][1:]


@lru_cache(maxsize=None)
def counted(made: support.Made) -> str:
    """What the program says of a whole made book."""
    return answer_of("outagebook", "indices", "--book", made.book, "--by", "whole", "--over", 300)


number = itertools.count()


def catching(old: str, new: str) -> Iterator[str]:
    """The made books over which the package, with a text replaced, finds that something differs."""
    folder = support.folder() / f"planted-{next(number)}"
    planted_package(folder, old, new)
    with imported_from(folder):
        names = "compare", "rows", "errors", "selections"
        compare, rows, errors, selections = (import_module(f"outage_tools.{name}") for name in names)
    for made in support.books():
        with closing(sqlite3.connect(f"file:{made.book}?mode=ro", uri=True)) as database:
            try:
                lines = made.table.read_text().splitlines()
                whole = {name: each["whole"] for name, each in selections.read_selections(counted(made)).items()}
                compare.checked(rows.read_book(database), listed(made), lines, whole, database, made.book, "")
            except errors.Differs:
                yield made.name


class Faults(unittest.TestCase):
    def test_each_is_caught(self) -> None:
        for name, (old, new) in FAULTS.items():
            with self.subTest(name):
                self.assertIsNotNone(next(catching(old, new), None))

    def test_none_is_found_where_none_is_planted(self) -> None:
        self.assertEqual(list(catching("LONGEST_MOMENTARY = 300", "LONGEST_MOMENTARY = 300")), [])
