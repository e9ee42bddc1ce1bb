"""Exports that were spoilt at random: each is refused with a row, or gives rows that are imported whole.

SPOILT_EXPORTS=FROM-TO takes these seeds in place of the first 300, and imports with the program beside the oracle's model.
"""

import contextlib
import io
import json
import os
import shutil
import subprocess
import sys
import unittest
from collections.abc import Iterator
from functools import lru_cache
from pathlib import Path

from outage_tools.compare import open_book
from outage_tools.errors import BookError
from outage_tools.oms import convert
from outage_tools.oms.known import Known, known_of
from tests import exports, support
from tests.spoilt import spoilt

USUAL = "0-300"


@lru_cache(maxsize=None)
def texts() -> dict[str, bytes]:
    """The samples, with lives, services and a ticket that runs over the end beside them."""
    gis = exports.sample("gis").replace("\n", ",,\n").replace("normal,,", "normal,since,until", 1)
    gis += "device,OLD-1,,WHARF,DEPOT,open,1999-01-01,2024-05-01\ndevice,NEW-1,,WHARF,DEPOT,open,2025-10-25 12:00,\n"
    oms = exports.sample("oms") + "T-2046,1,NEW-1,2025-11-05 09:00,,2025-11-02 09:00,,WIND,,,\n"
    oms += "T-2040,1,CB-8,2025-10-19 09:00,,2025-10-20 09:00,,TREE DOWN,CREW-C,CET-1CEST,,\n".replace("CET-1CEST,", "")
    found = {"causes": exports.sample("causes"), "gis": gis, "customers": exports.sample("customers"), "oms": oms}
    return {name: text.encode() for name, text in found.items()}


class Model:
    """The oracle's model, which is asked whether it takes rows."""

    def __init__(self, *has: Path) -> None:
        words = [
            sys.executable,
            str(support.TESTS / "taken_rows.py"),
            exports.PERIOD[1],
            exports.PERIOD[3],
            exports.ZONE,
        ]
        self.process = subprocess.Popen(
            [*words, *map(str, has)], stdin=subprocess.PIPE, stdout=subprocess.PIPE, text=True
        )

    def says(self, text: str) -> str:
        assert self.process.stdin is not None and self.process.stdout is not None
        self.process.stdin.write(json.dumps(text) + "\n")
        self.process.stdin.flush()
        return self.process.stdout.readline().strip()

    def close(self) -> None:
        self.process.communicate()


@support.needs_program
class Spoilt(unittest.TestCase):
    """Half of them are for a book that isn't made yet, half for one that has the rows of the exports as they were."""

    def setUp(self) -> None:
        self.folder = support.folder() / "oms-spoilt"
        shutil.rmtree(self.folder, ignore_errors=True)
        self.folder.mkdir()
        self.counts = {"refused": 0, "taken": 0}
        self.taken_before: set[tuple[bool, str]] = set()
        self.empty, self.full = (exports.new_book(self.folder / f"{name}.db") for name in ("empty", "full"))
        status, text, _ = self.converted(texts(), None)
        self.assertEqual(status, 0)
        self.assertEqual(exports.import_text(self.full, text)[0], 0)
        with open_book(str(self.full), program=str(support.PROGRAM)) as found:
            self.known = known_of(found)
        self.models = {False: Model(), True: Model(self.full.with_suffix(".rows.csv"))}
        for model in self.models.values():
            self.addCleanup(model.close)

    def converted(self, files: dict[str, bytes], known: Known | None) -> tuple[int, str, str]:
        """What a run gives, by its function: a fault that isn't foreseen is one of the test."""
        words = []
        for name, data in files.items():
            path = self.folder / f"{name}.csv"
            path.write_bytes(data)
            words += [f"--{name}", str(path)]
        args = convert.own_parser().parse_args(words + (exports.PERIOD if known is None else []))
        out, err = io.StringIO(), io.StringIO()
        with contextlib.redirect_stdout(out), contextlib.redirect_stderr(err):
            try:
                convert.convert(args, known or Known())
            except BookError as error:
                return 1, out.getvalue(), str(error)
        return 0, out.getvalue(), err.getvalue()

    def look_at(self, seed: int, with_program: bool) -> None:
        has_book = seed % 2 == 1
        status, out, err = self.converted(spoilt(seed, texts()), self.known if has_book else None)
        if status:
            self.counts["refused"] += 1
            self.assertEqual(out, "")
            self.assertRegex(err, r"\.csv: (row [0-9]+|the line of column names): ")
            return
        self.counts["taken"] += 1
        if (has_book, out) in self.taken_before:
            return
        self.taken_before.add((has_book, out))
        self.assertEqual(self.models[has_book].says(out), "taken")
        if with_program:
            self.import_by_program(self.full if has_book else self.empty, out)

    def import_by_program(self, book: Path, text: str) -> None:
        copy = self.folder / "copy.db"
        for path in self.folder.glob("copy.db*"):
            path.unlink()
        for path in self.folder.glob(f"{book.name}*"):
            shutil.copyfile(path, self.folder / path.name.replace(book.name, "copy.db"))
        status, said = exports.import_text(copy, text)
        self.assertEqual(status, 0, said)

    def seeds(self) -> Iterator[int]:
        first, last = os.environ.get("SPOILT_EXPORTS", USUAL).split("-")
        yield from range(int(first), int(last))

    def test_each_is_refused_with_a_row_or_taken_whole(self) -> None:
        for seed in self.seeds():
            try:
                self.look_at(seed, "SPOILT_EXPORTS" in os.environ)
            except Exception as error:
                raise AssertionError(f"seed {seed}: {error}") from error
        self.assertGreater(min(self.counts.values()), 10)
        if "SPOILT_EXPORTS" in os.environ:
            print(self.counts, len(self.taken_before), "different texts imported")


if __name__ == "__main__":
    unittest.main()
