"""The reader of books, the walk of drafts over them, and books whose rows or tables were changed."""

import contextlib
import random
import shutil
import sqlite3
import subprocess
import threading
import unittest
from pathlib import Path

from outage_tools.by_oracle import compare_rows
from outage_tools.compare import compare_table, figures_of_table, open_book
from outage_tools.copies import copy_of
from outage_tools.errors import BookError, Differs
from outage_tools.interruptions import joined
from outage_tools.supply import interruptions_of, sweep
from tests import support


def changed(name: str, statement: str) -> Path:
    """A copy of the fortnight's book with a row changed."""
    copy = support.folder() / f"{name}.db"
    shutil.copyfile(support.fortnight().book, copy)
    with contextlib.closing(sqlite3.connect(str(copy))) as database:
        database.execute("PRAGMA synchronous = off")
        database.execute(statement)
        database.commit()
    return copy


class MadeBooks(unittest.TestCase):
    def test_all_are_equal_to_the_model(self) -> None:
        for made in support.books():
            with self.subTest(made.name):
                self.assertGreater(len(support.opened(made).table), 36)

    def test_the_walk_of_drafts_finds_the_same(self) -> None:
        """With lives that begin and end, and several switchings in one second."""
        for made in support.books():
            found = support.opened(made)
            with self.subTest(made.name):
                self.assertEqual(interruptions_of(found.book, sweep(found.book)), found.interruptions)

    @support.needs_program
    def test_all_are_equal_to_the_program(self) -> None:
        for made in support.books():
            path = support.folder() / f"program-{made.name}.db"
            first, days, zone = made.period
            period = ["--first", first, "--days", days, "--zone", zone]
            subprocess.run([support.PROGRAM, "init", "--book", path, *period], check=True, capture_output=True)
            subprocess.run([support.PROGRAM, "import", "--book", path, made.text], check=False, capture_output=True)
            with self.subTest(made.name), open_book(str(path), program=str(support.PROGRAM)) as found:
                self.assertEqual("\n".join(found.table) + "\n", made.table.read_text())


class Lives(unittest.TestCase):
    def test_lives_are_read(self) -> None:
        """In the fortnight TIE-2 joins and FUSE-13 leaves; if they had another life, other figures would follow."""
        made = support.fortnight()
        book = support.opened(made).book
        lives = {device.name: (device.since, device.until) for device in book.devices}
        self.assertEqual(lives["TIE-2"], (1_743_598_800, None))
        self.assertEqual((lives["FUSE-13"], lives["CB-1"]), ((0, 1_743_841_800), (0, None)))

    def test_a_life_for_each_device(self) -> None:
        path = changed("no-life", "DELETE FROM life WHERE device = 3")
        with self.assertRaises(BookError):
            with open_book(str(path), str(support.fortnight().table)):
                pass


class Changed(unittest.TestCase):
    """What differs is told with both values, and nothing is answered. The program refuses to read most of these books."""

    def setUp(self) -> None:
        self.enterContext(support.model_answers())

    def reported(self, path: Path, table: Path | None = None) -> str:
        done = support.run_tool("figures", path, "days", "--table", table or support.fortnight().table)
        self.assertEqual((done.returncode, done.stdout), (2, ""))
        return done.stderr

    def test_rows_of_each_table(self) -> None:
        """The model finds another row from the book's commands; one that acts on another period may refuse them."""
        changes = {
            "posting": "UPDATE posting SET amount = amount + 1 WHERE dim = 2 AND k = 1",
            "entry": "UPDATE entry SET second = second + 1 WHERE id = 7",
            "customer": "UPDATE customer SET until = 1743600000 WHERE id = 10401",
            "device": "UPDATE device SET normal = 0 WHERE id = 4",
            "life": "UPDATE life SET since = 1743800000 WHERE since > 0",
        }
        for table, change in changes.items():
            done = support.run_tool("compare", changed(f"change-{table}", change), table=support.fortnight())
            self.assertEqual((done.returncode, done.stdout), (2, ""), change)
            self.assertIn(f"table {table} of the book" if table != "customer" else "differs: ", done.stderr)

    def test_rows_of_interruptions(self) -> None:
        compare_rows(["a", "b"], ["a", "b"])
        for here, there, told in ((["a", "b"], ["a", "c"], "row 1"), (["a", "b"], ["a"], "rows of")):
            with self.assertRaisesRegex(Differs, told):
                compare_rows(here, there)

    def test_what_a_tool_itself_reads(self) -> None:
        changes = [
            "UPDATE posting SET amount = amount + 1 WHERE dim = 3 AND k = 3",
            "UPDATE customer SET since = 1743150000 WHERE id = 10401",
            "UPDATE node SET feeder = 2 WHERE id = 3",
            "DELETE FROM mark",
            "INSERT INTO mark VALUES (3, 'E')",
        ]
        for number, change in enumerate(changes):
            with self.subTest(change), self.assertRaises(Differs):
                with open_book(str(changed(f"read-{number}", change)), str(support.fortnight().table)):
                    pass

    def test_each_line_of_the_table(self) -> None:
        lines = support.fortnight().table.read_text().splitlines()
        wanted = figures_of_table(lines)
        compare_table(wanted, figures_of_table(lines))
        for number, line in enumerate(lines):
            other = line[:-1] + ("1" if line[-1] != "1" else "2")
            without = [*lines[:number], *lines[number + 1 :]]
            for changed_lines in (without, [*without, other]):
                with self.subTest(line), self.assertRaises(Differs):
                    compare_table(wanted, figures_of_table(changed_lines))

    def test_of_the_table_is_told_which(self) -> None:
        path = support.folder() / "saidi.txt"
        text = support.fortnight().table.read_text()
        path.write_text(text.replace("3089035/20986 147.195", "3089036/20986 147.195"))
        self.assertEqual(
            self.reported(support.fortnight().book, path),
            "differs: SAIDI unmarked: found here "
            "3089035/20986 147.195, in the book or its table 3089036/20986 147.195\n",
        )


class NoBooks(unittest.TestCase):
    def test_they_are_told_in_plain_words(self) -> None:
        here = support.folder()
        (here / "text.db").write_text("kind,ref\n")
        (here / "empty.db").write_bytes(b"")
        (here / "begun.db").write_bytes(b"SQLite format 3\0")
        (here / "short.db").write_bytes(b"SQLite format 3\0" + b"\2" * 40)
        with contextlib.closing(sqlite3.connect(str(here / "other.db"))) as database:
            database.execute("CREATE TABLE t (a)")
        changed("version", "UPDATE meta SET version = 3")
        for name in ["nowhere.db", "text.db", "empty.db", "begun.db", "short.db", "other.db", "version.db", "."]:
            done = support.run_tool("compare", here / name, table=support.fortnight())
            self.assertEqual((done.returncode, done.stdout), (1, ""), name)
            self.assertTrue(done.stderr.startswith("error: "), done.stderr)

    def test_a_program_that_isnt_there(self) -> None:
        done = support.run_tool("compare", support.fortnight().book, "--program", "/nowhere/outagebook")
        self.assertEqual((done.returncode, done.stdout), (1, ""))
        self.assertIn("--program PATH names it", done.stderr)

    def test_wrong_words(self) -> None:
        self.assertEqual(support.run_tool("compare").returncode, 64)
        self.assertEqual(support.run_tool("figures", "book.db", "weeks").returncode, 64)


class AtWork(unittest.TestCase):
    """A book that somebody else writes."""

    def test_one_that_is_locked(self) -> None:
        path = changed("locked", "DELETE FROM mark WHERE day = 0")
        with contextlib.closing(sqlite3.connect(str(path), isolation_level=None)) as writer:
            writer.execute("PRAGMA locking_mode = exclusive")
            writer.execute("PRAGMA journal_mode = wal")
            writer.execute("BEGIN IMMEDIATE")
            writer.execute("UPDATE posting SET amount = 7 WHERE dim = 3 AND k = 1")  # half of a command
            with support.model_answers(), open_book(str(path), str(support.fortnight().table)) as found:
                self.assertEqual(len([*joined(found.interruptions)]), 23)
            writer.execute("COMMIT")
            with support.model_answers(), self.assertRaises(Differs):
                with open_book(str(path), str(support.fortnight().table)):
                    pass

    def test_copies_are_of_one_commit(self) -> None:
        """Each commit moves an amount between rows of many pages; no copy shows a part of one."""
        path = support.folder() / "busy.db"
        with contextlib.closing(sqlite3.connect(str(path))) as database:
            database.execute("PRAGMA journal_mode = wal")
            database.execute("CREATE TABLE amount (id INTEGER PRIMARY KEY, value INTEGER, filler TEXT)")
            database.executemany("INSERT INTO amount VALUES (?, 100, ?)", ((n, "x" * 900) for n in range(200)))
            database.commit()
        enough = threading.Event()
        writer = threading.Thread(target=write_until, args=(path, enough))
        writer.start()
        try:
            for _ in range(25):
                with copy_of(path) as copy, contextlib.closing(sqlite3.connect(str(copy))) as database:
                    self.assertEqual(
                        database.execute("SELECT sum(value), count(*) FROM amount").fetchone(), (20_000, 200)
                    )
                    self.assertEqual(database.execute("PRAGMA integrity_check").fetchone(), ("ok",))
        finally:
            enough.set()
            writer.join()


def write_until(path: Path, enough: threading.Event) -> None:
    """Commits one after another, with the log emptied now and then."""
    rng = random.Random(1)
    with contextlib.closing(sqlite3.connect(str(path), isolation_level=None)) as database:
        database.execute("PRAGMA locking_mode = exclusive")
        database.execute("PRAGMA synchronous = off")
        database.execute("PRAGMA wal_autocheckpoint = 200")
        while not enough.is_set():
            database.execute("BEGIN")
            for _ in range(3):
                a, b = rng.sample(range(200), 2)
                database.execute("UPDATE amount SET value = value - 1 WHERE id = ?", (a,))
                database.execute("UPDATE amount SET value = value + 1 WHERE id = ?", (b,))
            database.execute("COMMIT")
            enough.wait(0.001)
