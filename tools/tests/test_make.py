"""A book by one command: that of the single steps, whole or not at all. The model stands in for the program (made_program.py) where
there is none, and where a test wants a second one or one that takes its time."""

import contextlib
import errno
import fcntl
import os
import pty
import shutil
import signal
import sqlite3
import subprocess
import time
import unittest
from pathlib import Path
from unittest import mock

from outage_tools import placing
from outage_tools.errors import BookError
from tests import exports, kill_make, support
from tests.kill_make import Maker

KILLS = 20


def commands_of(book: Path) -> list[tuple[str, str]]:
    """The references and the bodies of a book's commands."""
    with contextlib.closing(sqlite3.connect(f"{book.as_uri()}?mode=ro", uri=True)) as database:
        return database.execute("SELECT ref, body FROM cmd ORDER BY id").fetchall()


class Making(unittest.TestCase):
    def setUp(self) -> None:
        self.folder = support.folder() / "make"
        self.addCleanup(shutil.rmtree, self.folder, True)
        self.folder.mkdir()
        program = support.PROGRAM if support.has_program() else kill_make.stand_in(self.folder)
        self.maker = Maker(self.folder / "runs", program)

    def refused(self, *words: object, status: int = 1, files: set[str] = set()) -> str:
        """A run that makes no book, and leaves no file: what it says."""
        done = self.maker.run(*words)
        self.assertEqual((done.returncode, self.maker.files()), (status, files), done.stderr)
        self.assertEqual([*self.maker.work.iterdir()], [])
        self.assertNotIn("Traceback", done.stderr)
        return done.stderr

    def changed(self, name: str, text: str) -> list[str]:
        """Words that put another export in the place of a sample."""
        path = self.folder / f"{name}.csv"
        path.write_text(text)
        return [f"--{name}", str(path)]

    def without(self, *names: str) -> None:
        """Leaves words out of all runs."""
        command = self.maker.command

        def shorter(*words: object) -> list[str]:
            whole = command(*words)
            for name in names:
                place = whole.index(name)
                del whole[place : place + 2]
            return whole

        mock.patch.object(self.maker, "command", shorter).start()
        self.addCleanup(mock.patch.stopall)


class Whole(Making):
    def test_the_book_is_that_of_the_single_steps(self) -> None:
        self.maker.program = kill_make.stand_in(self.folder)
        done = self.maker.run()
        self.assertEqual(done.returncode, 0, done.stderr)
        self.assertEqual(done.stdout.splitlines()[-1], f"made {self.maker.book}")
        self.assertIn("39 commands, audit ok, equal to the program's table\n", done.stdout)
        self.assertIn("it fits, and nothing is wrong\n", done.stdout)
        self.assertIn("Tickets in both: 4, of which 3 equal, 1 equal but for rounded minutes, 0 different", done.stdout)
        self.assertEqual(self.maker.files(), {"book.db", "page.html"})
        self.assertEqual([*self.maker.work.iterdir()], [])
        table = kill_make.table_of(self.maker)
        self.assertIsNone(kill_make.wrong_after(self.maker, table, 39))
        self.assertEqual(commands_of(self.maker.book), commands_of(self.maker.folder / "book.db"))
        self.assertIn("T-2041", self.maker.page.read_text())
        mask = os.umask(0)
        os.umask(mask)
        self.assertEqual(self.maker.book.stat().st_mode & 0o777, 0o666 & ~mask)

    def test_a_second_run_changes_nothing(self) -> None:
        self.maker.book.write_bytes(b"mine")
        said = self.refused(files={"book.db"})
        self.assertIn("book.db exists, and stays as it is", said)
        self.assertEqual(self.maker.book.read_bytes(), b"mine")

    def test_a_log_of_another_book(self) -> None:
        """SQLite would read it with the new file."""
        for suffix in ("-wal", "-journal"):
            other = self.maker.target / f"book.db{suffix}"
            other.write_bytes(b"")
            self.assertIn(f"book.db{suffix} exists", self.refused(files={other.name}))
            other.unlink()

    def test_a_page_that_exists(self) -> None:
        self.maker.page.write_text("mine")
        self.assertIn("page.html exists", self.refused(files={"page.html"}))

    def test_a_folder_that_is_not_there(self) -> None:
        self.maker.book = self.maker.target / "none" / "book.db"
        self.assertIn("can't be written: No such file or directory", self.refused())

    def test_without_a_page_and_with_the_counts_in_the_export(self) -> None:
        self.without("--counts", "--report")
        oms = exports.sample("oms").replace("ticket,step,", "ticket,customers,customer_minutes,step,")
        oms = oms.replace("T-2041,", "T-2041,6,416,").replace("T-2042,", "T-2042,2,9,").replace("T-2043,", "T-2043,,,")
        oms = oms.replace("T-2044,", "T-2044,,,").replace("T-2045,", "T-2045,8,,")
        self.without("--oms")
        done = self.maker.run(*self.changed("oms", oms))
        self.assertEqual((done.returncode, self.maker.files()), (0, {"book.db"}), done.stderr)
        self.assertIn("Tickets in both: 3, of which 2 equal, 1 equal but for rounded minutes", done.stdout)

    def test_without_counts(self) -> None:
        self.without("--counts")
        done = self.maker.run()
        self.assertEqual(done.returncode, 0, done.stderr)
        self.assertNotIn("Tickets in both", done.stdout)

    def test_a_terminal_shows_the_steps(self) -> None:
        ours, theirs = pty.openpty()
        self.addCleanup(os.close, ours)
        child = subprocess.Popen(self.maker.command(), stdout=subprocess.DEVNULL, stderr=theirs)
        os.close(theirs)
        said = b""
        with contextlib.suppress(OSError):  # the terminal's other side is closed
            while part := os.read(ours, 4_096):
                said += part
        self.assertEqual(child.wait(), 0, said)
        lines = said.decode().splitlines()
        self.assertEqual(lines[0], "step 1 of 5: checks the exports")
        self.assertIn("step 3 of 5: imports 39 rows", lines)

    def test_signals_to_end(self) -> None:
        """What was made so far goes away, and the program that is at work ends."""
        self.maker.program = kill_make.stand_in(self.folder)
        for number in (signal.SIGTERM, signal.SIGINT, signal.SIGHUP):
            child = subprocess.Popen(self.maker.command(), stdout=subprocess.DEVNULL, stderr=subprocess.DEVNULL)
            while not [*self.maker.work.glob("*/rows.csv")]:
                self.assertIsNone(child.poll())
                time.sleep(0.01)
            child.send_signal(number)
            self.assertEqual(child.wait(), 128 + number)
            self.assertEqual(([*self.maker.work.iterdir()], self.maker.files()), ([], set()))
            self.assertTrue(self.maker.have_ended())


class Refused(Making):
    def test_a_row_that_cannot_be_taken(self) -> None:
        self.without("--oms")
        oms = exports.sample("oms") + "T-9,1,CB-7,2025-10-21 09:00,,2025-10-21 11:00,,WIND,CREW-A,,\n"
        said = self.refused(*self.changed("oms", oms), status=2)
        self.assertIn("something is wrong with the exports, and no book was made", said)

    def test_a_network_that_is_not_whole(self) -> None:
        self.without("--gis")
        gis = exports.changed("gis", ("device,SW-81,,WHARF,DEPOT,closed\n", ""))
        self.refused(*self.changed("gis", gis), status=2)

    def test_a_loop_that_is_meant(self) -> None:
        self.without("--gis")
        gis = exports.changed("gis", ("device,TIE-78,,ELM-STREET,DEPOT,open", "device,TIE-78,,ELM-STREET,DEPOT,closed"))
        oms = "".join(line for line in exports.sample("oms").splitlines(keepends=True) if "TIE-78" not in line)
        self.without("--oms")
        words = [*self.changed("gis", gis), *self.changed("oms", oms)]
        self.refused(*words, status=2)
        self.assertEqual(self.maker.run(*words, "--meshed").returncode, 0)

    def test_an_export_that_is_not_there(self) -> None:
        self.without("--gis")
        self.assertIn("none.csv", self.refused("--gis", self.folder / "none.csv"))

    def test_words_that_are_missing(self) -> None:
        self.without("--zone")
        self.assertIn("--zone", self.refused(status=64))

    def test_one_name_for_book_and_page(self) -> None:
        self.assertIn("name one file", self.refused("--report", self.maker.book, status=64))

    def test_counts_that_are_not_there(self) -> None:
        self.without("--counts")
        self.assertIn("hasn't the columns customers and customer_minutes", self.refused("--counts"))

    def test_counts_that_cannot_be_read(self) -> None:
        self.without("--counts")
        counts = self.folder / "counts.csv"
        counts.write_text("ticket,customers,customer_minutes\nT-2041,six,416\n")
        self.assertIn("customers 'six' isn't a whole number", self.refused("--counts", counts))

    def test_a_program_that_is_not_there(self) -> None:
        self.assertIn("the program /none can't be run", self.refused("--program", "/none"))

    def test_a_program_that_fails(self) -> None:
        self.assertIn("init: status 1; no book was made", self.refused("--program", "/bin/false"))

    def test_a_program_that_says_something_else(self) -> None:
        """Of the import, of the audit, and in the table, which the book is compared with."""
        cases = {
            "import) echo added 38 again 0;;": "the import of 39 rows prints 'added 38 again 0'; no book was made",
            "audit) echo audit differs entry;;": "the audit prints 'audit differs entry'; no book was made",
        }
        for case, said in cases.items():
            program = self.folder / "other"
            program.write_text(f'#!/bin/sh\ncase $1 in {case}\n*) exec {self.maker.program} "$@";; esac\n')
            program.chmod(0o755)
            self.assertIn(said, self.refused("--program", program))
        program.write_text(f'#!/bin/sh\n{self.maker.program} "$@" | sed "s/^SAIDI     all .*/SAIDI     all 1/"\n')
        self.assertIn("differs: SAIDI all", self.refused("--program", program, status=2))


class Kills(Making):
    def test_killed_at_random_moments(self) -> None:
        """kill_make.py takes as many as are asked for."""
        maker = Maker(self.folder / "kills", self.maker.program)
        seen = kill_make.killed(maker, KILLS, seed=20)
        self.assertEqual(seen.wrong, [], seen)


class Placing(unittest.TestCase):
    def setUp(self) -> None:
        self.folder = support.folder() / "placing"
        self.folder.mkdir()
        self.addCleanup(shutil.rmtree, self.folder)
        self.path = self.folder / "book.db"

    def names(self) -> list[str]:
        return sorted(path.name for path in self.folder.iterdir())

    def test_a_file_has_no_name_before_it_is_whole(self) -> None:
        with placing.new_file(self.path) as file:
            file.write(b"half")
            file.flush()
            self.assertEqual(self.names(), [])
        self.assertEqual((self.names(), self.path.read_bytes()), (["book.db"], b"half"))

    def test_a_block_that_ends_badly(self) -> None:
        with self.assertRaises(ZeroDivisionError), placing.new_file(self.path) as file:
            file.write(b"half")
            raise ZeroDivisionError
        self.assertEqual(self.names(), [])

    def test_a_name_that_another_got_meanwhile(self) -> None:
        with self.assertRaises(BookError), placing.new_file(self.path):
            self.path.write_bytes(b"other")
        self.assertEqual((self.names(), self.path.read_bytes()), (["book.db"], b"other"))

    def test_a_system_without_unnamed_files(self) -> None:
        """A hidden file, which the next run removes."""
        opened = os.open

        def without(path: str, flags: int, mode: int = 0o777) -> int:
            if flags & os.O_TMPFILE == os.O_TMPFILE:
                raise OSError(errno.EOPNOTSUPP, "Operation not supported")
            return opened(path, flags, mode)

        (self.folder / ".book.db.new").write_bytes(b"left by a killed run")
        with mock.patch("outage_tools.placing.os.open", without):
            with placing.new_file(self.path) as file:
                file.write(b"whole")
                self.assertEqual(self.names(), [".book.db.new"])
            self.assertEqual((self.names(), self.path.read_bytes()), (["book.db"], b"whole"))
            self.path.unlink()
            with self.assertRaises(BookError), placing.new_file(self.path):
                self.path.write_bytes(b"other")
        self.assertEqual((self.names(), self.path.read_bytes()), (["book.db"], b"other"))

    def test_folders_that_killed_runs_have_left(self) -> None:
        left, held, others = (self.folder / name for name in (f"{placing.prefix()}a", f"{placing.prefix()}b", "c"))
        for folder in (left, held, others):
            folder.mkdir()
            (folder / "book.db").write_bytes(b"")
        lock = os.open(held, os.O_RDONLY)
        fcntl.flock(lock, fcntl.LOCK_EX)
        self.addCleanup(os.close, lock)
        with placing.own_folder(self.folder) as own:
            self.assertEqual(self.names(), sorted([held.name, others.name, own.name]))
        self.assertEqual(self.names(), sorted([held.name, others.name]))

    def test_where_the_folder_is_made(self) -> None:
        self.assertNotEqual(placing.place_for(1 << 60), placing.SHARED_MEMORY)


@support.needs_program
class ByTheProgram(Making):
    def test_the_book_is_that_of_the_single_steps(self) -> None:
        maker = Maker(self.folder / "program", support.PROGRAM)
        done = maker.run()
        self.assertEqual(done.returncode, 0, done.stderr)
        self.assertEqual(maker.files(), {"book.db", "page.html"})
        table = kill_make.table_of(maker)
        self.assertEqual(exports.program("table", "--book", maker.book).stdout, table.read_text())
        self.assertEqual(exports.program("audit", "--book", maker.book).stdout, "audit ok\n")
        self.assertEqual(commands_of(maker.book), commands_of(maker.folder / "book.db"))

    def test_files_that_can_be_no_longer(self) -> None:
        """As on a full disk: the rows, the database when it is made and while it grows, and the copy that gets the name."""
        self.maker = Maker(self.folder / "program", support.PROGRAM)
        self.assertEqual(self.maker.run().returncode, 0)
        whole, command = self.maker.book.stat().st_size, self.maker.command
        for most in [1_000, 20_000, whole // 2, whole - 1]:
            self.maker.clear()
            limit = ["prlimit", f"--fsize={most}"]
            with self.subTest(most=most), mock.patch.object(self.maker, "command", lambda *it: [*limit, *command(*it)]):
                self.assertIn("error: ", self.refused())


if __name__ == "__main__":
    unittest.main()
