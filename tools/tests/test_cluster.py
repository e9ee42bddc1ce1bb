"""Work on a cluster: the same answer as on one machine, or a failure with a book's name, whatever ends meanwhile."""

import hashlib
import os
import shutil
import signal
import socket
import subprocess
import sys
import time
import unittest
from collections.abc import Callable
from contextlib import ExitStack
from functools import lru_cache, partial
from importlib.util import find_spec
from pathlib import Path
from unittest.mock import patch

from outage_tools import cluster
from outage_tools.cluster import ABSENT, Asked, asked_for, files_of, work_here
from outage_tools.errors import BookError
from outage_tools.parallel import over_books, told
from outage_tools.sums import read_district
from tests import many_books, own_postgres
from tests.many_books import books_of, district_rows, run, table_of, with_tables
from tests.support import TOOLS

needs_distributed = unittest.skipUnless(find_spec("distributed"), "Debian's python3-distributed isn't installed")
needs_postgres = unittest.skipIf(own_postgres.missing(), own_postgres.missing() or "")
STARTS_IN = 60  # seconds
BOOKS = 6


@lru_cache(maxsize=None)
def books() -> list[Path]:
    """The books of some districts."""
    return [*books_of("cluster", {f"d{n}": district_rows(f"D{n}", 10 * n + 1) for n in range(BOOKS)}).values()]


@lru_cache(maxsize=None)
def slow_program() -> Path:
    """A program that takes a second for the table of a book, and writes down that it began; it does all else as the one on the path."""
    where = many_books.folder() / "slow"
    where.mkdir()
    for book in books():
        shutil.copy(table_of(book), where / hashlib.sha256(book.read_bytes()).hexdigest())
    program = where / "outagebook"
    program.write_text(
        f'#!/bin/sh\n[ "$1" = table ] || exec "{shutil.which("outagebook")}" "$@"\n'
        f'echo begun >> {where}/begun\nsleep 1\nexec cat "{where}/$(sha256sum "$3" | cut -c 1-64)"\n'
    )
    program.chmod(0o755)
    return program


def begun() -> int:
    """How often the slow program was run."""
    told_of = slow_program().with_name("begun")
    return len(told_of.read_text().splitlines()) if told_of.exists() else 0


def wait_until(holds: Callable[[], bool]) -> None:
    end = time.monotonic() + STARTS_IN
    while not holds():
        if time.monotonic() > end:
            raise RuntimeError("it takes too long")
        time.sleep(0.05)


def free_port() -> int:
    with socket.socket() as one:
        one.bind(("127.0.0.1", 0))
        return int(one.getsockname()[1])


class Machines:
    """A scheduler and workers, each a process of its own, ended with the block."""

    def __init__(self, workers: int):
        self.port = free_port()
        self.address = f"tcp://127.0.0.1:{self.port}"
        self.stack = ExitStack()
        self.scheduler = self.start_scheduler()
        self.workers = [self.start_worker() for _ in range(workers)]

    def __enter__(self) -> "Machines":
        return self

    def __exit__(self, *why: object) -> None:
        self.stack.close()

    def start(self, *words: str) -> "subprocess.Popen[bytes]":
        environment = {**os.environ, "PYTHONPATH": str(TOOLS)}
        command = [sys.executable, "-m", *words]
        child = subprocess.Popen(command, env=environment, stdout=subprocess.DEVNULL, stderr=subprocess.DEVNULL)
        self.stack.callback(child.wait)
        self.stack.callback(child.kill)
        return child

    def start_scheduler(self) -> "subprocess.Popen[bytes]":
        words = ["--host", "127.0.0.1", "--port", str(self.port), "--no-dashboard"]
        child = self.start("distributed.cli.dask_scheduler", *words)
        wait_until(lambda: self.listens())
        return child

    def listens(self) -> bool:
        with socket.socket() as one:
            return one.connect_ex(("127.0.0.1", self.port)) == 0

    def start_worker(self) -> "subprocess.Popen[bytes]":
        words = ["--nthreads", "1", "--no-nanny", "--no-dashboard", "--local-directory", str(many_books.folder())]
        return self.start("distributed.cli.dask_worker", self.address, *words)

    def kill(self, child: "subprocess.Popen[bytes]") -> None:
        child.send_signal(signal.SIGKILL)
        child.wait()


@needs_distributed
class TheSameAnswer(unittest.TestCase):
    def assert_same(self, tool: str, *words: object, on: Machines) -> str:
        """A tool prints the same on the cluster as here."""
        here, there = run(tool, *words), run(tool, *words, "--cluster", on.address)
        self.assertEqual((there.returncode, there.stdout, there.stderr), (here.returncode, here.stdout, here.stderr))
        return there.stdout

    def test_of_each_tool(self) -> None:
        with Machines(2) as machines:
            listed = with_tables(books())
            self.assertIn(f"# {BOOKS} books added up", self.assert_same("sum", *listed, on=machines))
            self.assertIn("SAIDI all", self.assert_same("years", *listed, on=machines))
            ties = many_books.folder() / "no-ties.csv"
            ties.write_text("tie,district,node,other_district,other_node\n")
            said = self.assert_same("districts", "check", ties, *listed, on=machines)
            self.assertIn("the cut cost nothing", said)
            wrong = many_books.folder() / "wrong-table.txt"
            wrong.write_text(table_of(books()[0]).read_text().replace("SUSTAINED all      3", "SUSTAINED all      4"))
            words = [*books()[:2], "--table", table_of(books()[0]), "--table", wrong]
            done = run("sum", *words, "--cluster", machines.address)
            self.assertEqual((done.returncode, done.stdout), (2, ""))
            self.assertIn("d1.db: ", done.stderr)
            done = run("sum", books()[0], "nowhere.db", "--cluster", machines.address)
            self.assertEqual((done.returncode, done.stdout), (1, ""))
            self.assertRegex(done.stderr, "nowhere.db|d0.db")

    def test_desks_compared(self) -> None:
        desks = many_books.folder() / "desks.csv"
        rows = [f"{book.stem},http://127.0.0.1:9/,{book}\n" for book in books()]
        desks.write_text("district,url,book\n" + "".join(rows))
        with Machines(2) as machines:
            words = ["compare", desks, "--program", slow_program()]
            said = self.assert_same("districts", *words, on=machines)
        self.assertEqual(said.count(": equal, 14 commands\n"), BOOKS)

    @needs_postgres
    def test_loads_into_the_warehouse(self) -> None:
        with own_postgres.server() as server, Machines(2) as machines:
            dsn = f"host={server['PGHOST']} user={server['PGUSER']} dbname={server['PGDATABASE']}"
            self.assertEqual(run("warehouse", "create", "--dsn", dsn).returncode, 0)
            words = [*with_tables(books()), "--dsn", dsn]
            done = run("warehouse", "load", *words, "--cluster", machines.address)
            lines = [f"d{n}: loaded, 14 commands, 3 interruptions" for n in range(BOOKS)]
            self.assertEqual((done.returncode, done.stdout.splitlines(), done.stderr), (0, lines, ""))
            self.assertEqual(run("warehouse", "compare", *words).returncode, 0)

    def slow_sum(self, machines: Machines) -> "subprocess.Popen[str]":
        """A sum that is at work on its second book."""
        before = begun()
        command = [sys.executable, str(TOOLS / "sum.py"), *map(str, books())]
        command += ["--program", str(slow_program()), "--cluster", machines.address]
        child = subprocess.Popen(command, stdout=subprocess.PIPE, stderr=subprocess.PIPE, text=True)
        wait_until(lambda: begun() >= before + 2)
        return child

    def assert_sum(self, child: "subprocess.Popen[str]") -> None:
        said, complaint = child.communicate(timeout=STARTS_IN * 5)
        self.assertEqual((child.returncode, complaint), (0, ""))
        self.assertEqual(said, run("sum", *with_tables(books())).stdout)

    def test_after_a_worker_was_killed(self) -> None:
        with Machines(2) as machines:
            child = self.slow_sum(machines)
            machines.kill(machines.workers[0])
            self.assert_sum(child)

    def test_after_a_scheduler_was_killed_and_came_again(self) -> None:
        with Machines(1) as machines:
            child = self.slow_sum(machines)
            machines.kill(machines.scheduler)
            machines.kill(machines.workers[0])
            machines.start_scheduler()
            machines.start_worker()
            self.assert_sum(child)

    def test_a_cluster_that_stays_away_is_told_with_a_book(self) -> None:
        listed, tables = [str(book) for book in books()], [str(table_of(book)) for book in books()]
        with patch.object(cluster, "PATIENCE", 2.0), patch.object(cluster, "CONNECT", 1.0):
            with self.assertRaisesRegex(BookError, "d0.db and 5 more: not done, since .* can't be reached"):
                over_books(read_district, listed, tables, "", None, f"tcp://127.0.0.1:{free_port()}")
            with Machines(0) as machines:
                with self.assertRaisesRegex(BookError, "d0.db and 5 more: not done, since .* has no worker"):
                    over_books(read_district, listed, tables, "", None, machines.address)

    def test_wrong_words(self) -> None:
        self.assertEqual(run("sum", "a.db", "--cluster", "tcp://x:1", "--processes", "2").returncode, 64)
        done = run("sum", books()[0], "--cluster", "post://x:1")
        self.assertEqual((done.returncode, done.stdout), (1, ""))
        self.assertIn("post://x:1 is no address of a cluster", done.stderr)


class OnAWorker(unittest.TestCase):
    """What a worker does with a book, without a cluster."""

    def asked(self, is_sent: bool) -> Asked:
        return asked_for(str(books()[0]), str(table_of(books()[0])), "outagebook", is_sent)

    def test_a_book_that_lies_there(self) -> None:
        kind, district, text = work_here(partial(told, read_district), self.asked(False))
        self.assertEqual((kind, text), ("", ""))
        self.assertEqual(district, read_district(str(books()[0]), str(table_of(books()[0])), "outagebook"))

    def test_another_book_at_its_path_isnt_taken(self) -> None:
        asked, elsewhere = self.asked(True), many_books.folder() / "elsewhere" / "d0.db"
        elsewhere.parent.mkdir()
        shutil.copy(books()[1], elsewhere)
        for path in (elsewhere, elsewhere.with_name("nowhere") / "d0.db"):
            there = Asked(str(path), asked.digest, asked.table, "outagebook", asked.tools)
            self.assertEqual(work_here(partial(told, read_district), there)[0], ABSENT)
            sent = Asked(str(path), asked.digest, asked.table, "outagebook", asked.tools, asked.files)
            self.assertEqual(
                work_here(partial(told, read_district), sent), work_here(partial(told, read_district), asked)
            )

    def test_what_is_wrong_has_the_users_path(self) -> None:
        asked = self.asked(True)
        sent = Asked("/nowhere/d0.db", asked.digest, None, "/nowhere/outagebook", asked.tools, asked.files)
        kind, _, text = work_here(partial(told, read_district), sent)
        self.assertEqual(kind, "error")
        self.assertIn("the program /nowhere/outagebook can't be run", text)

    def test_other_tools(self) -> None:
        asked = self.asked(False)
        other = Asked(asked.path, asked.digest, asked.table, "", "0" * 64)
        self.assertEqual(work_here(partial(told, read_district), other)[0], "error")

    def test_a_log_goes_with_its_book(self) -> None:
        files = files_of(str(books()[0]))
        self.assertNotEqual(files.digest, cluster.Files(files.book, b"x").digest)

    def test_without_the_package(self) -> None:
        with patch.dict(sys.modules, {"distributed": None}):
            with self.assertRaisesRegex(BookError, "python3-distributed"):
                over_books(read_district, ["a.db"], [None], "", None, "tcp://127.0.0.1:1")


if __name__ == "__main__":
    unittest.main()
