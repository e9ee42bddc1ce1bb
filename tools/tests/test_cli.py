"""What all tools' command lines do: the order of standard output and standard error."""

import os
import subprocess
import sys
import unittest
from collections.abc import Callable
from unittest import mock

from outage_tools.cluster import new_client
from outage_tools.errors import BookError
from outage_tools.graphs import networkx
from outage_tools.sections.cim import graph_of
from outage_tools.warehouse import connected
from outage_tools.workbook.writing import xlsxwriter_module
from tests import support
from tests.exports import PERIOD, arguments_of


def both_of(command: list[str], reads: bool = True) -> tuple[int, str]:
    """The status of a command, and what it writes on standard output and standard error, which are one pipe. Python's output to
    a pipe is buffered. With `reads` false nobody reads standard output, and only standard error is returned."""
    environment = {key: value for key, value in os.environ.items() if key != "PYTHONUNBUFFERED"}
    if reads:
        done = subprocess.run(
            command, stdout=subprocess.PIPE, stderr=subprocess.STDOUT, text=True, check=False, env=environment
        )
        return done.returncode, done.stdout
    reading, writing = os.pipe()
    os.close(reading)
    with os.fdopen(writing, "w") as nowhere:
        done = subprocess.run(command, stdout=nowhere, stderr=subprocess.PIPE, text=True, check=False, env=environment)
    return done.returncode, done.stderr


def job_of(*lines: str) -> list[str]:
    """A command that runs a job of these lines as the tools do."""
    start = ["import sys", "from outage_tools.cli import Parser, print_error, run_job", "def job():"]
    program = "\n".join([*start, *(f"    {line}" for line in lines), "sys.exit(run_job(job))"])
    return [sys.executable, "-c", f"import sys; sys.path.insert(0, {str(support.TOOLS)!r})\n{program}"]


class Order(unittest.TestCase):
    def test_rows_come_before_notes(self) -> None:
        files = arguments_of(support.folder() / "order", {})
        status, text = both_of([sys.executable, str(support.TOOLS / "from_oms.py"), *files, *PERIOD])
        *rows, last = text.splitlines()
        self.assertEqual(status, 0)
        self.assertTrue(last.startswith("note: "), last)
        self.assertTrue(rows[0].startswith("kind,ref,"), rows[0])
        self.assertEqual([row for row in rows if row.startswith("note: ")], [])

    def test_what_was_printed_comes_before_an_error(self) -> None:
        errors = "from outage_tools.errors import BookError, Differs"
        for kind, raised, status in (
            ("error", "raise BookError('none')", 1),
            ("differs", "raise Differs('SAIDI', 1, 2)", 2),
            ("usage", "Parser(prog='tool').error('none')", 64),
        ):
            found, text = both_of(job_of(errors, "print('first')", "print_error('note')", "print('last')", raised))
            self.assertEqual((found, text.splitlines()[:3]), (status, ["first", "note", "last"]))
            self.assertTrue(text.splitlines()[3].startswith(f"{kind}: "), text)

    def test_where_nobody_reads_the_output(self) -> None:
        """What goes to standard error is written all the same, and nothing else."""
        errors = "from outage_tools.errors import BookError"
        self.assertEqual(both_of(job_of("print('rows')", "print_error('note')", "print('more')"), False), (0, "note\n"))
        raising = job_of(errors, "print('rows')", "raise BookError('none')")
        self.assertEqual(both_of(raising, False), (1, "error: none\n"))


class Packages(unittest.TestCase):
    def test_a_package_of_another_python(self) -> None:
        """A package that this Python hasn't may be installed for Debian's: both are named."""
        calls: dict[str, tuple[str, Callable[[], object]]] = {
            "networkx": ("python3-networkx", networkx),
            "rdflib": ("python3-rdflib", lambda: graph_of("none.xml")),
            "psycopg": ("python3-psycopg", lambda: connected("")),
            "xlsxwriter": ("python3-xlsxwriter", xlsxwriter_module),
            "distributed": ("python3-distributed", lambda: new_client("tcp://127.0.0.1:1")),
        }
        for module, (package, call) in calls.items():
            way = "install it, or run the tool by /usr/bin/python3"
            with mock.patch.dict(sys.modules, {module: None}), self.assertRaises(BookError) as raised:
                call()
            self.assertTrue(
                str(raised.exception).endswith(f" by Debian's {package}, which {sys.executable} doesn't have: {way}")
            )
