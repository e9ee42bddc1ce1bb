"""Rows of commands: a book's own imported anew, the next book's beginning, books side by side."""

import contextlib
import io
import sqlite3
import unittest
from collections.abc import Iterable
from datetime import date, timedelta
from pathlib import Path

from outage_tools import next_year
from outage_tools.commands import read_commands, write_rows
from outage_tools.rows import Book
from tests import program_books, support
from tests.support import written

T = 1_704_067_200  # midnight of 1 January 2024 in UTC

TABLES = {
    "meta": "id",
    "cause": "code",
    "node": "id",
    "device": "id",
    "life": "device",
    "customer": "id",
    "entry": "id",
    "mark": "day",
    "cmd": "id",
    "moved": "cmd, dim, k",
    "posting": "dim, k",
}


def tables_of(path: Path) -> dict[str, list[tuple[int | str | None, ...]]]:
    with contextlib.closing(sqlite3.connect(f"file:{path}?mode=ro", uri=True)) as database:
        return {
            table: database.execute(f"SELECT * FROM {table} ORDER BY {order}").fetchall()
            for table, order in TABLES.items()
        }


def text_of(rows: Iterable[list[str]]) -> str:
    out = io.StringIO()
    write_rows(rows, out)
    return out.getvalue()


def rows_of(tool: str, made: support.Made, *arguments: str) -> str:
    """What a tool prints of a made book."""
    done = support.run_tool(tool, made.book, *arguments, table=made)
    if done.returncode:
        raise AssertionError(done.stderr)
    return done.stdout


class Commands(unittest.TestCase):
    def test_imported_anew_they_give_equal_tables(self) -> None:
        texts = []
        for made in support.books():
            text = text_of(command.row() for command in read_commands(support.opened(made).database))
            texts.append((written(f"commands-{made.name}.csv", text), made.period))
        for made, anew in zip(support.books(), support.made_of("anew", texts)):
            with self.subTest(made.name):
                self.assertEqual(tables_of(anew.book), tables_of(made.book))

    def test_names_that_are_a_dash(self) -> None:
        rows = [
            "kind,ref,f1,f2,f3,f4,f5,f6",
            "cause,A,1,-,,,,",
            "section,B,-,1,,,,",
            "device,C,-,GRID,-,closed,0,",
            "life,G,-,0,1704067260,,,",
            "life,H,-,1704067200,,,,",
            "connect,D,1,-,0,,,",
            "switch,E,-,open,1704067200,1,-,",
            "mark,F,2024-01-01,-,,,,",
        ]
        (made,) = support.made_of(
            "dashes", [(written("dashes.csv", "\n".join(rows) + "\n"), ("2024-01-01", "1", "UTC0"))]
        )
        self.assertEqual(rows_of("commands", made).splitlines(), rows)


class NextYear(unittest.TestCase):
    def test_the_first_second_has_the_positions_of_the_last(self) -> None:
        """As the entries of the old book leave them, with lives as of the new book's first second."""
        texts, olds = [], []
        for made in support.books():
            found = support.opened(made)
            end = found.book.period.end
            olds.append((positions(found.book, end), found.book))
            first = date.fromisoformat(made.period[0]) + timedelta(days=int(made.period[1]))
            text = text_of(next_year.rows_of(found, end))
            texts.append((written(f"next-{made.name}.csv", text), (first.isoformat(), "2", made.period[2])))
        for (old, old_book), anew in zip(olds, support.made_of("next", texts)):
            with self.subTest(anew.name):
                found = support.opened(anew)
                over = {d.name for d in old_book.devices if d.until is not None and d.until <= old_book.period.end}
                wanted = {name: closed for name, closed in old.items() if name not in over}
                self.assertEqual(positions(found.book, found.book.period.first), wanted)
                self.assertFalse(any(old[name] for name in over))
                self.assertEqual(found.book.causes, old_book.causes)
                self.assertEqual(found.book.nodes, old_book.nodes)
                self.assertTrue(all(entry.second == found.book.period.first for entry in found.book.entries))
                said = len(anew.text.read_text().splitlines()) - 1
                self.assertEqual(said, found.database.execute("SELECT count(*) FROM cmd").fetchone()[0])

    def test_customers_in_service_alone(self) -> None:
        made = support.fortnight()
        rows = rows_of("next_year", made, "2025-04-07T00:00:00+02:00").splitlines()
        customers = {row.split(",")[2] for row in rows if row.startswith("connect,")}
        select = "SELECT id FROM customer WHERE until IS NULL OR until > 1743976800"
        found = support.opened(made).database.execute(select)
        self.assertEqual(customers, {str(number) for number, in found})

    def test_lives(self) -> None:
        """Devices come with their lives; one whose life is over doesn't come, nor does its switching."""
        end = T + 86_400
        text = ["cause,C3,3,STORM", "cause,C4,4,PLANNED", "bus,A,BUS-A"]
        text += [f"section,{name},{name},1" for name in ("S1", "S2", "S3")]
        text += ["device,I1,I1,GRID,BUS-A,closed", "device,B1,B1,BUS-A,S1,closed", "device,B2,B2,BUS-A,S3,closed"]
        text += [f"device,W1,W1,S1,S2,closed,{T + 50},{end + 50}", f"device,T1,T1,S2,S3,open,{T},{end}"]
        text += [f"device,X1,X1,BUS-A,S1,closed,{T + 5_000},"]
        text += [f"switch,E1,T1,close,{T + 100},3,K1", f"switch,E2,B2,open,{T + 200},4,K1"]
        (made,) = support.made_of(
            "lives", [(written("lives.csv", program_books.text_of(text)), ("2024-01-01", "1", "UTC0"))]
        )
        book = support.opened(made).book
        rows = [row for row in next_year.network_rows(book, end) if row[0] == "device"]
        self.assertEqual([row[2] for row in rows], ["I1", "B1", "B2", "W1", "X1"])
        self.assertEqual(
            [row[-2:] for row in rows],
            [["0", ""], ["0", ""], ["0", ""], [str(T + 50), str(end + 50)], [str(T + 5_000), ""]],
        )
        self.assertEqual([row[2:6] for row in next_year.switching_rows(book, end)], [["B2", "open", str(end), "4"]])

    def test_a_second_inside_the_old_book_is_refused(self) -> None:
        made = support.fortnight()
        done = support.run_tool("next_year", made.book, "2025-04-06T00:00:00+02:00", table=made)
        self.assertEqual((done.returncode, done.stdout), (1, ""))


def positions(book: Book, second: int) -> dict[str, bool]:
    """Which devices are closed at a second, by their names."""
    closed = {}
    for device in book.devices:
        kept = [
            entry
            for entry in book.entries
            if entry.is_kept and entry.device == device.number and entry.second <= second
        ]
        last = max(kept, key=lambda entry: (entry.second, entry.number), default=None)
        closed[device.name] = (last.closes if last else device.is_closed) and device.is_alive(second)
    return closed


class Years(unittest.TestCase):
    def test_two_books_side_by_side(self) -> None:
        one, two = support.books()[:2]
        done = support.run_tool("years", one.book, two.book, "--csv", "--table", one.table, "--table", two.table)
        self.assertEqual(done.returncode, 0, done.stderr)
        lines = done.stdout.splitlines()
        self.assertIn("SAIDI all,4073935/20986 194.126,3980135/20986 189.657", lines)
        self.assertIn('"cause ANIMAL, customer-seconds",520,18520', lines)
        self.assertIn('"feeder 2, customer-seconds",143940,135540', lines)


class ReadCommands(unittest.TestCase):
    def test_entries_are_numbered_as_the_book_numbers_them(self) -> None:
        for made in support.books():
            with self.subTest(made.name):
                found = support.opened(made)
                told = {each.entry: each for each in read_commands(found.database) if each.kind == "switch"}
                self.assertEqual(sorted(told), [entry.number for entry in found.book.entries])
                for entry in found.book.entries:
                    self.assertEqual(told[entry.number].fields[0], found.book.devices[entry.device].name)
