"""The tool that orders rows: which files it refuses, and that no annual table depends on the order, over made books."""

import csv
import io
import os
import random
import shutil
import sqlite3
import unittest
from collections.abc import Iterable
from contextlib import closing
from itertools import chain, groupby
from pathlib import Path

from outage_tools.commands import HEADER, read_second
from outage_tools.reordering import Known, known_of, reordered
from outage_tools.texts import text_of
from tests import program_books, support

SEEDS = 200 if os.environ.get("OUTAGEBOOK_LONG") else 60
Row = list[str]

PARTS = """\
cause,C-1,1,WIND,,,,
section,S-1,S1,1,,,,
device,D-1,B1,GRID,S1,closed,,
device,D-2,B2,GRID,S1,open,,
"""


def rows_of(data: bytes) -> list[Row]:
    """The rows of a text, its header left out."""
    return [row for row in csv.reader(io.StringIO(data.decode("utf-8-sig"), newline="")) if row][1:]


def data_of(rows: Iterable[Row]) -> bytes:
    out = io.StringIO()
    csv.writer(out, lineterminator="\n").writerows([[*HEADER], *rows])
    return out.getvalue().encode()


def ordered(rows: Iterable[Row], known: Known | None = None) -> list[Row]:
    return [*reordered(text_of(data_of(rows), "rows"), "rows", known or Known())]


def in_seconds(rows: Iterable[Row], draw: random.Random | None) -> list[Row]:
    """The switchings behind all else, the latest second first, or the seconds as they are drawn; those of one second as
    they are."""
    listed = list(rows)
    switchings = sorted((row for row in listed if row[0] == "switch"), key=second_of)
    seconds = [list(same) for _, same in groupby(switchings, second_of)]
    if draw:
        draw.shuffle(seconds)
    else:
        seconds.reverse()
    return [*(row for row in listed if row[0] != "switch"), *chain.from_iterable(seconds)]


def second_of(row: Row) -> int:
    return read_second(row[4])


def taken_of(book: Path) -> list[str]:
    """The references of a book."""
    with closing(sqlite3.connect(f"{book.as_uri()}?mode=ro", uri=True)) as database:
        return [ref for (ref,) in database.execute("SELECT ref FROM cmd ORDER BY id")]


class ByHand(unittest.TestCase):
    """Small files through the program itself."""

    def run_on(self, rows: str, *words: object) -> tuple[int, str, str]:
        path = support.written("rows-to-order.csv", f"{','.join(HEADER)}\n{rows}")
        done = support.run_tool("order", path, *words)
        return done.returncode, done.stdout, done.stderr

    def refs(self, rows: str, *words: object) -> str:
        status, text, complaint = self.run_on(rows, *words)
        self.assertEqual((status, complaint), (0, ""))
        return " ".join(row[1] for row in rows_of(text.encode()))

    def complaint(self, rows: str, *words: object) -> str:
        status, text, complaint = self.run_on(rows, *words)
        self.assertEqual((status, text), (1, ""))
        self.assertTrue(complaint.endswith("; nothing is written\n"), complaint)
        return complaint.removeprefix("error: ").partition("rows-to-order.csv ")[2].partition(";")[0]

    def test_returns_come_first_and_parts_before_all(self) -> None:
        """A tie's return is its opening; a customer that comes behind the switchings goes before them."""
        rows = (
            f"{PARTS}switch,A-O,B1,open,200,1,K,\nswitch,T-C,B2,close,200,1,K,\nswitch,A-C,B1,close,2025-01-01T00:00:00Z,1,K,\n"
            "switch,T-O,B2,open,300,01,K,\nswitch,E-O,B1,open,100,1,K,\nconnect,P-1,1,S1,0,,,\n"
        )
        self.assertEqual(self.refs(rows), "C-1 S-1 D-1 D-2 P-1 T-O A-C E-O A-O T-C")

    def test_rows_of_one_second_keep_their_order(self) -> None:
        rows = f"{PARTS}switch,O,B1,open,1000,1,K,\nswitch,C,B1,close,1970-01-01T00:16:40Z,1,K,\nswitch,E,B2,open,2000,1,K,\n"
        self.assertEqual(self.refs(rows), "C-1 S-1 D-1 D-2 E O C")

    def test_a_file_goes_to_a_file(self) -> None:
        out = support.folder() / "ordered.csv"
        self.assertEqual(self.run_on(PARTS, "-o", out), (0, "", ""))
        self.assertEqual(out.read_text(), f"{','.join(HEADER)}\n{PARTS}")
        self.assertEqual(self.run_on(f"{PARTS}bus,X", "-o", out)[0], 1)
        self.assertEqual(out.read_text(), f"{','.join(HEADER)}\n{PARTS}", "as it was")

    def test_entries_by_number(self) -> None:
        """A correction behind a switching may name it; one before all of them names an entry that the book has."""
        opening = "switch,A-O,B1,open,200,1,K,\n"
        for row in ("correct,X,1,1,open,300,1,K", "withdraw,X,1,1,,,,"):
            self.assertEqual(self.refs(f"{PARTS}{row}\n{opening}"), "C-1 S-1 D-1 D-2 X A-O")
            told = self.complaint(f"{PARTS}{opening}{row}\n")
            self.assertTrue(told.startswith("row 6: entry 1 may be that of a switching above"), told)

    def test_what_else_is_refused(self) -> None:
        where = "is in no row above, and in no book that --book names"
        for rows, told in (
            ("switch,A-O,B9,open,200,1,K,", f"row 5: the device 'B9' {where}"),
            ("switch,A-O,B1,open,200,2,K,\ncause,C-2,2,TREE,,,,", f"row 5: the cause '2' {where}"),
            ("switch,A-O,B1,opened,200,1,K,", "row 5: 'opened' is neither open nor close"),
            ("switch,A-O,B1,open,yesterday,1,K,", "row 5: Invalid isoformat string: 'yesterday'"),
            ("switch,A-O,B1,open,2025-01-01T00:00:00,1,K,", "row 5: a moment has its offset"),
            ("switch,A-O,B1,open,200,1,K", "row 5: it has 7 fields, not 8"),
            ("move,A-O,B1,open,200,1,K,", "row 5: 'move' is no kind of command"),
            (
                "switch,A-O,B1,open,200,1,K,\nswitch,A-O,B1,open,0200,01,K,\nswitch,A-O,B1,close,200,1,K,",
                "row 7: its reference A-O is that of another command, in row 5",
            ),
            ("switch,S-1,B1,open,200,1,K,", "row 5: its reference S-1 is that of another command, in row 2"),
        ):
            self.assertEqual(self.complaint(f"{PARTS}{rows}\n"), told)

    def test_another_header(self) -> None:
        for text in ("", "kind,ref\n", "Kind,ref,f1,f2,f3,f4,f5,f6\n"):
            done = support.run_tool("order", support.written("no-rows.csv", text))
            self.assertEqual((done.returncode, done.stdout), (1, ""))
            self.assertIn("the header of", done.stderr)

    def test_rows_of_a_book(self) -> None:
        """Corrections of its entries come behind returns, in their order, and the entries of the rows have none."""
        made = support.fortnight()
        rows = (
            "switch,N-O,CB-1,open,2025-03-26T10:00:00+01:00,2,K,\ncorrect,N-1,9,1,open,2025-03-27T14:22:10+01:00,2,K\n"
            "switch,N-C,CB-1,close,2025-03-26T11:00:00+01:00,2,K,\ncorrect,N-2,9,2,open,2025-03-25T14:22:10+01:00,2,K\n"
        )
        self.assertEqual(self.refs(rows, "--book", made.book), "N-C N-1 N-2 N-O")
        entries = known_of(made.book).entries
        told = self.complaint(f"{rows}withdraw,N-W,{entries + 1},1,,,,\n", "--book", made.book)
        self.assertTrue(told.startswith(f"row 5: entry {entries + 1} may be that of"), told)


class Tables(unittest.TestCase):
    """Made books and the model of `oracle/`: rows in any order of their seconds give one file and one annual table."""

    folder: Path
    made: list[support.Made]

    @classmethod
    def setUpClass(cls) -> None:
        cls.folder = support.folder() / "reordering"
        cls.addClassCleanup(shutil.rmtree, cls.folder, True)
        cls.made = support.made(cls.folder / "made", "--seeds", str(SEEDS), "--without-moves")

    def rows(self, made: support.Made, corrections: Iterable[str] = ()) -> list[Row]:
        """The rows that were taken, without corrections and withdrawals of other entries than these."""
        rows = rows_of(made.text.read_bytes())
        seed = made.name.removeprefix("seed-")
        if seed.isdigit() and int(seed) % 3 == 0:
            rows.pop()  # which is refused, but for chance
        return [row for row in rows if row[0] not in ("correct", "withdraw") or row[2].lstrip("0") in corrections]

    def books_of(self, name: str, texts: dict[str, tuple[list[Row], support.Made]]) -> dict[str, support.Made]:
        """The model's books of some texts, which have all their rows."""
        folder = self.folder / name
        folder.mkdir()
        listed = []
        for text, (rows, made) in texts.items():
            (folder / f"{text}.csv").write_bytes(data_of(rows))
            listed.append(f"{folder / text}.csv {' '.join(made.period)}\n")
        (folder / "list").write_text("".join(listed))
        books = support.made(folder / "books", "--list", str(folder / "list"), "--without-moves")
        for book in books:
            rows, _ = texts[book.name]
            self.assertEqual({*taken_of(book.book)}, {row[1] for row in rows}, book.name)
        return {book.name: book for book in books}

    def test_of_new_books(self) -> None:
        """As the file is, the latest second first, and at random."""
        draw = random.Random("reordering")
        texts: dict[str, tuple[list[Row], support.Made]] = {}
        for number, made in enumerate(self.made):
            rows = self.rows(made)
            orders = {"file": rows, "latest": in_seconds(rows, None), "random": in_seconds(rows, draw)}
            found = {order: ordered(given) for order, given in orders.items()}
            self.assertEqual(found["latest"], found["file"], made.name)
            self.assertEqual(found["random"], found["file"], made.name)
            for order, given in {**orders, "tool": found["file"]}.items():
                texts[f"{number}-{order}"] = given, made
        books = self.books_of("new", texts)
        for number, made in enumerate(self.made):
            tables = {books[f"{number}-{order}"].table.read_bytes() for order in ("file", "latest", "random", "tool")}
            self.assertEqual(len(tables), 1, made.name)
        moved = sum(texts[f"{number}-file"][0] != texts[f"{number}-tool"][0] for number in range(len(self.made)))
        self.assertGreater(moved, SEEDS // 2)

    def test_of_books_that_go_on(self) -> None:
        """The half of the switchings against the book of the others, whose entries are corrected and withdrawn."""
        parts, texts = [], {}
        for number, made in enumerate(self.made):
            rows = self.rows(made, map(str, range(1, 50_000)))
            switchings = [place for place, row in enumerate(rows) if row[0] == "switch"]
            middle = switchings[len(switchings) // 2] if switchings else len(rows)
            first, rest = rows[:middle], rows[middle:]
            entries = len({row[1] for row in first if row[0] == "switch"})
            own = {*map(str, range(1, entries + 1))}
            rest = [row for row in rest if row[0] not in ("correct", "withdraw") or row[2].lstrip("0") in own]
            parts.append((first, rest))
            texts[f"{number}-first"] = first, made
        begun = self.books_of("first", texts)
        texts, corrected = {}, 0
        for number, (made, (first, rest)) in enumerate(zip(self.made, parts)):
            found = ordered(rest, known_of(begun[f"{number}-first"].book))
            corrected += sum(row[0] in ("correct", "withdraw") for row in found)
            texts[f"{number}-file"], texts[f"{number}-tool"] = ([*first, *rest], made), ([*first, *found], made)
        books = self.books_of("whole", texts)
        for number, made in enumerate(self.made):
            tables = {books[f"{number}-{order}"].table.read_bytes() for order in ("file", "tool")}
            self.assertEqual(len(tables), 1, made.name)
        self.assertGreater(corrected, SEEDS // 10)

    @support.needs_program
    def test_of_the_program(self) -> None:
        """The sample without its corrections."""
        made = support.fortnight()
        tables = []
        for name, rows in (("file", self.rows(made)), ("tool", ordered(self.rows(made)))):
            text = support.folder() / f"order-of-{name}.csv"
            text.write_bytes(data_of(rows))
            tables.append(program_books.table_of(program_books.new_book(text.stem, made.period, text)))
        self.assertEqual(*tables)


if __name__ == "__main__":
    unittest.main()
