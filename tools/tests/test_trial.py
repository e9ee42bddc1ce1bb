"""Dry runs against imports by the real program: what is added and refused, what is moved, and that nothing is written."""

import csv
import io
import json
import random
import sqlite3
import unittest
from collections.abc import Callable, Iterable
from contextlib import closing
from dataclasses import dataclass, field
from pathlib import Path
from unittest import mock

from outage_tools import trial
from outage_tools.exported import ExportedRows
from outage_tools.references import sources_of
from outage_tools.serving import Desk, Imported, Refusal
from outage_tools.texts import Text, text_of
from tests import program_books, support
from tests.program_books import HEADER, run_program
from tests.support import EXAMPLES, EXPORTS, written

PROGRAM = ("--program", support.PROGRAM)


def state_of(book: Path) -> dict[str, tuple[bytes, int]]:
    """The bytes of a book's files and when they were written last."""
    return {path.name: (path.read_bytes(), path.stat().st_mtime_ns) for path in book.parent.glob(f"{book.name}*")}


def one_by_one(book: Path, text: Text) -> tuple[dict[int, str], list[str]]:
    """By an import of each row in a file of its own: the refused rows with what the program says, and the table behind them."""
    refused = {}
    part = support.folder() / "one-row.csv"
    for place in range(len(text.rows)):
        part.write_bytes(text.part(place, 1))
        done = run_program("import", "--book", book, part)
        if done.returncode == 2:
            refused[place + 1] = done.stderr.strip().removeprefix("refused ").removesuffix(" row 1")
        elif done.returncode:
            raise AssertionError(done.stderr)
    return refused, program_books.table_of(book)


# Rows for the sample fortnight, of which every other one is refused, each for another reason.
SPOILT = [
    "switch,OMS-T-1-1-O,CB-1,open,2025-03-25T10:00:00+01:00,2,CREW",
    "switch,OMS-T-1-1-C,CB-1,close,2025-04-25T10:00:00+02:00,2,CREW",
    "switch,OMS-T-2-1-O,CB-99,open,2025-03-25T10:00:00+01:00,2,CREW",
    "switch,OMS-T-1-2-C,CB-1,close,2025-03-25T11:00:00+01:00,2,CREW",
    "switch,OMS-T-3-1-O,CB-1,open,2025-03-25T12:00:00+01:00,99,CREW",
    "switch,OMS-T-3-2-O,CB-1,open,2025-03-25T12:00:00+01:00,40,CREW",
    "bus,GIS-BUS-NORTH,NORTH",
    "section,GIS-SECTION-QUARRY,QUARRY,3",
    "device,GIS-DEVICE-SW-9,SW-9,NORTH,SOUTH,closed",
    "connect,CIS-10401,10401,QUARRY,1998-05-04T00:00:00+02:00",
    "connect,CIS-900,900,QUARRY,1998-05-04T00:00:00+02:00,1997-05-04T00:00:00+02:00",
    "revise,CIS-901-0-0,901,1998-05-04T00:00:00+02:00",
    "cause,CAUSE-2,2,TREES",
    "cause,CAUSE-12,12,FIRE",
    "correct,OMS-T-4-1-O-R2,900,1,open,2025-03-25T12:00:00+01:00,2,CREW",
    "correct,OMS-T-4-2-O-R2,10,1,open,2025-03-25T12:00:00+01:00,2,CREW",
    "withdraw,OMS-T-4-3-O-W,21,2",
    "mark,MARK-1,2025-03-30,ENG-5",
    "unmark,MARK-2,2025-03-29,ENG-5",
    "life,GIS-LIFE-CB-1,CB-1,1743000000,1742000000",
    "switch,OMS-T-1-1-O,CB-1,open,2025-03-25T10:00:00+01:00,2,CREW",
    "switch,OMS-T-1-2-C,CB-2,close,2025-03-25T11:00:00+01:00,2,CREW",
]
WHY = {
    2: "5 OutOfPeriod",
    3: "2 UnknownName",
    5: "1 BadField 6",
    6: "15 UnknownCause",
    8: "3 NameTaken",
    9: "2 UnknownName",
    10: "3 NameTaken",
    11: "10 BadService",
    12: "9 UnknownCustomer",
    13: "11 RefConflict 2",
    15: "6 UnknownEntry",
    16: "7 Stale 2",
    17: "8 Withdrawn",
    18: "13 MarkedAlready",
    19: "14 NotMarked",
    20: "18 BadLife",
    22: "11 RefConflict 104",
}


@support.needs_program
class Trials(unittest.TestCase):
    def setUp(self) -> None:
        self.book = program_books.fortnight("tried")
        self.table = program_books.table_of(self.book)
        self.before = state_of(self.book)

    def tearDown(self) -> None:
        self.assertEqual(state_of(self.book), self.before, "the book's files, byte by byte")

    def tried(self, rows: Path, *words: object, status: int) -> str:
        done = support.run_tool("try", self.book, rows, *PROGRAM, *words)
        self.assertEqual((done.returncode, done.stderr), (status, ""))
        return done.stdout

    def read(self, rows: Path, *words: object, status: int) -> dict[str, list[dict[str, object]]]:
        whole: dict[str, list[dict[str, object]]] = json.loads(self.tried(rows, "--json", *words, status=status))
        return whole

    def test_all_refusals_at_once(self) -> None:
        """Every kind of refusal, the rows between them accepted, one that comes twice."""
        rows = written("spoilt.csv", program_books.text_of(SPOILT))
        whole = self.read(rows, status=2)
        told = {
            each["row"]: " ".join(str(each[name]) for name in ("refused", "name", "detail") if each[name] is not None)
            for each in whole["refused"]
        }
        self.assertEqual(told, WHY)
        self.assertEqual(whole["rows"], {"added": 4, "again": 1, "refused": 17})

    def test_as_if_each_row_were_imported_by_itself(self) -> None:
        rows = written("spoilt.csv", program_books.text_of(SPOILT))
        copy = program_books.fortnight("one-by-one")
        refused, table = one_by_one(copy, text_of(rows.read_bytes(), "spoilt"))
        self.assertEqual(refused, WHY)
        moved = {str(each["figure"]): each for each in self.read(rows, status=2)["moved"]}
        old, new = trial.parted(self.table), trial.parted(table)
        for name in {*old, *new}:
            if old.get(name) == new.get(name):
                self.assertNotIn(name, moved)
            else:
                wanted = {"figure": name, "before": old.get(name, ""), "after": new.get(name, "")}
                self.assertEqual(moved[name], wanted)
        self.assertIn("SAIDI all", moved)
        self.assertEqual(moved["cause 12 FIRE"], {"figure": "cause 12 FIRE", "before": "", "after": "0"})

    def test_random_rows(self) -> None:
        """Rows of the sample, doubled, left out, changed in a field or a byte: the refused ones are those of single imports."""
        sample = (EXAMPLES / "fortnight.csv").read_bytes().splitlines()[1:]
        for seed in range(5):
            draw = random.Random(seed)
            rows = [draw.choice(sample) for _ in range(25)]
            for _ in range(12):
                rows[draw.randrange(25)] = spoilt(draw, draw.choice(sample))
            path = support.folder() / "random-rows.csv"
            ends = [b"\n", b"\r\n", b"\r", b"\n\n"]
            path.write_bytes(HEADER.encode() + b"\n" + b"".join(row + draw.choice(ends) for row in rows))
            copy = program_books.fortnight("one-by-one")
            text = text_of(path.read_bytes(), "random rows")
            refused, table = one_by_one(copy, text)
            with self.subTest(seed):
                trying = trial.trial_of(self.book, text, str(support.PROGRAM), "OMS-", ExportedRows({}))
                self.assertEqual({each.row: str(each.refusal) for each in trying.refused}, refused)
                old, new = trial.parted(self.table), trial.parted(table)
                after = {**old, **{each.figure: each.after for each in trying.moved}}
                self.assertEqual({name: value for name, value in after.items() if value}, new)

    def test_what_the_figures_are_before_and_after(self) -> None:
        shown = self.tried(EXAMPLES / "corrections.csv", status=0)
        self.assertIn("\nall               3        0        0\n", shown)
        self.assertRegex(shown, "\nW +366070 +357670\n")
        self.assertRegex(shown, "\nSAIDI all +4073935/20986 194.126 +3980135/20986 189.657\n")
        self.assertNotIn("CEMI", shown)

    def test_what_the_book_has_already(self) -> None:
        shown = self.tried(EXAMPLES / "fortnight.csv", status=0)
        self.assertIn("\nall               0      102        0\n", shown)
        self.assertTrue(shown.endswith("\n\nno figure of the annual table is moved\n"), shown)

    def test_tickets_and_rows_of_the_exports(self) -> None:
        """A refused row is told by the row of the export from which it came, where the reference tells it."""
        exports = {
            "oms": "ticket,step,device\nT-9,1,X\nt-1,,CB-1\nT-3,2,CB-1\n",
            "gis": "type,name\nbus,NORTH\nsection,quarry\ndevice,SW-9\n",
            "customers": "customer,section\n0900,QUARRY\n",
            "causes": "code,name\n1,STORM\n2,TREES\n",
        }
        words = [word for name, text in exports.items() for word in (f"--{name}", written(f"export-{name}.csv", text))]
        rows = written("spoilt.csv", program_books.text_of(SPOILT))
        told = {each["row"]: each["source"] for each in self.read(rows, *words, status=2)["refused"]}
        folder = support.folder()
        self.assertEqual(told[2], f"ticket T-1 step 1, closing, {folder}/export-oms.csv row 2")
        self.assertEqual(told[3], "ticket T-2 step 1, opening")
        self.assertEqual(told[6], f"ticket T-3 step 2, opening, {folder}/export-oms.csv row 3")
        self.assertEqual(told[8], f"section QUARRY, {folder}/export-gis.csv row 2")
        self.assertEqual(told[11], f"customer 900, {folder}/export-customers.csv row 1")
        self.assertEqual(told[13], f"cause 2, {folder}/export-causes.csv row 2")
        self.assertEqual(told[16], "ticket T-4 step 2, opening")
        self.assertEqual(told[18], "")
        self.assertEqual(told[20], "device CB-1")

    def test_more_refusals_than_a_connection_has_replies(self) -> None:
        """The desk ends a connection after a thousand replies; the dry run goes on by another one."""
        refused = [f"switch,R-{number},NONE,open,2025-03-25T10:00:00+01:00,2,CREW" for number in range(1_010)]
        rows = written("many.csv", program_books.text_of([*refused, "bus,GIS-BUS-NORTH,NORTH"]))
        whole = self.read(rows, status=2)
        self.assertEqual(whole["rows"], {"added": 1, "again": 0, "refused": 1_010})
        self.assertEqual([each["row"] for each in whole["refused"]], list(range(1, 1_011)))

    def test_each_row_as_csv(self) -> None:
        rows = written("spoilt.csv", program_books.text_of(SPOILT))
        listed = list(csv.DictReader(io.StringIO(self.tried(rows, "--csv", status=2))))
        self.assertEqual([int(each["row"]) for each in listed], list(range(1, len(SPOILT) + 1)))
        self.assertEqual({int(each["row"]): each["refusal"] for each in listed if each["refusal"]}, WHY)
        self.assertEqual([int(each["row"]) for each in listed if each["outcome"] == "added"], [1, 4, 7, 14])
        self.assertEqual([int(each["row"]) for each in listed if each["outcome"] == "again"], [21])

    def test_a_book_with_its_log(self) -> None:
        """What was committed last may lie in the log alone; it is in the copy too, and the log stays as it is."""
        with program_books.at_work(self.book) as desk:
            desk.import_text((EXAMPLES / "corrections.csv").read_bytes())
            self.before = state_of(self.book)
            self.assertGreater(len(self.before["tried.db-wal"][0]), 0)
            shown = self.tried(EXAMPLES / "corrections.csv", status=0)
            self.assertIn("\nall               0        3        0\n", shown)

    def test_what_cannot_be_read(self) -> None:
        no_header = written("no-header.csv", "cause,C,1,WIND,,,,\n")
        for rows, said in [
            (no_header, "the header isn't kind,ref,f1,f2,f3,f4,f5,f6: 1 BadField 0 row 0, and no row is read"),
            (written("empty.csv", ""), "1 BadField 0 row 0"),
            (Path("/nowhere.csv"), "No such file"),
            (written("long.csv", f'{HEADER}\nbus,A,B,,,,,\nbus,"{"A" * 5_000_000}\n'), "row 2 has more than 4194304"),
        ]:
            done = support.run_tool("try", self.book, rows, *PROGRAM)
            self.assertEqual((done.returncode, done.stdout), (1, ""))
            self.assertIn(said, done.stderr)
        done = support.run_tool("try", EXPORTS / "oms.csv", no_header, *PROGRAM)
        self.assertEqual(done.returncode, 1)
        self.assertIn("is no SQLite file", done.stderr)
        done = support.run_tool("try", self.book, no_header, "--program", "/nowhere/outagebook")
        self.assertEqual(done.returncode, 1)
        self.assertEqual(support.run_tool("try", self.book, *PROGRAM).returncode, 64)

    def test_a_book_of_version_1(self) -> None:
        path = support.folder() / "version-1.db"
        with closing(sqlite3.connect(path)) as database:
            database.executescript((support.ROOT / "oracle/version_1/outages.sql").read_text())
        done = support.run_tool("try", path, EXAMPLES / "corrections.csv", *PROGRAM)
        self.assertEqual(done.returncode, 1)
        self.assertIn("refused 19 OldVersion 1", done.stderr)


def spoilt(draw: random.Random, row: bytes) -> bytes:
    """A row with a byte or a field that is another one."""
    fields = row.split(b",")
    turn = draw.randrange(4)
    if turn == 0:
        place = draw.randrange(len(row))
        return row[:place] + bytes([draw.choice(b'",x0 \xff')]) + row[place + 1 :]
    if turn == 1:
        fields[draw.randrange(8)] = draw.choice([b"", b"1", b"CB-1", b'"A,B"', b"2025-03-30T00:00:00Z"])
    elif turn == 2:
        del fields[draw.randrange(8)]
    else:
        fields[1] = b"OMS-T-%d-1-O" % draw.randrange(5)
    return b",".join(fields)


@dataclass
class PlainDesk:
    """Stands in for a desk: it refuses rows by their first field, and counts what it is sent."""

    is_refused: Callable[[int], bool]
    sent: int = 0
    asked: int = 0
    seen: list[int] = field(default_factory=list)

    def import_text(self, body: bytes) -> Imported:
        rows = [int(row.split(b",")[0]) for row in body.splitlines()[1:]]
        self.sent += len(rows)
        self.asked += 1
        for place, row in enumerate(rows, 1):
            self.seen.append(row)
            if self.is_refused(row):
                return Imported(place - 1, 0, place, Refusal(2, "UnknownName", None))
        return Imported(len(rows), 0, None, None)


class Steps(unittest.TestCase):
    """How many rows are sent: no square of them, however many are refused and wherever they are."""

    ROWS = 30_000

    def test_rows_that_are_sent(self) -> None:
        text = text_of(b"header\n" + b"".join(b"%d,,,,,,,\n" % row for row in range(self.ROWS)), "rows")
        draw = random.Random(1)
        scattered = set(draw.sample(range(self.ROWS), 300))
        cases: Iterable[tuple[str, Callable[[int], bool]]] = [
            ("none", lambda row: False),
            ("all", lambda row: True),
            ("each second", lambda row: row % 2 == 0),
            ("the second half", lambda row: row >= self.ROWS // 2),
            ("each thousandth", lambda row: row % 1_000 == 999),
            ("scattered", lambda row: row in scattered),
        ]
        for name, is_refused in cases:
            with self.subTest(name):
                desk = PlainDesk(is_refused)
                refused = [place for place, _ in trial.act_rows(desk, text)]  # type: ignore[arg-type]
                self.assertEqual(refused, [row for row in range(self.ROWS) if is_refused(row)])
                self.assertEqual(desk.seen, list(range(self.ROWS)), "each row acts once, in order")
                self.assertLessEqual(desk.sent, 3 * self.ROWS)
                self.assertLessEqual(desk.asked, 20 + 14 * (1 + len(refused)))

    def test_how_far_it_is(self) -> None:
        """On a terminal each part is told; where rows take long, parts are small, a second or two each."""
        seconds_of_row, clock = 0.01, [0.0]
        text = text_of(b"header\n" + b"".join(b"%d,,,,,,,\n" % row for row in range(2_000)), "rows")
        desk = PlainDesk(lambda row: False)

        def slow(body: bytes) -> Imported:
            said = PlainDesk.import_text(desk, body)
            clock[0] += seconds_of_row * said.added
            return said

        terminal = io.StringIO()
        with mock.patch.object(terminal, "isatty", lambda: True), mock.patch("sys.stderr", terminal):
            with mock.patch("time.monotonic", lambda: clock[0]):
                progress = trial.Progress()
                self.assertEqual(list(trial.act_rows(mock.Mock(import_text=slow), text, progress)), [])
                progress.end()
        told = [int(line.split()[0]) for line in terminal.getvalue().split("\r")[1:-1]]
        self.assertEqual(told, sorted(told))
        steps = [after - before for before, after in zip(told, [*told[1:], 2_000])]
        self.assertLessEqual(max(steps) * seconds_of_row, 2.56, "seconds without a word")
        self.assertGreater(len(told), 8)


class References(unittest.TestCase):
    """What a reference tells of where its command came from."""

    def test_tickets(self) -> None:
        for kind, ref, prefix, told in [
            ("switch", "OMS-T-1-2-O", "OMS-", ["ticket T-1 step 2, opening", "ticket T step 1-2, opening"]),
            ("switch", "OMS-T-2041-12345-C", "OMS-", []),
            ("switch", "OMS-26-7-2-C", "OMS-26-", ["ticket 7 step 2, closing"]),
            ("switch", "LATE-7-2-C", "OMS-", []),
            ("switch", "OMS-7-2-C-R2", "OMS-", []),
            ("correct", "OMS-7-2-C-R2", "OMS-", ["ticket 7 step 2, closing"]),
            ("correct", "OMS-7-2-C-R2-2", "OMS-", ["ticket 7 step 2, closing"]),
            ("withdraw", "OMS-7-2-O-W", "OMS-", ["ticket 7 step 2, opening"]),
            ("life", "GIS-LIFE-SW-7-2", "OMS-", ["device SW-7-2", "device SW-7"]),
            ("bus", "GIS-BUS-NORTH", "OMS-", ["bus NORTH"]),
            ("revise", "CIS-5001-1761000000-0", "OMS-", ["customer 5001"]),
            ("mark", "MARK-1", "OMS-", []),
        ]:
            with self.subTest(kind=kind, ref=ref):
                self.assertEqual([source.text for source in sources_of(kind, ref, prefix)], told)


class Rows(unittest.TestCase):
    """How a text is cut into rows."""

    def test_ends_of_rows_and_quotes(self) -> None:
        data = b'\xef\xbb\xbfkind,ref\r\n\r\na,"1\n2"\rb,""""\n\n c\n""\n,\nd"x,1\ne,"open\n'
        text = text_of(data, "text")
        self.assertEqual(text.head, b"kind,ref\n")
        rows = [data[since:until] for since, until in text.rows]
        self.assertEqual(rows, [b'a,"1\n2"', b'b,""""', b" c", b'""', b",", b'd"x,1', b'e,"open\n'])
        self.assertEqual(text.fields(0), ["a", "1\n2"])
        self.assertEqual(text.part(1, 2), b'kind,ref\nb,""""\n\n c\n')


if __name__ == "__main__":
    unittest.main()
