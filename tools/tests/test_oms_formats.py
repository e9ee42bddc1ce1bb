"""How exports are written: delimiters, encodings, numbers, dates; what is ambiguous or can't be read is refused by its row."""

import io
import os
import pty
import shutil
import subprocess
import sys
import unittest
from contextlib import redirect_stderr

from outage_tools.oms.complaints import BadRow
from outage_tools.oms.fields import check_format, number, read_moment
from outage_tools.zone import Zone
from tests import exports, support
from tests.exports import Done, sample

DATA = support.TESTS / "data"
CENTRAL_EUROPE = Zone(exports.ZONE)


class Files(unittest.TestCase):
    """The samples, written otherwise."""

    def setUp(self) -> None:
        self.folder = support.folder() / "oms-formats"
        shutil.rmtree(self.folder, ignore_errors=True)
        self.folder.mkdir()
        self.words = exports.arguments_of(self.folder, {})
        self.wanted = exports.run(*self.words, *exports.PERIOD).out

    def run_with(self, *more: object, **files: bytes) -> Done:
        """The samples, with other bytes for some of them."""
        for name, data in files.items():
            (self.folder / f"{name}.csv").write_bytes(data)
        return exports.run(*self.words, *exports.PERIOD, *more)

    def same(self, *more: object, **files: bytes) -> None:
        done = self.run_with(*more, **files)
        self.assertEqual((done.status, done.out), (0, self.wanted), done.err)

    def refused(self, text: str, *more: object, **files: bytes) -> None:
        done = self.run_with(*more, **files)
        self.assertEqual((done.status, done.out), (1, ""))
        self.assertIn(text, done.err)
        self.assertNotIn("Traceback", done.err)

    # As other programs write them.

    def test_outages_of_excel(self) -> None:
        """Semicolons, an old encoding, days first, decimal commas and a remark with a semicolon in it."""
        oms = (DATA / "excel-outages.csv").read_bytes()
        self.same("--encoding", "cp1252", "--date-format", "%d.%m.%Y %H:%M:%S", oms=oms)
        self.refused("oms.csv: row 1: it has bytes that aren't of the encoding utf-8", oms=oms)
        self.refused("oms.csv: row 1: out '21.10.2025 08:14:05' is no time", "--encoding", "cp1252", oms=oms)

    def test_customers_of_oracle(self) -> None:
        customers = (DATA / "oracle-customers.csv").read_bytes()
        self.same("--date-format", "%d-%b-%Y %H:%M:%S", customers=customers)

    def test_network_of_arcgis(self) -> None:
        """A mark, numbers with decimals, small letters in names, capitals in words, months first."""
        gis = (DATA / "arcgis-network.csv").read_bytes()
        done = self.run_with("--date-format", "%m/%d/%Y %I:%M:%S %p", gis=gis)
        lives = self.wanted.replace("closed,,", "closed,2004-05-01T00:00:00+02:00,").replace(
            "open,,", "open,2004-05-01T00:00:00+02:00,"
        )
        self.assertEqual((done.status, done.out), (0, lives), done.err)

    def test_encodings(self) -> None:
        texts = {name: sample(name) for name in exports.EXPORTS}
        for encoding in ["utf-8", "utf-8-sig", "utf-16"]:
            self.same(**{name: text.encode(encoding) for name, text in texts.items()})
        files = {name: text.encode("utf-16-be") for name, text in texts.items()}
        self.same("--encoding", "utf-16-be", **files)
        self.refused("gis.csv: the line of column names: it isn't of the encoding utf-8", **files)
        self.refused("has no mark at its beginning", "--encoding", "utf-16", **files)
        marked = {name: text.encode("utf-16") for name, text in texts.items()}
        self.refused("has the mark of utf-16-le at its beginning, so it isn't cp1252", "--encoding", "cp1252", **marked)
        half = sample("oms").encode("utf-16")[:-1]
        self.refused("oms.csv: row 7: it has", **{**marked, "oms": half})

    def test_delimiters_and_line_ends(self) -> None:
        for delimiter, word in [(";", ";"), ("\t", "tab")]:
            texts = {
                name: sample(name).replace(",", delimiter).replace("\n", "\r\n").encode() for name in exports.EXPORTS
            }
            self.same(**texts)
            self.same("--delimiter", word, **texts)
        self.refused("it has none of the columns", "--delimiter", ";", oms=sample("oms").encode())
        self.assertEqual(exports.run(*self.words, "--delimiter", "x").status, 64)

    def test_empty_lines_and_rows(self) -> None:
        self.same(oms=b"\n" + sample("oms").encode() + b"\n\n,,,,,,,,,,\n")

    def test_headers(self) -> None:
        oms = sample("oms")
        cases = {
            "it has 'restorde', which isn't read, and no column restored: is it meant?": oms.replace(
                "restored,", "restorde,", 1
            ),
            "it has no column cause": oms.replace(",cause,", ",reason,", 1),
            "it has two columns crew": oms.replace(",zone,", ",crew,", 1),
            "it has 'statuss', which isn't read, and no column status": oms.replace(",status", ",statuss", 1),
            "it has none of the columns": "",
        }
        for reason, text in cases.items():
            with self.subTest(reason):
                self.refused(f"oms.csv: the line of column names: {reason}", oms=text.encode())
        self.same(oms=oms.replace("ticket,step", " Ticket ,STEP", 1).encode())

    def test_columns_by_other_names(self) -> None:
        """Two files may have columns of one name, each for another one of the tool's."""
        oms = sample("oms").replace("ticket,step,device", "No,Part,Switch", 1).encode()
        customers = sample("customers").replace("customer,section,since", "no,Line,From", 1).encode()
        names = ["No=ticket", "part=step", "Switch=device", "No=customer", "Line=section", "From=since"]
        words = [word for name in names for word in ("--column", name)]
        self.same(*words, oms=oms, customers=customers)
        self.refused("oms.csv: the line of column names: it has no column device", *words[:4], *words[6:])
        self.refused("no file has a column 'statsu' that --column names as status", *words, "--column", "Statsu=status")
        elsewhere = ["--column", "Customers out=customers"]  # of the OMS's own counts: one list of words for all tools
        self.same(*words, *elsewhere, oms=oms, customers=customers)
        done = exports.run("--gis", self.folder / "gis.csv", *exports.PERIOD, *words[:6])
        self.assertEqual(done.status, 0, done.err)
        twice = oms.replace(b",cause,", b",ticket,", 1)
        self.refused("it has two columns ticket", *words, oms=twice)
        self.assertEqual(self.run_with("--column", "ticket").status, 64)

    def test_bytes_that_are_no_export(self) -> None:
        oms = sample("oms")
        cases = {
            "it is no CSV": oms.replace("T-2042,1", 'T-2042,"1').encode(),
            "row 4: it is no CSV": oms.replace("T-2042,1", 'T-2042,"1"x').encode(),
            "row 4: it has control characters": oms.replace("T-2042,1", "T-2042,1\0").encode(),
            "row 4: it is no CSV, and what comes behind it isn't read: field larger": oms.replace(
                "T-2042", "T" * 200_000
            ).encode(),
            "row 4: it is no CSV, and what comes behind it isn't read: a line has": oms.replace(
                "T-2042", "T" * 2_000_000
            ).encode(),
            "row 4: the device 'ß' isn't": oms.replace("T-2042,1,SW-81", "T-2042,1,ß").encode(),
            "isn't of the encoding utf-8": b"\x89PNG\r\n\x1a\n",
            "isn't of the encoding": os.urandom(4_000).translate(None, b'\n\r"'),
        }
        for reason, data in cases.items():
            with self.subTest(reason):
                self.refused(reason, oms=data)
        for reason, path in {"Is a directory": self.folder, "No such file": self.folder / "none"}.items():
            done = exports.run("--oms", path, *exports.PERIOD)
            self.assertEqual((done.status, done.out), (1, ""))
            self.assertIn(f"can't be read: {reason}", done.err)

    def test_an_export_that_is_told_twice(self) -> None:
        """A second file isn't read in place of the first."""
        for name in exports.EXPORTS:
            with self.subTest(name):
                done = self.run_with(f"--{name}", self.folder / f"{name}.csv")
                self.assertEqual((done.status, done.out), (64, ""))
                self.assertIn(f"--{name} is told twice: put both files into one\n", done.err)

    def test_where_rows_can_not_be_written(self) -> None:
        self.refused("can't be written", "-o", self.folder / "none" / "rows.csv")
        self.refused("is no file", "-o", self.folder)
        output = self.folder / "rows.csv"
        self.refused("can't be written", "-o", output, "--report", self.folder / "none" / "report.txt")
        self.assertFalse(output.exists())

    def test_periods_that_are_none(self) -> None:
        for first in ["9999-12-31", "0001-01-01", "2025-02-30", "soon"]:
            done = exports.run(*self.words, "--first", first, "--days", "366", "--zone", exports.ZONE)
            self.assertEqual((done.status, done.out), (1, ""))

    def test_progress_on_a_terminal_alone(self) -> None:
        """Standard error is a terminal: rows are counted there; else nothing is said."""
        head, *_ = sample("customers").splitlines()
        rows = "".join(f"{number},DEPOT,2020-01-01,\n" for number in range(1, 20_002))
        (self.folder / "customers.csv").write_text(f"{head}\n{rows}")
        command = [sys.executable, str(support.TOOLS / "from_oms.py"), *self.words, *exports.PERIOD]
        quiet = subprocess.run(command, capture_output=True, text=True, check=True)
        self.assertNotIn("20,000 rows", quiet.stderr)
        master, slave = pty.openpty()
        with open(os.devnull, "wb") as nothing:
            subprocess.run(command, stdout=nothing, stderr=slave, check=True)
        os.close(slave)
        self.assertIn(b"customers.csv: 20,000 rows\r", os.read(master, 65_536) + b"\r")
        os.close(master)


class Fields(unittest.TestCase):
    """Numbers and moments by themselves."""

    def second(self, text: str, *dates: str, hour: str = "", clock: bool = False) -> int:
        return read_moment(text, hour, CENTRAL_EUROPE, "out", dates, clock)

    def refuses(self, reason: str, text: str, *dates: str, clock: bool = False) -> None:
        with self.subTest(text), self.assertRaisesRegex(BadRow, reason):
            self.second(text, *dates, clock=clock)

    def test_spellings_of_one_moment(self) -> None:
        for text in [
            "2025-10-21 08:14:00",
            "2025-10-21T08:14:00",
            "2025-10-21 08:14",
            "2025-10-21 08:14:00.000",
            "2025-10-21 08:14:00,000000",
            "2025-10-21T06:14Z",
            "2025-10-21T06:14:00 +00:00",
            "2025-10-21 08:14+0200",
            "2025-10-21 08:14+02",
        ]:
            self.assertEqual(self.second(text), 1_761_027_240, text)
        self.assertEqual(self.second("21.10.2025 08:14", "%d.%m.%Y %H:%M"), 1_761_027_240)
        self.assertEqual(self.second("10/21/2025 8:14 AM", "%d.%m.%Y %H:%M", "%m/%d/%Y %I:%M %p"), 1_761_027_240)

    def test_the_end_of_a_day(self) -> None:
        self.assertEqual(self.second("2025-10-21 24:00"), self.second("2025-10-22 00:00:00"))
        self.assertEqual(self.second("2025-12-31 24:00:00"), self.second("2026-01-01"))
        self.refuses("is no time", "2025-10-21 24:00:01")
        self.refuses("is no time", "9999-12-31 24:00")

    def test_what_is_no_moment(self) -> None:
        for text in [
            "soon",
            "2025-02-29",
            "2025-10-21x08:14",
            "20251021",
            "2025-W43-2",
            "21.10.2025 08:14",
            "٢٠٢٥-10-21",
        ]:
            self.refuses("is no time", text)
        for text in ["2025-10-21 08:60", "2025-10-21 08:14:60", "2025-10-21 08:14+24:00", "2025-10-21 08:14+02:60"]:
            self.refuses("is no time", text)
        self.refuses("fraction of a second", "2025-10-21 08:14:00.5")
        self.refuses("fraction of a second", "21.10.2025 08:14:00.5", "%d.%m.%Y %H:%M:%S.%f")
        self.refuses("has no time of day", "2025-10-21", clock=True)
        self.refuses("has no time of day", "21.10.2025", "%d.%m.%Y", clock=True)
        self.refuses(
            "may be 2025-10-01.* or 2025-11-10|may be 2025-01-10.* or 2025-10-01", "01/10/2025", "%d/%m/%Y", "%m/%d/%Y"
        )
        self.refuses("lies after 5138", "9999-12-31")

    def test_days_begin_where_the_book_begins_them(self) -> None:
        chile = Zone("<-04>4<-03>,M9.1.6/24,M4.1.6/24")
        self.assertEqual(read_moment("2024-09-08", "", chile, "since"), 1_725_768_000)
        self.refuses("was shown by no clock", "2025-03-30 02:30")

    def test_long_ago_and_far_away(self) -> None:
        for text in ["0001-01-01", "1000-02-03 04:05:06", "1969-12-31 23:00", "1969-12-31T23:59:59Z"]:
            self.assertLess(self.second(text), 0)
        self.assertEqual(self.second("1970-01-01T00:00:00Z"), 0)
        self.assertEqual(self.second("5000-01-01T00:00:00Z"), 95_617_584_000)

    def test_formats(self) -> None:
        for text in ["%H:%M", "%d.%m %H:%M", "%Y-%m", "%Q", "%", "%Y %Y-%m-%d"]:
            with self.subTest(text), self.assertRaises(ValueError):
                check_format(text)
        self.assertEqual(check_format("%d.%m.%y"), "%d.%m.%y")
        with redirect_stderr(io.StringIO()):
            self.assertEqual(exports.run("--oms", "o.csv", "--date-format", "%H").status, 64)

    def test_numbers(self) -> None:
        for text in ["7", "007", "7.0", "7,00", "7,00000000"]:
            self.assertEqual(number(text, 255, "the feeder"), 7)
        for text in ["7,000", "7.000"]:
            with self.assertRaisesRegex(BadRow, "may be thousands"):
                number(text, 255, "the feeder")
        for text in ["", "0", "256", "7,5", "-7", "7e0", "٧", "1.000.000"]:
            with self.assertRaisesRegex(BadRow, "isn't a number from 1 to 255"):
                number(text, 255, "the feeder")


if __name__ == "__main__":
    unittest.main()
