"""Districts: exports that are cut, what a cut costs, and desks behind one proxy."""

import csv
import random
import re
import shutil
import ssl
import subprocess
import threading
import time
import unittest
from collections import Counter
from collections.abc import Iterable
from contextlib import ExitStack, contextmanager, redirect_stdout
from functools import lru_cache
from http.server import BaseHTTPRequestHandler, ThreadingHTTPServer
from io import StringIO
from pathlib import Path
from typing import Any
from urllib.error import HTTPError
from urllib.request import Request, urlopen

from outage_tools.counts import SETS, fraction_text, indices_of
from outage_tools.district_check import CheckedCut, Part, check_cut, part_of, write_check
from outage_tools.errors import BookError
from outage_tools.sums import Sums, add_up
from tests import many_books
from tests.many_books import books_of, district_rows, figures_of, opened, parts_of, run, table_of, with_tables
from tests.support import DEPLOY, PROGRAM, needs_program

GIS_COLUMNS = ["type", "name", "feeder", "from", "to", "normal", "note"]
NGINX = shutil.which("nginx") or "/usr/sbin/nginx"
TIE_HEAD = "tie,district,node,other_district,other_node\n"


def read(path: Path) -> list[dict[str, str]]:
    with path.open(newline="") as file:
        return list(csv.DictReader(file))


class Exports:
    """A made utility: substations with feeders that branch, and ties between any two sections."""

    def __init__(self, seed: int, substations: int = 12, sections: int = 40, ties: int = 30) -> None:
        rng = random.Random(f"utility {seed}")
        self.gis: list[list[str]] = []
        self.customers: list[list[str]] = []
        self.bus_of: dict[str, str] = {}
        devices: list[list[str]] = []
        feeder = 0
        for number in range(1, substations + 1):
            bus = f"bus-{number}"
            self.gis.append(["bus", bus, "", "", "", "", "a substation"])
            devices.append(["device", f"in-{number}", "", "GRID", bus, "closed", ""])
            for _ in range(2):
                feeder += 1
                above = [bus]
                for place in range(rng.randint(1, sections // 2)):
                    section = f"s-{feeder}-{place}"
                    self.gis.append(["section", section, f"circuit {feeder}", "", "", "", ""])
                    devices.append(
                        ["device", f"sw-{feeder}-{place}", "", rng.choice(above[-3:]), section, "closed", ""]
                    )
                    above.append(section)
                    self.bus_of[section] = bus
                    for _ in range(rng.randint(0, 4)):
                        self.customers.append([str(len(self.customers) + 1), section, "2001-01-01", ""])
        for number in range(1, ties + 1):
            a, b = rng.sample(list(self.bus_of), 2)
            devices.append(["device", f"tie-{number}", "", a, b, "open", "a tie"])
        self.gis += devices
        rng.shuffle(self.gis)
        self.oms = [["1", row[1], "2025-03-25 10:00", "2025-03-25 11:00"] for row in devices if row[1][:3] == "tie"]

    def write(self, name: str) -> Path:
        folder = many_books.folder() / name
        folder.mkdir()
        for file, columns, rows in (
            ("gis.csv", GIS_COLUMNS, self.gis),
            ("customers.csv", ["customer", "section", "since", "until"], self.customers),
            ("oms.csv", ["ticket", "device", "out", "restored"], self.oms),
        ):
            with (folder / file).open("w", newline="") as opened_file:
                csv.writer(opened_file).writerows([columns, *rows])
        return folder


def cut(folder: Path, *arguments: object) -> "subprocess.CompletedProcess[str]":
    files = [folder / "gis.csv", folder / "customers.csv", "--oms", folder / "oms.csv"]
    return run("districts", "cut", *files, "-o", folder / "cut", *arguments)


def is_within(row: dict[str, str]) -> list[str]:
    """The nodes of a device's row but GRID."""
    return [row[end].upper() for end in ("from", "to") if row[end] != "GRID"]


class Cutting(unittest.TestCase):
    def test_what_is_cut_belongs_together_again(self) -> None:
        for seed in range(4):
            folder = Exports(seed).write(f"cut-{seed}")
            done = cut(folder, "--room", "90")  # a tenth of a book: 102 nodes
            self.assertEqual((done.returncode, done.stderr), (0, ""))
            self.assert_cut(folder)

    def assert_cut(self, folder: Path) -> None:
        gis, made = read(folder / "gis.csv"), folder / "cut"
        of_node = {row["node"]: row["district"] for row in read(made / "districts.csv")}
        names = sorted(set(of_node.values()))
        self.assertGreater(len(names), 2)
        self.assertEqual(sorted(of_node), sorted(row["name"].upper() for row in gis if row["type"] != "device"))
        parts = {name: read(made / name / "gis.csv") for name in names}
        ties = {row["tie"]: row for row in read(made / "ties.csv")}
        for row in gis:
            if row["type"] == "device":
                districts = {of_node[node] for node in is_within(row)}
                self.assertEqual(len(districts) == 2, row["name"].upper() in ties)
                self.assertTrue(len(districts) == 1 or row["normal"] == "open", row)
                told = {name: each for name in names for each in parts[name] if each["name"] == row["name"]}
                self.assertEqual(set(told), districts)
                for name, each in told.items():
                    ends = [
                        "GRID" if of_node.get(row[end].upper(), name) != name else row[end] for end in ("from", "to")
                    ]
                    self.assertEqual([each["from"], each["to"], each["note"]], [*ends, row["note"]])
        numbers = {(row["district"], row["number"]): row["feeder"] for row in read(made / "feeders.csv")}
        feeders = {row["name"]: row["feeder"] for row in gis if row["type"] == "section"}
        for name, rows in parts.items():
            self.assertLessEqual(sum(row["type"] != "device" for row in rows), 101)
            self.assertLessEqual(sum(row["type"] == "device" for row in rows), 204)
            for row in rows:
                if row["type"] == "section":
                    self.assertEqual(numbers[name, row["feeder"]], feeders[row["name"]])
            customers = read(made / name / "customers.csv")
            self.assertEqual({of_node[row["section"].upper()] for row in customers}, {name} if customers else set())
        lists = [read(made / name / "customers.csv") for name in names]
        self.assertEqual(Counter(row["customer"] for rows in lists for row in rows).most_common(1)[0][1], 1)
        self.assertEqual(sum(map(len, lists)), len(read(folder / "customers.csv")))
        told_to = Counter(row["device"].upper() for name in names for row in read(made / name / "oms.csv"))
        self.assertEqual({device for device, count in told_to.items() if count == 2}, set(ties))

    def test_the_same_again_and_an_earlier_cut_stays(self) -> None:
        exports = Exports(9)
        folder = exports.write("again")
        cut(folder, "--room", "90")
        before = read(folder / "cut" / "districts.csv")
        shutil.copyfile(folder / "cut" / "districts.csv", folder / "before.csv")
        bus = exports.gis.index(next(row for row in exports.gis if row[1] == "bus-1"))
        exports.gis.append(["section", "new", "circuit 1", "", "", "", ""])
        exports.gis.append(["device", "sw-new", "", "bus-1", "new", "closed", ""])
        exports.gis.insert(0, exports.gis.pop(bus))
        shutil.rmtree(folder)
        folder = exports.write("again")
        (folder / "before.csv").write_text(
            "node,district\n" + "".join(f"{r['node']},{r['district']}\n" for r in before)
        )
        done = cut(folder, "--room", "90", "--as", folder / "before.csv")
        self.assertEqual((done.returncode, done.stderr), (0, ""))
        after = {row["node"]: row["district"] for row in read(folder / "cut" / "districts.csv")}
        self.assertEqual(
            {row["node"]: after[row["node"]] for row in before}, {r["node"]: r["district"] for r in before}
        )
        self.assertEqual(after["NEW"], after["BUS-1"])

    def test_what_an_earlier_cut_does_not_know_goes_where_it_hangs(self) -> None:
        """A spare transformer behind open devices, and what hangs on it alone: by ties, not by the order of districts."""
        folder = many_books.folder() / "spare"
        folder.mkdir()
        rows = ["type,name,feeder,from,to,normal", "section,SPARE,3,,,", "section,BEHIND,3,,,", "section,ALONE,3,,,"]
        rows += [
            "section,HARBOR,1,,,",
            "section,MILL,2,,,",
            "device,CB-H,,GRID,HARBOR,closed",
            "device,CB-M,,GRID,MILL,closed",
        ]
        rows += ["device,A,,MILL,SPARE,open", "device,B,,MILL,SPARE,open", "device,C,,HARBOR,SPARE,open"]
        rows += ["device,D,,SPARE,BEHIND,open"]
        (folder / "gis.csv").write_text("\n".join(rows))
        (folder / "earlier.csv").write_text("node,district\nHARBOR,harbor\nMILL,mill\n")
        words = ["--as", folder / "earlier.csv", "-o", folder / "cut"]
        done = run("districts", "cut", folder / "gis.csv", *words)
        self.assertEqual((done.returncode, done.stderr), (0, ""))
        made = {row["node"]: row["district"] for row in read(folder / "cut" / "districts.csv")}
        mill = {"MILL": "mill", "SPARE": "mill", "BEHIND": "mill"}
        self.assertEqual(made, {"HARBOR": "harbor", **mill, "ALONE": "harbor"})

    def test_areas_that_are_joined_since_are_refused(self) -> None:
        exports = Exports(10)
        folder = exports.write("joined")
        cut(folder, "--room", "90")
        tie = read(folder / "cut" / "ties.csv")[0]
        shutil.copyfile(folder / "cut" / "districts.csv", folder / "before.csv")
        text = (folder / "gis.csv").read_text()
        name = tie["tie"].lower()
        (folder / "gis.csv").write_text(re.sub(f"(device,{name},.*),open,", "\\1,closed,", text))
        done = cut(folder, "--room", "90", "--as", folder / "before.csv")
        self.assertEqual(done.returncode, 1)
        self.assertIn("lies in several districts of the earlier cut", done.stderr)

    def test_the_counts_of_a_ticket_stand_where_its_customers_are(self) -> None:
        """A tie's rows are in two districts; the counts of its ticket stay in that of the ticket's other devices."""
        folder = many_books.folder() / "counts"
        folder.mkdir()
        rows = ["type,name,feeder,from,to,normal", "section,A,1,,,", "section,B,2,,,", "section,C,2,,,"]
        rows += ["device,CB-A,,GRID,A,closed", "device,CB-B,,GRID,B,closed", "device,SW,,B,C,closed"]
        (folder / "gis.csv").write_text("\n".join([*rows, "device,TIE,,A,C,open"]))
        (folder / "earlier.csv").write_text("node,district\nA,east\nB,west\n")
        oms = ["ticket,step,device,out,restored,customers,customer_minutes"]
        oms += ["1,1,CB-B,10:00,12:00,9,90", "1,2,SW,10:30,12:10,9,90", "1,3,TIE,12:20,10:40,9,90"]
        oms += [
            "2,1,TIE,10:00,11:00,1,2",
            "3,1,CB-A,9:00,9:10,4,40",
            "3,2,CB-B,9:00,9:10,4,40",
            "3,3,TIE,9:09,9:02,4,40",
        ]
        (folder / "oms.csv").write_text("\n".join(oms))
        done = run(
            "districts",
            "cut",
            folder / "gis.csv",
            "--oms",
            folder / "oms.csv",
            "--as",
            folder / "earlier.csv",
            "-o",
            folder / "cut",
        )
        self.assertEqual((done.returncode, done.stderr), (0, ""))
        told = {name: (folder / "cut" / name / "oms.csv").read_text().splitlines()[1:] for name in ("east", "west")}
        self.assertEqual(told["west"], [*oms[1:5], *oms[6:8]])
        self.assertEqual(told["east"], ["1,3,TIE,12:20,10:40,,", oms[4], oms[5], oms[7]])

    def test_an_area_that_no_book_holds_is_refused_with_its_numbers(self) -> None:
        folder = many_books.folder() / "large"
        folder.mkdir()
        rows = ["type,name,feeder,from,to,normal", "bus,B,,,,", "device,I,,GRID,B,closed"]
        rows += [f"section,S{n},1,,," for n in range(1_100)]
        rows += [f"device,D{n},,B,S{n},closed" for n in range(1_100)]
        (folder / "gis.csv").write_text("\n".join(rows))
        done = run("districts", "cut", folder / "gis.csv", "-o", folder / "cut")
        self.assertEqual((done.returncode, done.stdout), (1, ""))
        self.assertIn("the area of B (feeders 1): 1102 of 1024 nodes", done.stderr)
        self.assertFalse((folder / "cut").exists())
        (folder / "gis.csv").write_text("\n".join(row for row in rows if not re.search(r"[SD](9\d\d|1\d\d\d)\b", row)))
        done = run("districts", "cut", folder / "gis.csv", "-o", folder / "cut")
        self.assertEqual(done.returncode, 0)
        self.assertIn("less than 20 per cent of room: 902 of 1024 nodes", done.stdout)

    def test_rows_that_cant_be_read_are_all_told(self) -> None:
        folder = many_books.folder() / "bad"
        folder.mkdir()
        rows = ["type,name,feeder,from,to,normal", "bus,B,,,,", "section,S,1,,,", "section,s,1,,,", "pole,P,,,,"]
        rows += ["device,D1,,B,X,closed", "device,D2,,B,B,open", "device,D3,,B,S,ajar", "device,D4,,GRID,B,closed"]
        (folder / "gis.csv").write_text("\n".join(rows))
        (folder / "customers.csv").write_text("customer,section\n1,S\n2,B\n")
        done = run("districts", "cut", folder / "gis.csv", folder / "customers.csv", "-o", folder / "cut")
        self.assertEqual((done.returncode, done.stdout), (1, ""))
        found = re.findall(r"(\w+)\.csv: row (\d+)", done.stderr)
        self.assertEqual(sorted(found), [("customers", "2"), *(("gis", n) for n in "34567")])
        self.assertFalse((folder / "cut").exists())
        (folder / "gis.csv").write_text("name\nB\n")
        done = run("districts", "cut", folder / "gis.csv", "-o", folder / "cut")
        self.assertIn("hasn't the column type", done.stderr)

    def test_exports_as_other_programs_write_them(self) -> None:
        """Semicolons, an older encoding, names of columns in capitals or their own: cut as the plain ones are, into UTF-8 and
        commas."""
        own = {"SECTION": "LINE", "DEVICE": "SWITCH NO", "FEEDER": "CIRCUIT"}
        exports = Exports(3)
        plain, other = exports.write("plain"), exports.write("other")
        for name in ("gis.csv", "customers.csv", "oms.csv"):
            head, *rows = (plain / name).read_text().replace("substation", "sous-station \u00e9").splitlines()
            (plain / name).write_text("\n".join([head, *rows]), encoding="utf-8")
            names = ",".join(own.get(column, column) for column in head.upper().split(","))
            text = "\n".join(["", names, *rows]).replace(",", ";")
            (other / name).write_text(text, encoding="cp1252")
        renamed = [word for ours, theirs in own.items() for word in ("--column", f"{theirs.title()}={ours.lower()}")]
        for folder, words in ((plain, list[str]()), (other, ["--encoding", "cp1252", *renamed])):
            done = cut(folder, "--room", "90", *words)
            self.assertEqual((done.returncode, done.stderr), (0, ""))
        made = sorted(path.relative_to(plain) for path in (plain / "cut").rglob("*.csv"))
        self.assertGreater(len(made), 9)
        for path in made:
            first, _, rest = (other / path).read_text(encoding="utf-8").partition("\n")
            if path.parts[1] not in ("districts.csv", "feeders.csv", "ties.csv"):
                first = ",".join(
                    {theirs: ours for ours, theirs in own.items()}.get(each, each) for each in first.split(",")
                )
            self.assertEqual(f"{first.lower()}\n{rest}", (plain / path).read_text(encoding="utf-8"))
        done = cut(other, "--encoding", "cp1252", *renamed, "--column", "Switch=device")
        self.assertEqual(done.returncode, 1)
        self.assertIn("no file has a column 'switch' that --column names as device", done.stderr)
        done = cut(other, "--room", "90", *renamed)
        self.assertEqual(done.returncode, 1)
        self.assertRegex(done.stderr, "gis.csv: row [0-9]+: it has bytes that aren't of the encoding utf-8")

    def test_rows_that_are_none_are_refused_with_their_numbers(self) -> None:
        folder = many_books.folder() / "none"
        folder.mkdir()
        gis = "type,name,feeder,from,to,normal\nbus,B,,,,\nsection,S,1,,,\ndevice,D1,,GRID,B,closed\n"
        gis += "device,D2,,B,S,closed\n"
        cases = {
            "gis.csv": (gis + "section,S2,1,,,,too many\n", "row 5: it has 7 fields, and there are 6 columns"),
            "customers.csv": ("customer,section\n1,S\n2\n", "row 2: it has 1 fields, and there are 2 columns"),
            "oms.csv": ("ticket,device\nT1,D1\nT2,D9\n", "row 2: no device of the network is 'D9'"),
        }
        for name, (text, told) in cases.items():
            (folder / "gis.csv").write_text(gis)
            (folder / "customers.csv").write_text("customer,section\n1,S\n")
            (folder / "oms.csv").write_text("ticket,device\nT1,D1\n")
            (folder / name).write_text(text)
            with self.subTest(name):
                done = cut(folder)
                self.assertEqual((done.returncode, done.stdout), (1, ""))
                self.assertIn(f"{name}: {told}", done.stderr)
                self.assertFalse((folder / "cut").exists())
        (folder / "gis.csv").write_text(gis.replace("feeder", "name"))
        self.assertIn("has two columns name", cut(folder).stderr)

    def test_wrong_words(self) -> None:
        for arguments in ("", "cut", "cut a.csv", "cut a.csv -o x --room 95", "check", "desks", "check t.csv"):
            self.assertEqual(run("districts", *arguments.split()).returncode, 64, arguments)


def compared(books: dict[str, Path]) -> dict[str, Part]:
    """Made books as `check` has them, by their districts."""
    return {name: part_of(name, opened(book)) for name, book in books.items()}


class Checking(unittest.TestCase):
    """Cut ties: what `check` says the cut cost is the difference from the whole network's book."""

    def test_the_difference_is_what_check_said(self) -> None:
        where = many_books.cut_networks(True)
        tied, cost = 0, 0
        for seed in many_books.SEEDS:
            with self.subTest(seed=seed):
                books = compared({book.stem: book for book in parts_of(where, seed)})
                checked = check_cut(str(where / f"{seed}-ties.csv"), books)
                sums = add_up([part.district for part in books.values()])
                self.assert_whole(checked, sums, table_of(where / f"{seed}-whole.db"))
                without = any(times.without for times in checked.times.values())
                self.assertTrue(without or all(each.is_none for each in checked.costs))
                tied += any(times.closed for times in checked.times.values())
                cost += not all(each.is_none for each in checked.costs)
        self.assertGreater(tied, len(many_books.SEEDS) // 4)
        self.assertGreater(cost, len(many_books.SEEDS) // 8)

    def assert_whole(self, checked: CheckedCut, sums: Sums, table: Path) -> None:
        """The sums with what the cut cost are the figures of the whole book."""
        whole = figures_of(table.read_text().splitlines())
        total = sums.total + sum(cost.customer_seconds for cost in checked.costs)
        self.assertEqual(whole["P, S and W"], f"{sums.length} {sums.served_seconds} {total}")
        for name in SETS:
            counts = sum((cost.counts[name] for cost in checked.costs), sums.counts[name])
            for index, value in indices_of(counts, sums.served_seconds, sums.length).items():
                self.assertEqual(whole[f"{index} {name}"].split()[0], fraction_text(value), index)
            self.assertEqual(whole[f"SUSTAINED {name}"], str(counts.sustained))
            self.assertEqual(whole[f"MOMENTARY {name}"], str(counts.momentary))
            self.assertEqual(checked.saidi[name][1], whole[f"SAIDI {name}"])

    def tied(self, name: str, north: Iterable[str], south: Iterable[str]) -> dict[str, Path]:
        """Two districts with a tie, each told some switchings of it."""
        tie = "device,D9,TIE,GRID,{}-S2,open,,"
        return books_of(
            name,
            {
                "north": [*district_rows("N", 1), tie.format("N"), *north],
                "south": [*district_rows("S", 11), tie.format("S"), *south],
            },
        )

    def ties_file(self) -> Path:
        path = many_books.folder() / "ties.csv"
        path.write_text(f"{TIE_HEAD}TIE,north,N-S2,south,S-S2\n")
        return path

    def test_worked_by_hand(self) -> None:
        """Both districts lose their breaker from 10 to 11 on the 25th. The tie is closed from 10:20 to 10:30: both books have
        S2 and S1 supplied over it, and truly nobody is."""
        said = [
            "switch,T1,TIE,close,2025-03-25T10:20:00+01:00,3,CREW,",
            "switch,T2,TIE,open,2025-03-25T10:30:00+01:00,3,CREW,",
        ]
        books = self.tied("worked-tie", said, said)
        done = run("districts", "check", self.ties_file(), *with_tables(books.values()), "--processes", "2")
        self.assertEqual((done.returncode, done.stderr), (0, ""))
        lines = done.stdout.splitlines()
        self.assertEqual(
            lines[:3],
            [
                "tie TIE north south: closed 600 seconds, of which 600 while its ends were without supply",
                "  from 2025-03-25T10:20:00+01:00 to 2025-03-25T10:30:00+01:00",
                "district north: without the cut +1800 customer-seconds, -3 sustained, +1800 of their seconds, +0 momentary",
            ],
        )
        self.assertIn("SAIDI all: 50/1 50.000 with the cut, 60/1 60.000 without", lines)
        self.assertNotIn("the cut cost nothing", lines)
        twice = run("districts", "check", self.ties_file(), *with_tables([*books.values(), books["north"]]))
        self.assertEqual((twice.returncode, twice.stdout), (1, ""))
        self.assertIn("given twice", twice.stderr)

    def test_a_tie_whose_other_end_is_supplied_costs_nothing(self) -> None:
        said = [
            "switch,T1,TIE,close,2025-03-27T10:20:00+01:00,3,CREW,",
            "switch,T2,TIE,open,2025-03-27T10:30:00+01:00,3,CREW,",
        ]
        books = compared(self.tied("free-tie", said, said))
        shown = StringIO()
        with redirect_stdout(shown):
            write_check(check_cut(str(self.ties_file()), books))
        self.assertIn("closed 600 seconds, of which 0 while", shown.getvalue())
        self.assertTrue(shown.getvalue().endswith("the cut cost nothing\n"))

    def test_a_tie_that_one_book_was_told_alone_is_refused(self) -> None:
        said = ["switch,T1,TIE,close,2025-03-27T10:20:00+01:00,3,CREW,"]
        books = compared(self.tied("lone-tie", said, []))
        with self.assertRaisesRegex(BookError, "TIE was told to close at the second 1743067200 in north alone"):
            check_cut(str(self.ties_file()), books)

    def test_a_book_or_a_device_that_is_missing_is_told(self) -> None:
        books = compared(self.tied("missing-tie", [], []))
        with self.assertRaisesRegex(BookError, "joins south, whose book isn't given"):
            check_cut(str(self.ties_file()), {"north": books["north"]})
        other = many_books.folder() / "other-ties.csv"
        for row, told in (
            ("T9,north,N-S2,south,S-S2", "no device T9"),
            ("TIE,north,N-S1,south,S-S2", "from GRID to N-S1"),
        ):
            other.write_text(f"{TIE_HEAD}{row}\n")
            with self.assertRaisesRegex(BookError, told):
                check_cut(str(other), books)


@lru_cache(maxsize=None)
def utility() -> Path:
    """A utility's exports, as docs/use/IMPORTING.md describes them, with outages for a book of a fortnight."""
    exports = Exports(77, substations=10, sections=36, ties=12)
    rng = random.Random("outages")
    breakers = [row[1] for row in exports.gis if row[1].startswith(("sw-", "in-"))]
    exports.oms = []
    for ticket, device in enumerate(rng.sample(breakers, 30), 1):
        day, hour, length = rng.randint(24, 30), rng.randint(4, 20), rng.randint(2, 59)
        exports.oms.append(
            [f"T{ticket}", device, f"2025-03-{day} {hour:02}:00", f"2025-03-{day} {hour:02}:{length:02}"]
        )
    folder = exports.write("utility")
    ties = [row for row in exports.gis if row[1].startswith("tie-")]
    rows = [[*row, "WIND", "CREW"] for row in exports.oms]
    for number, tie in enumerate(ties, 1):
        rows.append(
            [
                f"TIE{number}",
                tie[1],
                f"2025-04-0{number % 6 + 1} 03:{number:02}",
                f"2025-04-0{number % 6 + 1} 02:{number:02}",
            ]
        )
        rows[-1] += ["WIND", "CREW"]
    with (folder / "oms.csv").open("w", newline="") as file:
        csv.writer(file).writerows([["ticket", "device", "out", "restored", "cause", "crew"], *rows])
    (folder / "causes.csv").write_text("code,name,oms\n1,WIND,\n")
    return folder


def book_by_program(path: Path, exports: Path, causes: Path) -> Path:
    """A book that the program made of exports."""
    rows = path.with_suffix(".csv")
    files = ["--gis", exports / "gis.csv", "--customers", exports / "customers.csv", "--oms", exports / "oms.csv"]
    first, days, zone = map(str, many_books.FORTNIGHT)
    period = ["--first", first, "--days", days, "--zone", zone]
    done = run("from_oms", "--causes", causes, *files, *period)
    if done.returncode:
        raise AssertionError(done.stderr)
    rows.write_text(done.stdout)
    for arguments in (
        ["init", "--book", path, *period],
        ["import", "--book", path, rows],
    ):
        subprocess.run([str(PROGRAM), *map(str, arguments)], check=True, capture_output=True)
    return path


@needs_program
class FromExportsToSums(unittest.TestCase):
    """A utility in one book, and cut into districts with a book each, by the program."""

    books: list[Path] = []
    whole: list[str] = []

    @classmethod
    def setUpClass(cls) -> None:
        folder = utility()
        text = (folder / "gis.csv").read_text()
        for number in range(1, 21):
            text = text.replace(f"circuit {number},", f"{number},")
        (folder / "gis.csv").write_text(text)
        done = cut(folder, "--room", "90")
        if done.returncode:
            raise AssertionError(done.stderr)
        made = folder / "cut"
        names = sorted({row["district"] for row in read(made / "districts.csv")})
        cls.books = [book_by_program(folder / f"{name}.db", made / name, folder / "causes.csv") for name in names]
        whole = book_by_program(folder / "whole.db", folder, folder / "causes.csv")
        table = subprocess.run(
            [str(PROGRAM), "table", "--book", str(whole)], check=True, capture_output=True, text=True
        )
        cls.whole = table.stdout.splitlines()

    def test_the_sum_is_the_whole_and_the_cut_cost_nothing(self) -> None:
        self.assertGreater(len(self.books), 1)
        done = run("sum", *self.books, "--program", PROGRAM)
        self.assertEqual((done.returncode, done.stderr), (0, ""))
        self.assertEqual(figures_of(done.stdout.splitlines()), figures_of(self.whole))
        ties = utility() / "cut" / "ties.csv"
        done = run("districts", "check", ties, *self.books, "--program", PROGRAM)
        self.assertEqual((done.returncode, done.stderr), (0, ""))
        self.assertIn("closed 3600 seconds, of which 0 while", done.stdout)
        self.assertIn("the cut cost nothing", done.stdout)


# Desks.


@contextmanager
def desk(book: Path) -> Any:
    """A desk of a book, ended with the block: its port."""
    child = subprocess.Popen(
        [str(PROGRAM), "serve", "--book", str(book), "--port", "0"], stdout=subprocess.PIPE, text=True
    )
    try:
        assert child.stdout is not None
        line = child.stdout.readline()
        yield int(line.rsplit(":", 1)[1])
    finally:
        child.kill()
        child.communicate()


@contextmanager
def proxy(ports: dict[str, int], users: Iterable[str]) -> Any:
    """nginx with the example's configuration, its places and ports changed: the address that it listens on."""
    folder = many_books.folder() / "nginx"
    shutil.rmtree(folder, ignore_errors=True)
    folder.mkdir()
    subprocess.run(
        ["openssl", "req", "-x509", "-newkey", "rsa:2048", "-nodes", "-subj", "/CN=localhost", "-days", "2"]
        + ["-keyout", str(folder / "outagebook.key"), "-out", str(folder / "outagebook.pem")],
        check=True,
        capture_output=True,
    )
    password = subprocess.run(["openssl", "passwd", "-apr1", "secret"], check=True, capture_output=True, text=True)
    (folder / "outagebook.passwd").write_text("".join(f"{user}:{password.stdout}" for user in users))
    port = free_port()
    text = (DEPLOY / "nginx-districts.conf").read_text().replace("/etc/nginx/", f"{folder}/")
    text = text.replace("listen 443 ssl", f"listen 127.0.0.1:{port} ssl")
    for name, number in ports.items():
        text = re.sub(rf"({name} +)\d+;", rf"\g<1>{number};", text)
    temporary = "".join(
        f"{kind}_temp_path {folder}/{kind};" for kind in ("client_body", "proxy", "fastcgi", "uwsgi", "scgi")
    )
    (folder / "nginx.conf").write_text(
        f"daemon off; user root; pid {folder}/pid; error_log {folder}/error.log; events {{}}\n"
        f"http {{ access_log off; {temporary}\n{text}\n}}\n"
    )
    child = subprocess.Popen([NGINX, "-c", str(folder / "nginx.conf"), "-e", str(folder / "error.log")])
    try:
        wait_for(port)
        yield f"https://127.0.0.1:{port}"
    finally:
        child.terminate()
        child.wait()


def free_port() -> int:
    import socket

    with socket.socket() as taken:
        taken.bind(("127.0.0.1", 0))
        number: int = taken.getsockname()[1]
        return number


def wait_for(port: int) -> None:
    import socket

    end = time.monotonic() + 20
    while True:
        with socket.socket() as tried:
            if tried.connect_ex(("127.0.0.1", port)) == 0:
                return
        if time.monotonic() > end:
            raise AssertionError("nothing listens")
        time.sleep(0.05)


def status(url: str, user: str | None = None, data: bytes | None = None, host: str = "") -> tuple[int, bytes]:
    """What an address answers to a login, by GET or with a body by POST; `host` is another name that it is called by."""
    import base64

    request = Request(url, data=data, headers={"Host": host} if host else {})
    if user is not None:
        request.add_header("Authorization", "Basic " + base64.b64encode(f"{user}:secret".encode()).decode())
    context = ssl.create_default_context()
    context.check_hostname, context.verify_mode = False, ssl.CERT_NONE
    try:
        with urlopen(request, timeout=20, context=context) as reply:
            return reply.status, reply.read()
    except HTTPError as error:
        return error.code, error.read()


@needs_program
class Desks(unittest.TestCase):
    """Three districts' desks: what `desks` tells of each, and one proxy in front."""

    def setUp(self) -> None:
        self.books: dict[str, Path] = {}
        folder = many_books.folder() / f"desks-{self._testMethodName}"
        folder.mkdir()
        first, days, zone = map(str, many_books.FORTNIGHT)
        for number, name in enumerate(("north", "south", "harbour")):
            book, rows = folder / f"{name}.db", folder / f"{name}.csv"
            rows.write_text("\n".join(["kind,ref,f1,f2,f3,f4,f5,f6", *district_rows(name[0].upper(), 10 * number + 1)]))
            subprocess.run(
                [str(PROGRAM), "init", "--book", str(book), "--first", first, "--days", days, "--zone", zone],
                check=True,
                capture_output=True,
            )
            subprocess.run([str(PROGRAM), "import", "--book", str(book), str(rows)], check=True, capture_output=True)
            self.books[name] = book

    def desks_file(self, urls: dict[str, str]) -> Path:
        path = self.books["north"].with_name("desks.csv")
        rows = "".join(f"{name},{url},{self.books[name]}\n" for name, url in urls.items())
        path.write_text(f"district,url,book\n{rows}")
        return path

    def test_up_down_and_compared(self) -> None:
        with desk(self.books["north"]) as north, desk(self.books["south"]) as south:
            urls = {"north": f"http://127.0.0.1:{north}", "south": f"http://127.0.0.1:{south}/"}
            path = self.desks_file({**urls, "harbour": f"http://127.0.0.1:{free_port()}"})
            compared = path.with_name("compared.csv")
            compared.unlink(missing_ok=True)
            done = run("districts", "desks", path)
            self.assertEqual((done.returncode, done.stderr), (0, ""))
            rows = list(csv.DictReader(done.stdout.splitlines()))
            self.assertEqual([row["district"] for row in rows], ["north", "south", "harbour"])
            self.assertEqual([row["state"].split(":")[0] for row in rows], ["up", "up", "down"])
            self.assertEqual([row["commands"] for row in rows], ["14", "14", ""])
            self.assertEqual({row["compared"] for row in rows}, {"never"})
            done = run("districts", "compare", path, "--program", PROGRAM)  # while the desks are at work
            self.assertEqual((done.returncode, done.stderr), (0, ""))
            self.assertIn("north: equal, 14 commands\n", done.stdout)
            body = b'{"kind":"mark","ref":"M1","f1":"2025-03-25","f2":"ENG-1"}'
            self.assertEqual(status(f"{urls['north']}/commands", data=body)[0], 200)
            rows = list(csv.DictReader(run("districts", "desks", path).stdout.splitlines()))
            found = [(row["commands"], row["compared_commands"], row["result"]) for row in rows]
            self.assertEqual(found, [("15", "14", "equal"), ("14", "14", "equal"), ("", "14", "equal")])

    def test_a_book_that_cant_be_compared_is_told(self) -> None:
        path = self.desks_file({"north": "http://127.0.0.1:1"})
        path.write_text(path.read_text().replace("north.db", "nowhere.db"))
        done = run("districts", "compare", path, "--program", PROGRAM, "--compared", path.with_name("other.csv"))
        self.assertEqual(done.returncode, 1)
        self.assertIn("north: error: ", done.stdout)
        path.write_text("district,url\nnorth,localhost\n")
        self.assertEqual(run("districts", "desks", path).returncode, 1)

    @unittest.skipUnless(Path(NGINX).exists() and shutil.which("openssl"), "nginx or openssl isn't installed")
    def test_one_proxy_for_three_districts(self) -> None:
        with ExitStack() as stack:
            ports = {name: stack.enter_context(desk(book)) for name, book in self.books.items()}
            url = stack.enter_context(proxy(ports, ["anna", "north-anna", "harbour-bert"]))
            self.assertEqual(status(f"{url}/north/totals")[0], 401)
            for name in self.books:
                code, table = status(f"{url}/{name}/table", "anna")
                self.assertEqual((code, table), status(f"http://127.0.0.1:{ports[name]}/table"))
                self.assertEqual(code, 200)
            self.assertEqual(status(f"{url}/west/table", "anna")[0], 404)
            self.assertEqual(status(f"{url}/", "anna")[0], 404)
            body = b'{"kind":"mark","ref":"M2","f1":"2025-03-26","f2":"ENG-1"}'
            self.assertEqual(status(f"{url}/south/commands", "anna", body)[0], 403)
            self.assertEqual(status(f"{url}/south/commands", "north-anna", body)[0], 403)
            self.assertEqual(status(f"{url}/harbour/commands", "north-anna", body)[0], 403)
            self.assertEqual(status(f"{url}/north/commands", "north-anna", body)[0], 200)
            self.assertEqual(status(f"{url}/harbour/commands", "harbour-bert", body)[0], 200)
            self.assertIn(b'"no":14', status(f"{url}/south/commands/14", "anna")[1])
            self.assertEqual(status(f"{url}/south/commands/15", "anna")[0], 404)


class Screen(BaseHTTPRequestHandler):
    """In the place of a screen: tells what it was asked by whom."""

    def do_GET(self) -> None:
        body = f"{self.headers['Host']} {self.headers['X-Remote-User']} {self.path}".encode()
        self.send_response(200)
        self.send_header("Content-Length", str(len(body)))
        self.end_headers()
        self.wfile.write(body)

    def log_message(self, format: str, *args: Any) -> None:
        """Nothing is logged."""


@unittest.skipUnless(Path(NGINX).exists() and shutil.which("openssl"), "nginx or openssl isn't installed")
class Screens(unittest.TestCase):
    def test_each_screen_has_a_name_of_its_own_behind_the_proxy(self) -> None:
        with ThreadingHTTPServer(("127.0.0.1", 0), Screen) as server:
            threading.Thread(target=server.serve_forever).start()
            try:
                with proxy({"south": server.server_port, "harbour": free_port()}, ["anna"]) as url:
                    for path in ("/sheet?page=2", "/events"):
                        found = status(f"{url}{path}", "anna", host="south.screen.example.org")
                        self.assertEqual(found, (200, f"south.screen.example.org anna {path}".encode()))
                    self.assertEqual(status(f"{url}/", host="south.screen.example.org")[0], 401)
                    self.assertEqual(status(f"{url}/", "anna", host="west.screen.example.org")[0], 404)
                    self.assertEqual(status(f"{url}/events", "anna", host="west.screen.example.org")[0], 404)
                    self.assertEqual(status(f"{url}/", "anna", host="harbour.screen.example.org")[0], 502)
            finally:
                server.shutdown()


class Units(unittest.TestCase):
    def differing(self, unit: str) -> list[str]:
        """The lines of a district's unit that the single one hasn't."""
        one = (DEPLOY / f"{unit}.service").read_text().splitlines()
        each = (DEPLOY / f"{unit}@.service").read_text().splitlines()
        return [line for line in each if line not in one and not line.startswith("#")]

    def test_a_districts_units_differ_from_the_single_ones_in_book_ports_and_names_alone(self) -> None:
        self.assertEqual(
            self.differing("outagebook"),
            [
                "Description=The outage book's desk of %i",
                "EnvironmentFile=/etc/outagebook/%i.env",
                "ExecStart=/usr/local/bin/outagebook serve --book /var/lib/outagebook/%i.db --port ${PORT}",
            ],
        )
        self.assertEqual(
            self.differing("outagebook-screen"),
            [
                "Description=The outage book's screen of %i",
                "After=outagebook@%i.service",
                "Wants=outagebook@%i.service",
                "Environment=SCREEN_HOST=%i.screen.example.org",
                "EnvironmentFile=/etc/outagebook/%i.env",
                "ExecStart=/usr/local/bin/outagebook-screen --book /var/lib/outagebook/%i.db --port ${SCREEN_PORT}"
                " --desk http://127.0.0.1:${PORT} --program /usr/local/bin/outagebook --proxy 127.0.0.1 --senders %i-"
                " --host ${SCREEN_HOST}",
            ],
        )


if __name__ == "__main__":
    unittest.main()
