"""Exports of other systems, against figures known by hand and against a book that has their rows already."""

import shutil
import unittest
from pathlib import Path

from outage_tools.compare import open_book
from tests import support
from tests.support import written

ZONE = "CET-1CEST,M3.5.0,M10.5.0/3"
PERIOD = ["--zone", ZONE, "--first", "2025-10-20", "--days", "14"]


class FromOms(unittest.TestCase):
    """The sample exports."""

    FILES = [
        argument
        for name in ["causes", "gis", "customers", "oms"]
        for argument in (f"--{name}", support.EXPORTS / f"{name}.csv")
    ]

    def converted(self, *arguments: object, status: int = 0) -> str:
        done = support.run_tool("from_oms", *arguments)
        self.assertEqual(done.returncode, status, done.stderr)
        return done.stdout if status == 0 else done.stderr

    def made(self, name: str, text: str) -> support.Made:
        return support.made_of(name, [(written(f"{name}.csv", text), ("2025-10-20", "14", ZONE))])[0]

    def changed(self, name: str, *changes: tuple[str, str]) -> Path:
        text = (support.EXPORTS / f"{name}.csv").read_text()
        for old, new in changes:
            self.assertEqual(text.count(old), 1, old)
            text = text.replace(old, new)
        return written(f"{name}-changed.csv", text)

    def sample(self) -> support.Made:
        return self.made("oms-sample", self.converted(*self.FILES, *PERIOD))

    def test_the_sample_by_hand(self) -> None:
        """T-2041: from 08:14:05 OAK-STREET's three wait 6,475 seconds, and ELM-STREET's three until the tie at 08:45, 1,855.
        T-2042: DEPOT's two for 270 seconds. T-2043: from 02:30 of the first to 02:10 of the second reading, 40 minutes, five.
        """
        with open_book(str(self.sample().book), str(self.sample_table())) as found:
            amounts = {
                found.book.causes[key]: amount
                for (dim, key), amount in found.book.postings.items()
                if dim == 1 and key in found.book.causes
            }
            self.assertEqual(amounts["TREE"], 3 * 6_475 + 3 * 1_855)
            self.assertEqual(amounts["PLANNED"], 2 * 270)
            self.assertEqual(amounts["WIND"], 5 * 2_400)
            self.assertEqual(len(found.book.entries), 11)

    def sample_table(self) -> Path:
        return support.folder() / "oms-sample" / "oms-sample.table.txt"

    def setUp(self) -> None:
        for name in ["oms-sample", "oms-later"]:
            shutil.rmtree(support.folder() / name, ignore_errors=True)

    def test_lives(self) -> None:
        """A device that joins, and one that a GIS tells to have been taken down since; what it doesn't tell stays."""
        row = "device,TIE-78,,ELM-STREET,DEPOT,open"
        gis = (support.EXPORTS / "gis.csv").read_text().replace("\n", ",,\n").replace("normal,,", "normal,since,until")
        joins = written("gis-joins.csv", gis.replace(f"{row},,", f"{row},2025-10-20 09:00:00,"))
        files = [joins if argument == support.EXPORTS / "gis.csv" else argument for argument in self.FILES]
        text = self.converted(*files, *PERIOD)
        self.assertIn("device,GIS-DEVICE-TIE-78,TIE-78,ELM-STREET,DEPOT,open,2025-10-20T09:00:00+02:00,\n", text)
        made = self.made("oms-sample", text)
        arguments = ["--book", made.book, "--table", made.table]
        header = "kind,ref,f1,f2,f3,f4,f5,f6\n"
        self.assertEqual(self.converted("--gis", joins, *arguments), header)
        self.assertEqual(self.converted("--gis", support.EXPORTS / "gis.csv", *arguments), header)
        leaves = written("gis-leaves.csv", gis.replace(f"{row},,", f"{row},,2025-11-01 12:00:00"))
        rows = "life,GIS-LIFE-TIE-78,TIE-78,,2025-11-01T12:00:00+01:00,,,\n"
        self.assertEqual(self.converted("--gis", leaves, *arguments), header + rows)
        later = self.made("oms-later", text + rows)
        arguments = ["--book", later.book, "--table", later.table]
        self.assertEqual(self.converted("--gis", leaves, *arguments), header)
        self.assertIn("life,GIS-LIFE-TIE-78-2,TIE-78,2025-10-20", self.converted("--gis", joins, *arguments))

    def test_what_a_book_has_is_left_out(self) -> None:
        made = self.sample()
        text = self.converted(*self.FILES, "--book", made.book, "--table", made.table)
        self.assertEqual(text, "kind,ref,f1,f2,f3,f4,f5,f6\n")

    def test_a_changed_ticket_is_corrected_and_a_cancelled_one_withdrawn(self) -> None:
        made = self.sample()
        tickets = self.changed(
            "oms",
            ("10:02:00", "10:07:00"),
            ("13:04:30,,PLANNED WORK,CREW-B,,", "13:04:30,,PLANNED WORK,CREW-B,,cancelled"),
            ("17:55:00+01:00,,,", "17:55:00+01:00,,2025-10-30 20:00,"),
        )
        arguments = ["--causes", support.EXPORTS / "causes.csv", "--oms", tickets]
        text = self.converted(*arguments, "--book", made.book, "--table", made.table)
        self.assertEqual(
            text.splitlines()[1:],
            [
                "switch,OMS-T-2045-1-C,CB-7,close,2025-10-30T20:00:00+01:00,3,CREW-A,",
                "correct,OMS-T-2041-1-C-R2,1,1,close,2025-10-21T10:07:00+02:00,2,CREW-A",
                "withdraw,OMS-T-2042-1-O-W,9,1,,,,",
                "withdraw,OMS-T-2042-1-C-W,4,1,,,,",
            ],
        )
        later = self.made("oms-later", made.text.read_text() + text.split("\n", 1)[1])
        self.assertEqual(
            self.converted(*arguments, "--book", later.book, "--table", later.table), "kind,ref,f1,f2,f3,f4,f5,f6\n"
        )
        # Without the ticket's cancelling the entries would have to come back, which takes another step.
        self.assertIn(
            "was withdrawn", self.converted(*self.FILES, "--book", later.book, "--table", later.table, status=1)
        )

    def test_a_service_that_changes(self) -> None:
        made = self.sample()
        customers = self.changed("customers", ("5010,WHARF,2023-02-01,", "5010,WHARF,2023-02-01,2025-10-31"))
        text = self.converted("--customers", customers, "--book", made.book, "--table", made.table)
        self.assertEqual(
            text.splitlines()[1:],
            ["revise,CIS-5010-1675206000-1761865200,5010,2023-02-01T00:00:00+01:00,2025-10-31T00:00:00+01:00,,,"],
        )
        moved = self.changed("customers", ("5011,DEPOT", "5011,WHARF"))
        self.assertIn(
            "another number", self.converted("--customers", moved, "--book", made.book, "--table", made.table, status=1)
        )

    def test_what_is_refused(self) -> None:
        cases = [
            (("02:30:00,A", "02:30:00,"), "came twice"),
            (("2025-10-23 13:00:00", "2025-03-30 02:30:00"), "shown by no clock"),
            (("TREE DOWN,CREW-A,,\nT-2041,2", "SNOW,CREW-A,,\nT-2041,2"), "'SNOW' is in no list"),
            (("T-2041,2", "T-2041,1"), "two rows of step 1"),
            (("T-2042,1", "T 2042,1"), "the ticket 'T 2042'"),
            (("2025-10-23 13:04:30", "soon"), "restored 'soon' is no time"),
        ]
        for change, reason in cases:
            with self.subTest(reason):
                arguments = ["--causes", support.EXPORTS / "causes.csv", "--gis", support.EXPORTS / "gis.csv"]
                arguments += ["--oms", self.changed("oms", change), *PERIOD]
                self.assertIn(reason, self.converted(*arguments, status=1))
        self.assertIn(
            "no zone",
            self.converted("--causes", support.EXPORTS / "causes.csv", "--oms", support.EXPORTS / "oms.csv", status=1),
        )
