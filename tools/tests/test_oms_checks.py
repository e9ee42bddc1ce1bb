"""What an export has wrong is refused by its row, all rows at once, before anything is written."""

import json
import shutil
import sqlite3
import unittest
from contextlib import closing

from tests import exports, support
from tests.exports import Done, changed, sample
from tests.support import needs_program


class Checks(unittest.TestCase):
    """The samples, each with something changed."""

    def setUp(self) -> None:
        self.folder = support.folder() / "oms-checks"
        shutil.rmtree(self.folder, ignore_errors=True)
        self.folder.mkdir()

    def run_with(self, *more: object, **texts: str) -> Done:
        return exports.run(*exports.arguments_of(self.folder, texts), *exports.PERIOD, *more)

    def refused(self, *reasons: str, **texts: str) -> Done:
        """The run is refused, and each reason stands in one complaint."""
        done = self.run_with(**texts)
        self.assertEqual((done.status, done.out), (1, ""), done.err)
        for reason in reasons:
            self.assertEqual(sum(reason in line for line in done.complaints), 1, (reason, done.err))
        self.assertEqual(len(done.complaints), len(reasons), done.err)
        return done

    def taken(self, *more: object, **texts: str) -> Done:
        done = self.run_with(*more, **texts)
        self.assertEqual(done.status, 0, done.err)
        return done

    # Outages.

    def test_restored_before_out_of_a_device_that_is_closed_normally(self) -> None:
        oms = changed("oms", ("02:30:00,A,2025-10-26 02:10:00,B", "02:10:00,B,2025-10-26 02:30:00,A"))
        self.refused(
            "oms.csv: row 5: CB-8 is closed normally, and restored 2025-10-26T02:30:00+02:00 lies before", oms=oms
        )

    def test_out_before_restored_of_a_tie(self) -> None:
        oms = changed("oms", ("10:15:00,,2025-10-21 08:45", "08:45:00,,2025-10-21 10:15"))
        self.refused("oms.csv: row 3: the tie TIE-78 is open normally, and out 2025-10-21T08:45:00+02:00", oms=oms)

    OVERLAP = sample("oms") + "T-9,1,CB-7,2025-10-21 09:00,,2025-10-21 11:00,,WIND,CREW-A,,\n"

    def test_tickets_of_one_device_that_overlap(self) -> None:
        self.refused(
            "oms.csv: row 8: ticket T-9 step 1 opens CB-7 at 2025-10-21T09:00:00+02:00, while by ticket T-2041 step 1"
            " (row 1) it is open from 2025-10-21T08:14:05+02:00 until 2025-10-21T10:02:00+02:00",
            oms=self.OVERLAP,
        )

    def test_overlaps_that_are_joined(self) -> None:
        done = self.taken("--overlaps", "join", oms=self.OVERLAP)
        switchings = [line for line in done.out.splitlines() if ",CB-7," in line and line.startswith("switch")]
        self.assertEqual(
            switchings[:2],
            [
                "switch,OMS-T-9-1-C,CB-7,close,2025-10-21T11:00:00+02:00,1,CREW-A,",
                "switch,OMS-T-2041-1-O,CB-7,open,2025-10-21T08:14:05+02:00,2,CREW-A,",
            ],
        )
        self.assertIn("changed: steps that overlap, of which one outage was made: 2 (rows 1, 8)", done.err)

    def test_an_opening_of_what_is_open(self) -> None:
        oms = sample("oms") + "T-9,1,CB-7,2025-10-31 09:00,,,,WIND,CREW-A,,\n"
        self.refused(
            "row 8: ticket T-9 step 1 opens CB-7 at 2025-10-31T09:00:00+01:00, while by ticket T-2045", oms=oms
        )

    def test_a_closing_without_an_opening(self) -> None:
        oms = sample("oms") + "T-9,1,CB-8,,,2025-10-31 09:00,,WIND,CREW-A,,\n"
        self.refused("row 8: ticket T-9 step 1 closes CB-8 at 2025-10-31T09:00:00+01:00, and nothing says", oms=oms)

    def test_an_opening_and_its_closing_in_two_rows(self) -> None:
        oms = sample("oms") + "T-2045,2,CB-7,,,2025-10-31 09:00,,WIND,CREW-A,,\n"
        self.assertIn("switch,OMS-T-2045-2-C,CB-7,close,2025-10-31T09:00:00+01:00", self.taken(oms=oms).out)

    def test_one_device_closed_and_opened_again_in_one_second(self) -> None:
        """The closing of the first outage acts before the opening of the second, whichever row comes first."""
        oms = changed("oms", ("T-2042,1", "T-2044,2,SW-81,2025-10-23 13:04:30,,2025-10-23 14:00,,WIND,,,\nT-2042,1"))
        lines = [line for line in self.taken(oms=oms).out.splitlines() if ",SW-81," in line and "switch" in line]
        self.assertEqual(
            [line.split(",")[1] for line in lines],
            [f"OMS-T-{n}" for n in ("2042-1-C", "2044-2-C", "2042-1-O", "2044-2-O")],
        )

    def test_a_device_that_was_never_closed_is_told(self) -> None:
        done = self.taken("--report", self.folder / "report.txt")
        for told in (done.err, (self.folder / "report.txt").read_text()):
            self.assertIn("noticed: steps that aren't over: 1 (row 7)", told)

    def test_a_switching_outside_of_the_life_of_its_device_is_told(self) -> None:
        """The book takes it, and counts it where a life reaches it."""
        gis = sample("gis").replace("\n", ",\n").replace("normal,", "normal,since")
        gis = gis.replace("DEPOT,open,", "DEPOT,open,2025-10-21 09:00")
        self.taken("--report", self.folder / "report.txt", gis=gis)
        reason = "noticed: steps with a switching outside of the life of their device: 1 (row 3)"
        self.assertIn(reason, (self.folder / "report.txt").read_text())

    def test_two_rows_of_one_step(self) -> None:
        self.refused("row 2: ticket T-2041 has two rows of step 1", oms=changed("oms", ("T-2041,2", "T-2041,1")))

    def test_a_device_that_no_row_has(self) -> None:
        oms = changed("oms", ("T-2042,1,SW-81", "T-2042,1,SW-82"))
        self.refused("row 4: no row of the network, nor the book, has a device SW-82", oms=oms)

    def test_a_status_that_may_be_meant_for_cancelled(self) -> None:
        oms = changed(
            "oms",
            ("CREW-B,,cancelled", "CREW-B,,CANCELED"),
            ("17:55:00+01:00,,,,CABLE FAULT,CREW-A,,", "17:55:00+01:00,,,,CABLE FAULT,CREW-A,,cancelld"),
        )
        self.refused("row 7: status 'cancelld' may be meant for cancelled", oms=oms)

    def test_words_of_the_status(self) -> None:
        """A word that isn't looked at is told; one that means a mistake may be given."""
        oms = changed(
            "oms",
            ("CREW-B,,cancelled", "CREW-B,,Storno"),
            ("17:55:00+01:00,,,,CABLE FAULT,CREW-A,,", "17:55:00+01:00,,,,CABLE FAULT,CREW-A,,open"),
        )
        done = self.taken(oms=oms)
        self.assertIn(
            "oms.csv: noticed: rows with the status 'Storno', which are taken as others (--cancelled", done.err
        )
        self.assertIn("oms.csv: noticed: rows with the status 'open', which are taken as others (--cancelled", done.err)
        self.assertIn("OMS-T-2044-1-O", done.out)
        done = self.taken("--cancelled", "STORNO", oms=oms)
        self.assertNotIn("Storno", done.err)
        self.assertNotIn("OMS-T-2044-1-O", done.out)

    def test_very_many_rows_that_can_not_be_taken(self) -> None:
        """Standard error tells the first twenty with the same wrong, and what else is wrong; the report tells all of them."""
        customers = sample("customers") + "".join(
            f"{number},NOWHERE-{number},2020-01-01,\n" for number in range(6_000, 7_500)
        )
        customers += "7600,OAK-STREET,soon,\n"
        done = self.run_with("--report", self.folder / "report.txt", customers=customers)
        self.assertEqual((done.status, done.out), (1, ""))
        self.assertEqual(len([line for line in done.err.splitlines() if "is no section" in line]), 20)
        self.assertIn(
            "customers.csv: the same of 1480 more rows (rows 34 to 1513), which --report FILE tells", done.err
        )
        self.assertIn("customers.csv: row 1514: ", done.err)
        self.assertEqual((self.folder / "report.txt").read_text().count("is no section"), 1_500)

    # The network and the customers.

    def test_a_customer_told_twice_and_one_on_no_section(self) -> None:
        customers = changed(
            "customers", ("5002,OAK", "5001,OAK"), ("5011,DEPOT", "5011,DEPOTS"), ("5012,DEPOT", "5012,NORTH-BUS")
        )
        self.refused(
            "customers.csv: row 2: customer 5001 was told in row 1 already",
            "customers.csv: row 11: DEPOTS is no section",
            "customers.csv: row 12: NORTH-BUS is no section",
            customers=customers,
        )

    def test_names_told_twice_and_nodes_that_are_none(self) -> None:
        gis = changed(
            "gis",
            ("device,SW-71,,OAK", "device,CB-7,,OAK"),
            ("WHARF,DEPOT,", "WHARF,DEPOTS,"),
            ("section,ELM-STREET", "section,GRID"),
        )
        done = self.run_with(gis=gis)
        self.assertEqual(done.status, 1)
        for reason in [
            "row 3: GRID is",
            "row 10: no bus or section is called DEPOTS",
            "row 8: no bus or section is called ELM-STREET",
        ]:
            self.assertIn(reason, done.err)
        self.refused(
            "gis.csv: row 8: CB-7 was told in row 7 already", gis=changed("gis", ("device,SW-71,", "device,CB-7,"))
        )

    def test_what_follows_from_a_bad_network_is_not_told_again(self) -> None:
        gis = changed("gis", ("section,OAK-STREET,7", "section,OAK-STREET,700"))
        done = self.run_with(gis=gis)
        self.assertEqual(done.complaints[0], "gis.csv: row 2: the feeder '700' isn't a number from 1 to 255")
        self.assertFalse([line for line in done.complaints if not line.startswith("gis.csv")], done.err)
        gis = sample("gis").replace("type,name", "type,Names")
        self.refused("gis.csv: the line of column names: it has 'names', which isn't read, and no column name", gis=gis)

    def test_fields_too_many_and_too_few(self) -> None:
        oms = changed(
            "oms",
            ("WIND,CREW-A,,\nT-2044", "WIND,CREW-A,,,more\nT-2044"),
            ("PLANNED WORK,CREW-B,,\nT-2043", "PLANNED WORK\nT-2043"),
        )
        self.refused("row 5: it has 12 fields, and there are 11", "row 4: it has 8 fields, and there are 11", oms=oms)

    def test_the_hour_that_comes_twice_in_network_and_register(self) -> None:
        """Without its hour it is refused; with it each reading is another second."""
        customers = changed("customers", ("2025-10-22 12:00", "2025-10-26 02:30"))
        self.refused("customers.csv: row 4: since 2025-10-26 02:30:00 came twice: its hour is A", customers=customers)
        gis = (
            sample("gis")
            .replace("\n", ",\n")
            .replace("normal,", "normal,until")
            .replace("DEPOT,open,", "DEPOT,open,2025-10-26 02:30")
        )
        self.refused("gis.csv: row 11: until 2025-10-26 02:30:00 came twice", gis=gis)
        for hour, offset in [("A", "+02:00"), ("B", "+01:00")]:
            told = (
                customers.replace("\n", ",\n")
                .replace("until,", "until,since_hour")
                .replace("02:30,,", f"02:30,,{hour}")
            )
            self.assertIn(f",5004,OAK-STREET,2025-10-26T02:30:00{offset},", self.taken(customers=told).out)
            told = gis.replace("\n", ",\n").replace("until,", "until,until_hour").replace("02:30,", f"02:30,{hour}")
            self.assertIn(f",open,,2025-10-26T02:30:00{offset}\n", self.taken(gis=told).out)

    def test_before_1970(self) -> None:
        customers = changed("customers", ("5001,OAK-STREET,2004-05-01", "5001,OAK-STREET,1965-05-01"))
        done = self.taken("--report", self.folder / "report.json", customers=customers)
        self.assertIn("connect,CIS-5001,5001,OAK-STREET,1970-01-01T01:00:00+01:00,,,", done.out)
        self.assertIn("changed: moments before 1970, which became 0: 1 (row 1)", done.err)
        report = json.loads((self.folder / "report.json").read_text())
        self.assertEqual(
            report["files"][2]["changed"], [{"reason": "moments before 1970, which became 0", "count": 1, "rows": [1]}]
        )
        over = changed("customers", ("5001,OAK-STREET,2004-05-01,", "5001,OAK-STREET,1955-05-01,1965-05-01"))
        done = self.taken(customers=over)
        self.assertNotIn("CIS-5001", done.out)
        self.assertIn("left out: customers whose service was over before the period: 1 (row 1)", done.err)

    def test_services_and_lives_that_end_before_they_begin(self) -> None:
        customers = changed("customers", ("5008,WHARF,1999-11-01,2025-10-27", "5008,WHARF,2025-10-28,2025-10-27"))
        self.refused("customers.csv: row 8: until '2025-10-27' isn't after since", customers=customers)
        self.refused("customers.csv: row 4: since is empty", customers=changed("customers", ("2025-10-22 12:00", "")))

    def test_capitals(self) -> None:
        gis = sample("gis").replace("device", "Device").replace("closed", "CLOSED").replace("section", "Section")
        lines = gis.splitlines(keepends=True)
        text = self.taken(gis="".join([lines[0], *reversed(lines[1:])])).out
        self.assertIn("device,GIS-DEVICE-TIE-78,TIE-78,ELM-STREET,DEPOT,open,,\n", text)
        self.assertLess(text.index("section,"), text.index("device,"))

    def test_two_words_for_one_cause(self) -> None:
        causes = sample("causes") + "2,TREE,BRANCH\n"
        oms = changed("oms", ("02:10:00,B,WIND", "02:10:00,B,BRANCH"))
        text = self.taken(causes=causes, oms=oms).out
        self.assertEqual(text.count("cause,CAUSE-2,2,TREE"), 1)
        self.assertIn("switch,OMS-T-2043-1-O,CB-8,open,2025-10-26T02:30:00+02:00,2,", text)

    def test_causes_that_contradict_each_other(self) -> None:
        causes = sample("causes") + "2,TREES,BRANCH\n5,WIND,\n6,SNOW,TREE DOWN\n7,UNASSIGNED,\n"
        self.refused(
            "causes.csv: row 5: code 2 is TREE already",
            "causes.csv: row 6: WIND is the name of code 1 already",
            "causes.csv: row 7: 'TREE DOWN' stands for code 2 already",
            "causes.csv: row 8: UNASSIGNED is the name of code 0 already",
            causes=causes,
        )

    # The period.

    def test_tickets_outside_the_period(self) -> None:
        more = [
            "T-1,1,CB-7,2025-10-18 09:00,,2025-10-19 11:00,,WIND,,,",
            "T-2,1,CB-8,2025-10-19 09:00,,2025-10-20 11:00,,WIND,,,",
            "T-3,1,SW-81,2025-11-02 09:00,,2025-11-04 11:00,,WIND,,,",
            "T-4,1,SW-81,2025-11-05 09:00,,2025-11-06 11:00,,WIND,,,",
        ]
        done = self.taken(oms=sample("oms") + "".join(f"{row}\n" for row in more))
        self.assertIn("switch,OMS-T-2-1-O,CB-8,open,2025-10-20T00:00:00+02:00,1,OMS,", done.out)
        self.assertIn("switch,OMS-T-3-1-O,SW-81,open,2025-11-02T09:00:00+01:00,1,OMS,", done.out)
        for ref in ["OMS-T-1-1", "OMS-T-3-1-C", "OMS-T-4-1"]:
            self.assertNotIn(ref, done.out)
        for note in [
            "left out: steps before the period: 1 (row 8)",
            "changed: steps that began before the period, which begin at its first second: 1 (row 9)",
            "changed: steps that were over after the period, which stay open at its end: 1 (row 10)",
            "left out: steps after the period: 1 (row 11)",
        ]:
            self.assertIn(note, done.err)

    def test_two_rows_of_one_outage_on_both_sides_of_a_bound(self) -> None:
        """An opening and its closing in two rows are one outage, also where the period holds one of them or none."""
        row = "T-{0},1,CB-8,{1},,,,WIND,,,\nT-{0},2,CB-8,,,{2},,WIND,,,\n"
        cases = {
            ("2025-10-18 09:00", "2025-10-19 09:00"): [],
            ("2025-10-19 09:00", "2025-10-20 09:00"): [
                "2-C,CB-8,close,2025-10-20T09:00:00+02:00",
                "1-O,CB-8,open,2025-10-20T00:00:00+02:00",
            ],
            ("2025-11-02 09:00", "2025-11-03 09:00"): ["1-O,CB-8,open,2025-11-02T09:00:00+01:00"],
            ("2025-11-03 09:00", "2025-11-04 09:00"): [],
        }
        for moments, switchings in cases.items():
            done = self.taken(oms=sample("oms") + row.format(9, *moments))
            found = [line.split("T-9-")[1].rsplit(",", 3)[0] for line in done.out.splitlines() if "T-9-" in line]
            self.assertEqual(found, switchings, done.err)

    def test_devices_that_are_gone(self) -> None:
        """Tickets of another period's book may be of devices that this one doesn't have; those of this period may not."""
        gis = sample("gis").replace("\n", ",\n").replace("normal,", "normal,until")
        gis += "device,OLD-1,,WHARF,DEPOT,closed,2025-10-01\n"
        rows = [
            "T-1,1,OLD-1,2025-09-18 09:00,,2025-09-19 11:00,,WIND,,,",
            "T-2,1,OLD-0,2025-09-18 09:00,,2025-09-19 11:00,,WIND,,,",
            "T-3,1,NEW-1,2025-11-18 09:00,,,,WIND,,,",
            "T-4,1,OLD-1,2025-10-22 09:00,,2025-10-22 11:00,,WIND,,,",
            "T-5,1,OLD-0,2025-09-18 09:00,,,,WIND,,,",
        ]
        oms = sample("oms") + "".join(f"{row}\n" for row in rows)
        self.refused(
            "row 11: the device OLD-1 was taken down before the period",
            "row 12: no row of the network, nor the book, has a device OLD-0",
            gis=gis,
            oms=oms,
        )
        done = self.taken(gis=gis, oms=sample("oms") + "".join(f"{row}\n" for row in rows[:3]))
        for note in [
            "gis.csv: left out: devices that were taken down before the period: 1 (row 12)",
            "oms.csv: left out: steps before the period: 2 (rows 8-9)",
            "oms.csv: left out: steps after the period: 1 (row 10)",
        ]:
            self.assertIn(note, done.err)

    def test_what_it_is_checked_against_has_to_be_given(self) -> None:
        words = exports.arguments_of(self.folder, {})
        done = exports.run(*words, "--zone", exports.ZONE)
        self.assertEqual(done.status, 1)
        self.assertIn("give --book, or --first, --days and --zone", done.err)
        done = exports.run(*words[:2], *words[6:], *exports.PERIOD)
        self.assertEqual(done.status, 1)
        self.assertIn("give --gis or --book", done.err)
        for wrong in (
            ["--first", "2025-10-20"],
            [*exports.PERIOD, "--book", "b.db"],
            ["--days", "367"],
            ["--prefix", "oms"],
        ):
            self.assertEqual(exports.run(*words, *wrong).status, 64)

    # What is written.

    def test_all_refusals_at_once_and_nothing_written(self) -> None:
        output, report = self.folder / "rows.csv", self.folder / "report.json"
        output.write_text("as it was")
        texts = {
            "oms": changed("oms", ("T-2042,1,SW-81", "T-2042,1,SW-82"), ("T-2041,2", "T-2041,1")),
            "customers": changed("customers", ("5011,DEPOT", "5011,DEPOTS")),
        }
        done = self.run_with("-o", output, "--report", report, **texts)
        self.assertEqual((done.status, done.out, len(done.complaints)), (1, "", 3))
        self.assertEqual(output.read_text(), "as it was")
        self.assertEqual([each["row"] for each in json.loads(report.read_text())["refused"]], [11, 2, 4])
        self.assertEqual(json.loads(report.read_text())["written"], 0)
        done = self.taken("-o", output, "--report", report)
        self.assertEqual(output.read_text(), self.taken().out)
        self.assertEqual(json.loads(report.read_text())["written"], 39)
        self.assertEqual(
            {path.name for path in self.folder.iterdir()},
            {"rows.csv", "report.json", *(f"{name}.csv" for name in exports.EXPORTS)},
        )

    def test_more_than_a_book_has_room_for(self) -> None:
        sections = "".join(f"section,S-{number},7,,,\n" for number in range(1_100))
        report = self.folder / "report.txt"
        self.run_with("--report", report, gis=sample("gis") + sections)
        self.assertEqual(report.read_text().count("at most 1024 nodes"), 1_100 + 6 - 1_024)


@needs_program
class AgainstBook(unittest.TestCase):
    """The samples in a book, and later exports."""

    def setUp(self) -> None:
        self.folder = support.folder() / "oms-against-book"
        shutil.rmtree(self.folder, ignore_errors=True)
        self.folder.mkdir()
        self.book = exports.new_book(self.folder / "book.db")
        text = exports.run(*exports.arguments_of(self.folder, {}), *exports.PERIOD).out
        self.assertEqual(exports.import_text(self.book, text), (0, "added 39 again 0"))

    def run_with(self, *more: object, **texts: str) -> Done:
        return exports.run(*exports.arguments_of(self.folder, texts), *exports.book_words(self.book), *more)

    def test_what_no_command_changes(self) -> None:
        gis = changed(
            "gis",
            ("WHARF,8,,,", "WHARF,9,,,"),
            ("OAK-STREET,ELM-STREET,closed", "OAK-STREET,ELM-STREET,open"),
            ("NORTH-BUS,WHARF", "NORTH-BUS,DEPOT"),
            ("section,DEPOT,8", "bus,DEPOT,"),
        )
        done = self.run_with(gis=gis)
        self.assertEqual(
            [line.split(":")[1].strip() for line in done.complaints], ["row 4", "row 5", "row 8", "row 9"], done.err
        )
        self.assertEqual(
            self.run_with(causes=changed("causes", ("3,CABLE", "3,CABLES"))).complaints[0][:19], "causes.csv: row 3: "
        )

    def test_an_entry_of_the_desk_counts(self) -> None:
        """A device that the desk opened can't be opened by a new ticket; the book's own entries aren't complained about."""
        row = "switch,DESK-1,CB-8,open,2025-10-29T09:00:00+01:00,1,DESK,\n"
        self.assertEqual(exports.import_text(self.book, exports.HEADER + row), (0, "added 1 again 0"))
        self.assertEqual(self.run_with().out, exports.HEADER)
        oms = sample("oms") + "T-9,1,CB-8,2025-10-29 10:00,,2025-10-29 11:00,,WIND,,,\n"
        self.assertIn(
            "row 8: ticket T-9 step 1 opens CB-8 at 2025-10-29T10:00:00+01:00, while by entry 12 of the book",
            self.run_with(oms=oms).err,
        )

    def test_an_entry_that_would_act_too_late(self) -> None:
        """T-8 closes the device in the second in which T-9, which is in the book already, opens it."""
        oms = sample("oms") + "T-9,1,CB-8,2025-10-29 10:00,,2025-10-29 11:00,,WIND,,,\n"
        self.assertEqual(exports.import_text(self.book, self.run_with(oms=oms).out), (0, "added 2 again 0"))
        oms += "T-8,1,CB-8,2025-10-29 09:00,,2025-10-29 10:00,,WIND,,,\n"
        done = self.run_with(oms=oms)
        self.assertEqual(done.complaints[0][:32], "oms.csv: row 9: ticket T-8 step ", done.err)
        self.assertIn("entry 13 of the book would act first", done.err)

    def test_references_of_other_commands(self) -> None:
        row = "connect,CIS-6000,7000,DEPOT,0,,,\n"
        self.assertEqual(exports.import_text(self.book, exports.HEADER + row), (0, "added 1 again 0"))
        done = self.run_with(customers=sample("customers") + "6000,DEPOT,2020-01-01,\n")
        self.assertIn("connect,CIS-6000-2,6000,DEPOT,", done.out)
        self.assertEqual(exports.import_text(self.book, done.out), (0, "added 1 again 0"))

    def test_the_import_is_whole_or_not_at_all(self) -> None:
        """An export with a customer on no section doesn't get half of its rows into the book."""
        done = self.run_with(customers=sample("customers") + "6000,NOWHERE,2020-01-01,\n")
        self.assertEqual((done.status, done.out), (1, ""))
        with closing(sqlite3.connect(self.book)) as database:
            self.assertEqual(database.execute("SELECT count(*) FROM cmd").fetchone(), (39,))


@needs_program
class OverTheYearsEnd(unittest.TestCase):
    """Two periods, one after the other: the export of the second goes in as it is."""

    NEXT = ["--first", "2025-11-03", "--days", "14", "--zone", exports.ZONE]
    OMS = sample("oms") + "".join(
        f"{row}\n"
        for row in [
            "T-3,1,SW-81,2025-11-02 09:00,,2025-11-04 11:00,,WIND,,,",
            "T-4,1,TIE-78,2025-11-03 12:00,,2025-11-02 09:10,,WIND,CREW-C,,",
            "T-5,1,CB-8,2025-11-05 09:00,,2025-11-05 11:00,,TREE DOWN,,,",
        ]
    )

    def setUp(self) -> None:
        self.folder = support.folder() / "oms-years"
        shutil.rmtree(self.folder, ignore_errors=True)
        self.folder.mkdir()
        self.old, self.new, self.bare = (self.folder / f"{name}.db" for name in ("old", "new", "bare"))
        exports.new_book(self.old)
        for book in (self.new, self.bare):
            exports.new_book(book, "2025-11-03")

    def words(self, oms: str) -> list[str]:
        return exports.arguments_of(self.folder, {"oms": oms})

    def fill_old(self) -> None:
        done = exports.run(*self.words(self.OMS), *exports.PERIOD)
        self.assertEqual(exports.import_text(self.old, done.out)[0], 0)

    def carry(self) -> None:
        words = [self.old, "2025-11-03T00:00:00+01:00", "--program", support.PROGRAM]
        done = support.run_tool("next_year", *words)
        self.assertEqual(exports.import_text(self.new, done.stdout)[0], 0, done.stdout)

    def test_the_next_export_goes_in_as_it_is(self) -> None:
        """CB-7 is open since T-2045, SW-81 since T-3, TIE-78 closed since T-4: entered once, by `next_year.py`."""
        self.fill_old()
        self.carry()
        done = exports.run(*self.words(self.OMS), *exports.book_words(self.new))
        rows = [line.split(",")[1:4] for line in done.out.splitlines()[1:]]
        self.assertEqual(
            rows,
            [
                ["OMS-T-4-1-O", "TIE-78", "open"],
                ["OMS-T-3-1-C", "SW-81", "close"],
                ["OMS-T-5-1-C", "CB-8", "close"],
                ["OMS-T-5-1-O", "CB-8", "open"],
            ],
            done.err,
        )
        self.assertEqual(exports.import_text(self.new, done.out), (0, "added 4 again 0"))
        self.assertEqual(exports.run(*self.words(self.OMS), *exports.book_words(self.new)).out, exports.HEADER)
        self.assertEqual(exports.run(*self.words(self.OMS), *exports.book_words(self.old)).out, exports.HEADER)
        self.fresh_book_agrees(self.OMS)

    def fresh_book_agrees(self, oms: str) -> None:
        """A book of the second period made of the whole export alone has the same table."""
        text = exports.run(*self.words(oms), *self.NEXT).out
        self.assertEqual(exports.import_text(self.bare, text)[0], 0)
        self.assertEqual(exports.table_of(self.bare), exports.table_of(self.new))

    def test_a_ticket_that_was_over_before_the_end(self) -> None:
        """T-3 turns out to have been over in the old period, and T-2045 was over on the new one's first day."""
        self.fill_old()
        self.carry()
        later = self.OMS.replace("2025-11-04 11:00", "2025-11-02 11:00").replace(
            "17:55:00+01:00,,,,", "17:55:00+01:00,,2025-11-03 07:00,,"
        )
        old = exports.run(*self.words(later), *exports.book_words(self.old))
        self.assertEqual([line.split(",")[:2] for line in old.out.splitlines()[1:]], [["switch", "OMS-T-3-1-C"]])
        done = exports.run(*self.words(later), *exports.book_words(self.new))
        self.assertIn("withdraw,OMS-T-3-1-O-W,", done.out)
        self.assertIn("switch,OMS-T-2045-1-C,CB-7,close,2025-11-03T07:00:00+01:00,", done.out)
        self.assertEqual(exports.import_text(self.new, done.out)[0], 0)
        self.fresh_book_agrees(later)

    def test_a_beginning_under_another_reference(self) -> None:
        """The desk opened a device in the old period: the ticket of it isn't entered a second time."""
        self.fill_old()
        row = "switch,DESK-1,CB-8,open,2025-11-01T09:00:00+01:00,1,DESK,\n"
        self.assertEqual(exports.import_text(self.old, exports.HEADER + row)[0], 0)
        self.carry()
        oms = self.OMS + "T-8,1,CB-8,2025-11-01 09:00,,2025-11-03 01:00,,WIND,,,\n"
        done = exports.run(*self.words(oms), *exports.book_words(self.new))
        self.assertNotIn("OMS-T-8-1-O", done.out)
        self.assertIn("switch,OMS-T-8-1-C,CB-8,close,2025-11-03T01:00:00+01:00", done.out)
