"""An OMS's own counts beside a book's: worked tickets, sums that are whole, and mistakes in a network that stand on the first page."""

import csv
import io
import json
import random
import unittest
from collections.abc import Callable
from dataclasses import dataclass
from fractions import Fraction
from functools import lru_cache
from pathlib import Path

from outage_tools.agree import Told, agreement_of, exact_text, minutes_text, read_told
from outage_tools.compare import Checked, open_book
from outage_tools.errors import BookError
from outage_tools.oms.files import Row
from outage_tools.rows import CAUSE, Book
from outage_tools.suspects import Difference, Suspect, suspects_of
from outage_tools.tickets import Ticket, tickets_of
from tests import made_town, program_books, support
from tests.made_town import FIRST, PERIOD, Switch, Town
from tests.support import text_of, written

PROGRAM = ("--program", str(support.PROGRAM))
DAY = ("2024-01-01", "2", "UTC0")
T = 1_704_067_200

# A bus, a feeder of three sections in a row with 4, 3 and 2 customers, and one of a section with 5 that a tie joins to its end.
NETWORK = [
    "cause,C1,1,WIND",
    "bus,N0,BUS",
    *[f"section,N{name},{name},{feeder}" for name, feeder in (("A", 1), ("B", 1), ("C", 1), ("D", 2))],
    "device,D0,IN,GRID,BUS,closed",
    *[f"device,D-{b},{name},{a},{b},closed" for name, a, b in (("DA", "BUS", "A"), ("DB", "A", "B"), ("DC", "B", "C"))],
    "device,D-D,DD,BUS,D,closed",
    "device,D-T,TIE,C,D,open",
    *[f"connect,P{number},{number},{section},0" for number, section in enumerate("AAAABBBCCDDDDD", 1)],
]


def switchings(*listed: tuple[str, str, str, int]) -> list[str]:
    """The rows of switchings: reference, device, act, second of the period."""
    return [f"switch,{ref},{device},{act},{T + second},1,K" for ref, device, act, second in listed]


@support.needs_program
class Worked(unittest.TestCase):
    """Tickets by hand."""

    def found(self, *listed: tuple[str, str, str, int], more: tuple[str, ...] = ()) -> dict[str, Ticket]:
        rows = [*NETWORK, *switchings(*listed), *more]
        self.book = program_books.new_book("worked", DAY, written("worked.csv", program_books.text_of(rows)))
        with open_book(str(self.book), program=str(support.PROGRAM)) as found:
            tickets = tickets_of(found)
            self.of_none = sum(part.customer_seconds for part in tickets.of_none)
            total = sum(amount for (dim, _), amount in found.book.postings.items() if dim == CAUSE)
            counted = sum(each.customer_seconds for each in tickets.by_name.values())
            self.assertEqual(counted + self.of_none, total, "tickets and none add up to W")
            return tickets.by_name

    def told(self, text: str, *words: object, status: int = 0) -> str:
        done = support.run_tool("agree", self.book, written("counts.csv", text), *PROGRAM, *words)
        self.assertEqual(done.returncode, status, done.stderr)
        return done.stderr if status else done.stdout

    def whys(self, text: str) -> dict[str, str]:
        rows = csv.DictReader(io.StringIO(self.told(f"ticket,customers,customer_minutes\n{text}", "--csv")))
        return {row["ticket"]: row["why"] for row in rows}

    def test_partial_restoration(self) -> None:
        """DA is open for 1,000 seconds; after 400 B and C are back by the tie, DB open. A customer counts once."""
        found = self.found(
            ("OMS-T-1-1-O", "DA", "open", 100),
            ("OMS-T-1-2-O", "DB", "open", 450),
            ("OMS-T-1-3-C", "TIE", "close", 500),
            ("OMS-T-1-1-C", "DA", "close", 1_100),
            ("OMS-T-1-2-C", "DB", "close", 1_200),
            ("OMS-T-1-3-O", "TIE", "open", 1_300),
        )["T-1"]
        self.assertEqual((found.customers, found.interruptions), (9, 9))
        self.assertEqual(found.customer_seconds, 4 * 1_000 + 5 * 400)
        self.assertEqual([section for section in found.sections().values()], [4, 3, 2])

    def test_tickets_that_overlap(self) -> None:
        """T-2 opens DC while T-1 has it out, and closes it later: C's outage is T-1's whole, since T-1 cut it off."""
        found = self.found(
            ("OMS-T-1-1-O", "DA", "open", 0),
            ("OMS-T-2-1-O", "DC", "open", 100),
            ("OMS-T-1-1-C", "DA", "close", 600),
            ("OMS-T-2-1-C", "DC", "close", 900),
        )
        self.assertEqual((found["T-1"].customers, found["T-1"].customer_seconds), (9, 7 * 600 + 2 * 900))
        self.assertEqual((found["T-2"].customers, found["T-2"].customer_seconds), (0, 0))
        whys = self.whys("T-1,9,90\nT-2,2,13\n")
        self.assertEqual(
            whys,
            {
                "T-1": "9 customers were out from the period's first second; ended by T-2",
                "T-2": "its switchings cut nobody off; what it opened was out already by T-1",
            },
        )

    def test_customers_who_were_out_already_behind_what_was_opened(self) -> None:
        """T-1 opens DA while C is out by another entry: of a ticket, or of none."""
        for prefix, owner in (("OMS-T-2-1-", "T-2"), ("DESK-", "no ticket")):
            with self.subTest(owner):
                self.found(
                    (f"{prefix}O", "DC", "open", 100),
                    ("OMS-T-1-1-O", "DA", "open", 400),
                    ("OMS-T-1-1-C", "DA", "close", 1_000),
                    (f"{prefix}C", "DC", "close", 1_300),
                )
                text = f"2 customers behind what it opened were out already by {owner}"
                self.assertEqual(self.whys("T-1,9,90\n")["T-1"], text)

    def test_an_outage_that_no_ticket_began(self) -> None:
        """DESK-1 is nobody's ticket: the interruption is that of the ticket that ended it, or of none."""
        found = self.found(
            ("DESK-1", "DC", "open", 100),
            ("OMS-T-7-1-C", "TIE", "close", 200),
            ("OMS-T-7-2-O", "TIE", "open", 300),
            ("DESK-2", "DC", "close", 500),
            ("DESK-3", "DD", "open", 1_000),
            ("DESK-4", "DD", "close", 1_500),
        )
        # From 300 on C is out by T-7's own opening.
        self.assertEqual(found["T-7"].customer_seconds, 2 * 100 + 2 * 200)
        self.assertEqual((found["T-7"].customers, found["T-7"].interruptions), (2, 4))
        self.assertEqual(self.of_none, 5 * 500)
        why = (
            "it ended an outage that no ticket began; ended by no ticket; momentary: 2 customers, 10 of the minutes; 4"
        )
        self.assertEqual(self.whys("T-7,3,9\n"), {"T-7": f"{why} interruptions: some customers had more than one"})

    def test_by_the_same_second(self) -> None:
        """Of several entries of a second the last that brought supply back ended it; the last that cut it off is its cutter."""
        found = self.found(
            ("OMS-T-1-1-O", "DC", "open", 100),
            ("OMS-T-2-1-O", "DB", "open", 100),
            ("OMS-T-1-1-C", "DC", "close", 500),
            ("OMS-T-2-1-C", "DB", "close", 500),
            ("OMS-T-3-1-O", "DC", "open", 500),
            ("OMS-T-3-1-C", "DC", "close", 500),
        )
        self.assertEqual(found["T-1"].customer_seconds, 2 * 400)
        self.assertEqual(found["T-2"].customer_seconds, 3 * 400)
        parts = found["T-1"].parts
        self.assertEqual([part.run.ender.number for part in parts if part.run.ender], [6])

    def test_a_service_that_begins_in_it_and_the_end_of_the_period(self) -> None:
        found = self.found(
            ("OMS-T-1-1-O", "DC", "open", 2 * 86_400 - 1_000), more=(f"connect,P99,99,C,{T + 2 * 86_400 - 250}",)
        )
        self.assertEqual((found["T-1"].customers, found["T-1"].customer_seconds), (3, 2 * 1_000 + 250))
        why = (
            "3 customers are out still at the period's end; momentary: 1 customers, 4.167 of the minutes; service of 1"
        )
        self.assertEqual(self.whys("T-1,3,33\n"), {"T-1": f"{why} customers began or ended in it"})

    def test_a_life_that_ends(self) -> None:
        """What the end of a device's life cuts off has no cutter; the ticket that brings supply back ended it."""
        self.found(("OMS-T-1-1-C", "TIE", "close", 5_000), more=(f"life,L1,DC,,{T + 1_000}",))
        self.assertEqual(self.of_none, 0)
        self.assertEqual(self.whys("T-1,2,100\n")["T-1"], "it ended an outage that no ticket began")

    def test_one_side_alone(self) -> None:
        self.found(
            ("OMS-T-1-1-O", "DC", "open", 100),
            ("OMS-T-1-1-C", "DC", "close", 700),
            ("OMS-T-2-1-O", "DD", "open", 1_000),
            ("OMS-T-2-1-C", "DD", "close", 1_600),
            more=("withdraw,W1,3,1", "withdraw,W2,4,1"),
        )
        shown = self.told("ticket,customers,customer_minutes\nT-2,5,50\nT-3,1,7.5\n")
        self.assertEqual(
            shown.splitlines()[:2],
            [
                "# Customers and customer-minutes: the OMS 6 and 57.5, the book 2 and 20, 20 of them where the OMS tells no"
                " minutes; of no ticket 0.",
                "# Tickets in both: 1, of which 0 equal, 0 equal but for rounded minutes, 1 different. In the OMS alone: 1, in"
                " the book alone: 1, without counts: 0.",
            ],
        )
        self.assertEqual(
            self.whys("T-2,5,50\nT-3,1,7.5\n"),
            {
                "T-2": "all its switchings were withdrawn",
                "T-1": "the OMS's file has no such ticket",
                "T-3": "the book has no switching of it",
            },
        )

    def test_rounded_minutes(self) -> None:
        """Half a minute a customer may be rounding, and stands behind what is more; empty counts are told as such."""
        self.found(
            ("OMS-T-1-1-O", "DA", "open", 1_000),
            ("OMS-T-1-1-C", "DA", "close", 2_000),
            ("OMS-T-2-1-O", "DD", "open", 3_000),
            ("OMS-T-2-1-C", "DD", "close", 4_000),
        )
        rows = "T-1,9,154.5\nT-2,5,83.3\n"  # 9 x 1,000 and 5 x 1,000 seconds are 150 and 83.333 minutes
        self.assertEqual(self.whys(rows), {"T-1": "minutes that are rounded", "T-2": "minutes that are rounded"})
        rows = "T-1,9,154.6\nT-2,,\n"
        self.assertEqual(self.whys(rows), {"T-1": "", "T-2": "the OMS's file leaves its counts empty"})

    def test_a_status_for_what_differs(self) -> None:
        """By one customer of ten is by 10 %; what rounding explains isn't a difference."""
        self.found(("OMS-T-1-1-O", "DA", "open", 1_000), ("OMS-T-1-1-C", "DA", "close", 2_000))
        head = "ticket,customers,customer_minutes\n"
        cases = [("T-1,9,154.5\n", "0%", 0), ("T-1,10,150\n", "10%", 0), ("T-1,10,150\n", "9.9%", 3)]
        cases += [("T-1,9,300\n", "49%", 3), ("T-1,9,300\n", "50%", 0), ("T-1,0,0\n", "99%", 3), ("T-1,,\n", "0%", 0)]
        for rows, share, status in [*cases, ("T-1,9,150\nT-2,1,\n", "9%", 3), ("T-1,9,150\n", "1", 64)]:
            with self.subTest(rows=rows, share=share):
                counts = written("counts.csv", head + rows)
                done = support.run_tool("agree", self.book, counts, "--fail-above", share, *PROGRAM)
                self.assertEqual(done.returncode, status, done.stdout + done.stderr)
        done = support.run_tool(
            "agree", self.book, written("counts.csv", f"{head}T-1,10,150\n"), "--fail-above", "5%", *PROGRAM
        )
        self.assertIn("\n# Tickets differ by 10.000% of what the OMS counts; --fail-above 5.000%.\n", done.stdout)

    def test_a_part_of_the_report(self) -> None:
        """The tickets that differ for another reason than rounding, the others as a number; only where the counts are given."""
        self.found(("OMS-T-1-1-O", "DA", "open", 1_000), ("OMS-T-1-1-C", "DA", "close", 2_000))
        counts = written("counts.csv", "ticket,customers,customer_minutes\nT-1,9,149.5\nT-2,5,83.3\n")
        page = support.folder() / "agreement.html"
        theirs = written("theirs.csv", "Meldung;Kunden;Minuten;Stand\nT-1;9;149,5;\nT-2;5;83,3;\nT-3;8;90;Storno\n")
        names = ["Meldung=ticket", "Kunden=customers", "Minuten=customer_minutes", "Stand=status"]
        spelling = [word for name in names for word in ("--column", name)]
        listed: list[tuple[list[object], bool]] = [([], False), (["--oms", counts], True)]
        listed.append((["--oms", theirs, *spelling, "--cancelled", "storno"], True))
        for words, is_there in listed:
            done = support.run_tool("report", self.book, "-o", page, *words, *PROGRAM)
            self.assertEqual((done.returncode, done.stderr), (0, ""))
            self.assertEqual('<section id="agreement">' in page.read_text(encoding="utf-8"), is_there)
        part = page.read_text(encoding="utf-8").partition('<section id="agreement">')[2].partition("</section>")[0]
        self.assertRegex(text_of(part), "T-2 5 .* the book has no switching of it")
        self.assertIn("Tickets that are equal, or equal but for rounded minutes: 1.", text_of(part))
        self.assertNotIn("T-1", text_of(part))
        self.assertIn("the OMS 14 and 232.8, the book 9 and 150", part)

    def test_words_and_files_that_cannot_be_read(self) -> None:
        self.found(("OMS-T-1-1-O", "DC", "open", 100))
        head = "ticket,customers,customer_minutes\n"
        for text, said in [
            (f"{head}T-1,x,1\n", "row 1: customers 'x' isn't a whole number"),
            (f'{head}T-1,1,"1,234"\n', "row 1: customer_minutes '1,234': the comma may part thousands or decimals"),
            (f"{head}T-1,1,1e5\n", "row 1: customer_minutes '1e5' isn't a number"),
            (f"{head}T-1,1,1\nT-1,2,1\n", "row 2: ticket T-1 had 1 customers before: --by-step adds up"),
            (f"{head}T-1,1,1\nT 1,2,1\n", "row 2: the ticket 'T 1' isn't"),
        ]:
            self.assertIn(said, self.told(text, status=1))
        self.told(f"{head}T-1,1,1\n", "--most", "-1", status=64)
        self.assertIn("T-1,3,2,-1,2.5,", self.told(f"{head}T-1,1,1\nT-1,2,1.5\nT-1,,\n", "--by-step", "--csv"))
        self.assertIn(
            "T-1,1,2,1,2.5,",
            self.told(
                f'{head}T-1,1,,\nT-1,,"2,5",\nT-1,9,9,cancelled\n'.replace(head, head.strip() + ",status\n"), "--csv"
            ),
        )


class Texts(unittest.TestCase):
    def test_numbers(self) -> None:
        for value, text in [(Fraction(5, 2), "2.500"), (Fraction(-1, 3), "-0.333"), (Fraction(-1, 9_999), "0.000")]:
            self.assertEqual(minutes_text(value), text)
        self.assertEqual([minutes_text(Fraction(each)) for each in (-3, 0, 12)], ["-3", "0", "12"])
        self.assertEqual([exact_text(Fraction(each)) for each in ("-0.05", "7", "12.25")], ["-0.05", "7", "12.25"])

    def test_a_reference_that_may_be_of_two_tickets(self) -> None:
        """`OMS-T-1-2-O` is step 2 of T-1, or step 1-2 of T, whichever there is."""
        rows = [*NETWORK, *switchings(("OMS-T-1-2-O", "DC", "open", 100), ("OMS-T-1-2-C", "DC", "close", 700))]
        (made,) = support.made_of("two-ways", [(written("two-ways.csv", program_books.text_of(rows)), DAY)])
        found = support.opened(made)
        self.assertEqual(list(tickets_of(found).by_name), ["T-1"])
        self.assertEqual(list(tickets_of(found, known=["T"]).by_name), ["T"])
        with self.assertRaisesRegex(BookError, "OMS-T-1-2-O may be of the tickets T-1 and T"):
            tickets_of(found, known=["T", "T-1"])

    def test_sections_whose_tickets_differ_alike(self) -> None:
        """B hangs on the wrong device, with its 4 customers: tickets of its own don't differ. One customer of C is on D."""
        b_moved = [(4, "AB"), (4, "AB"), (0, "B"), (0, "A")]
        c_moved = [(1, "D"), (1, "DE"), (-1, "C"), (-1, "CE"), (-1, "CF"), (0, "E"), (0, "F")]
        listed = [
            Difference(f"T-{number}", more, {section: 4 if section == "B" else 3 for section in sections})
            for number, (more, sections) in enumerate([*b_moved, *c_moved])
        ]
        wanted = [Suspect(("B",), 4, 2), Suspect(("C",), -1, 3), Suspect(("D",), 1, 2)]
        self.assertEqual(suspects_of(listed), wanted)
        self.assertEqual(suspects_of(each for each in listed if not each.more), [])
        self.assertEqual(suspects_of(listed[:1]), [])  # one ticket alone tells nothing

    def test_counts_of_an_oms(self) -> None:
        rows = [Row("f", 1, {"ticket": "t-1", "customers": "3", "customer_minutes": "4.5", "status": ""})]
        self.assertEqual(read_told(rows, by_step=False), {"T-1": Told(3, Fraction(9, 2))})


class Sums(unittest.TestCase):
    """Over random tickets that overlap: each interruption is in one ticket or in none."""

    def test_all_add_up(self) -> None:
        texts = []
        for seed in range(6):
            draw = random.Random(seed)
            rows = [*NETWORK, "life,L1,DB,,1704080000", "connect,P99,99,B,1704070000,1704110000"]
            for number in range(40):
                device, second = draw.choice(["DA", "DB", "DC", "DD", "TIE"]), draw.randrange(0, 2 * 86_400, 600)
                ref = f"OMS-T-{number // 3}-{number}-" if draw.random() < 0.7 else f"DESK-{number}-"
                rows += switchings((f"{ref}O", device, "open", second))
                rows += switchings((f"{ref}C", device, "close", min(second + draw.randrange(600, 9_000), 172_799)))
            texts.append((written(f"overlaps-{seed}.csv", program_books.text_of(rows)), DAY))
        for made in support.made_of("overlaps", texts):
            with self.subTest(made.name):
                found = support.opened(made)
                agreement = agreement_of(found, {})
                total = sum(amount for (dim, _), amount in found.book.postings.items() if dim == CAUSE)
                self.assertEqual(agreement.seconds_found() + agreement.seconds_of_none(), total)
                self.assertGreater(agreement.seconds_of_none(), 0)
                self.compare_with_seconds(found.book, found)

    def compare_with_seconds(self, book: Book, found: Checked) -> None:
        """Who ended a run, by trying every entry of its last second one after the other."""
        tickets = tickets_of(found)
        listed = [part for ticket in tickets.by_name.values() for part in ticket.parts] + tickets.of_none
        for part in listed:
            with self.subTest(section=part.run.section, until=part.run.until):
                self.assertEqual(part.run.ender, last_ender(book, part.run.section, part.run.until))


def last_ender(book: Book, section: int, second: int) -> object:
    """The last entry of a second before which the section wasn't supplied and behind which it was."""
    if second >= book.period.end:
        return None
    positions = {device.number: device.is_closed for device in book.devices}
    kept = sorted((each for each in book.entries if each.is_kept), key=lambda each: (each.second, each.number))
    ender = None
    for entry in (each for each in kept if each.second <= second):
        before = is_supplied(book, positions, section, second)
        positions[entry.device] = entry.closes
        if entry.second == second and not before and is_supplied(book, positions, section, second):
            ender = entry
    return ender


def is_supplied(book: Book, positions: dict[int, bool], section: int, second: int) -> bool:
    reached = {0}
    for _ in book.nodes:
        for device in book.devices:
            if positions[device.number] and device.is_alive(second) and {device.a, device.b} & reached:
                reached |= {device.a, device.b}
    return section in reached


# Mistakes.


@dataclass(frozen=True)
class Mistake:
    """What is wrong with a town's network, and the devices whose tickets then count otherwise."""

    plant: Callable[[Town], None]
    devices: Callable[[Town], set[str]]


def above(town: Town, *sections: str) -> set[str]:
    """The devices on the way from the supply to some sections."""
    found = {name for name, device in town.devices.items() if not name.startswith("TIE") and device.section in sections}
    more = {town.devices[name].node for name in found} - set(sections)
    nodes = {node for node in more if node in town.feeders}
    return found | above(town, *nodes) if nodes else found


def put_behind(town: Town, device: str, node: str) -> None:
    town.devices[device].node = node


def move_customers(town: Town, section: str, to: str, most: int | None = None) -> None:
    for number in [number for number, each in town.customers.items() if each == section][:most]:
        town.customers[number] = to


def swap_names(town: Town, one: str, other: str) -> None:
    town.devices[one], town.devices[other] = town.devices[other], town.devices[one]


def add_way(town: Town, device: str) -> None:
    town.devices["BYPASS"] = Switch(town.devices[device].node, town.devices[device].section)


def end_service(town: Town, section: str) -> None:
    number = next(number for number, each in town.customers.items() if each == section)
    town.ends[number] = FIRST + 3 * 86_400


def leave_out(town: Town, section: str) -> None:
    town.customers = {number: each for number, each in town.customers.items() if each != section}


MISTAKES = {
    "a section on another feeder's device": Mistake(
        lambda town: put_behind(town, "DF2-3", "F5-1"), lambda town: above(town, "F2-3", "F5-1")
    ),
    "a section beside the device behind which it is": Mistake(
        lambda town: put_behind(town, "DF3-4", "BUS-B"), lambda town: above(town, "F3-4") - {"DF3-4"}
    ),
    "a customer on the wrong section": Mistake(
        lambda town: move_customers(town, "F1-2", "F6-1", 1), lambda town: above(town, "F1-2", "F6-1")
    ),
    "all customers of a section on the one before it": Mistake(
        lambda town: move_customers(town, "F4-2", town.devices["DF4-2"].node), lambda town: {"DF4-2"}
    ),
    "a tie that is normally closed": Mistake(
        lambda town: setattr(town.devices["TIE-7"], "is_closed", True), lambda town: above(town, "F7-4", "F8-3")
    ),
    "two devices under each other's names": Mistake(
        lambda town: swap_names(town, "DF1-1", "DF1-3"),
        lambda town: above(town, "F1-1", "F1-2", "F1-3"),
    ),
    "a second way around a device": Mistake(lambda town: add_way(town, "DF6-2"), lambda town: {"DF6-2"}),
    "a switch that is told normally open": Mistake(
        lambda town: setattr(town.devices["DF5-3"], "is_closed", False),
        lambda town: {name for name in town.devices if name.startswith("DF5")},
    ),
    "a customer's service that ends too early": Mistake(
        lambda town: end_service(town, "F2-1"), lambda town: above(town, "F2-1")
    ),
    "a device that joins too late": Mistake(
        lambda town: setattr(town.devices["DF8-2"], "since", FIRST + 25 * 86_400),
        lambda town: {name for name in town.devices if name.startswith("DF8")},
    ),
    "a section whose customers are left out": Mistake(lambda town: leave_out(town, "F7-0"), lambda town: {"DF7-0"}),
}


@lru_cache(maxsize=None)
def town() -> Town:
    return made_town.made_town(5)


@support.needs_program
class Mistakes(unittest.TestCase):
    """Each mistake, planted alone: it stands on the first page, in its first row, and nothing else seems wrong."""

    def book_of(self, network: Town) -> Path:
        return program_books.new_book("town", PERIOD, written("town.csv", program_books.text_of(network.rows())))

    def test_without_a_mistake_all_agree(self) -> None:
        counts = written("town-counts.csv", town().counts())
        done = support.run_tool("agree", self.book_of(town()), counts, *PROGRAM)
        self.assertEqual(done.returncode, 0, done.stderr)
        self.assertRegex(
            done.stdout, "\n# Tickets in both: 80, of which [0-9]+ equal, [0-9]+ equal but for rounded minutes, 0"
        )
        self.assertIn(" different. In the OMS alone: 0, in the book alone: 0, without counts: 0.\n", done.stdout)
        self.assertIn("\n# The first 10 of 80 tickets; --most 0 shows all.\n", done.stdout)
        self.assertEqual(len(done.stdout.splitlines()), 3 + 1 + 10)

    def test_ten_mistakes(self) -> None:
        self.assertGreaterEqual(len(MISTAKES), 10)
        counts = written("town-counts.csv", town().counts())
        devices = {each.name: each.device for each in town().tickets}
        for name, mistake in MISTAKES.items():
            with self.subTest(name):
                network = made_town.changed(town())
                mistake.plant(network)
                affected = mistake.devices(town())
                done = support.run_tool("agree", self.book_of(network), counts, "--json", *PROGRAM)
                rows = json.loads(done.stdout)["rows"]
                wrong = [row["ticket"] for row in rows if self.is_wrong(row)]
                self.assertGreaterEqual(len(wrong), 1)
                self.assertEqual(
                    [row["ticket"] for row in rows[: len(wrong)]], wrong, "the first rows, from the first on"
                )
                self.assertLessEqual({devices[ticket] for ticket in wrong}, affected)

    def test_sections_between_which_a_customer_was_moved(self) -> None:
        network = made_town.changed(town())
        MISTAKES["a customer on the wrong section"].plant(network)
        done = support.run_tool("agree", self.book_of(network), written("town-counts.csv", town().counts()), *PROGRAM)
        text = "Sections whose tickets differ alike: F1-2 1 fewer in 3 tickets; F6-1 1 more in 3 tickets."
        self.assertEqual(done.stdout.splitlines()[2], f"# {text}")

    def is_wrong(self, row: dict[str, str | int]) -> bool:
        """More than rounding explains."""
        return row["more"] != 0 or abs(Fraction(row["more_seconds"])) > 30 * int(row["interruptions"])


if __name__ == "__main__":
    unittest.main()
