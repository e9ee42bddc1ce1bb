"""The standard's further indices: against a count customer by customer over the made books, and worked by hand."""

import unittest
from collections import defaultdict
from fractions import Fraction
from pathlib import Path
from random import Random

from outage_tools import figures
from outage_tools.compare import Checked, open_book
from outage_tools.counts import SETS, fraction_text
from outage_tools.errors import BookError
from outage_tools.feeders import feeder_rows, section_rows
from outage_tools.indices import Loads, computed, loads_of, meaning_of, momentary_events, read_hours
from outage_tools.sums import add_up, district_of
from outage_tools.supply import sweep
from tests import many_books, support
from tests.many_books import books_of, district_rows, opened, parts_of, run, table_of

HOURS = [Fraction(1, 2), Fraction(1), Fraction(8), Fraction(24)]


def lengths_of_customers(found: Checked, unmarked: bool) -> list[list[int]]:
    """The seconds of each interruption of each customer, found one customer after another."""
    period, had = found.book.period, defaultdict(list)
    for each in found.interruptions:
        if not (unmarked and found.book.is_marked(each.since)):
            had[each.block.section, each.block.since, each.block.until].append(each.seconds)
    rows = found.database.execute("SELECT section, since, until FROM customer")
    return [
        had[section, max(since, period.first), min(until or period.end, period.end)] for section, since, until in rows
    ]


def parts_of_customers(found: Checked) -> list[list[tuple[int, int]]]:
    """The interruptions of each customer, found one customer after another by the tests' own walk."""
    customers, runs = [], sweep(found.book)
    for section, since, until in found.database.execute("SELECT section, since, until FROM customer"):
        parts = [(max(run.since, since), min(run.until, until or run.until)) for run in runs if run.section == section]
        customers.append([part for part in parts if part[0] < part[1]])
    return customers


def events_of(parts: list[tuple[int, int]]) -> list[int]:
    """Where the momentary interruption events of a customer begin: those that begin within 300 seconds of the first one of theirs are one
    group, and the group in front of a sustained one that begins at most 300 seconds after its end is none."""
    groups: list[list[tuple[int, int]]] = []
    for place, (begin, end) in enumerate(parts):
        is_alone = place == 0 or parts[place - 1][1] - parts[place - 1][0] > 300
        if end - begin <= 300:
            if is_alone or begin > groups[-1][0][0] + 300:
                groups.append([])
            groups[-1].append((begin, end))
    sustained = [begin for begin, end in parts if end - begin > 300]
    return [group[0][0] for group in groups if not any(0 <= begin - group[-1][1] <= 300 for begin in sustained)]


def reclosings(seed: int) -> str:
    """A text of two sections, one behind the other, whose breakers open and close within seconds or minutes; the second day is marked."""
    rng, rows = Random(seed), [
        "kind,ref,f1,f2,f3,f4,f5,f6",
        "cause,C1,1,WIND,,,,",
        "section,N1,S1,1,,,,",
        "section,N2,S2,2,,,,",
    ]
    rows += ["device,D1,B1,GRID,S1,closed,,", "device,D2,B2,S1,S2,closed,,", "mark,M1,2024-01-02,ENG,,,,"]
    rows += ["connect,P1,1,S1,0,,,", "connect,P2,2,S2,0,,,", "connect,P3,3,S2,1704100000,1704150100,,"]
    for device in ("B1", "B2"):
        second, act = 1_704_067_200, "open"
        for number in range(150):
            second += rng.choice(
                [rng.randint(1, 20), rng.randint(100, 320), rng.choice([299, 300, 301]), rng.randint(400, 2_000)]
            )
            rows.append(f"switch,{device}-{number},{device},{act},{second},1,K1,")
            act = "close" if act == "open" else "open"
    return "".join(f"{row}\n" for row in rows)


def share(count: int, found: Checked) -> Fraction | None:
    """So many per customer served."""
    served = found.book.served_seconds()
    return Fraction(count * found.book.period.length, served) if served else None


class MadeBooks(unittest.TestCase):
    def test_customer_by_customer(self) -> None:
        several = 0
        for made in support.books():
            found = support.opened(made)
            for name, indices in computed(found, HOURS, None).items():
                customers = lengths_of_customers(found, name == "unmarked")
                sustained = [[length for length in lengths if length > 300] for lengths in customers]
                several += any(len(lengths) > 2 for lengths in customers)
                with self.subTest(made.name, set=name):
                    momentary = sum(length <= 300 for lengths in customers for length in lengths)
                    self.assertEqual(indices["MAIFI"], share(momentary, found))
                    interrupted = sum(bool(lengths) for lengths in sustained)
                    total = sum(sum(lengths) for lengths in sustained)
                    self.assertEqual(indices["CTAIDI"], Fraction(total, 60 * interrupted) if interrupted else None)
                    for n in range(1, 11):
                        some = sum(len(lengths) >= n for lengths in customers)
                        self.assertEqual(indices[f"CEMSMI-{n}"], share(some, found))
                    for text, seconds in (("0.5", 1_800), ("1", 3_600), ("8", 28_800), ("24", 86_400)):
                        single = sum(any(length >= seconds for length in lengths) for lengths in sustained)
                        self.assertEqual(indices[f"CELID-S-{text}"], share(single, found))
                        in_all = sum(sum(lengths) >= seconds for lengths in sustained)
                        self.assertEqual(indices[f"CELID-T-{text}"], share(in_all, found))
        self.assertGreater(several, 3)

    def test_momentary_events_customer_by_customer(self) -> None:
        """Fewer than momentary interruptions where they lie close together, and an event has the mark of the day on which it begins."""
        texts = [
            (support.written(f"reclosings-{seed}.csv", reclosings(seed)), ("2024-01-01", "2", "UTC0"))
            for seed in range(8)
        ]
        fewer = 0
        for made in (*support.books(), *support.made_of("reclosings", texts)):
            found = support.opened(made)
            indices = computed(found, HOURS, None)
            events = [begin for parts in parts_of_customers(found) for begin in events_of(parts)]
            for name in SETS:
                counted = [begin for begin in events if name == "all" or not found.book.is_marked(begin)]
                self.assertEqual(indices[name]["MAIFI_E"], share(len(counted), found), (made.name, name))
            fewer += indices["all"]["MAIFI_E"] != indices["all"]["MAIFI"]
        self.assertGreater(fewer, 3)

    def test_equal_loads_give_saifi_and_saidi(self) -> None:
        """One kVA for each customer: ASIFI is SAIFI, and ASIDI SAIDI."""
        file = many_books.folder() / "equal.csv"
        for made in support.books():
            found = support.opened(made)
            numbers = [number for number, in found.database.execute("SELECT id FROM customer")]
            file.write_text("customer,kva\n" + "".join(f"{number},2.5\n" for number in numbers))
            indices = computed(found, HOURS, loads_of(str(file), found))
            rows = figures.indices(found).rows
            for name in SETS:
                values = {row[0]: row[2] for row in rows if row[1] == name}
                for load_index, index in (("ASIFI", "SAIFI"), ("ASIDI", "SAIDI")):
                    value = indices[name][load_index]
                    self.assertEqual(fraction_text(value), values[index], (made.name, name, index))

    def test_the_sum_of_parts_is_the_whole(self) -> None:
        where = many_books.cut_networks()
        for seed in many_books.SEEDS:
            whole = computed(opened(where / f"{seed}-whole.db"), HOURS, None)
            parts = [district_of(str(book), opened(book), HOURS) for book in parts_of(where, seed)]
            sums = add_up(parts)
            for name in SETS:
                self.assertEqual(sums.further_indices(name), whole[name], seed)


class ByOtherLimits(unittest.TestCase):
    """What tools add up of interruptions, where the program says it by another limit."""

    def books(self) -> list[Checked]:
        return [support.opened(made) for made in (*support.books()[:6], support.edges())]

    def test_customers_with_a_long_interruption(self) -> None:
        for found in self.books():
            indices = computed(found, HOURS, None)
            for hours, text in zip(HOURS, ("0.5", "1", "8", "24")):
                for name, rates in found.selected("whole", int(3_600 * hours) - 1).items():
                    wanted = share(rates["whole"].counts.with_some[0], found)
                    self.assertEqual(indices[name][f"CELID-S-{text}"], wanted)

    def test_customer_seconds_of_feeders_and_sections(self) -> None:
        """An interruption has a second at least: those of at most one second have one each."""
        for found in self.books():
            for by, rows in (("feeder", feeder_rows(found)), ("section", section_rows(found))):
                for row in rows:
                    counts = found.selected(by, 1)[row.set][str(row.name)].counts
                    self.assertEqual(row.seconds, counts.sustained_seconds + counts.momentary)


class MomentaryEvents(unittest.TestCase):
    """Worked by hand, in seconds: recloser and lock-out sequences of one customer."""

    CASES = {
        "two reclosings that hold": ([(0, 2), (30, 45)], [0]),
        "the second begins 300 seconds after the first": ([(0, 2), (300, 310)], [0]),
        "the second begins 301 seconds after the first": ([(0, 2), (301, 310)], [0, 301]),
        "a chain is measured from its first interruption": ([(0, 2), (200, 210), (400, 410)], [0, 400]),
        "an interruption of 300 seconds is momentary": ([(0, 300)], [0]),
        "one of 301 seconds is sustained": ([(0, 301)], []),
        "two reclosings before a lock-out": ([(0, 2), (4, 19), (21, 5_000)], []),
        "held for 300 seconds before the lock-out": ([(0, 2), (302, 5_000)], []),
        "held for 301 seconds before the lock-out": ([(0, 2), (303, 5_000)], [0]),
        "an event that ended long before the lock-out": ([(0, 2), (400, 410), (500, 5_000)], [0]),
        "two events within 300 seconds of the lock-out": ([(0, 2), (280, 290), (301, 310), (400, 5_000)], []),
        "behind a sustained one an event of its own": ([(0, 2), (10, 400), (450, 460), (500, 510)], [450]),
    }

    def test_by_hand(self) -> None:
        for name, (parts, wanted) in self.CASES.items():
            with self.subTest(name):
                self.assertEqual((momentary_events(parts), events_of(parts)), (wanted, wanted))


class Worked(unittest.TestCase):
    """Three customers of a fortnight: an hour without supply of all, five minutes of two."""

    book = Path()

    @classmethod
    def setUpClass(cls) -> None:
        cls.book = books_of("worked-indices", {"north": district_rows("N", 1)})["north"]

    def of(self, loads: Loads | None = None) -> dict[str, Fraction | None]:
        return computed(opened(self.book), [Fraction(1), Fraction(2)], loads)["all"]

    def test_by_hand(self) -> None:
        found = self.of()
        wanted = {
            "MAIFI": Fraction(2, 3),
            "MAIFI_E": Fraction(2, 3),
            "CTAIDI": Fraction(60),
            "CELID-S-1": Fraction(1),
            "CELID-S-2": Fraction(0),
        }
        wanted |= {
            "CELID-T-1": Fraction(1),
            "CEMSMI-1": Fraction(1),
            "CEMSMI-2": Fraction(2, 3),
            "CEMSMI-3": Fraction(0),
        }
        self.assertEqual({name: found[name] for name in wanted}, wanted)

    def kva(self, text: str) -> Loads:
        file = many_books.folder() / "kva.csv"
        file.write_text(text)
        return loads_of(str(file), opened(self.book))

    def test_connected_load_by_hand(self) -> None:
        """100 kVA on S1 and 300 on S2 for an hour: each kVA once, 60 minutes; the five minutes are momentary."""
        loads = self.kva("section,kva\nN-S1,100\nN-S2,300\n")
        self.assertEqual((self.of(loads)["ASIFI"], self.of(loads)["ASIDI"]), (Fraction(1), Fraction(60)))

    def test_load_where_nobody_is_in_service_all_the_time(self) -> None:
        """100 kVA on a section without customers behind S2, and 100 on one whose customer comes between the two outages: each
        kVA once, 60 minutes."""
        more = ["section,N4,N-S3,1,,,,", "device,D4,N-B3,N-S2,N-S3,closed,,", "section,N5,N-S4,1,,,,"]
        more += ["device,D5,N-B4,N-S1,N-S4,closed,,", "connect,K4,9,N-S4,2025-03-26T00:00:00+01:00,,,"]
        book = books_of("load-alone", {"north": [*district_rows("N", 1), *more]})["north"]
        file = many_books.folder() / "kva.csv"
        file.write_text("section,kva\nN-S1,100\nN-S2,300\nN-S3,100\nN-S4,100\n")
        with open_book(str(book), str(table_of(book))) as found:
            indices = computed(found, [], loads_of(str(file), found))
        for name in SETS:
            self.assertEqual((indices[name]["ASIFI"], indices[name]["ASIDI"]), (Fraction(1), Fraction(60)))

    def test_rows_of_others_are_told(self) -> None:
        self.assertIn("1 of its rows are of no section", self.kva("section,kva\nN-S1,1\nN-S2,0.5\nZ,9\n").about)

    def test_files_that_are_refused(self) -> None:
        cases = {
            "section,kva\nN-S1,1\n": "hasn't the section N-S2",
            "customer,kva\n1,1\n": "hasn't the customer 2, and 2",
            "section,kva\nN-S1,1\nN-S1,2\n": "row 2: section N-S1 comes twice",
            "section,kva\nN-S1,-1\n": "row 1: kva '-1' is no number",
            "section,kva\n,1\n": "row 1: section is empty",
            "section,kva\nN-S1,1,5\nN-S2,2\n": "row 1: it has 3 fields, not 2",
            "section,kva\nN-S1,\nN-S2,2\n": "row 1: kva '' is no number",
            "section,customer,kva\nN-S1,1,5\n": "it wants just section, kva",
            "name,kva\nN-S1,1\n": "either section or customer",
        }
        for text, told in cases.items():
            with self.subTest(text), self.assertRaisesRegex(BookError, told):
                self.kva(text)

    def test_the_figures_say_where_each_index_is_from(self) -> None:
        done = run("figures", self.book, "indices", "--csv", "--table", table_of(self.book), "--hours", "1", "2.5")
        self.assertEqual((done.returncode, done.stderr), (0, ""))
        lines = done.stdout.splitlines()
        self.assertIn("SAIDI,all,60/1,60.000,minutes per customer served,CSI x P / (60 x S),program", lines)
        self.assertTrue(
            [line for line in lines if line.startswith("CELID-T-2.5,all,0/1,0.000,") and "computed here" in line]
        )
        for arguments in ("days --hours 1", "indices --hours 0", "indices --hours x", "causes --kva x"):
            self.assertEqual(run("figures", self.book, *arguments.split()).returncode, 64, arguments)

    def test_each_index_has_its_unit_and_quotient(self) -> None:
        for index in [*self.of(), "ASIFI", "ASIDI"]:
            unit, quotient = meaning_of(index)
            self.assertTrue(unit and "/" in quotient, index)

    def test_hours(self) -> None:
        self.assertEqual(read_hours("2.5"), Fraction(5, 2))
        for text in ("0", "-1", "1e3", "", "1.2345"):
            self.assertRaises(ValueError, read_hours, text)


if __name__ == "__main__":
    unittest.main()
