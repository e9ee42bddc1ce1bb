"""Figures that need a user's lists or rules: names, groups of sections and of causes, events; customers; whole outages."""

import random
import unittest
from collections.abc import Iterator
from fractions import Fraction
from typing import Any
from unittest import mock

from outage_tools import figures, section_groups
from outage_tools.causes import cause_groups
from outage_tools.compare import Checked
from outage_tools.counts import SETS, indices_of
from outage_tools.customers import served_customers
from outage_tools.errors import BookError, Differs
from outage_tools.events import DEFAULT_RULE, events_of, read_rule
from outage_tools.lists import Groups, read_cause_groups, read_names, read_section_groups, with_names
from outage_tools.section_groups import groups
from outage_tools.work import works_of
from tests import support
from tests.test_figures import Row, rows_of

TOWNS = "section,group\n" + "".join(
    f"{name},{town}\n"
    for town, names in {
        "Millbury": ["MILL-LANE", "CHURCH-ROW", "STATION-ROAD", "QUARRY"],
        "Port Hill": ["HARBOUR", "FISH-DOCK", "LIGHTHOUSE"],
    }.items()
    for name in names
)


def fortnight() -> Checked:
    return support.opened(support.fortnight())


class MadeBooks(unittest.TestCase):
    """What holds in every made book."""

    def each(self) -> Iterator[Checked]:
        for made in support.books():
            with self.subTest(made.name):
                yield support.opened(made)

    def test_customers_by_equal_service_make_all_counts_of_the_table(self) -> None:
        for found in self.each():
            rows = rows_of(figures.customers(found))
            database = found.database.execute("SELECT since, until FROM customer").fetchall()
            period = found.book.period
            served = [1 for since, until in database if since < period.end and (until is None or until > period.first)]
            self.assertEqual(sum(row["customers"] for row in rows), len(served))
            for which, sustained, seconds in (
                ("all", "sustained", "sustained_seconds"),
                ("unmarked", "unmarked_sustained", "unmarked_sustained_seconds"),
            ):
                counts = found.counts[which]
                self.assertEqual(sum(row["customers"] * row[sustained] for row in rows), counts.sustained)
                self.assertEqual(sum(row["customers"] * row[seconds] for row in rows), counts.sustained_seconds)
                with_some = [sum(row["customers"] for row in rows if row[sustained] >= n) for n in range(1, 11)]
                self.assertEqual(with_some, counts.with_some)
            momentary = sum(row["customers"] * row["momentary"] for row in rows)
            self.assertEqual(momentary, found.counts["all"].momentary)
            total = sum(each.customer_seconds for each in found.interruptions)
            self.assertEqual(sum(row["customers"] * row["seconds"] for row in rows), total)
            worst = [(row["sustained"], row["longest"], row["seconds"]) for row in rows]
            self.assertEqual(worst, sorted(worst, reverse=True))

    def test_groups_of_all_sections_add_up_to_the_book(self) -> None:
        for number, found in enumerate(self.each()):
            chance = random.Random(number)
            of_sections = {node: chance.choice("ABC") for node in found.book.sections}
            rows = rows_of(groups(found, of_sections))
            for which in SETS:
                mine = {(row["row"], row["group"]): row for row in rows if row["set"] == which}
                if of_sections:
                    whole, own = mine["sum", ""], mine["book", ""]
                    self.assertEqual({**whole, "row": ""}, {**own, "row": ""})
                    parts = [row for row in mine.values() if row["row"] == "group"]
                    for column in (
                        "served_customer_seconds",
                        "customer_seconds",
                        "sustained",
                        "momentary",
                        "interrupted",
                    ):
                        self.assertEqual(sum(row[column] for row in parts), own[column])
                self.assertEqual(mine["book", ""]["saidi"], self.program_value(found, "SAIDI", which))
                self.assertEqual(mine["book", ""]["asai"], self.program_value(found, "ASAI", which))

    def program_value(self, found: Checked, index: str, which: str) -> str:
        """The fraction of the program's table."""
        line = next(line for line in found.table if line.split()[:2] == [index, which])
        return line.split()[2]

    def test_feeders_as_groups_have_the_feeders_figures(self) -> None:
        for found in self.each():
            of_sections = {node: str(section.feeder) for node, section in found.book.sections.items()}
            by_group = {(row["group"], row["set"]): row for row in rows_of(groups(found, of_sections))}
            for row in rows_of(figures.feeders(found)):
                group = by_group[str(row["feeder"]), row["set"]]
                for column in (
                    "customer_seconds",
                    "customers_served",
                    "sustained",
                    "momentary",
                    "saifi",
                    "saidi",
                    "caidi",
                ):
                    self.assertEqual(group[column], row[column])

    def test_events_add_up_to_all_customer_seconds(self) -> None:
        rules = [DEFAULT_RULE, read_rule(r"(?P<ticket>[A-Z]+).*"), read_rule("(?P<ticket>.*)-(?P<step>.*)")]
        for number, found in enumerate(self.each()):
            rows = rows_of(figures.events(found, rules[number % len(rules)]))
            total = sum(each.customer_seconds for each in found.interruptions)
            self.assertEqual(sum(row["customer_seconds"] for row in rows), total)
            minutes = sum((Fraction(row["customer_minutes"]) for row in rows), Fraction(0))
            self.assertEqual(minutes, Fraction(total, 60))
            for row in rows:
                self.assertLessEqual(row["customers"], row["sustained"] + row["momentary"])

    def test_groups_of_causes_add_up_to_the_book(self) -> None:
        for number, found in enumerate(self.each()):
            chance = random.Random(number)
            of_causes = {
                code: chance.choice(["planned", "unplanned"]) for code in found.book.causes if chance.random() < 0.8
            }
            rows = rows_of(cause_groups(found, of_causes))
            for which in SETS:
                counts, mine = found.counts[which], [row for row in rows if row["set"] == which]
                self.assertEqual(sum(row["sustained"] for row in mine), counts.sustained)
                self.assertEqual(sum(row["sustained_customer_seconds"] for row in mine), counts.sustained_seconds)
                saidi = indices_of(counts, found.book.served_seconds(), found.book.period.length)["SAIDI"]
                if saidi is not None:
                    self.assertEqual(sum((Fraction(row["saidi"]) for row in mine), Fraction(0)), saidi)

    def test_outages_as_wholes_have_each_command_once(self) -> None:
        for found in self.each():
            works = works_of(found)
            late = [work for work in works if work.command.kind == "switch" and work.is_late]
            told = [work for work in late if work.own is not None]
            self.assertEqual(sum(work.own or 0 for work in told), sum(work.net for work in late))


class Fortnight(unittest.TestCase):
    """What docs/use/TUTORIAL.md tells of the sample fortnight."""

    def test_the_worst_served_customers_are_those_of_the_quarry(self) -> None:
        row = rows_of(figures.customers(fortnight()))[0]
        wanted = {"section": "QUARRY", "customers": 2, "sustained": 5, "longest": 31_500, "seconds": 45_250}
        self.assertEqual({key: row[key] for key in wanted}, wanted)
        self.assertEqual(row["causes"], "PLANNED 9000; TREE 1880; STORM 31500; DIGGING 2190; SUPPLIER 680")

    def test_a_customer_that_was_never_interrupted_is_there_too(self) -> None:
        last = served_customers(fortnight())[-1]
        self.assertEqual((last.block.customers, last.had, last.longest), (1, (), 0))

    def test_the_tree_is_one_event(self) -> None:
        rows = rows_of(figures.events(fortnight(), read_rule(r"(?P<ticket>.+)-(?P<step>\d+)")))
        tree = next(row for row in rows if row["event"] == "OUT-0327")
        wanted: Row = {
            "first": "2025-03-27T14:22:10+01:00",
            "last": "2025-03-27T17:32:00+01:00",
            "steps": 6,
            "customers": 18,
            "customer_seconds": 81_390,
            "customer_minutes": "2713/2",
            "causes": "TREE",
            "by_rule": "yes",
        }
        self.assertEqual({key: tree[key] for key in wanted}, wanted)

    def test_references_that_the_rule_does_not_fit_are_told(self) -> None:
        shown = figures.events(fortnight())
        self.assertIn("11 references that the rule doesn't fit, each an event of its own.", shown.about)
        self.assertEqual({row["by_rule"] for row in rows_of(shown)}, {""})

    def test_a_late_outage_has_its_own_size(self) -> None:
        late = rows_of(figures.switchings(fortnight(), late_alone=True))
        found = [(row["reference"], row["own"], row["with"]) for row in late]
        wanted = [
            ("LATE-0326-1", "", ""),
            ("LATE-0326-2", 13_500, "82"),
            ("COR-0402-1", -2_400, ""),
            ("WD-0403-1", 0, "86"),
        ]
        self.assertEqual(found, wanted)

    def test_unmarked_rows_have_seconds_of_their_own(self) -> None:
        months = {(row["month"], row["set"]): row for row in rows_of(figures.months(fortnight()))}
        # The marked day's storm, 14 customers for 6,300 seconds, is left out; the quarry's outage began before it.
        self.assertEqual(months["2025-03", "all"]["customer_seconds"], 318_610)
        self.assertEqual(months["2025-03", "unmarked"]["customer_seconds"], 318_610 - 88_200)
        feeders = {(row["feeder"], row["set"]): row for row in rows_of(figures.feeders(fortnight()))}
        self.assertEqual(feeders[2, "unmarked"]["customer_seconds"], 143_940 - 88_200)

    def test_a_section_in_no_group_is_told_and_not_in_the_sum(self) -> None:
        of_sections = self.groups(TOWNS.replace("QUARRY,Millbury\n", ""))
        shown = groups(fortnight(), of_sections)
        self.assertIn("Sections in no group, and not in the sum: QUARRY.", shown.about)
        rows = {(row["row"], row["group"], row["set"]): row for row in rows_of(shown)}
        self.assertEqual(
            rows["book", "", "all"]["customer_seconds"] - rows["sum", "", "all"]["customer_seconds"], 90_500
        )
        self.assertEqual(rows["sum", "", "all"]["sections"], 6)

    def groups(self, text: str) -> Groups:
        return read_section_groups(str(support.written("towns.csv", text)), fortnight().book)

    def test_a_sum_that_is_not_the_books_own_is_an_error(self) -> None:
        of_sections = self.groups(TOWNS)
        together = section_groups.together

        def first_alone(found: Checked, row: Any, name: str, which: str, parts: Any) -> Any:
            return together(found, row, name, which, parts[:1])

        with mock.patch.object(section_groups, "together", first_alone):
            with self.assertRaises(Differs):
                groups(fortnight(), of_sections)

    def test_planned_is_apart_from_unplanned(self) -> None:
        path = support.written("planned.csv", "cause,group\n6,planned\nSTORM,unplanned\ntree,unplanned\n")
        shown = cause_groups(fortnight(), read_cause_groups(str(path), fortnight().book))
        rows = {(row["group"], row["set"]): row for row in rows_of(shown)}
        self.assertEqual(
            [rows[name, "all"]["customer_seconds"] for name in ("planned", "unplanned", "")], [72_720, 232_590, 60_760]
        )
        missing = "Causes in no group: UNASSIGNED, ANIMAL, DIGGING, EQUIPMENT, SUPPLIER, UNKNOWN."
        self.assertEqual(shown.about[-1], missing)

    def test_names_stand_beside_the_feeders(self) -> None:
        path = support.written("names.csv", "\ufefffeeder,name,substation\n2,Harbour,Hill\n")
        book = fortnight().book
        for shown in (figures.feeders(fortnight()), figures.sections(fortnight()), figures.interruptions(fortnight())):
            named = with_names(shown, read_names(str(path), book), book)
            found = {(row["feeder"], row["feeder_name"], row["substation"]) for row in rows_of(named)}
            self.assertEqual(found, {(1, "", ""), (2, "Harbour", "Hill")})
            self.assertEqual(named.about[-1], "Feeders without a name: 1.")
        with self.assertRaisesRegex(BookError, "days has no column of feeders"):
            with_names(figures.days(fortnight()), {}, book)


class Refused(unittest.TestCase):
    """Rows of lists that can't be read, by file and number; words that don't go together."""

    def test_rows(self) -> None:
        book = fortnight().book
        sections = [
            ("section,group\nMILL-LANE,A\nMILL,B\n", "row 2: the book has no section 'MILL'"),
            ("section,group\nMILL-LANE,A\n\nmill-lane,B\n", "row 2: section mill-lane is in the group A already"),
            ("section,group\nMILL-LANE,\n", "row 1: group is empty"),
            ("section,group\nMILL-LANE,A,B\n", "row 1: it has 3 fields, not 2"),
            ("section,group\nMILL-LANE\n", "row 1: it has 1 fields, not 2"),
            ("section;group\nMILL-LANE;A\n", "has the columns section;group; it wants just section, group"),
            ("section,group,town\n", "has the columns section, group, town"),
            ("", "has the columns "),
            ('section,group\n"MILL-LANE,A\n', "can't be read"),
        ]
        for text, wanted in sections:
            with self.subTest(text), self.assertRaisesRegex(BookError, wanted):
                read_section_groups(str(support.written("refused.csv", text)), book)
        causes = [
            ("cause,group\nWIND,a\n", "row 1: 'WIND' is no cause"),
            ("cause,group\nSTORM,a\n1,b\n", "row 2: cause 1 is in the group a already"),
        ]
        for text, wanted in causes:
            with self.subTest(text), self.assertRaisesRegex(BookError, wanted):
                read_cause_groups(str(support.written("refused.csv", text)), book)
        names = [
            ("feeder,name,substation\n3,X,Y\n", "row 1: no section of the book has the home feeder '3'"),
            ("feeder,name,substation\n1,X,Y\n1,Z,Y\n", "row 2: feeder 1 is named already"),
        ]
        for text, wanted in names:
            with self.subTest(text), self.assertRaisesRegex(BookError, wanted):
                read_names(str(support.written("refused.csv", text)), book)

    def test_bytes_that_are_no_text(self) -> None:
        path = support.folder() / "latin.csv"
        path.write_bytes("section,group\nMILL-LANE,Mühle\n".encode("latin-1"))
        with self.assertRaisesRegex(BookError, "latin.csv can't be read"):
            read_section_groups(str(path), fortnight().book)
        with self.assertRaisesRegex(BookError, "nowhere.csv can't be read"):
            read_section_groups(str(support.folder() / "nowhere.csv"), fortnight().book)

    def test_words(self) -> None:
        made, towns = support.fortnight(), support.written("towns.csv", TOWNS)
        cases: list[tuple[list[object], int]] = [
            (["groups", "--by", towns, "--json"], 0),
            (["customers", "--csv"], 0),
            (["groups"], 64),
            (["cause-groups"], 64),
            (["days", "--by", towns], 64),
            (["events", "--ticket", "("], 64),
            (["events", "--ticket", "OMS-(.+)"], 64),
            (["days", "--ticket", "(?P<ticket>.*)"], 64),
            (["groups", "--by", support.folder() / "nowhere.csv"], 1),
        ]
        for words, status in cases:
            with self.subTest(words=words):
                done = support.run_tool("figures", made.book, *words, table=made)
                self.assertEqual(done.returncode, status, done.stderr)
                self.assertNotIn("Traceback", done.stderr)


class Events(unittest.TestCase):
    def test_what_no_switching_began_is_an_event_too(self) -> None:
        names = {event.name for made in support.books() for event in events_of(support.opened(made))}
        self.assertIn("(no switching)", names)
