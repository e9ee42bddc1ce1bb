"""Filings: lines of both sets are the annual table's, lines of some causes those of the pages, empty ones say why."""

import csv
import io
import unittest
from datetime import date
from fractions import Fraction

from outage_tools.counts import SETS, decimal_text
from outage_tools.filings import COLUMNS, FILINGS, NOWHERE, PROGRAM, TOOL, filing, is_calendar_year
from outage_tools.lists import Groups, read_cause_groups
from tests import support

Rows = dict[str, dict[str, str]]


def rows_of(made: support.Made, name: str, groups: Groups | None = None) -> Rows:
    """The lines of a form by their names."""
    figures = filing(support.opened(made), name, groups)
    rows = [dict(zip(figures.columns, map(str, row))) for row in figures.rows]
    assert len({row["line"] for row in rows}) == len(rows)
    return {row["line"]: row for row in rows}


def groups_of(made: support.Made, *lines: str) -> Groups:
    path = support.written(f"groups-{made.name}.csv", "\n".join(["cause,group", *lines]) + "\n")
    return read_cause_groups(str(path), support.opened(made).book)


def words_of(row: dict[str, str]) -> str:
    """A line's value as the annual table writes it."""
    exact = f"{row['numerator']}/{row['denominator']}"
    return f"{exact} {row['value']}" if row["value"] else "undefined"


class Eia(unittest.TestCase):
    def test_both_sets_are_the_tables(self) -> None:
        for made in support.books():
            table = {
                " ".join(line.split()[:2]): " ".join(line.split()[2:]) for line in made.table.read_text().splitlines()
            }
            rows = rows_of(made, "eia861")
            for which, of in zip(SETS, ("with major event days", "without major event days")):
                for index in ("SAIDI", "SAIFI", "CAIDI"):
                    row = rows[f"{index} {of}"]
                    self.assertEqual(words_of(row), table[f"{index} {which}"])
                    self.assertEqual(row["from"], PROGRAM)
                    self.assertEqual("undefined" in row["note"], table[f"{index} {which}"] == "undefined")

    def test_without_a_list_loss_of_supply_is_empty_and_told(self) -> None:
        rows = rows_of(support.fortnight(), "eia861")
        for index in ("SAIDI", "SAIFI", "CAIDI"):
            row = rows[f"{index} with major event days minus loss of supply"]
            self.assertEqual((row["value"], row["from"]), ("", NOWHERE))
            self.assertIn("--causes FILE", row["note"])

    def test_a_list_without_the_group_is_told(self) -> None:
        made = support.fortnight()
        rows = rows_of(made, "eia861", groups_of(made, "PLANNED,planned"))
        self.assertIn("has no group 'loss of supply'", rows["SAIDI with major event days minus loss of supply"]["note"])

    def test_loss_of_supply_removed(self) -> None:
        """What docs/use/STANDARDS.md shows of the fortnight without SUPPLIER."""
        made = support.fortnight()
        rows = rows_of(made, "eia861", groups_of(made, "SUPPLIER,Loss of supply"))
        found = [words_of(rows[f"{index} with major event days minus loss of supply"]) for index in ("SAIFI", "SAIDI")]
        self.assertEqual(found, ["19430/10493 1.852", "3960035/20986 188.699"])
        self.assertEqual(rows["SAIFI with major event days minus loss of supply"]["from"], TOOL)

    def test_customers_and_days(self) -> None:
        rows = rows_of(support.fortnight(), "eia861")
        self.assertEqual(words_of(rows["customers served on average"]), "10493/335 31.322")
        self.assertEqual(rows["number of customers"]["value"], "31")
        self.assertEqual(
            (rows["major event days"]["value"], rows["major event days"]["note"]), ("1", "marked: 2025-03-30")
        )
        self.assertIn("not a calendar year", rows["period"]["note"])

    def test_calendar_years(self) -> None:
        whole = (date(2025, 1, 1), date(2025, 12, 31))
        for days, wanted in (
            (whole, True),
            ((whole[0], date(2025, 12, 30)), False),
            ((date(2024, 1, 1), whole[1]), False),
        ):
            self.assertEqual(is_calendar_year(days), wanted)

    def test_a_book_without_customers_has_no_values(self) -> None:
        path = support.written("nobody.csv", "kind,ref,f1,f2,f3,f4,f5,f6\ncause,C1,1,WIND,,,,\n")
        (made,) = support.made_of("nobody", [(path, ("2024-01-01", "2", "UTC0"))])
        rows = rows_of(made, "eia861")
        self.assertEqual(
            {rows[f"{index} with major event days"]["value"] for index in ("SAIDI", "SAIFI", "CAIDI")}, {""}
        )
        self.assertEqual(rows["number of customers"]["value"], "0")


class Ceer(unittest.TestCase):
    LIMIT = "interruptions of more than 300 seconds"

    def test_three_minutes_are_the_programs(self) -> None:
        """What docs/use/FAQ.md shows of the fortnight by another limit; the kinds of causes add up to it."""
        made = support.fortnight()
        rows = rows_of(made, "ceer", groups_of(made, "PLANNED,planned"))
        asked = {name: row for name, row in rows.items() if "3 minutes" in name}
        self.assertEqual(len(asked), 13)
        for of, wanted in (("all events", ("2.426", "194.509")), ("without exceptional events", ("1.979", "147.578"))):
            for index, value in zip(("SAIFI", "SAIDI"), wanted):
                row, *parts = (
                    asked[f"{index} {kind}, {of}, interruptions of more than 3 minutes"]
                    for kind in ("planned and unplanned", "planned", "unplanned")
                )
                self.assertEqual((row["value"], row["from"]), (value, PROGRAM))
                exact = [Fraction(int(each["numerator"]), int(each["denominator"])) for each in (row, *parts)]
                self.assertEqual(exact[0], sum(exact[1:]))
        self.assertEqual(asked["MAIFI interruptions of at most 3 minutes"]["from"], PROGRAM)

    def test_planned_and_unplanned(self) -> None:
        """What docs/use/INDICES.md shows of planned and unplanned causes."""
        made = support.fortnight()
        groups = read_cause_groups(str(support.EXAMPLES / "planned.csv"), support.opened(made).book)
        rows = rows_of(made, "ceer", groups)
        wanted = {
            ("planned", "all events"): ("0.255", "38.311"),
            ("planned", "without exceptional events"): ("0.255", "38.311"),
            ("unplanned", "all events"): ("2.075", "155.815"),
            ("unplanned", "without exceptional events"): ("1.628", "108.884"),
        }
        for (kind, of), values in wanted.items():
            found = tuple(rows[f"{index} {kind}, {of}, {self.LIMIT}"]["value"] for index in ("SAIFI", "SAIDI"))
            self.assertEqual(found, values)
        self.assertEqual(rows[f"SAIDI planned, all events, {self.LIMIT}"]["note"], "causes PLANNED")

    def test_both_kinds_add_up_to_the_program(self) -> None:
        for made in support.books()[:20]:
            book = support.opened(made).book
            if len(book.causes) < 2:
                continue
            groups: Groups = {code: "planned" for code in list(book.causes)[1:3]}
            rows = rows_of(made, "ceer", groups)
            for of in ("all events", "without exceptional events"):
                for index in ("SAIFI", "SAIDI"):
                    whole = rows[f"{index} planned and unplanned, {of}, {self.LIMIT}"]
                    parts = [rows[f"{index} {kind}, {of}, {self.LIMIT}"] for kind in ("planned", "unplanned")]
                    if whole["value"]:
                        total = sum(
                            (Fraction(int(part["numerator"]), int(part["denominator"])) for part in parts), Fraction(0)
                        )
                        self.assertEqual(
                            f"{total.numerator}/{total.denominator} {decimal_text(total)}", words_of(whole)
                        )

    def test_without_a_list(self) -> None:
        row = rows_of(support.fortnight(), "ceer")[f"SAIDI planned, all events, {self.LIMIT}"]
        self.assertEqual(row["value"], "")
        self.assertIn("in a group 'planned'", row["note"])


class Csv(unittest.TestCase):
    def test_no_field_becomes_a_date(self) -> None:
        """A spreadsheet that opens the CSV sees a fraction as two whole numbers, and no date by itself."""
        made = support.fortnight()
        for name in FILINGS:
            done = support.run_tool(
                "workbook", made.book, "--filing", name, "--causes", support.EXAMPLES / "planned.csv", table=made
            )
            self.assertEqual((done.returncode, done.stderr), (0, ""))
            rows = list(csv.reader(io.StringIO(done.stdout)))
            self.assertEqual(rows[0], list(COLUMNS))
            for field in (field for row in rows for field in row):
                self.assertNotRegex(field, r"^[0-9]+[-/.][0-9]+([-/.][0-9]+)$|^[0-9]+/[0-9]+$")
