"""Figures against what the tutorial tells of the fortnight, and against each other over the made books."""

import contextlib
import csv
import io
import json
import unittest
from collections.abc import Callable, Iterator
from dataclasses import replace
from fractions import Fraction
from typing import Any

from outage_tools import figures
from outage_tools.compare import Checked
from outage_tools.counts import SETS, decimal_text
from outage_tools.days import day_rows
from outage_tools.forms import Figures, write_csv, write_json, write_text
from outage_tools.years import lines_of
from tests import support

Row = dict[str, Any]  # a figure's values by their columns


def rows_of(shown: Figures) -> list[Row]:
    return [dict(zip(shown.columns, row)) for row in shown.rows]


def fraction(text: str) -> Fraction:
    return Fraction(0) if text == "undefined" else Fraction(text)


class Fortnight(unittest.TestCase):
    """What docs/use/TUTORIAL.md says of the sample fortnight."""

    def rows(self, name: str) -> list[Row]:
        return rows_of(figures.FIGURES[name](support.opened(support.fortnight())))

    def test_the_tree(self) -> None:
        tree = [row for row in self.rows("interruptions") if row["cause_name"] == "TREE"]
        self.assertEqual(
            [(row["section"], row["seconds"], row["customers"]) for row in tree],
            [("MILL-LANE", 11_390, 5), ("CHURCH-ROW", 1_880, 6), ("STATION-ROAD", 1_880, 5), ("QUARRY", 1_880, 2)],
        )
        self.assertEqual(sum(row["customer_seconds"] for row in tree), 81_390)
        self.assertEqual({row["device"] for row in tree}, {"CB-1"})
        self.assertEqual(tree[0]["since"], "2025-03-27T14:22:10+01:00")

    def test_what_is_momentary(self) -> None:
        momentary = [row for row in self.rows("interruptions") if row["class"] == "momentary"]
        self.assertEqual(sum(row["customers"] for row in momentary), 16)

    def test_days_in_both_readings(self) -> None:
        days = {row["day"]: row for row in self.rows("days")}
        # The quarry's outage began on the 29th at 23:30 and went on for 31,500 seconds: half an hour of it is that day's.
        self.assertEqual(days["2025-03-29"]["customer_seconds"], 3_600)
        self.assertEqual(days["2025-03-29"]["customer_seconds_begun"], 63_000)
        self.assertEqual(days["2025-03-28"]["momentary_begun"], 13)
        self.assertEqual(days["2025-03-30"]["seconds"], 82_800)
        self.assertEqual((days["2025-03-30"]["marked"], days["2025-03-30"]["engineer"]), ("yes", "ENG-4"))

    def test_late_work(self) -> None:
        late = rows_of(figures.switchings(support.opened(support.fortnight()), late_alone=True))
        self.assertEqual(
            [(row["reference"], row["kind"]) for row in late],
            [
                ("LATE-0326-1", "late switch"),
                ("LATE-0326-2", "late switch"),
                ("COR-0402-1", "correct"),
                ("WD-0403-1", "withdraw"),
            ],
        )

    def test_lives(self) -> None:
        found = [tuple(row.values())[1:] for row in self.rows("lives")]
        joins, leaves = "2025-04-02T15:00:00+02:00", "2025-04-05T10:30:00+02:00"
        wanted = [("NET-21", "device", "TIE-2", joins, "", 0, 0), ("NET-22", "life", "FUSE-13", "", leaves, 0, 0)]
        self.assertEqual(found, wanted)

    def test_indices_are_the_words_of_the_table(self) -> None:
        """The table's, but for the decimals of ASAI, of which three say nothing."""
        lines = support.fortnight().table.read_text().splitlines()[-34:]
        rows = [row for row in self.rows("indices") if row["from"] == "program" and row["index"] != "MAIFI"]
        self.assertEqual([row["decimal"] for row in rows if row["index"] == "ASAI"], ["0.99034", "0.99268"])
        for row in rows:
            if row["index"] == "ASAI":
                row["decimal"] = decimal_text(Fraction(row["value"]))
        found = [f"{row['index']:<10}{row['set']:<9}{row['value']} {row['decimal']}".rstrip() for row in rows]
        self.assertEqual(found, lines)

    def test_years_show_five_decimals_of_asai(self) -> None:
        lines = lines_of(support.opened(support.fortnight()))
        self.assertEqual(lines["ASAI all"], "1246999/1259160 0.99034")
        self.assertEqual(lines["SAIDI all"], "4073935/20986 194.126")


class Sums(unittest.TestCase):
    """Parts add up to the whole, over all made books."""

    def each(self) -> Iterator[Checked]:
        for made in support.books():
            with self.subTest(made.name):
                yield support.opened(made)

    def test_days_months_causes_feeders_sections(self) -> None:
        for found in self.each():
            counts, served, length = found.counts["all"], found.book.served_seconds(), found.book.period.length
            saidi = fraction(figures_value(found, "SAIDI"))
            days = rows_of(figures.days(found))
            self.assertEqual(sum(fraction(row["daily_saidi"]) for row in days), saidi)
            total = sum(row["customer_seconds"] for row in days)
            causes = rows_of(figures.causes(found))
            self.assertEqual(sum(row["customer_seconds"] for row in causes), total)
            self.assertEqual(sum(fraction(row["saidi"]) for row in causes), saidi)
            unmarked = sum(
                each.customer_seconds for each in found.interruptions if not found.book.is_marked(each.since)
            )
            for name in ["months", "feeders", "sections"]:
                rows = rows_of(figures.FIGURES[name](found))
                for which in SETS:
                    mine = [row for row in rows if row["set"] == which]
                    seconds = sum(row["customer_seconds"] for row in mine)
                    self.assertEqual(seconds, total if which == "all" else unmarked)
                    self.assertEqual(sum(row["sustained"] for row in mine), found.counts[which].sustained)
                    self.assertEqual(sum(row["momentary"] for row in mine), found.counts[which].momentary)
                if name != "months":
                    whole = [row for row in rows if row["set"] == "all"]
                    customers = sum(fraction(row["customers_served"]) for row in whole)
                    self.assertEqual(customers, Fraction(served, length))
                    if served:
                        parts = sum(fraction(row["saidi"]) * fraction(row["customers_served"]) for row in whole)
                        self.assertEqual(parts / customers, saidi)
            self.assertEqual(
                sum(row["customers"] for row in rows_of(figures.interruptions(found))),
                counts.sustained + counts.momentary,
            )

    def test_days_are_those_of_the_program(self) -> None:
        """What the tools add up by day is what the program prints of each day."""
        for found in self.each():
            of_days = found.selected("day")["all"]
            self.assertEqual([row.day.isoformat() for row in day_rows(found)], [*of_days])
            for row in day_rows(found):
                wanted, begun = of_days[row.day.isoformat()], row.begun
                counts = replace(wanted.counts, with_some=begun.counts.with_some)  # whose they are isn't added up
                self.assertEqual((begun.counts, begun.saidi, begun.saifi), (counts, wanted.saidi, wanted.saifi))

    def test_what_each_command_moved_adds_up(self) -> None:
        for found in self.each():
            moved = found.database.execute("SELECT ifnull(sum(delta), 0) FROM moved WHERE dim = 1").fetchone()[0]
            total = sum(each.customer_seconds for each in found.interruptions)
            self.assertEqual(moved, total)
            kinds = "SELECT ifnull(sum(delta), 0) FROM moved JOIN cmd ON cmd.id = moved.cmd WHERE dim = 1 AND (body LIKE 'switch %'"
            kinds += " OR body LIKE 'correct %' OR body LIKE 'withdraw %')"
            works = rows_of(figures.switchings(found))
            self.assertEqual(sum(row["moved"] for row in works), found.database.execute(kinds).fetchone()[0])
            lives = "SELECT ifnull(sum(delta), 0) FROM moved JOIN cmd ON cmd.id = moved.cmd WHERE dim = 1 AND (body LIKE 'life %'"
            lives += " OR (body LIKE 'device %' AND body NOT LIKE 'device % 0 -'))"
            shown = rows_of(figures.lives(found))
            self.assertEqual(sum(row["moved"] for row in shown), found.database.execute(lives).fetchone()[0])


def figures_value(found: Checked, index: str) -> str:
    return next(str(row["value"]) for row in rows_of(figures.indices(found)) if row["index"] == index)


class Forms(unittest.TestCase):
    def test_csv_json_and_text_say_the_same(self) -> None:
        for name, figures_of in figures.FIGURES.items():
            shown = figures_of(support.opened(support.fortnight()))
            texts = [printed(write, shown) for write in (write_csv, write_json, write_text)]
            rows = list(csv.DictReader(io.StringIO(texts[0])))
            whole = json.loads(texts[1])
            self.assertEqual([{key: str(value) for key, value in row.items()} for row in whole["rows"]], rows)
            self.assertEqual(list(whole["columns"]), list(rows[0]))
            self.assertEqual(len(texts[2].splitlines()), len(whole["about"]) + 1 + len(rows))

    def test_the_words_choose_the_form(self) -> None:
        made = support.fortnight()
        forms: list[tuple[list[str], str]] = [(["--csv"], "index,set,"), (["--json"], "{"), ([], "# ")]
        for form, begin in forms:
            done = support.run_tool("figures", made.book, "indices", *form, table=made)
            self.assertEqual((done.returncode, done.stdout[: len(begin)]), (0, begin))


def printed(write: Callable[[Figures], None], shown: Figures) -> str:
    """What a writer prints."""
    out = io.StringIO()
    with contextlib.redirect_stdout(out):
        write(shown)
    return out.getvalue()
