"""Workbooks: each cell against its figure, and LibreOffice's own calculation against the program's table."""

import csv
import io
import re
import unittest
import warnings
from functools import lru_cache
from pathlib import Path

from outage_tools import figures
from outage_tools.above import customers_above
from outage_tools.counts import decimal_text, quotient
from outage_tools.errors import BookError
from outage_tools.versions import Made
from outage_tools.workbook import Wanted, sheets_of, write_workbook
from outage_tools.workbook.reading import Grid, Read, read_workbook
from outage_tools.workbook.sheets import (
    LONGEST_TEXT,
    Decimal,
    Sheet,
    letters_of,
    parts_of,
    sheet_of,
    shortened,
    text_of,
)
from tests import support
from tests.libreoffice import Sheets, calculated, changed, needs_libreoffice

MADE = Made("outagebook 2 (books of version 2)", "0" * 64, "1" * 64, "Python 3")
SHAPES = {"General", "0", "0.000", "0.00000", "0.000000", "@"}
CALCULATED = 9  # books whose workbooks LibreOffice opens


@lru_cache(maxsize=None)
def sheets_of_book(made: support.Made, most: int = 1_048_575) -> list[Sheet]:
    wanted = Wanted(least=1, filings=("eia861", "ceer"))
    return sheets_of(support.opened(made), wanted, MADE, most)


def workbook_of(made: support.Made, name: str = "whole", most: int = 1_048_575) -> Path:
    path = support.folder() / f"{made.name}_{name}.xlsx"
    write_workbook(path, sheets_of_book(made, most), made.name)
    return path


def some_books() -> list[support.Made]:
    """The fortnight, the corrected one, the feeder of the standard, random books, and the one with edges."""
    return [*support.books()[: CALCULATED - 1], support.edges()]


def table_lines(made: support.Made) -> dict[str, str]:
    """The words of each index in the annual table."""
    lines = made.table.read_text().splitlines()[-34:]
    return {" ".join(line.split()[:2]): " ".join(line.split()[2:]) for line in lines}


def column(rows: list[list[str]], name: str) -> int:
    return rows[0].index(name)


class Cells(unittest.TestCase):
    """What is in the file, read without a spreadsheet."""

    def test_every_cell_is_its_figure(self) -> None:
        for made in some_books():
            grids, sheets = read_workbook(workbook_of(made)), sheets_of_book(made)
            self.assertEqual(list(grids), [sheet.name for sheet in sheets])
            for sheet in sheets:
                self.compare(grids[sheet.name], sheet)

    def compare(self, grid: Grid, sheet: Sheet) -> None:
        self.assertEqual([cell.text for cell in grid[0]], sheet.columns)
        self.assertEqual(len(grid) - 1, len(sheet.rows))
        for read, row in zip(grid[1:], sheet.rows):
            for place, cell in enumerate(row):
                found = read[place] if place < len(read) else Read("", "text")
                if isinstance(cell, str):
                    self.assertEqual((found.text, found.kind), (cell, "text"))
                elif isinstance(cell, (int, Decimal)):
                    self.assertEqual((float(found.text), found.kind), (float(text_of(cell)), "number"))
                    places = cell.places if isinstance(cell, Decimal) else 0
                    self.assertEqual(found.shape, f"0.{'0' * places}" if places else "0")
                else:
                    self.assertEqual(found.kind, "formula")

    def test_no_cell_is_a_date(self) -> None:
        """No cell has the type or the format of a date: what looks like one is a text, and is kept as one when edited."""
        looks = re.compile(r"[0-9]+/[0-9]+|[0-9]{4}-[0-9]{2}(-.*)?")
        seen = 0
        for made in some_books():
            for rows in read_workbook(workbook_of(made)).values():
                for cell in (cell for row in rows for cell in row):
                    self.assertIn(cell.kind, ("text", "number", "formula"))
                    self.assertIn(cell.shape, SHAPES | {""})
                    if looks.fullmatch(cell.text):
                        seen += 1
                        self.assertEqual((cell.kind, cell.shape), ("text", "@"))
        self.assertGreater(seen, 1_000)

    def test_same_bytes(self) -> None:
        made = support.fortnight()
        self.assertEqual(workbook_of(made, "1").read_bytes(), workbook_of(made, "2").read_bytes())

    def test_decimals_first_and_fractions_apart(self) -> None:
        """Every fraction of a figure is in a column of its own behind the numbers, in a row with its decimals."""
        found = support.opened(support.fortnight())
        for name in ("months", "feeders", "sections", "causes", "days", "indices"):
            sheet = sheet_of(figures.FIGURES[name](found), "")
            exact = [place for place, title in enumerate(sheet.columns) if title.endswith(", exact")]
            self.assertEqual(exact, list(range(exact[0], len(sheet.columns))), name)
            for row in sheet.rows:
                for place in exact:
                    decimal, fraction = row[sheet.columns.index(sheet.columns[place][:-7])], row[place]
                    if isinstance(fraction, str) and "/" in fraction and isinstance(decimal, Decimal):
                        above, below = map(int, fraction.split("/"))
                        self.assertEqual(decimal.text, decimal_text(quotient(above, below), decimal.places))
                for cell in row[: exact[0]]:
                    self.assertFalse(isinstance(cell, str) and re.fullmatch("[0-9]+/[0-9]+", cell))

    def test_all_figures_are_there(self) -> None:
        """A sheet of each figure that needs no list, with all its rows, and what each is made by."""
        made = support.fortnight()
        sheets = {sheet.name: sheet for sheet in sheets_of_book(made)}
        for name in figures.FIGURES:
            self.assertEqual(len(sheets[name].rows), len(figures.FIGURES[name](support.opened(made)).rows), name)
        told = {str(row[0]): row for row in sheets["about"].rows}
        for name in set(sheets) - {"about", "columns"}:
            self.assertIn("outagebook 2", str(told[f"sheet {name}"][2]))
        meanings = {(row[0], row[1]) for row in sheets["columns"].rows if row[2]}
        for sheet in sheets.values():
            if sheet.name not in ("about", "columns"):
                self.assertLessEqual({(sheet.name, title) for title in sheet.columns}, meanings)

    def test_customers_above(self) -> None:
        """By number: as many as the table's CEMI counts."""
        for made in some_books():
            found = support.opened(made)
            for least in (1, 2, 3):
                shown = customers_above(found, least)
                self.assertEqual(len(shown.rows), found.counts["all"].with_some[least - 1])
                self.assertEqual(len({row[0] for row in shown.rows}), len(shown.rows))
                self.assertTrue(all(int(row[5]) >= least for row in shown.rows))


class Shapes(unittest.TestCase):
    def test_letters(self) -> None:
        self.assertEqual(
            [letters_of(place) for place in (0, 25, 26, 51, 52, 701, 702)], ["A", "Z", "AA", "AZ", "BA", "ZZ", "AAA"]
        )

    def test_long_texts_are_told(self) -> None:
        whole = "x" * LONGEST_TEXT
        self.assertEqual(shortened(whole), whole)
        self.assertEqual(len(shortened(whole + "y")), LONGEST_TEXT)
        self.assertIn(f"({LONGEST_TEXT + 1} characters in all", shortened(whole + "y"))

    def test_what_a_sheet_cannot_hold_is_refused(self) -> None:
        """A cell that XlsxWriter would leave out in silence ends the run."""
        self.enterContext(warnings.catch_warnings())
        warnings.simplefilter("ignore", ResourceWarning)  # XlsxWriter leaves files of a workbook open that isn't closed
        sheet = Sheet("wide", [], ["a"] * 16_384, [[1] * 16_385])
        with self.assertRaisesRegex(BookError, "sheet wide: row 2, column 16385 can't hold '1'"):
            write_workbook(support.folder() / "wide.xlsx", [sheet], "wide")
        self.assertFalse((support.folder() / "wide.xlsx").exists())
        with self.assertRaisesRegex(BookError, "sheet odd: row 2, column 1 can't hold"):
            write_workbook(support.folder() / "odd.xlsx", [Sheet("odd", [], ["a"], [["a\x01b"]])], "odd")

    def test_parts(self) -> None:
        sheet = Sheet("rows", [], ["a"], [[number] for number in range(5)])
        self.assertEqual(
            [(part.name, len(part.rows)) for part in parts_of(sheet, 2)], [("rows", 2), ("rows 2", 2), ("rows 3", 1)]
        )
        self.assertEqual([part.name for part in parts_of(Sheet("none", [], ["a"], []), 2)], ["none"])


@needs_libreoffice
class LibreOffice(unittest.TestCase):
    """What a spreadsheet of another maker shows, with every formula calculated anew."""

    whole: dict[Path, support.Made]
    parted: dict[Path, support.Made]
    emptied: Path
    planted: Path
    calculated: dict[Path, Sheets]

    @classmethod
    def setUpClass(cls) -> None:
        cls.whole = {workbook_of(made): made for made in some_books()}
        cls.parted = {workbook_of(made, "parted", 9): made for made in (support.fortnight(), support.edges())}
        own = support.folder()
        cls.emptied = changed(next(iter(cls.whole)), own / "emptied.xlsx", without_values)
        cls.planted = changed(next(iter(cls.whole)), own / "planted.xlsx", with_one_customer_more)
        cls.calculated = calculated("workbooks", [*cls.whole, *cls.parted, cls.emptied, cls.planted])

    def test_every_index_is_the_programs(self) -> None:
        for path, made in self.whole.items():
            self.compare_indices(self.calculated[path]["indices"], made)

    def compare_indices(self, rows: list[list[str]], made: support.Made) -> None:
        index, which, value, exact = (column(rows, name) for name in ("index", "set", "value", "value, exact"))
        found = {}
        for row in rows[1:]:
            if row[column(rows, "from")] == "program" and row[index] != "MAIFI":
                found[f"{row[index]} {row[which]}"] = f"{row[exact]} {row[value]}".strip()
        wanted = table_lines(made)
        for key, words in wanted.items():
            if key.startswith("ASAI ") and words != "undefined":  # five decimals here, of which the table has three
                self.assertEqual(found[key].split()[0], words.split()[0])
            else:
                self.assertEqual(found[key], words, (made.name, key))
        self.assertEqual(found.keys(), wanted.keys())

    def test_formulas_give_the_programs_figures(self) -> None:
        for path, made in {**self.whole, **self.parted}.items():
            self.compare_recount(self.calculated[path]["recount"], made)

    def compare_recount(self, rows: list[list[str]], made: support.Made) -> None:
        table = table_lines(made)
        seen = set()
        for row in rows[1:]:
            key = f"{row[0]} {row[1]}"
            if key in table:
                seen.add(key)
                self.assertEqual(row[4], "equal", (made.name, key))
                shown = row[3] if table[key] in ("undefined", row[3]) else f"{round(float(row[3]) + 1e-9, 3):.3f}"
                self.assertEqual(shown, table[key].split()[-1], (made.name, key))
        wanted = {
            f"{name} {which}"
            for name in ("SAIFI", "SAIDI", "CAIDI", "SUSTAINED", "MOMENTARY")
            for which in ("all", "unmarked")
        }
        self.assertEqual(seen, wanted)
        self.assertIn("all equal", [row[4] for row in rows])

    def test_another_limit(self) -> None:
        """What docs/use/FAQ.md shows for three minutes."""
        rows = {row[0] + " " + row[1]: row for row in self.calculated[next(iter(self.whole))]["recount"]}
        self.assertEqual(rows["SAIFI by that limit all"][3][:5], "2.426")
        self.assertEqual(rows["SAIDI by that limit all"][3][:7], "194.509")

    def test_it_calculates(self) -> None:
        """A workbook whose formulas give nothing in the file shows the same."""
        whole = self.calculated[next(iter(self.whole))]
        self.assertEqual(self.calculated[self.emptied], whole)

    def test_a_changed_row_differs(self) -> None:
        rows = self.calculated[self.planted]["recount"]
        self.assertNotIn("all equal", [row[4] for row in rows])
        found = {f"{row[0]} {row[1]}": row[4] for row in rows}
        self.assertEqual({found[key] for key in ("SUSTAINED all", "SAIFI all", "CAIDI all")}, {"differs"})
        self.assertEqual({found[key] for key in ("MOMENTARY all", "W all", "SAIDI all")}, {"equal"})

    def test_texts_are_kept(self) -> None:
        """What a spreadsheet shows of each sheet is what is in it: fractions, dates and references as they were."""
        for path, made in self.whole.items():
            for sheet in sheets_of_book(made):
                if sheet.name != "recount":
                    wanted = [sheet.columns, *([text_of(cell) for cell in row] for row in sheet.rows)]
                    self.assertEqual(self.calculated[path][sheet.name], wanted, (made.name, sheet.name))


def without_values(name: str, text: str) -> str:
    """What formulas give is taken out of the file."""
    return (
        re.sub(r"(</f>)<v>[^<]*</v>", r"\1<v>0</v>", re.sub(r' t="str"(><f>)', r"\1", text))
        if "sheet" in name
        else text
    )


def with_one_customer_more(name: str, text: str) -> str:
    """The first interruption of the fortnight has 7 customers in place of 6, and as many customer-seconds as before."""
    return (
        text.replace('r="G2" s="3"><v>6</v>', 'r="G2" s="3"><v>7</v>')
        if ">CHURCH-ROW<" in text and ">cutter<" in text
        else text
    )


class Command(unittest.TestCase):
    def test_workbook_and_filing(self) -> None:
        made, path = support.fortnight(), support.folder() / "by-command.xlsx"
        done = support.run_tool(
            "workbook", made.book, "-o", path, "--filing", "ceer", "--date", "2025-05-01", table=made
        )
        self.assertEqual((done.returncode, done.stdout, done.stderr), (0, "", ""))
        grids = read_workbook(path)
        self.assertIn("filing ceer", grids)
        self.assertNotIn("customers above", grids, "numbers of customers are there only if they are asked for")
        facts = {row[0].text: row[1].text for row in grids["about"][1:] if len(row) > 1}
        self.assertEqual(facts["written on"], "2025-05-01")
        self.assertEqual(facts["program"], f"an annual table read from {made.table.name}")
        done = support.run_tool("workbook", made.book, "--filing", "eia861", table=made)
        self.assertEqual(done.returncode, 0)
        self.assertEqual(next(csv.reader(io.StringIO(done.stdout)))[:3], ["line", "unit", "value"])

    def test_wrong_words(self) -> None:
        made = support.fortnight()
        refused: list[list[str]] = [
            [],
            ["--filing", "eia861", "--filing", "ceer"],
            ["-o", "year.csv"],
            ["-o", "y.xlsx", "--above", "0"],
        ]
        for words in refused:
            self.assertEqual(support.run_tool("workbook", made.book, *words, table=made).returncode, 64, words)
        done = support.run_tool("workbook", made.book, "-o", "/nowhere/year.xlsx", table=made)
        self.assertEqual(done.returncode, 1)
        self.assertIn("can't be written", done.stderr)

    def test_a_table_that_differs_gives_no_workbook(self) -> None:
        made, path = support.fortnight(), support.folder() / "none.xlsx"
        table = support.written("other-table.txt", made.table.read_text().replace(" 194.126", " 194.127"))
        done = support.run_tool("workbook", made.book, "-o", path, "--table", table)
        self.assertEqual(done.returncode, 2)
        self.assertFalse(path.exists())
