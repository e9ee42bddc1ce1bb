"""The page for regulators: its own formulas, over the list of interruptions, P and S, give the program's annual table."""

import csv
import io
import re
import unittest
from collections.abc import Iterator
from datetime import UTC, date, datetime
from pathlib import Path

from outage_tools.compare import figures_of_table
from outage_tools.rows import Period, period_of
from outage_tools.workbook.sheets import Cell, Formula, Sheet
from outage_tools.workbook.writing import write_workbook
from tests import support
from tests.libreoffice import Sheets, calculated, needs_libreoffice
from tests.program_books import fresh, run_program

PAGE = support.ROOT / "docs/use/SPREADSHEET.md"
HEADING = re.compile(r"## Sheets? `([a-z]+)`")
FORMULA = re.compile(r"\| ([A-Z])([0-9]+)( down| to [A-Z]([0-9]+))? \|.*\| `(=.*)` \|")
REFERENCE = re.compile(r"(?<![A-Z$])([A-Z])([0-9]+)(?![0-9(])")  # a cell's, which moves with the formula
INDICES = ("SAIFI", "SAIDI", "CAIDI", "CAIFI", "ASAI", *(f"CEMI-{n}" for n in range(1, 11)))
ROWS: dict[str, list[list[Cell]]] = {  # what the page tells to fill in of sheets that are the same for each book
    "counts": [[name] for name in ("CI", "CSI", "MI", *range(1, 11))],
    "indices": [[name] for name in INDICES],
}
BOOKS = 9  # the fortnight, the corrected one, the feeder of the standard, random ones


def formulas() -> Iterator[tuple[str, re.Match[str]]]:
    """The page's formulas, each with its sheet."""
    sheet = ""
    for line in PAGE.read_text(encoding="utf-8").splitlines():
        if heading := HEADING.match(line):
            sheet = heading[1]
        elif found := FORMULA.fullmatch(line):
            yield sheet, found


def copied(formula: str, rows: int) -> str:
    """A formula as a spreadsheet copies it down."""
    return REFERENCE.sub(lambda found: f"{found[1]}{int(found[2]) + rows}", formula)


def with_formulas(name: str, rows: list[list[Cell]]) -> list[list[Cell]]:
    """The rows of a sheet with the page's formulas."""
    found = [[*row, *[""] * (26 - len(row))] for row in rows]
    for sheet, (letter, first, down, last, text) in ((sheet, formula.groups()) for sheet, formula in formulas()):
        if sheet == name:
            for row in range(int(first), int(last or first if last or not down else len(rows) + 1) + 1):
                places = 3 if (name, letter) == ("indices", "M") else 0
                found[row - 2][ord(letter) - ord("A")] = Formula(copied(text, row - int(first)), 0, places)
    return found


def filled(rows: list[list[str]], said: dict[str, str], lines: dict[str, str], period: Period) -> list[Sheet]:
    """The page's sheets: rows of interruptions, what is said of the whole book, the table's lines for names, and the period."""
    first = datetime.fromtimestamp(period.first, UTC).strftime("%Y-%m-%dT%H:%M:%SZ")
    lengths = [end - since - 86_400 for since, end in zip(period.bounds, period.bounds[1:])]
    sheets: dict[str, list[list[Cell]]] = {
        "interruptions": [[row[0], int(row[1]), int(row[2]), *row[3:]] for row in rows],
        **ROWS,
        "causes": [[which.split()[2]] for which in lines if which.startswith("cause ")],
        "feeders": [[int(which.split()[1])] for which in lines if which.startswith("feeder ")],
        "days": [*map(day_row, period.days, lengths), ["the day after"]],
    }
    made = {name: with_formulas(name, listed) for name, listed in sheets.items()}
    made["unmarked"] = [[in_unmarked(cell) for cell in row] for row in made["indices"]]
    heads = [*"ABCDEFGHIJKLMNOPQRSTUVWXYZ"]
    book: list[list[Cell]] = [["P", int(said["period_seconds"])], ["S", int(said["customer_seconds_served"])], ["W"]]
    return [
        Sheet("book", [], ["first", first], with_formulas("book", book)),
        *(Sheet(name, [], heads, listed) for name, listed in made.items()),
    ]


def day_row(day: date, more: int) -> list[Cell]:
    return [str(day), more]


def in_unmarked(cell: Cell) -> Cell:
    return Formula(cell.text.replace("counts!B", "counts!C"), 0, cell.places) if isinstance(cell, Formula) else cell


def figures_of_sheets(sheets: Sheets, lines: dict[str, str]) -> Iterator[tuple[str, str]]:
    """What the sheets say, as the table's lines have it."""
    yield "P, S and W", " ".join(row[1] for row in sheets["book"][1:4])
    yield from zip((which for which in lines if which.startswith("cause ")), (row[1] for row in sheets["causes"][1:]))
    yield from ((f"feeder {row[0]}", row[1]) for row in sheets["feeders"][1:])
    yield from ((f"day {row[0]}", row[4]) for row in sheets["days"][1:-1] if row[4] != "0")
    for place, (which, sheet) in enumerate((("all", "indices"), ("unmarked", "unmarked")), 1):
        yield from ((f"{row[0]} {which}", f"{row[11]} {row[12]}".strip()) for row in sheets[sheet][1:])
        yield f"SUSTAINED {which}", sheets["counts"][1][place]
        yield f"MOMENTARY {which}", sheets["counts"][3][place]


class Page(unittest.TestCase):
    def test_every_formula_is_read(self) -> None:
        self.assertEqual(len([*formulas()]), PAGE.read_text(encoding="utf-8").count("| `="))

    def test_references_move_as_they_are_copied(self) -> None:
        self.assertEqual(copied("=IF(A2=A1,O1,0)+book!$B$3+LEFT(F2,10)", 3), "=IF(A5=A4,O4,0)+book!$B$3+LEFT(F5,10)")


@needs_libreoffice
@support.needs_program
class Spreadsheet(unittest.TestCase):
    def test_the_formulas_give_the_annual_table(self) -> None:
        wanted: dict[Path, tuple[dict[str, str], Period]] = {}
        for made in (*support.books()[: BOOKS - 1], support.edges()):
            book, listed = fresh(f"spreadsheet-{made.name}"), support.folder() / f"spreadsheet-{made.name}.csv"
            first, days, zone = made.period
            run_program("init", "--book", book, "--first", first, "--days", days, "--zone", zone)
            run_program("import", "--book", book, made.text)  # a random text has rows that are refused
            run_program("interruptions", "--book", book, listed)
            said = next(csv.DictReader(io.StringIO(run_program("indices", "--book", book).stdout)))
            lines = figures_of_table(run_program("table", "--book", book).stdout.splitlines())
            period = period_of(first, int(days), zone)
            path = listed.with_suffix(".xlsx")
            rows = [*csv.reader(listed.read_text(encoding="ascii").splitlines())][1:]
            write_workbook(path, filled(rows, said, lines, period), made.name)
            wanted[path] = lines, period
        for path, sheets in calculated("spreadsheets", [*wanted]).items():
            lines, period = wanted[path]
            table = {which: words.removesuffix(" marked") for which, words in lines.items() if which != "the heading"}
            table = {which: words for which, words in table.items() if (which[:3], words) != ("day", "0")}
            with self.subTest(path.stem):
                self.assertEqual(dict(figures_of_sheets(sheets, lines)), table)
                self.assertEqual(sheets["days"][-1][2], str(period.length))
