"""The figures that a pack's files show, beside what the program's annual table says."""

import csv
import re
from collections.abc import Iterator
from fractions import Fraction
from itertools import zip_longest
from pathlib import Path

from outage_tools.compare import figures_of_table
from outage_tools.counts import SETS, decimal_text, index_decimals
from outage_tools.pack.files import INTERRUPTIONS
from outage_tools.workbook.reading import Grid, read_workbook

OF_ROWS = re.compile(r"interruptions( [0-9]+)?")  # the sheets of interruptions
OF_REPORT = re.compile(r'<tr><td><strong>([A-Z0-9-]+)</strong></td>((?:<td data-set="[a-z ]+">.*?</td>)+)')
OF_SET = re.compile(r'<td data-set="([a-z ]+)"><b>([^<]*)</b>(?: <span class="fraction">([^<]*)</span>)?</td>')


def words_of_table(table: str) -> dict[str, str]:
    """The words of each index and count in an annual table."""
    lines = figures_of_table(table.splitlines())
    return {which: words for which, words in lines.items() if which.split()[-1] in SETS}


def shown_as(index: str, words: str) -> tuple[str, str]:
    """How a figure is shown: its decimals or its number, and its fraction."""
    fraction = words.rpartition(" ")[0]
    if not fraction:
        return ("", "undefined") if words == "undefined" else (words, "")
    return decimal_text(Fraction(fraction), index_decimals(index)), fraction


def number_of(text: str) -> float | None:
    """A number as a spreadsheet has it."""
    return float(text) if text else None


def compare_shown(shown: dict[str, tuple[str, str]], table: dict[str, str]) -> str | None:
    """The first figure of a file that isn't the program's."""
    for which, words in table.items():
        value, fraction = shown_as(which.split()[0], words)
        found = shown.get(which)
        if found is None:
            return f"it has no {which}"
        if found[1] != fraction or number_of(found[0]) != number_of(value):
            return f"{which} is {' '.join(found).strip()}, the program prints {words}"
    return None


def rows_of_sheet(grid: Grid) -> Iterator[dict[str, str]]:
    """The rows of a sheet by the names of its columns."""
    head, *rows = ([cell.text for cell in row] for row in grid)
    return (dict(zip(head, row + [""] * (len(head) - len(row)))) for row in rows)


def workbook_differs(path: Path, rows: Path | None, table: dict[str, str]) -> str | None:
    """Whether a workbook has the program's indices, and the same interruptions as a file of rows: what it hasn't."""
    grids = read_workbook(path)
    found = {
        f"{row['index']} {row['set']}": (row["value"], row["value, exact"])
        for row in rows_of_sheet(grids["indices"])
        if row["from"] == "program"
    }
    here = (row for name, grid in grids.items() if OF_ROWS.fullmatch(name) for row in rows_of_sheet(grid))
    row = None if rows is None else first_other_row(here, rows)
    return (
        compare_shown(found, table) if row is None else f"row {row} of its interruptions isn't that of {INTERRUPTIONS}"
    )


def first_other_row(here: Iterator[dict[str, str]], rows: Path) -> int | None:
    """The number of the first row of a sheet that isn't that of a file of rows."""
    with rows.open(newline="", encoding="utf-8") as file:
        for number, (shown, wanted) in enumerate(zip_longest(here, csv.DictReader(file)), 1):
            if not shown or not wanted or any(shown.get(name) != text for name, text in wanted.items()):
                return number
    return None


def report_shows(path: Path) -> dict[str, tuple[str, str]]:
    """The program's indices in a report."""
    found: dict[str, tuple[str, str]] = {}
    for index, cells in OF_REPORT.findall(path.read_text(encoding="utf-8")):
        for sets, value, fraction in OF_SET.findall(cells):
            for which in sets.split():  # one cell is of both sets where no day is marked
                found[f"{index} {which}"] = ("", "undefined") if value == "undefined" else (value, fraction)
    return found


def rows_differ(path: Path, table: str) -> str | None:
    """Whether the rows of interruptions give the program's counts, W and SAIDI: what doesn't."""
    lines = figures_of_table(table.splitlines())
    length, served, total = map(int, lines["P, S and W"].split())
    counts = {f"{name} {which}": 0 for name in ("SUSTAINED", "MOMENTARY", "CSI") for which in SETS}
    seconds = 0
    with path.open(newline="", encoding="utf-8") as file:
        for row in csv.DictReader(file):
            seconds += int(row["customer_seconds"])
            for which in SETS if row["marked"] != "yes" else SETS[:1]:
                counts[f"{row['class'].upper()} {which}"] += int(row["customers"])
                counts[f"CSI {which}"] += int(row["customer_seconds"]) if row["class"] == "sustained" else 0
    if seconds != total:
        return f"its customer_seconds add up to {seconds}, the program's W is {total}"
    for which in SETS:
        for name in ("SUSTAINED", "MOMENTARY"):
            if counts[f"{name} {which}"] != int(lines[f"{name} {which}"]):
                return (
                    f"its rows give {name} {which} {counts[f'{name} {which}']}, the program {lines[f'{name} {which}']}"
                )
        if served and Fraction(counts[f"CSI {which}"] * length, 60 * served) != Fraction(
            lines[f"SAIDI {which}"].split()[0]
        ):
            return f"its rows don't give the program's SAIDI {which}"
    return None
