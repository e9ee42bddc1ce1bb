"""Rows of a figure with the names of their columns, and how they are written: to read, as CSV, as JSON."""

import csv
import json
import sys
from dataclasses import dataclass
from typing import IO

Value = int | str


@dataclass(frozen=True)
class Figures:
    """Rows with the names of their columns, each with its meaning and unit, and what is to be said of them all."""

    name: str
    about: list[str]
    columns: dict[str, str]
    rows: list[list[Value]]


def write_text(figures: Figures) -> None:
    """A table to read, behind what is to be said of it."""
    for line in figures.about:
        print(f"# {line}")
    cells = [list(figures.columns), *([str(value) for value in row] for row in figures.rows)]
    widths = [max(len(row[place]) for row in cells) for place in range(len(figures.columns))]
    numeric = [all(isinstance(row[place], int) for row in figures.rows) for place in range(len(figures.columns))]
    for row in cells:
        padded = [text.rjust(width) if right else text.ljust(width) for text, width, right in zip(row, widths, numeric)]
        print("  ".join(padded).rstrip())


def write_csv_to(figures: Figures, out: IO[str]) -> None:
    """CSV with a line of the columns' names before the rows."""
    writer = csv.writer(out, lineterminator="\n")
    writer.writerow(figures.columns)
    writer.writerows(figures.rows)


def write_csv(figures: Figures) -> None:
    """CSV on standard output."""
    write_csv_to(figures, sys.stdout)


def write_json(figures: Figures) -> None:
    """An object with the name, what is to be said, the meaning of each column, and the rows as objects."""
    rows = [dict(zip(figures.columns, row)) for row in figures.rows]
    whole = {"figures": figures.name, "about": figures.about, "columns": figures.columns, "rows": rows}
    json.dump(whole, sys.stdout, indent=1)
    print()
