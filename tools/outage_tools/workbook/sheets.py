"""A figure as a sheet: numbers as numbers, their exact fractions as text in columns of their own behind all others."""

import re
from collections.abc import Iterable, Iterator, Sequence
from dataclasses import dataclass, field

from outage_tools.forms import Figures, Value

MOST_ROWS = 1_048_575  # of a sheet, below the line of the columns' names
LONGEST_TEXT = 32_767  # characters of a cell
DECIMALS = re.compile(r"[0-9]+\.[0-9]+")


@dataclass(frozen=True)
class Decimal:
    """A number that is shown with the decimals of its text."""

    text: str

    @property
    def places(self) -> int:
        return len(self.text.partition(".")[2])


@dataclass(frozen=True)
class Formula:
    """A formula, and what it gives: shown by what doesn't calculate."""

    text: str
    value: int | float | str
    places: int = 0


Cell = int | str | Decimal | Formula


@dataclass(frozen=True)
class Sheet:
    """Rows below the names of their columns; `about` says how they are made, `meanings` what each column is."""

    name: str
    about: list[str]
    columns: list[str]
    rows: Sequence[Sequence[Cell]]
    meanings: dict[str, str] = field(default_factory=dict)
    source: str = ""
    program: str = "tested"


def number_of(text: str) -> Cell:
    """The number of a column of decimals; an empty text where there is none."""
    return Decimal(text) if DECIMALS.fullmatch(text) else text


@dataclass(frozen=True)
class Column:
    """A column of a sheet, its place in the figure's rows, and whether it has decimals."""

    name: str
    meaning: str
    place: int
    is_decimal: bool = False


def columns_of(figures: Figures) -> tuple[list[Column], list[Column]]:
    """The columns in their order, fractions left out, and the columns of the fractions.

    A figure has the decimals of `saidi` in `saidi_3`: here `saidi` has the decimals, and `saidi, exact` the fraction.
    """
    names, shown, fractions = list(figures.columns), list[Column](), list[Column]()
    for place, (name, meaning) in enumerate(figures.columns.items()):
        base = re.sub(r"_[0-9]$", "", name)
        if any(re.fullmatch(re.escape(name) + "_[0-9]", other) for other in names):
            fractions.append(Column(f"{name}, exact", meaning, place))
        elif base != name and base in names:
            places = {"3": "three", "5": "five"}.get(name[-1], name[-1])
            shown.append(
                Column(base, f"{figures.columns[base]}: {places} decimals".replace(", as a fraction", ""), place, True)
            )
        else:
            shown.append(Column(name, meaning, place, name in ("decimal", "value")))
    return shown, fractions


def cell_of(column: Column, value: Value) -> Cell:
    return number_of(value) if column.is_decimal and isinstance(value, str) else value


def with_numbers_first(figures: Figures) -> Figures:
    """The indices, whose column `value` has fractions and counts: the number in `number`, a fraction in `number, exact`."""
    place, decimal = (list(figures.columns).index(name) for name in ("value", "decimal"))
    columns = {name: text for name, text in figures.columns.items() if name not in ("value", "decimal")}
    head = {name: columns.pop(name) for name in ("index", "set")}
    head |= {"value": "three decimals, five of ASAI, rounded half up, or a count"}
    rows: list[list[Value]] = []
    for row in figures.rows:
        exact = row[place]
        others = [each for at, each in enumerate(row) if at not in (0, 1, place, decimal)]
        rows.append(
            [
                row[0],
                row[1],
                row[decimal] if isinstance(exact, str) else exact,
                *others,
                exact if isinstance(exact, str) else "",
            ]
        )
    exact_meaning = "the exact fraction in lowest terms; `undefined` where there is nothing to divide by"
    return Figures(figures.name, figures.about, {**head, **columns, "value, exact": exact_meaning}, rows)


def sheet_of(figures: Figures, source: str, program: str = "tested") -> Sheet:
    """A figure as a sheet."""
    if figures.name == "indices":
        figures = with_numbers_first(figures)
    shown, fractions = columns_of(figures)
    columns = shown + fractions
    rows = [[cell_of(column, row[column.place]) for column in columns] for row in figures.rows]
    meanings = {column.name: column.meaning for column in columns}
    return Sheet(figures.name, figures.about, [column.name for column in columns], rows, meanings, source, program)


def parts_of(sheet: Sheet, most: int = MOST_ROWS) -> Iterator[Sheet]:
    """A sheet, or several where it has more rows than one holds: `interruptions`, `interruptions 2`."""
    for number, first in enumerate(range(0, max(1, len(sheet.rows)), most), 1):
        name = sheet.name if number == 1 else f"{sheet.name} {number}"
        yield Sheet(
            name,
            sheet.about,
            sheet.columns,
            sheet.rows[first : first + most],
            sheet.meanings,
            sheet.source,
            sheet.program,
        )


def letters_of(place: int) -> str:
    """The letters of a column, the first of which is 0."""
    letters = ""
    place += 1
    while place:
        place, rest = divmod(place - 1, 26)
        letters = chr(ord("A") + rest) + letters
    return letters


def shortened(text: str) -> str:
    """A text as long as a cell holds; what was left out is told in it."""
    if len(text) <= LONGEST_TEXT:
        return text
    told = f" .. ({len(text)} characters in all: outagebook-figures has them)"
    return text[: LONGEST_TEXT - len(told)] + told


def widths_of(sheet: Sheet, looked_at: int = 500) -> Iterable[int]:
    """How wide each column is shown, by its name and its first rows."""
    for place, name in enumerate(sheet.columns):
        texts = (text_of(row[place]) for row in sheet.rows[:looked_at])
        yield min(60, max(len(name) + 3, *(len(text) + 1 for text in texts), 6))


def text_of(cell: Cell) -> str:
    """A cell as it is read."""
    if isinstance(cell, Formula):
        return f"{cell.value:.{cell.places}f}" if isinstance(cell.value, float) else str(cell.value)
    return cell.text if isinstance(cell, Decimal) else str(cell)
