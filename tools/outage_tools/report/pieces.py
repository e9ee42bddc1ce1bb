"""What the parts of a page are made of: numbers as people read them, tables, pictures with their words, marks of origin."""

from collections.abc import Iterable, Sequence
from dataclasses import dataclass
from fractions import Fraction
from html import escape
from itertools import groupby
from typing import Literal

from outage_tools.counts import decimal_text

FEW = 24  # rows of a table behind a picture that is open from the start
SHORT = 14  # rows of a table that stands on one sheet of paper
NONE = "\u2013"  # where there is no value
SET_NAMES = {"all": "all days", "unmarked": "without major event days"}
PROVED = '<span class="proved" title="Printed or kept by the proved program">from the program</span>'
COMPUTED = '<span class="computed" title="Computed by this page\'s tool from the rows of the book">computed here</span>'


def number(value: int) -> str:
    """A whole number with its thousands apart."""
    return f"{value:,}".replace(",", "\u202f")


def signed(value: int) -> str:
    """A whole number with its sign, `+` too."""
    return f"{'+' if value > 0 else chr(0x2212) if value < 0 else ''}{number(abs(value))}"


def hours(seconds: int) -> str:
    """Customer-seconds as customer-hours, one decimal, rounded half up."""
    tenths = (seconds * 20 + 3_600) // 7_200
    return f"{number(tenths // 10)}.{tenths % 10}"


def duration(seconds: int) -> str:
    """`3 h 09 min 50 s`, without the parts before the first that isn't 0."""
    parts = [(seconds // 3_600, "h"), (seconds % 3_600 // 60, "min"), (seconds % 60, "s")]
    while len(parts) > 1 and parts[0][0] == 0:
        parts.pop(0)
    return " ".join(f"{value:02} {unit}" if place else f"{value} {unit}" for place, (value, unit) in enumerate(parts))


def clock(seconds: int) -> str:
    """Hours and minutes, rounded half up to a minute: `12:34`."""
    minutes = (seconds + 30) // 60
    return f"{number(minutes // 60)}:{minutes % 60:02}"


def decimal(value: Fraction | None, places: int = 3) -> str:
    """Three decimals, or as many as are asked for."""
    return "undefined" if value is None else decimal_text(value, places)


def minutes(value: Fraction | None) -> str:
    """Minutes, one decimal."""
    return decimal(value, 1)


def per_cent(share: Fraction | None, places: int = 1) -> str:
    """A share as per cent."""
    return "undefined" if share is None else f"{decimal_text(100 * share, places)} %"


def change(now: Fraction | None, before: Fraction | None) -> str:
    """By how much a value is above or below that of before, in per cent of it."""
    if now is None or not before:
        return NONE
    amount = decimal_text(abs(now - before) / before * 100, 1)
    sign = "" if amount == "0.0" else "+" if now > before else "\u2212"
    return f"{sign}{amount} %"


def length_of(value: Fraction | None) -> float:
    """A bar's length: none where there is no value."""
    return 0.0 if value is None else float(value)


@dataclass(frozen=True)
class Column:
    """A column of a table: numbers stand to the right, `code` is the program's words, `name` and `long` are texts of
    some lines. Above neighbours of one `over` stand its words."""

    title: str
    kind: Literal["", "number", "code", "name", "long"] = ""
    over: str = ""

    @property
    def attribute(self) -> str:
        """The class of its cells."""
        return f' class="{self.kind}"' if self.kind else ""


def numbers(*titles: str, over: str = "") -> list[Column]:
    """Columns of numbers."""
    return [Column(title, "number", over) for title in titles]


@dataclass(frozen=True)
class TableRow:
    """The cells of a row, and whether it is set apart at its left."""

    cells: Sequence[object]
    is_marked: bool = False


def head_rows(heads: Sequence[Column]) -> str:
    """The heads of a table, and above them the words that stand over some of them."""
    upper = ""
    if any(head.over for head in heads):
        spans = ((over, len([*columns])) for over, columns in groupby(heads, lambda head: head.over))
        cells = (f'<th colspan="{count}"{" class=over" if over else ""}>{escape(over)}</th>' for over, count in spans)
        upper = f"<tr>{''.join(cells)}</tr>"
    lower = "".join(f'<th scope="col"{head.attribute}>{escape(head.title)}</th>' for head in heads)
    return f"<thead>{upper}<tr>{lower}</tr></thead>"


def body_row(heads: Sequence[Column], row: TableRow) -> str:
    """A row; each cell has the head of its column, which stands before it on screens that are too narrow for a table."""
    cells = "".join(
        f'<td{head.attribute} data-label="{escape(head.title)}">{escape(str(cell))}</td>'
        for cell, head in zip(row.cells, heads, strict=True)
    )
    return f'<tr class="marked">{cells}</tr>' if row.is_marked else f"<tr>{cells}</tr>"


def table(heads: Sequence[Column], rows: Iterable[TableRow], label: str = "", kind: Literal["", "cards"] = "") -> str:
    """A table that is scrolled by itself where the screen is too narrow for it, by the keyboard too; one of `cards` isn't:
    its rows are written below each other there."""
    lines = [body_row(heads, row) for row in rows]
    classes = " ".join(each for each in ("wide", kind, "short" if len(lines) <= SHORT else "") if each)
    inner = f"<table>{head_rows(heads)}<tbody>{''.join(lines)}</tbody></table>"
    name = escape(label or f"Table by {heads[0].title}")
    return f'<div class="{classes}" tabindex="0" role="region" aria-label="{name}">{inner}</div>'


def behind(summary: str, content: str, rows: int) -> str:
    """A table behind a picture: open where it is short; on paper always."""
    return f"<details{' open' if rows <= FEW else ''}><summary>{escape(summary)}</summary>{content}</details>"


def figure(picture: str, caption: str, kind: str, source: str = "", narrow: str = "") -> str:
    """A picture with its words and where its figures come from; `narrow` is its drawing for narrow screens.

    A wide picture without one is scrolled there, and says so.
    """
    inner = picture
    if kind == "columns" and narrow:
        inner = f'<div class="for-wide">{picture}</div><div class="for-narrow">{narrow}</div>'
    elif kind == "columns":
        inner = (
            f'<div class="wide" tabindex="0" role="region" aria-label="Picture">{picture}</div>'
            '<p class="scrolls">The picture is wider than the screen: it scrolls sideways.</p>'
        )
    return f'<figure class="{kind}">{inner}<figcaption>{escape(caption)} {source}</figcaption></figure>'


@dataclass(frozen=True)
class Part:
    """A part of the page: the name by which it is reached, its title, where its figures come from, and what it shows."""

    name: str
    title: str
    source: str
    content: str

    @property
    def text(self) -> str:
        return f'\n<section id="{self.name}">\n<h2>{escape(self.title)} {self.source}</h2>{self.content}\n</section>'
