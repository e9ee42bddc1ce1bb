"""Sheets as an XLSX file, whose bytes are the same for the same sheets. Each text is a text: nothing is taken for a date."""

import os
import re
import tempfile
from collections.abc import Sequence
from contextlib import suppress
from datetime import datetime
from pathlib import Path
from typing import Any

from outage_tools.errors import BookError, lacks
from outage_tools.workbook.sheets import Cell, Decimal, Formula, Sheet, shortened, widths_of

FIXED = datetime(1980, 1, 1)
OPTIONS: dict[str, Any] = {
    "constant_memory": True,
    "strings_to_numbers": False,
    "strings_to_formulas": False,
    "strings_to_urls": False,
}
TEXT, WHOLE = "@", "0"
CONTROL = re.compile("[\x00-\x08\x0b\x0c\x0e-\x1f\ufffe\uffff]")  # characters that no XML file may have


def xlsxwriter_module() -> Any:
    """Debian's XlsxWriter."""
    try:
        import xlsxwriter
    except ImportError:
        raise lacks("a workbook is written", "python3-xlsxwriter") from None
    return xlsxwriter


def version_of_writer() -> str:
    return f"XlsxWriter {xlsxwriter_module().__version__}"


class Formats:
    """The formats of cells by what they are shown as."""

    def __init__(self, book: Any) -> None:
        self.book = book
        self.by_shape: dict[str, Any] = {}
        self.head = book.add_format({"bold": True, "bottom": 1, "num_format": TEXT})

    def of(self, shape: str) -> Any:
        if shape not in self.by_shape:
            self.by_shape[shape] = self.book.add_format({"num_format": shape})
        return self.by_shape[shape]


def shape_of(places: int) -> str:
    return f"0.{'0' * places}" if places else WHOLE


def write_cell(page: Any, row: int, column: int, cell: Cell, formats: Formats) -> None:
    """A cell; XlsxWriter answers 0, or why it has left the cell out."""
    left_out = 0
    if isinstance(cell, Formula):
        shape = "General" if isinstance(cell.value, str) else shape_of(cell.places)
        left_out = page.write_formula(row, column, cell.text, formats.of(shape), cell.value)
    elif isinstance(cell, Decimal):
        left_out = page.write_number(row, column, float(cell.text), formats.of(shape_of(cell.places)))
    elif isinstance(cell, int):
        left_out = page.write_number(row, column, cell, formats.of(WHOLE))
    elif cell:
        has_control = CONTROL.search(cell) is not None
        left_out = has_control or page.write_string(row, column, shortened(cell), formats.of(TEXT))
    if left_out:
        raise BookError(f"sheet {page.get_name()}: row {row + 1}, column {column + 1} can't hold {str(cell)[:80]!r}")


def write_sheet(book: Any, sheet: Sheet, formats: Formats) -> None:
    page = book.add_worksheet(sheet.name)
    for place, width in enumerate(widths_of(sheet)):
        page.set_column(place, place, width)
    page.freeze_panes(1, 0)
    if sheet.rows:
        page.autofilter(0, 0, len(sheet.rows), len(sheet.columns) - 1)
    for place, name in enumerate(sheet.columns):
        page.write_string(0, place, name, formats.head)
    for number, row in enumerate(sheet.rows, 1):
        for place, cell in enumerate(row):
            write_cell(page, number, place, cell, formats)


def write_workbook(path: Path, sheets: Sequence[Sheet], title: str) -> None:
    """The sheets in a file, which is there whole or as it was."""
    writer = xlsxwriter_module()
    try:
        handle, name = tempfile.mkstemp(prefix=f".{path.name[:50]}-", dir=path.parent)
        os.close(handle)
    except OSError as error:
        raise BookError(f"{path} can't be written: {error.strerror}") from None
    try:
        with tempfile.TemporaryDirectory(prefix="outagebook-") as folder:
            book = writer.Workbook(name, {**OPTIONS, "tmpdir": folder})
            book.set_properties({"title": title, "created": FIXED})
            formats = Formats(book)
            for sheet in sheets:
                write_sheet(book, sheet, formats)
            book.close()
        mask = os.umask(0)
        os.umask(mask)
        os.chmod(name, 0o666 & ~mask)
        os.replace(name, path)
    except (OSError, writer.exceptions.FileCreateError) as error:
        raise BookError(f"{path} can't be written: {error}") from None
    finally:
        with suppress(FileNotFoundError):
            os.unlink(name)
