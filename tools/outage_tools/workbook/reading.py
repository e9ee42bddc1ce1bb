"""The cells of a workbook that these tools wrote, read with Python's own library."""

import re
import zipfile
from collections.abc import Iterator
from dataclasses import dataclass
from pathlib import Path
from xml.etree import ElementTree

from outage_tools.errors import BookError

MAIN = "{http://schemas.openxmlformats.org/spreadsheetml/2006/main}"
SHEETS = "xl/worksheets/sheet{}.xml"


@dataclass(frozen=True)
class Read:
    """A cell as it is in the file: its text or the text of its number, and whether it is a number, a text or a formula."""

    text: str
    kind: str  # number, text, formula
    shape: str = ""  # how a number is shown, as 0.000


Grid = list[list[Read]]
NOTHING = Read("", "text")


def place_of(reference: str) -> int:
    """The place of a cell's column: 0 for A1."""
    place = 0
    for letter in re.sub(r"[0-9]+$", "", reference):
        place = place * 26 + ord(letter) - ord("A") + 1
    return place - 1


def cell_of(element: ElementTree.Element, shapes: list[str]) -> Read:
    shape = shapes[int(element.get("s", "0"))]
    value = element.findtext(f"{MAIN}v") or ""
    if element.find(f"{MAIN}f") is not None:
        return Read(value, "formula", shape)
    if element.get("t") == "inlineStr":
        return Read("".join(each.text or "" for each in element.iter(f"{MAIN}t")), "text", shape)
    return Read(value, "number" if element.get("t", "n") == "n" else element.get("t", ""), shape)


def rows_of(data: bytes, shapes: list[str]) -> Iterator[list[Read]]:
    for row in ElementTree.fromstring(data).iter(f"{MAIN}row"):
        cells = {place_of(cell.get("r", "")): cell_of(cell, shapes) for cell in row.iter(f"{MAIN}c")}
        yield [cells.get(place, NOTHING) for place in range(max(cells, default=-1) + 1)]


def shapes_of(data: bytes) -> list[str]:
    """How the cells of each format are shown."""
    root = ElementTree.fromstring(data)
    codes = {"0": "General", "1": "0", "49": "@"}
    codes |= {each.get("numFmtId", ""): each.get("formatCode", "") for each in root.iter(f"{MAIN}numFmt")}
    formats = root.find(f"{MAIN}cellXfs")
    return [codes.get(each.get("numFmtId", ""), each.get("numFmtId", "")) for each in formats or ()]


def read_workbook(path: Path) -> dict[str, Grid]:
    """The rows of each sheet."""
    try:
        with zipfile.ZipFile(path) as file:
            names = [
                each.get("name", "")
                for each in ElementTree.fromstring(file.read("xl/workbook.xml")).iter(f"{MAIN}sheet")
            ]
            shapes = shapes_of(file.read("xl/styles.xml"))
            return {
                name: list(rows_of(file.read(SHEETS.format(number)), shapes)) for number, name in enumerate(names, 1)
            }
    except (OSError, KeyError, ValueError, zipfile.BadZipFile, ElementTree.ParseError) as error:
        raise BookError(f"{path} can't be read as a workbook: {error}") from None
