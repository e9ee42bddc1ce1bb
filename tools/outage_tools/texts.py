"""A text of commands cut into its rows, as the program's reader cuts it.

Rows end with LF, CRLF or a lone CR outside quotes; empty lines are none. The first row is the header, number 0. Nothing
is decoded: a row is where it begins and ends in the bytes, so that a part of the text is the same rows again.
"""

import csv
import io
import re
import sys
from dataclasses import dataclass
from functools import cached_property
from pathlib import Path

from outage_tools.errors import BookError

MARK = b"\xef\xbb\xbf"
MOST_BYTES = 268_435_456
MOST_ROWS = 1_000_000

FIELD = rb'(?>(?:"(?>(?:[^"]|"")*)"?)?[^,\r\n]*)'
ROW = re.compile(rb"[\r\n]*(" + FIELD + rb"(?:," + FIELD + rb")*+)")


@dataclass(frozen=True)
class Text:
    """The bytes of a text with the places of its rows; `rows` doesn't count the header."""

    data: bytes
    header: tuple[int, int]
    rows: list[tuple[int, int]]

    @cached_property
    def head(self) -> bytes:
        """The header as a line."""
        return self.data[self.header[0] : self.header[1]] + b"\n"

    def part(self, first: int, count: int) -> bytes:
        """A text of the header and some rows, from the one at a place (the first is at 0) on."""
        last = min(first + count, len(self.rows)) - 1
        return self.head + self.data[self.rows[first][0] : self.rows[last][1]] + b"\n"

    def fields(self, place: int) -> list[str]:
        """The fields of the row at a place; bytes that are no UTF-8 are shown as such."""
        since, until = self.rows[place]
        text = self.data[since:until].decode("utf-8", "backslashreplace")
        return next(csv.reader(io.StringIO(text, newline="")), [])


def bytes_of(path: str) -> bytes:
    """The bytes of a file, or of standard input."""
    try:
        return sys.stdin.buffer.read() if path == "-" else Path(path).read_bytes()
    except OSError as error:
        raise BookError(f"{path}: {error.strerror}") from None


def text_of(data: bytes, name: str) -> Text:
    """The rows of a text. A text that no import reads whole is refused here."""
    if len(data) > MOST_BYTES:
        raise BookError(f"{name} has {len(data)} bytes, and an import reads {MOST_BYTES}: cut it into parts")
    rows = spans_of(data)
    if len(rows) > MOST_ROWS + 1:
        raise BookError(f"{name} has {len(rows) - 1} rows, and an import reads {MOST_ROWS}: cut it into parts")
    header = rows.pop(0) if rows else (0, 0)
    return Text(data, header, rows)


def spans_of(data: bytes) -> list[tuple[int, int]]:
    """Where each row begins and ends, the header among them."""
    spans = []
    place = len(MARK) if data.startswith(MARK) else 0
    while place < len(data):
        found = ROW.match(data, place)
        assert found is not None  # nothing is a row too: of an empty line, and behind the last one
        if found.end(1) > found.start(1):
            spans.append(found.span(1))
        place = found.end()
    return spans
