"""The lines of an export's bytes: their encoding, by the mark at their beginning or by the user's word."""

import codecs
import io
from collections.abc import Iterator
from contextlib import contextmanager

from outage_tools.errors import BookError

ENCODINGS = ("utf-8", "utf-16", "utf-16-le", "utf-16-be", "latin-1", "cp1252")
MARKS = ((codecs.BOM_UTF8, "utf-8"), (codecs.BOM_UTF16_LE, "utf-16-le"), (codecs.BOM_UTF16_BE, "utf-16-be"))
UNREADABLE = "\udcff"  # stands for bytes that aren't of the encoding; no encoding reads it
LONGEST_LINE = 1_000_000


def marked(error: UnicodeError) -> tuple[str, int]:
    """One character for the bytes that can't be read, so that their row can be told."""
    if isinstance(error, UnicodeDecodeError):
        return UNREADABLE, error.end
    raise error


codecs.register_error("outagebook.unreadable", marked)


def encoding_of(path: str, file: io.BufferedReader, wanted: str | None) -> str:
    """The encoding by the mark, which is read over, or the one that is wanted; UTF-8 where neither tells it."""
    head = file.peek(4)
    for mark, encoding in MARKS:
        if head.startswith(mark):
            if wanted not in (None, encoding, "utf-16" if encoding.startswith("utf-16") else encoding):
                raise BookError(f"{path} has the mark of {encoding} at its beginning, so it isn't {wanted}")
            file.read(len(mark))
            return encoding
    if wanted == "utf-16":
        raise BookError(f"{path} has no mark at its beginning: --encoding utf-16-le or utf-16-be")
    return wanted or "utf-8"


@contextmanager
def open_lines(path: str, wanted: str | None) -> Iterator[tuple[str, Iterator[str]]]:
    """The encoding and the lines of a file, each with its end. A line is cut where it is longer than any row."""
    try:
        with open(path, "rb") as file:
            encoding = encoding_of(path, file, wanted)
            text = io.TextIOWrapper(file, encoding, errors="outagebook.unreadable", newline="")
            yield encoding, iter(lambda: text.readline(LONGEST_LINE), "")
    except OSError as error:
        raise BookError(f"{path} can't be read: {error.strerror or error}") from None
