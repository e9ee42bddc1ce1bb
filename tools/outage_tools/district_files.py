"""Exports as a cut reads and writes them: row by row, so that the customers of millions needn't be in memory at once."""

import csv
from collections.abc import Iterable, Iterator, Sequence
from contextlib import ExitStack, contextmanager
from dataclasses import dataclass
from itertools import dropwhile
from pathlib import Path
from typing import Any

from outage_tools.errors import BookError
from outage_tools.oms.decoding import UNREADABLE, open_lines
from outage_tools.oms.files import DELIMITERS, HEADER

Row = dict[str, str]


@dataclass(frozen=True)
class Export:
    """A file of rows: how it is written, the names of its columns as they came, and in small letters, by which it is read."""

    path: str
    encoding: str | None
    delimiter: str
    header: tuple[str, ...]
    columns: tuple[str, ...]

    def place(self, column: str) -> int:
        return self.columns.index(column)

    def records(self, bad: list[str]) -> Iterator[tuple[int, list[str]]]:
        """The rows that aren't empty, each with its number; what can't be read of the file is told in `bad`."""
        with open_lines(self.path, self.encoding) as (encoding, lines):
            fields = csv.reader(dropwhile(is_blank, lines), delimiter=self.delimiter, strict=True)
            for number, record in enumerate(self.records_of(fields, bad)):
                if number == HEADER or not any(record):
                    continue
                if len(record) != len(self.columns):
                    bad.append(
                        f"{self.path}: row {number}: it has {len(record)} fields, and there are {len(self.columns)} columns"
                    )
                elif UNREADABLE in "".join(record):
                    bad.append(f"{self.path}: row {number}: {not_of(encoding)}")
                else:
                    yield number, record

    def records_of(self, fields: Iterator[list[str]], bad: list[str]) -> Iterator[list[str]]:
        """The records that aren't empty lines, up to one that is no CSV."""
        try:
            yield from (record for record in fields if record)
        except csv.Error as error:
            bad.append(f"{self.path}: it is no CSV: {error}")

    def rows(self, bad: list[str]) -> Iterator[tuple[int, Row]]:
        """The same by the columns' names."""
        return ((number, dict(zip(self.columns, record))) for number, record in self.records(bad))


def is_blank(line: str) -> bool:
    return not line.strip()


def not_of(encoding: str) -> str:
    return f"it has bytes that aren't of the encoding {encoding} (--encoding names another)"


@dataclass(frozen=True)
class Form:
    """How exports are written; where nothing is said it is found."""

    encoding: str | None = None
    delimiter: str | None = None
    renamed: tuple[tuple[str, str], ...] = ()  # a column's name in the files, and the column for which it stands


def export_of(path: str, needed: Sequence[str], form: Form = Form()) -> Export:
    """An export by its line of column names, in any order and any letters; those that are needed have to be there, once."""
    with open_lines(path, form.encoding) as (used, lines):
        first = next(dropwhile(is_blank, lines), "")
    found = {each: tuple(next(csv.reader([first], delimiter=each), ())) for each in DELIMITERS.values()}
    chosen = form.delimiter or max(found, key=lambda each: len({*columns_of(found[each], form.renamed)} & {*needed}))
    header = found[chosen]
    columns = columns_of(header, form.renamed)
    if any(UNREADABLE in name for name in header):
        raise BookError(f"{path}: {not_of(used)}")
    for name in needed:
        if columns.count(name) != 1:
            raise BookError(
                f"{path} {'has two columns' if name in columns else 'hasn' + chr(39) + 't the column'} {name}"
            )
    return Export(path, form.encoding, chosen, header, columns)


def columns_of(header: Sequence[str], renamed: Sequence[tuple[str, str]] = ()) -> tuple[str, ...]:
    """The names of the columns in small letters, or of those for which they stand; a file's own column of a name comes first."""
    own = tuple(name.strip().lower() for name in header)
    stands_for = {theirs: ours for theirs, ours in renamed if ours not in own}
    return tuple(stands_for.get(name, name) for name in own)


def check_renamed(exports: Sequence[Export | None], form: Form) -> None:
    """Refuses a column's name that no file has, unless it may be for a file that isn't given."""
    given = [export for export in exports if export]
    found = {name for export in given for name in columns_of(export.header)}
    for theirs, ours in form.renamed:
        if theirs not in found and len(given) == len(exports):
            raise BookError(f"no file has a column {theirs!r} that --column names as {ours}")


def read_rows(path: str, needed: Sequence[str]) -> list[Row]:
    """All rows of a list, by the columns' names in small letters; rows that can't be read are told together."""
    bad: list[str] = []
    rows = [row for _, row in export_of(path, needed).rows(bad)]
    if bad:
        raise BookError("\n".join(["rows can't be read:", *bad]))
    return rows


# Writing.


def write_rows(path: Path, columns: Sequence[str], rows: Iterable[Sequence[object]]) -> None:
    """A file of rows: UTF-8 and commas."""
    try:
        path.parent.mkdir(parents=True, exist_ok=True)
        with path.open("w", newline="", encoding="utf-8") as file:
            writer = csv.writer(file, lineterminator="\n")
            writer.writerow(columns)
            writer.writerows(rows)
    except OSError as error:
        raise BookError(f"{path}: {error.strerror}") from None


@contextmanager
def written_to(folder: Path, districts: Iterable[str], name: str, columns: Sequence[str]) -> Iterator[dict[str, Any]]:
    """A file of this name for each district, open for rows until the block ends."""
    try:
        with ExitStack() as stack:
            writers = {}
            for district in districts:
                path = folder / district / name
                path.parent.mkdir(parents=True, exist_ok=True)
                file = stack.enter_context(path.open("w", newline="", encoding="utf-8"))
                writers[district] = csv.writer(file, lineterminator="\n")
                writers[district].writerow(columns)
            yield writers
    except OSError as error:
        raise BookError(f"{folder}: {error.strerror}") from None
