"""Complaints about rows that can't be read, and notes on what was left out or changed of those that can."""

import re
from collections.abc import Iterator, Sequence
from contextlib import contextmanager
from dataclasses import dataclass, field
from typing import Protocol

HEADER = 0  # the number of the line of column names
MOST_LINES = 1_000
MOST_ALIKE = 20  # rows of one file that are told one by one though all of them have the same wrong
VALUES = re.compile(r"'[^']*'|\b[A-Z0-9][\w:./+-]*")  # of a row, in what is told of it


class BadRow(Exception):
    """What is wrong with a row."""


class Place(Protocol):
    """Where something was told: a row of a file."""

    @property
    def file(self) -> str:
        ...

    @property
    def number(self) -> int:
        ...


@dataclass(frozen=True)
class Complaint:
    """A row that can't be read, and why."""

    file: str
    row: int
    text: str

    def __str__(self) -> str:
        where = f"row {self.row}" if self.row != HEADER else "the line of column names"
        return f"{self.file}: {where}: {self.text}"


@dataclass
class Complaints:
    """All rows of a run that can't be read, in the order in which they were found."""

    found: list[Complaint] = field(default_factory=list)

    @contextmanager
    def about(self, row: Place) -> Iterator[None]:
        """What is wrong with the row is kept, and the next one can be read."""
        try:
            yield
        except BadRow as error:
            self.add(row, str(error))

    def add(self, row: Place, text: str) -> None:
        self.found.append(Complaint(row.file, row.number, text))


def lines_of(complaints: Sequence[Complaint], rest_in: str, most_alike: int = MOST_ALIKE) -> list[str]:
    """Complaints as lines. Of many that say the same of other values the first ones are told, so that they hide no others;
    `rest_in` says where all of them are."""
    alike: dict[tuple[str, str], list[Complaint]] = {}
    for each in complaints:
        alike.setdefault((each.file, VALUES.sub("", each.text)), []).append(each)
    found: list[str] = []
    for listed in alike.values():
        found += map(str, listed[:most_alike])
        if len(listed) > most_alike:
            rows = f"rows {listed[most_alike].row} to {listed[-1].row}"
            found.append(
                f"{listed[0].file}: the same of {len(listed) - most_alike} more rows ({rows}), which {rest_in}"
            )
    if len(found) > MOST_LINES:
        found[MOST_LINES:] = [f"and {len(found) - MOST_LINES} more lines, which {rest_in}"]
    return found


LEFT_OUT, CHANGED, NOTICED = "left out", "changed", "noticed"


@dataclass
class Notes:
    """What was read of a file, and the rows of which something was left out, changed or noticed, by what it was."""

    export: str
    file: str
    encoding: str = ""
    delimiter: str = ""
    columns: list[str] = field(default_factory=list)
    unread: list[str] = field(default_factory=list)
    renamed: set[tuple[str, str]] = field(default_factory=set)  # columns by the user's names, with those of this tool
    rows: int = 0
    commands: dict[str, int] = field(default_factory=dict)
    noted: dict[tuple[str, str], list[int]] = field(default_factory=dict)

    def note(self, what: str, reason: str, row: Place) -> None:
        """Once a row and reason."""
        rows = self.noted.setdefault((what, reason), [])
        if not rows or rows[-1] != row.number:
            rows.append(row.number)

    def left_out(self, reason: str, row: Place) -> None:
        self.note(LEFT_OUT, reason, row)

    def changed(self, reason: str, row: Place) -> None:
        self.note(CHANGED, reason, row)

    def noticed(self, reason: str, row: Place) -> None:
        self.note(NOTICED, reason, row)
