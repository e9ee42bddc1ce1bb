"""Causes: the book's codes and names, and the other system's words for them."""

from collections.abc import Iterable, Iterator
from dataclasses import dataclass, field

from outage_tools.oms.complaints import BadRow, Notes
from outage_tools.oms.conversion import MOST_NAME, Conversion, note_small_letters
from outage_tools.oms.fields import identifier, number, shown
from outage_tools.oms.files import Row

COLUMNS = ("code", "name", "oms")
REQUIRED = ("code", "name")
UNASSIGNED = "UNASSIGNED"


@dataclass
class Causes:
    """Each cause's name by its code, and its code by its name and by the other system's words."""

    conversion: Conversion
    names: dict[int, str] = field(default_factory=dict)
    codes: dict[str, int] = field(default_factory=dict)
    is_whole: bool = True  # each row could be read

    def __post_init__(self) -> None:
        book = self.conversion.known.book
        self.names = {0: UNASSIGNED, **(book.causes if book else {})}
        self.codes = {name: code for code, name in self.names.items() if code}

    def read(self, rows: Iterable[Row], notes: Notes) -> Iterator[list[str]]:
        """The commands of the causes that the book doesn't have."""
        complaints = self.conversion.complaints.found
        before = len(complaints)
        for row in rows:
            with self.conversion.complaints.about(row):
                yield from self.commands(row, notes)
        self.is_whole = len(complaints) == before

    def commands(self, row: Row, notes: Notes) -> Iterator[list[str]]:
        code, name = number(row["code"], 63, "the code"), identifier(row["name"], MOST_NAME, "the name")
        note_small_letters(row, ("name",), notes)
        if self.names.get(code, name) != name:
            raise BadRow(f"code {code} is {self.names[code]} already, not {name}: no command changes a cause's name")
        other = next((each for each, taken in self.names.items() if taken == name and each != code), None)
        if other is not None:
            raise BadRow(f"{name} is the name of code {other} already")
        for word in {row["name"], name, row["oms"]} - {""}:
            if self.codes.setdefault(word, code) != code:
                raise BadRow(f"{shown(word)} stands for code {self.codes[word]} already")
        if code not in self.names:
            self.names[code] = name
            ref = self.conversion.known.unused(f"CAUSE-{code}")
            yield self.conversion.command(notes, "cause", ref, code, name)
