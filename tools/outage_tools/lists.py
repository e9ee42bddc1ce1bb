"""Lists that a user gives as CSV: names of feeders, groups of line sections, groups of causes.

A list has a line of its columns' names and just these columns, in any order. Each row is read, or refused by its file and
its number; nothing is left out. What the book has and a list doesn't is told with the figures.
"""

import csv
from collections.abc import Iterable, Iterator
from contextlib import contextmanager
from dataclasses import dataclass

from outage_tools.errors import BookError
from outage_tools.forms import Figures, Value
from outage_tools.rows import Book

NAME_COLUMNS = ("feeder", "name", "substation")
SECTION_COLUMNS = ("section", "group")
CAUSE_COLUMNS = ("cause", "group")


@dataclass(frozen=True)
class ListRow:
    """A row of a list: its file, its number behind the line of names, and its fields by their columns."""

    file: str
    number: int
    fields: dict[str, str]

    def __getitem__(self, column: str) -> str:
        return self.fields[column]

    def refused(self, why: str) -> BookError:
        """The error that says what is wrong with the row."""
        return BookError(f"{self.file}: row {self.number}: {why}")

    def filled(self, column: str) -> str:
        """A field that isn't empty."""
        if not self[column]:
            raise self.refused(f"{column} is empty")
        return self[column]


@contextmanager
def lines_of(path: str) -> Iterator[Iterator[list[str]]]:
    """The lines of a list, cut into fields."""
    try:
        with open(path, newline="", encoding="utf-8-sig") as file:
            yield csv.reader(file, strict=True)
    except (OSError, UnicodeDecodeError, csv.Error) as error:
        raise BookError(f"{path} can't be read: {error}") from None


def heads_in(lines: Iterator[list[str]]) -> list[str]:
    return [head.strip().lower() for head in next(lines, [])]


def heads_of(path: str) -> list[str]:
    """The names of a list's columns, of a list that may have some or others."""
    with lines_of(path) as lines:
        return heads_in(lines)


def read_list(path: str, columns: tuple[str, ...]) -> list[ListRow]:
    """The rows of a list; lines without any field are no rows."""
    with lines_of(path) as lines:
        return list(list_rows(path, lines, columns))


def list_rows(path: str, lines: Iterator[list[str]], columns: tuple[str, ...]) -> Iterator[ListRow]:
    heads = heads_in(lines)
    if sorted(heads) != sorted(columns):
        raise BookError(f"{path} has the columns {', '.join(heads)}; it wants just {', '.join(columns)}, with commas")
    for number, fields in enumerate((line for line in lines if line), 1):
        row = ListRow(path, number, dict(zip(heads, (field.strip() for field in fields))))
        if len(fields) != len(columns):
            raise row.refused(f"it has {len(fields)} fields, not {len(columns)}")
        yield row


@dataclass(frozen=True)
class FeederName:
    """What people call a feeder, and the substation that it belongs to."""

    name: str
    substation: str


Names = dict[int, FeederName]
Groups = dict[int, str]  # of sections by their nodes, of causes by their codes


def feeders_of(book: Book) -> list[int]:
    """The home feeders of the book's sections."""
    return sorted({section.feeder for section in book.sections.values()})


def read_names(path: str, book: Book) -> Names:
    """The names of feeders."""
    known = {str(feeder): feeder for feeder in feeders_of(book)}
    names: Names = {}
    for row in read_list(path, NAME_COLUMNS):
        feeder = known.get(row["feeder"])
        if feeder is None:
            raise row.refused(f"no section of the book has the home feeder {row['feeder']!r}")
        if feeder in names:
            raise row.refused(f"feeder {feeder} is named already")
        names[feeder] = FeederName(row.filled("name"), row["substation"])
    return names


def read_section_groups(path: str, book: Book) -> Groups:
    """The groups of line sections."""
    known = {section.name: node for node, section in book.sections.items()}
    groups: Groups = {}
    for row in read_list(path, SECTION_COLUMNS):
        node = known.get(row["section"].upper())
        if node is None:
            raise row.refused(f"the book has no section {row['section']!r}")
        if node in groups:
            raise row.refused(f"section {row['section']} is in the group {groups[node]} already")
        groups[node] = row.filled("group")
    return groups


def read_cause_groups(path: str, book: Book) -> Groups:
    """The groups of causes, each cause by its name or its code."""
    groups: Groups = {}
    for row in read_list(path, CAUSE_COLUMNS):
        said = row["cause"].upper()
        codes = [code for code, name in book.causes.items() if said in (name, str(code))]
        if len(codes) != 1:
            raise row.refused(
                f"{row['cause']!r} is {'no cause' if not codes else 'the name and the code of two causes'}"
            )
        if codes[0] in groups:
            raise row.refused(f"cause {row['cause']} is in the group {groups[codes[0]]} already")
        groups[codes[0]] = row.filled("group")
    return groups


def groups_in_order(groups: Groups) -> list[str]:
    """The groups as a list names them first."""
    return list(dict.fromkeys(groups.values()))


def told_missing(what: str, names: Iterable[str]) -> list[str]:
    """A line about what a list doesn't have, if there is any."""
    missing = ", ".join(names)
    return [f"{what}: {missing}."] if missing else []


def with_names(figures: Figures, names: Names, book: Book) -> Figures:
    """The names of feeders in two columns behind their numbers, in figures that have these."""
    if "feeder" not in figures.columns:
        raise BookError(f"{figures.name} has no column of feeders, so --names names nothing there")
    place = list(figures.columns).index("feeder") + 1
    columns = list(figures.columns.items())
    added = [("feeder_name", "the feeder's name"), ("substation", "its substation")]
    rows: list[list[Value]] = []
    for row in figures.rows:
        known = names.get(int(row[place - 1]), FeederName("", ""))
        rows.append([*row[:place], known.name, known.substation, *row[place:]])
    unnamed = told_missing("Feeders without a name", (str(each) for each in feeders_of(book) if each not in names))
    return Figures(figures.name, [*figures.about, *unnamed], dict(columns[:place] + added + columns[place:]), rows)
