"""A book with the program's interruptions, compared with its annual table before any tool answers.

A book is read from a copy (copies.py). The program prints the copy's annual table and its counts and indices, and lists its
interruptions. The counts, what the interruptions add up to, and the amounts of the days in the table `posting`, are compared
with each line of the annual table. The first that differs is an error, and nothing is answered.
"""

import sqlite3
from collections import Counter
from collections.abc import Iterable, Iterator, Mapping
from contextlib import closing, contextmanager
from dataclasses import dataclass, field
from pathlib import Path

from outage_tools.copies import copy_of, second_copy
from outage_tools.counts import SETS, Counts, Rates, quotient_text
from outage_tools.errors import BookError, Differs
from outage_tools.interruptions import LONGEST_MOMENTARY, Interruption, read_interruptions, rows_file, rows_of_program
from outage_tools.program import answer_of
from outage_tools.rows import DAY, Book, read_book
from outage_tools.selections import Selections, selections_of


@dataclass(frozen=True)
class Checked:
    """A book with the program's interruptions, which add up to the program's table."""

    book: Book
    interruptions: list[Interruption]
    whole: Mapping[str, Rates]  # of both sets
    table: list[str]
    database: sqlite3.Connection
    file: Path  # the copy that was read, with the program's rows next to it
    program: str
    selections: dict[tuple[str, int], Selections] = field(default_factory=dict)

    @property
    def counts(self) -> dict[str, Counts]:
        """The counts of both sets."""
        return {name: rates.counts for name, rates in self.whole.items()}

    def counted(self, name: str) -> Iterator[Interruption]:
        """The interruptions of one of the two sets."""
        return (each for each in self.interruptions if name == "all" or not self.book.is_marked(each.since))

    def selected(self, by: str, over: int = LONGEST_MOMENTARY) -> Selections:
        """What the program says of each feeder, month, cause or section; it is asked once."""
        if (by, over) not in self.selections:
            self.selections[by, over] = selections_of(self.program, second_copy(self.file), by, over)
        return self.selections[by, over]

    @property
    def rows_file(self) -> Path:
        return rows_file(self.file)


def figures_of(book: Book, interruptions: Iterable[Interruption], whole: Mapping[str, Rates]) -> dict[str, str]:
    """What the annual table says, line by line, of a book's interruptions, its postings by day, and the program's counts."""
    period = book.period
    causes, feeders = Counter[int](), Counter[int]()
    for each in interruptions:
        causes[each.cause] += each.customer_seconds
        feeders[book.sections[each.section].feeder] += each.customer_seconds
    figures = {
        "the heading": f"{period.days[0]} days {len(period.days)} zone {period.zone.text}",
        "P, S and W": f"{period.length} {book.served_seconds()} {causes.total()}",
    }
    for code, name in sorted(book.causes.items()):
        figures[f"cause {code} {name}"] = str(causes[code])
    for feeder in sorted({section.feeder for section in book.sections.values()}):
        figures[f"feeder {feeder}"] = str(feeders[feeder])
    for number, day in enumerate(period.days):
        amount = book.postings[DAY, number]
        if amount or number in book.marks:
            figures[f"day {day}"] = f"{amount}{' marked' if number in book.marks else ''}"
    for name in SETS:
        for index, value in whole[name].indices.items():
            figures[f"{index} {name}"] = quotient_text(value)
        figures[f"SUSTAINED {name}"] = str(whole[name].counts.sustained)
        figures[f"MOMENTARY {name}"] = str(whole[name].counts.momentary)
    return figures


def figures_of_table(lines: Iterable[str]) -> dict[str, str]:
    """What the lines of the program's annual table say."""
    figures: dict[str, str] = {}
    for line in lines:
        words = line.split()
        if line.startswith("OUTAGE BOOK "):
            which, value = "the heading", " ".join(words[2:])
        elif words[:1] == ["P"] and len(words) == 6:
            which, value = "P, S and W", " ".join(words[1::2])
        elif words[:1] == ["cause"]:
            which, value = " ".join(words[:3]), " ".join(words[3:])
        else:
            which, value = " ".join(words[:2]), " ".join(words[2:])
        if which in figures:
            raise BookError(f"the annual table has two lines of {which}")
        figures[which] = value
    return figures


def compare_table(found: dict[str, str], table: dict[str, str]) -> None:
    """Every line of the program's table is what was found here, and there is no other."""
    for which in {**found, **table}:
        if found.get(which) != table.get(which):
            raise Differs(which, found.get(which, "nothing"), table.get(which, "nothing"))


def table_of_file(path: Path) -> list[str]:
    try:
        return path.read_text(encoding="ascii").splitlines()
    except (OSError, UnicodeDecodeError) as error:
        raise BookError(f"{path} can't be read as an annual table: {error}") from None


@contextmanager
def open_book(path: str, table: str | None = None, program: str = "outagebook") -> Iterator[Checked]:
    """A book, read and compared. `table` is a file with the program's annual table; else the program prints it.

    The database of the answer is the copy, in its one read transaction; it is closed when the block ends.
    """
    with copy_of(Path(path).resolve()) as copy:
        lines = table_of_file(Path(table)) if table else answer_of(program, "table", "--book", copy).splitlines()
        rows = rows_of_program(program, copy)
        whole = {name: rates["whole"] for name, rates in selections_of(program, copy, "whole").items()}
        with closing(sqlite3.connect(f"{copy.as_uri()}?mode=ro", uri=True, isolation_level=None)) as database:
            try:
                database.execute("BEGIN")
                book = read_book(database)
            except sqlite3.Error as error:
                raise BookError(f"{path} is no book: {error}") from None
            yield checked(book, rows, lines, whole, database, copy, program)


def checked(
    book: Book,
    rows: Iterable[list[str]],
    lines: list[str],
    whole: Mapping[str, Rates],
    database: sqlite3.Connection,
    file: Path,
    program: str,
) -> Checked:
    """A book with the program's rows, lines and counts, compared."""
    interruptions = read_interruptions(rows, book)
    compare_table(figures_of(book, interruptions, whole), figures_of_table(lines))
    found = Checked(book, interruptions, whole, lines, database, file, program)
    compare_counts(found)
    return found


def compare_counts(found: Checked) -> None:
    """The interruptions have the program's CI, CSI and MI in both sets."""
    for name in SETS:
        here = Counts(with_some=found.counts[name].with_some)
        for each in found.counted(name):
            here.add(each)
        if here != found.counts[name]:
            raise Differs(f"CI, CSI and MI of the interruptions, {name}", here, found.counts[name])
