"""The interruptions of a book as the program lists them (docs/reference/FORMATS.md)."""

import csv
from collections import defaultdict
from collections.abc import Iterable, Iterator
from dataclasses import dataclass, replace
from datetime import datetime
from functools import lru_cache
from itertools import groupby, islice
from pathlib import Path

from outage_tools.errors import Differs
from outage_tools.program import answer_of
from outage_tools.rows import Block, Book, Entry

LONGEST_MOMENTARY = 300  # seconds: five minutes, by IEEE 1366

Place = tuple[int, int, int, int, int]  # of an interruption: its section, its service within the period, since, until


@dataclass(frozen=True)
class Interruption:
    """A longest interval in which customers of equal service are in service and without supply."""

    block: Block
    since: int
    until: int
    cause: int  # its code: 0 where no entry cut the section off
    cutter: Entry | None

    @property
    def section(self) -> int:
        return self.block.section

    @property
    def customers(self) -> int:
        return self.block.customers

    @property
    def seconds(self) -> int:
        """Its duration."""
        return self.until - self.since

    @property
    def customer_seconds(self) -> int:
        return self.customers * self.seconds

    @property
    def is_sustained(self) -> bool:
        return self.seconds > LONGEST_MOMENTARY


def order(each: Interruption) -> Place:
    """By the first second, then by the section."""
    return each.since, each.section, each.until, each.block.since, each.block.until


def joined(interruptions: Iterable[Interruption]) -> Iterator[Interruption]:
    """Those of one section that begin and end together as one, whatever their customers' service is before and after it."""
    for _, same in groupby(interruptions, key=lambda each: (each.since, each.section, each.until)):
        first, *others = same
        customers = first.customers + sum(each.customers for each in others)
        yield replace(first, block=replace(first.block, customers=customers))


def blocks_by_section(book: Book) -> dict[int, list[Block]]:
    """The blocks of each section."""
    return {section: list(blocks) for section, blocks in groupby(book.blocks, key=lambda block: block.section)}


@lru_cache(maxsize=65_536)
def second_of(text: str) -> int:
    return int(datetime.fromisoformat(text).timestamp())


def rows_file(copy: Path) -> Path:
    """Where the program lists the interruptions of the copy of a book."""
    return copy.with_name("interruptions.csv")


def rows_of_program(program: str, copy: Path) -> Iterator[list[str]]:
    """The rows that the program lists of the copy of a book, one by one, without the line of names. They are many where each
    customer has a service of its own."""
    answer_of(program, "interruptions", "--book", copy, rows_file(copy))
    return rows_in(rows_file(copy))


def rows_in(path: Path) -> Iterator[list[str]]:
    with path.open(encoding="ascii", newline="") as file:
        yield from islice(csv.reader(file), 1, None)


def read_interruptions(rows: Iterable[list[str]], book: Book) -> list[Interruption]:
    """The program's rows in order. Services that are equal within the period are one block, as in the book."""
    nodes = {section.name: node for node, section in book.sections.items()}
    causes = {name: code for code, name in book.causes.items()}
    first, last = book.period.first, book.period.end
    customers: dict[Place, int] = defaultdict(int)
    about: dict[Place, tuple[int, Entry | None]] = {}
    for section, _, count, begin, end, since, until, cause, entry, _ in rows:
        service = max(second_of(begin), first), min(second_of(end), last) if end else last
        place = nodes[section], *service, second_of(since), second_of(until)
        customers[place] += int(count)
        about[place] = causes[cause], book.entries[int(entry) - 1] if entry else None
    blocks = {(block.section, block.since, block.until): block for block in book.blocks}
    found = []
    for place, count_of_rows in customers.items():
        block = blocks.get(place[:3])
        if block is None or block.customers != count_of_rows:
            name = book.sections[place[0]].name
            raise Differs(f"customers of {name} at {place[3]}", block and block.customers, count_of_rows)
        found.append(Interruption(block, place[3], place[4], *about[place]))
    return sorted(found, key=order)
