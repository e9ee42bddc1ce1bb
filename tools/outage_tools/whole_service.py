"""What a customer of a section has who is in service all the time, by the program, where a book has no such customer."""

import tempfile
from collections.abc import Iterable, Iterator
from dataclasses import replace
from pathlib import Path

from outage_tools.commands import read_commands, row_of, write_rows
from outage_tools.compare import Checked
from outage_tools.interruptions import Interruption, read_interruptions, rows_of_program
from outage_tools.program import answer_of
from outage_tools.rows import Block

LEFT_OUT = ("connect", "revise", "mark", "unmark")


def rows_with(found: Checked, nodes: Iterable[int]) -> Iterator[list[str]]:
    """The book's network and switchings, and a customer on each of some sections."""
    kept = (command for command in read_commands(found.database) if command.kind not in LEFT_OUT)
    for command in kept:
        kind, _, *fields = command.row()
        yield [kind, f"COMMAND-{command.number}", *fields]
    for node in nodes:
        yield row_of("connect", f"SECTION-{node}", node, found.book.sections[node].name, 0, None)


def whole_interruptions(found: Checked, nodes: Iterable[int]) -> list[Interruption]:
    """The interruptions of one customer on each of these sections, who is in service from the period's first second to its
    end: a second book has these customers alone."""
    period, listed = found.book.period, sorted(nodes)
    if not listed:
        return []
    blocks = tuple(Block(node, period.first, period.end, 1) for node in listed)
    words = "--first", period.days[0], "--days", len(period.days), "--zone", period.zone.text
    with tempfile.TemporaryDirectory(prefix="outagebook-") as folder:
        book, text = Path(folder) / "sections.db", Path(folder) / "sections.csv"
        with text.open("w", encoding="ascii") as file:
            write_rows(rows_with(found, listed), file)
        answer_of(found.program, "init", "--book", book, *words)
        answer_of(found.program, "import", "--book", book, text)
        return read_interruptions(rows_of_program(found.program, book), replace(found.book, blocks=blocks))
