"""Compares what becomes of books of version 1 with the plain model.

A random text (make_commands.py) is imported, and the file is made one of version 1. While it is, every job but `migrate`
has to refuse it. If version 1 had all of its commands, `migrate` has to give, row by row, the eleven tables of the model;
otherwise it has to refuse the file and leave every row as it was. Two files that the program of version 1 left have to
show, once they are migrated, what that program printed.
"""

import sqlite3
import tempfile
from collections import Counter
from contextlib import closing
from pathlib import Path

from commands import HEADER
from model import Book, first_difference
from over_program import CREATED, ROOT, SOUND, Difference, OneBook, PeriodWords, Said, first_of
from state import Period, is_old

OLD: Said = ("", "refused 19 OldVersion 1\n", 2)
BAD: Said = ("", "refused 17 BadBook\n", 2)
TO_VERSION_1 = """
DROP TABLE life;
UPDATE cmd SET body = substr(body, 1, length(body) - 4) WHERE body LIKE 'device % 0 -';
UPDATE meta SET version = 1;
"""
# Files of the program of version 1: the statements that make each, the beginning of the names of what it printed, the period.
OLD_FILES: list[tuple[Path, str, PeriodWords]] = [
    (ROOT / "oracle/version_1/outages.sql", "outages", ("2024-01-01", 2, "UTC0")),
    (ROOT / "examples/fortnight/version-1.sql", "version-1", ("2025-03-24", 14, "CET-1CEST,M3.5.0,M10.5.0/3")),
]


def was_old(book: Book) -> bool:
    """Whether version 1 would have accepted the commands of a book."""
    has_entries = False
    for _, body in book.commands:
        if not is_old(body, has_entries):
            return False
        has_entries = has_entries or body.startswith("switch ")
    return True


def rows_of(path: Path) -> list[str]:
    """All statements that a file's tables are of."""
    with closing(sqlite3.connect(path)) as database:
        return [*database.iterdump()]


def is_refused(book: OneBook) -> dict[str, object]:
    """What the jobs say that work on no book of version 1."""
    jobs = [("table",), ("audit",), ("export", str(book.book.with_name("moves.csv")))]
    found: dict[str, object] = {f"{words[0]} of version 1": book.run(*words) for words in jobs}
    return found | {"import of version 1": book.take(",".join(HEADER).encode())}


WANTED_OF_OLD: dict[str, object] = {f"{job} of version 1": OLD for job in ["table", "audit", "export", "import"]}


def migrated(book: OneBook, is_done: bool) -> Difference | None:
    """Migrates a file of version 1; what it says, and then what it left where it is refused."""
    before = rows_of(book.book)
    wanted, found = dict(WANTED_OF_OLD), is_refused(book)
    wanted["migrate"] = ("migrated\n", "", 0) if is_done else BAD
    found["migrate"] = book.run("migrate")
    wanted["rows"] = None if is_done else before
    found["rows"] = None if is_done else rows_of(book.book)
    if is_done:
        wanted["second migrate"], found["second migrate"] = ("version 2\n", "", 0), book.run("migrate")
        wanted["audit"], found["audit"] = SOUND, book.run("audit")
    return first_of(wanted, found)


def difference(program: str | Path, period: PeriodWords, data: bytes, counts: Counter[str]) -> Difference | None:
    """The first job or table in which a text's book, made one of version 1, and the model differ."""
    book = Book(Period(*period))
    book.import_text(data)
    with tempfile.TemporaryDirectory() as folder:
        over = OneBook(program, folder)
        if (said := over.create(period)) != CREATED:
            return "init", CREATED, said
        over.take(data)
        with closing(sqlite3.connect(over.book)) as database:
            database.executescript(TO_VERSION_1)
        is_done = was_old(book)
        counts["migrations" if is_done else "refused migrations"] += 1
        if found := migrated(over, is_done):
            return found
        table = first_difference(book, over.book) if is_done else None
    return (f"table {table}", None, None) if table else None


def book_of_file(sql: Path, period: PeriodWords) -> Book:
    """The book of the commands in a file of version 1, whose devices have no column of a life."""
    book = Book(Period(*period))
    with closing(sqlite3.connect(":memory:")) as database:
        database.executescript(sql.read_text("ascii"))
        for body, ref in database.execute("SELECT body, ref FROM cmd ORDER BY id").fetchall():
            kind, *fields = body.removesuffix(" -").split()
            book.act([kind, ref, *fields, *[""] * (6 - len(fields))])
    return book


def old_file_difference(
    program: str | Path, sql: Path, name: str, period: PeriodWords, counts: Counter[str]
) -> Difference | None:
    """The first in which a file of the program of version 1, once it is migrated, isn't what that program printed."""
    with tempfile.TemporaryDirectory() as folder:
        over = OneBook(program, folder)
        with closing(sqlite3.connect(over.book)) as database:
            database.executescript(sql.read_text("ascii"))
        counts["migrations"] += 1
        if found := migrated(over, True):
            return found
        table: Said = (sql.with_name(f"{name}.table.txt").read_text("ascii"), "", 0)
        if (said := over.run("table")) != table:
            return "table", table, said
        other = first_difference(book_of_file(sql, period), over.book)
    return (f"table {other}", None, None) if other else None
