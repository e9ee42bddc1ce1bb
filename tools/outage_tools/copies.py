"""A copy of a book's file and its log, as of one commit, so that neither waits for the other: not the program that has the
book open, nor the reader.
"""

import shutil
import sqlite3
import tempfile
import time
from collections.abc import Iterator
from contextlib import closing, contextmanager
from pathlib import Path

from outage_tools.errors import BookError

LOG_HEAD = 32  # bytes of a log's header, with the salts that change when it is emptied
COPIES_TRIED = 50


@contextmanager
def copy_of(path: Path) -> Iterator[Path]:
    """A copy of a book as of one commit, in a folder that goes away. The book's own files are only read, and no lock is
    taken on them."""
    try:
        with path.open("rb") as file:
            head = file.read(20)
    except OSError as error:
        raise BookError(f"{path}: {error.strerror}") from None
    if len(head) < 20 or not head.startswith(b"SQLite format 3\0"):
        raise BookError(f"{path} is no SQLite file")
    with tempfile.TemporaryDirectory(prefix="outagebook-") as folder:
        copy = Path(folder) / "book.db"
        if head[18] == 2:
            copy_with_log(path, copy)
        else:
            copy_by_sqlite(path, copy)
        yield copy


def second_copy(copy: Path) -> Path:
    """A copy of a copy, made once: for the program, which takes no file that a reader has open."""
    second = copy.with_name(f"second-{copy.name}")
    if not second.exists():
        shutil.copyfile(copy, second)
        if log_of(copy).exists():
            shutil.copyfile(log_of(copy), log_of(second))
    return second


def log_of(path: Path) -> Path:
    """The log beside a book's file."""
    return path.with_name(path.name + "-wal")


def log_head(path: Path) -> bytes:
    try:
        with log_of(path).open("rb") as log:
            return log.read(LOG_HEAD)
    except FileNotFoundError:
        return b""


def copy_with_log(path: Path, copy: Path) -> None:
    """Copies a file and then its log, again where the log was emptied meanwhile.

    A commit only adds to the log. It is copied into the file before the log is emptied, and then the log's header
    changes. So where the header is the same before and after, the log has every page that was written into the file
    while it was copied, and both together are the book as of the last whole commit in the copied log.
    """
    for _ in range(COPIES_TRIED):
        try:
            before = log_head(path)
            shutil.copyfile(path, copy)
            if before:
                shutil.copyfile(log_of(path), log_of(copy))
            if before == log_head(copy) == log_head(path):
                return
        except OSError as error:
            raise BookError(f"{error.filename or path}: {error.strerror}") from None
        log_of(copy).unlink(missing_ok=True)
        time.sleep(0.1)
    raise BookError(f"{path} changes faster than it can be copied: try again when less is written")


def copy_by_sqlite(path: Path, copy: Path) -> None:
    """Copies a file without a log, as other programs than the outage book leave it, under SQLite's own lock."""
    try:
        with closing(sqlite3.connect(f"{path.resolve().as_uri()}?mode=ro", uri=True)) as source:
            with closing(sqlite3.connect(str(copy))) as target:
                source.backup(target)
    except sqlite3.Error as error:
        raise BookError(f"{path}: {error}") from None
