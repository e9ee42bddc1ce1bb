"""Stands in for the program where a test is of what is around it: `init`, `import`, `table`, `indices`, `interruptions` and
`audit`, by the oracle's model.

    python3 tools/tests/made_program.py import --book BOOK TEXT

The book is one of made_books.py; its period is kept next to it, in BOOK.period.
"""

import sqlite3
import sys
from contextlib import closing, redirect_stdout
from pathlib import Path

# The oracle's modules import one another by their names.
sys.path[0] = str(Path(__file__).resolve().parents[2] / "oracle")

from from_file import book_of  # noqa: E402
from interruptions import interruption_lines  # noqa: E402
from selections import index_lines  # noqa: E402

MADE_BOOKS = Path(__file__).with_name("made_books.py")
HEADER = "kind,ref,f1,f2,f3,f4,f5,f6\n"


def kept(book: Path, what: str) -> Path:
    return book.with_name(f"{book.name}.{what}")


def make(book: Path, text: str) -> None:
    """The book of a text; an empty log is left too, as the program leaves one."""
    import io
    import runpy
    import shutil
    import tempfile

    with tempfile.TemporaryDirectory() as name:
        folder = Path(name)
        (folder / "rows").write_text(text)
        (folder / "list").write_text(f"{folder}/rows {kept(book, 'period').read_text()}\n")
        sys.argv = [str(MADE_BOOKS), str(folder), "--list", str(folder / "list"), "--without-moves"]
        with redirect_stdout(io.StringIO()):
            runpy.run_path(str(MADE_BOOKS), run_name="__main__")
        shutil.copyfile(folder / "rows.db", book)
    book.with_name(f"{book.name}-wal").write_bytes(b"")


def import_text(book: Path, text: str) -> None:
    """The book of its rows and of these, which it takes all."""
    there = kept(book, "rows")
    before = there.read_text() if there.exists() else HEADER
    refs = {row.split(",")[1] for row in before.splitlines()}
    new = [row for row in text.removeprefix(HEADER).splitlines() if row.split(",")[1] not in refs]
    whole = before + "".join(f"{row}\n" for row in new)
    make(book, whole)
    with closing(sqlite3.connect(book)) as database:
        commands = database.execute("SELECT count(*) FROM cmd").fetchone()[0]
    if commands != len(whole.splitlines()) - 1:
        make(book, before)
        sys.exit("refused: a row of these, and the book is as it was")
    there.write_text(whole)
    print(f"added {len(new)} again {len(text.splitlines()) - 1 - len(new)}")


def main() -> None:
    job, *words = [word for word in sys.argv[1:] if word != "--whole"]
    _, name, *words = words
    book = Path(name)
    if job == "init":
        kept(book, "period").write_text(" ".join(words[1::2]))
        make(book, HEADER)
        print("created")
    elif job == "import":
        import_text(book, Path(words[-1]).read_text())
    elif job == "table":
        print("\n".join(book_of(book).table_lines()))
    elif job == "indices":
        said = dict(zip(words[::2], words[1::2]))
        print("\n".join(index_lines(book_of(book), said.get("--by", "whole"), int(said.get("--over", 300)))))
    elif job == "interruptions":
        rows = [*interruption_lines(book_of(book))]
        Path(words[0]).write_text("".join(f"{row}\n" for row in rows))
        print(f"rows {len(rows) - 1}")
    else:
        with closing(sqlite3.connect(book)) as database:
            print(f"audit {database.execute('PRAGMA integrity_check').fetchone()[0]}")


if __name__ == "__main__":
    main()
