"""Compares the program with the plain model, over small random books (make_commands.py) and the samples of examples/.

    python3 oracle/compare.py [--seeds N] [--first SEED] [--over SECONDS ..] [--only KIND] [--processes N] [--program FILE]

Imported books: `init`, `import` of a text, and the same import again; `table`, `export`, `interruptions`, `audit`; `indices`
by each key and over each bound; every row of the eleven tables; and of books that aren't large `total`, of the network,
the customers and the entries that the book has in the end. Then the same books served (compare_streams.py), and books
of version 1 (compare_old.py). All that is printed, the messages and the statuses have to be the model's. It ends with
status 1 at the first difference; the text is then bench-data/difference.csv.

The random books are those of N seeds from SEED on. The full test run has seeds 1 to 200, and the samples, which are
there with seed 1 alone.
"""

import argparse
import subprocess
import sys
import tempfile
from collections import Counter
from collections.abc import Iterator, Sequence
from functools import partial
from pathlib import Path

import compare_old
import compare_streams
from cases import DATA, Case, compare
from commands import HEADER, RowRefusal
from interruptions import interruption_lines
from make_commands import old_text_of, period_of, text_of
from model import Book, first_difference, total_of
from over_program import CREATED, PROGRAM, ROOT, SOUND, Difference, OneBook, PeriodWords, Said, first_of
from selections import BY, index_lines
from state import Period

# What benches/ and tests/ take from here.
__all__ = ["DATA", "EXAMPLES", "FORTNIGHT", "PROGRAM", "Difference", "PeriodWords", "said_of", "texts"]

EXAMPLES = ROOT / "examples/fortnight"
FORTNIGHT = ("2025-03-24", 14, "CET-1CEST,M3.5.0,M10.5.0/3")
FEEDER = ROOT / "examples/ieee/feeder.csv"  # the worked example of IEEE Std 1366
FEEDER_YEAR = ("2025-01-01", 365, "EST5EDT,M3.2.0,M11.1.0")
BOUNDS = (300, 60)  # seconds of the longest momentary interruption, for `indices`
MOST_COUNTED = 100_000_000  # customers times seconds of a book for `total`, which counts every one of them
KINDS = {"imported": "imported books", "served": "served books", "old": "books of version 1"}


def said_of(added: int, again: int, refusal: RowRefusal | None) -> Said:
    """What an import prints, tells and ends with."""
    return f"added {added} again {again}\n", f"{refusal}\n" if refusal else "", 2 if refusal else 0


def wanted_of(book: Book, data: bytes, bounds: Sequence[int]) -> dict[str, object]:
    """What the program should answer, job by job."""
    imports = [said_of(*book.import_text(data)) for _ in range(2)]
    rows = [*interruption_lines(book)]
    lines = ["".join(f"{line}\n" for line in lines) for lines in [book.table_lines(), book.moves_lines(), rows]]
    return {
        "import": imports[0],
        "second import": imports[1],
        "table": (lines[0], "", 0),
        "export": (f"rows {len(book.moves)}\n", "", 0),
        "moves": lines[1],
        "interruptions": (f"rows {len(rows) - 1}\n", "", 0),
        "rows": lines[2],
        "audit": SOUND,
        **{f"indices {by} {over}": (index_text(book, by, over), "", 0) for by in BY for over in bounds},
    }


def index_text(book: Book, by: str, over: int) -> str:
    return "".join(f"{line}\n" for line in index_lines(book, by, over))


def found_of(book: OneBook, period: PeriodWords, data: bytes, bounds: Sequence[int]) -> dict[str, object]:
    """What the program answers, job by job."""
    created = book.create(period)
    if created != CREATED:
        return {"import": created}
    moves, rows = book.book.with_name("moves.csv"), book.book.with_name("rows.csv")
    found: dict[str, object] = {"import": book.take(data), "second import": book.take(data), "table": book.run("table")}
    found["export"] = book.run("export", str(moves))
    found["moves"] = moves.read_text() if moves.exists() else None
    found["interruptions"] = book.run("interruptions", str(rows))
    found["rows"] = rows.read_text() if rows.exists() else None
    found["audit"] = book.run("audit")
    for by in BY:
        for over in bounds:
            found[f"indices {by} {over}"] = book.run("indices", "--by", by, "--over", str(over))
    return found


def total_text(book: Book) -> bytes:
    """The text of which `total` counts the customer-seconds of a book: its parts, customers and entries of now."""
    rows: list[list[object]] = [["span", "X", book.period.first, book.period.end]]
    for name, feeder in [*book.feeders.items()][1:]:
        rows.append(["bus", "X", name] if feeder is None else ["section", "X", name, feeder])
    for device in book.devices.values():
        until = "" if device.until == "-" else device.until
        rows.append(["device", "X", device.name, *device.ends, device.normal, device.since, until])
    for number, (section, since, end) in book.customers.items():
        rows.append(["connect", "X", number, section, since, "" if end == "-" else end])
    for entry in book.entries:
        act = "close" if entry.position == "closed" else "open"
        if entry.is_kept:
            rows.append(["switch", "X", entry.device, act, entry.second, entry.cause, entry.crew])
    lines = [",".join(map(str, row)) + "," * (8 - len(row)) for row in rows]
    return "\n".join([",".join(HEADER), *lines]).encode()


def total_difference(program: str | Path, book: Book) -> Difference | None:
    """What `total` finds of a book, where that isn't the sum of its amounts; a larger book isn't asked for."""
    if (book.period.end - book.period.first) * len(book.customers) > MOST_COUNTED:
        return None
    wanted: Said = (f"W {total_of(book.amounts(), 1)}\n", "", 0)
    done = subprocess.run([program, "total"], input=total_text(book), capture_output=True)
    found = done.stdout.decode(), done.stderr.decode(), done.returncode
    return ("total", wanted, found) if found != wanted else None


def difference(
    program: str | Path, bounds: Sequence[int], period: PeriodWords, data: bytes, counts: Counter[str]
) -> Difference | None:
    """The first job, or table of the database, in which the program and the model differ, with what each has."""
    book = Book(Period(*period))
    wanted = wanted_of(book, data, bounds)
    with tempfile.TemporaryDirectory() as folder:
        over = OneBook(program, folder)
        if found := first_of(wanted, found_of(over, period, data, bounds)):
            return found
        count(counts, wanted)
        table = first_difference(book, over.book)
    return (f"table {table}", None, None) if table else total_difference(program, book)


def count(counts: Counter[str], wanted: dict[str, object]) -> None:
    """Counts the rows of interruptions and the lines of indices of a book."""
    counts["rows of interruptions"] += str(wanted["rows"]).count("\n") - 1
    printed = [answer[0] for job, answer in wanted.items() if job.startswith("indices ") and isinstance(answer, tuple)]
    counts["lines of indices"] += sum(text.count("\n") - 1 for text in printed)


def texts(seeds: int, first: int = 1) -> Iterator[tuple[str, PeriodWords, bytes]]:
    """The name, the period and the bytes of each text: with seed 1 the samples, then so many random ones."""
    fortnight = (EXAMPLES / "fortnight.csv").read_bytes()
    corrections = (EXAMPLES / "corrections.csv").read_bytes()
    if first == 1:
        yield "the fortnight", FORTNIGHT, fortnight
        yield "the fortnight, corrected", FORTNIGHT, fortnight + corrections.partition(b"\n")[2]
        yield "the feeder of IEEE 1366", FEEDER_YEAR, FEEDER.read_bytes()
    for seed in range(first, first + seeds):
        yield f"seed {seed}", period_of(seed), text_of(seed)


def imported(program: str | Path, seeds: int, first: int, bounds: Sequence[int]) -> Iterator[Case]:
    """The books of these texts."""
    for name, period, data in texts(seeds, first):
        yield Case(f"{name} {period}", partial(difference, program, bounds, period, data), data)


def served(program: str | Path, seeds: int, first: int) -> Iterator[Case]:
    """The books that are served."""
    for seed in range(first, first + seeds):
        yield Case(f"seed {seed}, served", partial(compare_streams.difference, program, seed))


def old(program: str | Path, seeds: int, first: int) -> Iterator[Case]:
    """The books that were of version 1: with seed 1 two files, then random ones."""
    for sql, name, period in compare_old.OLD_FILES if first == 1 else []:
        yield Case(f"{sql}", partial(compare_old.old_file_difference, program, sql, name, period))
    for seed in range(first, first + seeds):
        period = period_of(seed)
        data = old_text_of(seed)
        yield Case(f"seed {seed} of version 1", partial(compare_old.difference, program, period, data), data)
        if seed % 4 == 0:
            data = text_of(seed)
            of_any = partial(compare_old.difference, program, period, data)
            yield Case(f"seed {seed}, made one of version 1", of_any, data)


def main() -> int:
    parser = argparse.ArgumentParser(description="Compares the program with the plain model.")
    parser.add_argument("--seeds", type=int, default=200, help="how many random books (200)")
    parser.add_argument("--first", type=int, default=1, metavar="SEED", help="the seed of the first (1)")
    parser.add_argument(
        "--over", type=int, nargs="+", default=BOUNDS, metavar="SECONDS", help="bounds of indices (300 60)"
    )
    parser.add_argument("--only", choices=KINDS, help="books of one kind")
    parser.add_argument("--processes", type=int, default=1, metavar="N", help="how many books at once (1)")
    parser.add_argument("--program", default=PROGRAM, help="the program (that of crates/outagebook)")
    words = parser.parse_args()
    over = words.program, words.seeds, words.first
    every = {"imported": imported(*over, words.over), "served": served(*over), "old": old(*over)}
    kinds = [words.only] if words.only else [*KINDS]
    return int(any(compare(KINDS[kind], every[kind], words.processes) for kind in kinds))


if __name__ == "__main__":
    sys.exit(main())
