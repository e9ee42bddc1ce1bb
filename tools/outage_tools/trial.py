"""A dry run on a copy: what an import would add, what it would refuse, and which figures it would move.

    python3 tools/try.py BOOK ROWS [--csv | --json] [--program PATH]
    python3 tools/from_oms.py .. --book BOOK | python3 tools/try.py BOOK -

The program acts the rows on a copy of the book. An import stops at the first row that is refused; here the rows behind it
are acted too, so all refusals are told at once, each with its row and with the ticket and the row of the export where the
reference tells them (--oms, --gis, --customers and --causes name the exports). The figures are those of the program's own
annual table of the copy, before and after. The book's files are only read. The status is 2 where a row is refused.
"""

import csv
import json
import sqlite3
import sys
import time
from collections import Counter
from collections.abc import Iterator
from contextlib import closing
from dataclasses import dataclass
from fractions import Fraction
from pathlib import Path

from outage_tools.cli import Parser, print_error, run_job
from outage_tools.commands import HEADER
from outage_tools.compare import figures_of_table
from outage_tools.copies import copy_of
from outage_tools.counts import index_text
from outage_tools.errors import BookError, Differs
from outage_tools.exported import ExportedRows, add_export_arguments, exported_rows
from outage_tools.references import sources_of
from outage_tools.serving import LONGEST_BODY, Desk, Refusal, served
from outage_tools.texts import Text, bytes_of, text_of

FIRST_AT_ONCE, MOST_AT_ONCE = 256, 4_096  # rows that are sent together
LONG = 1.0  # seconds; parts that take longer don't grow, so that a person sees how far it is
MOST_DAYS_SHOWN = 10
REFUSED = 2

LISTED = ("cause ", "feeder ", "day ")  # figures of which a table has many
MEANINGS = {
    2: "no node, section or device has the name",
    3: "the name, the code or the customer's number is in use",
    5: "its second or date lies outside the period",
    6: "no entry has the number",
    7: "the entry has revision {detail}",
    8: "the entry was withdrawn",
    9: "no customer has the number",
    10: "until isn't after since",
    11: "the reference belongs to command {detail}, whose fields differ",
    12: "there are {detail} already, and no more go in",
    13: "the day is marked",
    14: "the day isn't marked",
    15: "no cause has the code",
    18: "until isn't after since",
}


@dataclass(frozen=True)
class Refused:
    """A row that is refused, where it came from as far as its reference tells, and why."""

    row: int
    kind: str
    ref: str
    source: str
    refusal: Refusal
    meaning: str


@dataclass(frozen=True)
class Moved:
    """A figure of the annual table before and after; empty where there was none."""

    figure: str
    before: str
    after: str


@dataclass(frozen=True)
class Trial:
    """What becomes of each row (`added`, `again` or `refused`), the refusals, and the figures that are moved."""

    kinds: list[str]
    outcomes: list[str]
    refused: list[Refused]
    moved: list[Moved]

    def counts(self) -> dict[str, Counter[str]]:
        """How many rows of each kind had each outcome."""
        counts: dict[str, Counter[str]] = {}
        for kind, outcome in zip(self.kinds, self.outcomes):
            counts.setdefault(kind, Counter())[outcome] += 1
        return counts


def meaning_of(refusal: Refusal) -> str:
    """A refusal in words."""
    if refusal.number == 1:
        if not refusal.detail:
            return "the row hasn't eight fields"
        return f"{HEADER[refusal.detail - 1]} can't be read"
    return MEANINGS.get(refusal.number, refusal.name).format(detail=refusal.detail)


class Progress:
    """A line on a terminal that tells how many rows were acted, five times a second at most; nothing anywhere else."""

    def __init__(self) -> None:
        self.is_shown = sys.stderr.isatty()
        self.last = time.monotonic()

    def at(self, done: int, count: int) -> None:
        if self.is_shown and time.monotonic() - self.last > 0.2:
            print_error(f"\r{done} of {count} rows", end="")
            self.last = time.monotonic()

    def end(self) -> None:
        if self.is_shown:
            print_error("\r\x1b[K", end="")


def act_rows(desk: Desk, text: Text, progress: Progress | None = None) -> Iterator[tuple[int, Refusal]]:
    """Acts all rows: those that are refused, by their places in the text.

    Rows are sent many at once, and after a refusal those behind it. So that few of them are sent twice, a part has at most
    twice as many rows as the one before it had acted: the rows that are sent are at most three times those of the text.
    """
    place, size = 0, FIRST_AT_ONCE
    while place < len(text.rows):
        if progress:
            progress.at(place, len(text.rows))
        size, began = fitting(text, place, size), time.monotonic()
        said = desk.import_text(text.part(place, size))
        acted = size if said.row is None else said.row - 1
        if said.added + said.again != acted:
            raise Differs(f"rows after row {place}", acted, f"{said.added} added and {said.again} again")
        if said.row is None or said.refusal is None:
            place, size = place + size, next_size(size, time.monotonic() - began)
        else:
            place, size = place + said.row, said.row
            yield place - 1, said.refusal


def next_size(size: int, seconds: float) -> int:
    """How many rows are sent together after a part of some rows that took some seconds."""
    if seconds > 2 * LONG:
        return max(1, size // 2)
    return size if seconds > LONG else min(2 * size, MOST_AT_ONCE)


def fitting(text: Text, place: int, size: int) -> int:
    """As many rows as the program takes at once, up to some number."""
    size = min(size, len(text.rows) - place)
    while len(text.part(place, size)) > LONGEST_BODY:
        if size == 1:
            raise BookError(f"row {place + 1} has more than {LONGEST_BODY} bytes: is there a quote that isn't closed?")
        size = (size + 1) // 2
    return size


def references_of(copy: Path) -> set[str]:
    """The references that a book has."""
    try:
        with closing(sqlite3.connect(copy)) as database:
            return {ref for ref, in database.execute("SELECT ref FROM cmd")}
    except sqlite3.Error as error:
        raise BookError(f"the copy is no book: {error}") from None


def moved_figures(before: list[str], after: list[str]) -> list[Moved]:
    """The figures of two annual tables that differ: indices first, then causes, feeders and days."""
    old, new = parted(before), parted(after)
    names = [name for name in {**new, **old} if old.get(name) != new.get(name)]
    lists = [[name for name in names if name.startswith(kind)] for kind in LISTED]
    first = [name for name in names if not name.startswith(LISTED)]
    return [Moved(name, old.get(name, ""), new.get(name, "")) for name in sum(lists, first)]


def parted(table: list[str]) -> dict[str, str]:
    """The figures of a table by their names, P, S and W each by itself."""
    figures = figures_of_table(table)
    figures.pop("the heading")
    sums = figures.pop("P, S and W").split()
    shown = {which: shown_index(which, words) for which, words in figures.items()}
    return {**dict(zip(("P", "S", "W"), sums)), **shown}


def shown_index(which: str, words: str) -> str:
    """The words of the table for a figure; of ASAI, five decimals."""
    fraction = words.partition(" ")[0]
    return index_text("ASAI", Fraction(fraction)) if which.startswith("ASAI ") and "/" in fraction else words


def trial_of(book: Path, text: Text, program: str, prefix: str, exports: ExportedRows) -> Trial:
    """The dry run of a text on a copy of a book."""
    with copy_of(book) as copy:
        known = references_of(copy)
        with served(program, copy) as desk:
            before = desk.table()
            header = desk.import_text(text.head)
            if header.refusal:
                raise BookError(f"the header isn't {','.join(HEADER)}: {header.refusal} row 0, and no row is read")
            progress = Progress()
            refusals = dict(act_rows(desk, text, progress))
            progress.end()
            after = desk.table()
        added = references_of(copy) - known
    return told_of(text, refusals, known, added, moved_figures(before, after), prefix, exports)


def told_of(
    text: Text,
    refusals: dict[int, Refusal],
    known: set[str],
    added: set[str],
    moved: list[Moved],
    prefix: str,
    exports: ExportedRows,
) -> Trial:
    """What became of each row. The references that the copy has more are those of the rows that were added."""
    kinds, outcomes, refused = [], [], []
    left = set(added)
    for place in range(len(text.rows)):
        kind, ref = (text.fields(place) + ["", ""])[:2]
        kinds.append(kind)
        if place in refusals:
            source = exports.told(sources_of(kind, ref, prefix))
            refusal = refusals[place]
            refused.append(Refused(place + 1, kind, ref, source, refusal, meaning_of(refusal)))
            outcomes.append("refused")
        elif ref in left:
            left.remove(ref)
            outcomes.append("added")
        elif ref in known or ref in added:
            outcomes.append("again")
        else:
            raise Differs(f"row {place + 1}", f"the reference {ref}", "no command of it")
    if left:
        raise Differs("the references that were added", "", ", ".join(sorted(left)[:3]))
    return Trial(kinds, outcomes, refused, moved)


# Writing.


def rows_text(trial: Trial) -> Iterator[str]:
    """How many rows of each kind had each outcome."""
    counts = trial.counts()
    counts["all"] = Counter(trial.outcomes)
    yield f"{'rows':<10}{'added':>9}{'again':>9}{'refused':>9}"
    for kind, count in counts.items():
        yield f"{kind:<10}{count['added']:>9}{count['again']:>9}{count['refused']:>9}"


def refused_text(refused: list[Refused]) -> Iterator[str]:
    """Each row that is refused, with its ticket or what else it came from."""
    for each in refused:
        source = f" ({each.source})" if each.source else ""
        yield f"row {each.row}: {each.kind} {each.ref}{source}: {each.refusal}: {each.meaning}"


def moved_text(moved: list[Moved]) -> Iterator[str]:
    """The figures that are moved, side by side; of many days only how many they are."""
    if not moved:
        yield "no figure of the annual table is moved"
        return
    days = [each for each in moved if each.figure.startswith("day ")]
    shown = [each for each in moved if len(days) <= MOST_DAYS_SHOWN or not each.figure.startswith("day ")]
    rows = [Moved("figure", "before", "after"), *shown]
    widths = [max(len(each.figure) for each in rows), max(len(each.before) for each in rows)]
    for each in rows:
        yield f"{each.figure:<{widths[0]}}  {each.before:<{widths[1]}}  {each.after}".rstrip()
    if len(shown) < len(moved):
        yield f"and {len(days)} days, which --json prints"


def write_text(trial: Trial, _text: Text) -> None:
    parts = [rows_text(trial), refused_text(trial.refused), moved_text(trial.moved)]
    print("\n\n".join("\n".join(lines) for part in parts if (lines := list(part))))


def write_csv(trial: Trial, text: Text) -> None:
    """A line for each row of the text."""
    refused = {each.row: each for each in trial.refused}
    writer = csv.writer(sys.stdout, lineterminator="\n")
    writer.writerow(("row", "kind", "ref", "outcome", "refusal", "meaning", "source"))
    for place, (kind, outcome) in enumerate(zip(trial.kinds, trial.outcomes)):
        ref = (text.fields(place) + ["", ""])[1]
        why = refused.get(place + 1)
        reason = (str(why.refusal), why.meaning, why.source) if why else ("", "", "")
        writer.writerow((place + 1, kind, ref, outcome, *reason))


def write_json(trial: Trial, _text: Text) -> None:
    """The counts, every refusal and every figure that is moved."""
    refused = [
        {
            "row": each.row,
            "kind": each.kind,
            "ref": each.ref,
            "source": each.source,
            "refused": each.refusal.number,
            "name": each.refusal.name,
            "detail": each.refusal.detail,
            "meaning": each.meaning,
        }
        for each in trial.refused
    ]
    moved = [{"figure": each.figure, "before": each.before, "after": each.after} for each in trial.moved]
    totals = Counter(trial.outcomes)
    whole = {
        "rows": {outcome: totals[outcome] for outcome in ("added", "again", "refused")},
        "kinds": {kind: dict(count) for kind, count in trial.counts().items()},
        "refused": refused,
        "moved": moved,
    }
    json.dump(whole, sys.stdout, indent=1)
    print()


def make_parser() -> Parser:
    parser = Parser(description="Applies rows of commands to a copy of a book, and prints what they would do.")
    parser.add_argument("book", help="the book's file, which is only read")
    parser.add_argument("rows", help="the rows of commands as CSV; - for standard input")
    form = parser.add_mutually_exclusive_group()
    form.add_argument(
        "--csv", dest="write", action="store_const", const=write_csv, default=write_text, help="each row, as CSV"
    )
    form.add_argument("--json", dest="write", action="store_const", const=write_json, help="as JSON")
    parser.add_argument("--prefix", default="OMS-", help="what the references of outages begin with (OMS-)")
    parser.add_argument("--program", metavar="PATH", default="outagebook", help="the program (outagebook on the path)")
    add_export_arguments(parser)
    return parser


def main() -> int:
    args = make_parser().parse_args()
    refused = False

    def job() -> None:
        nonlocal refused
        text = text_of(bytes_of(args.rows), args.rows)
        trial = trial_of(Path(args.book).resolve(), text, args.program, args.prefix, exported_rows(args))
        args.write(trial, text)
        refused = bool(trial.refused)

    return run_job(job) or (REFUSED if refused else 0)
