"""A checked book of four exports, by one command: there whole, or not at all.

    python3 tools/make.py BOOK --gis gis.csv --customers customers.csv --oms oms.csv --causes causes.csv
                          --first DATE --days N --zone RULE [--counts [FILE]] [--report FILE] [--program PATH]

It looks at the exports as check.py does, and ends if something is wrong (status 2). Else it writes the rows as from_oms.py does,
makes the book in a folder of its own, imports the rows, audits the book, compares it with the program (compare.py), puts the
OMS's own counts next to the book's as agree.py does, and writes a page of the period (report/) if `--report` asks for one. Then
the book's bytes go to the disk once, and the file gets its name. docs/use/IMPORTING.md says more.
"""

import argparse
import ctypes
import os
import shutil
import signal
import subprocess
import sys
from collections.abc import Callable, Iterator
from contextlib import ExitStack, contextmanager
from dataclasses import dataclass
from pathlib import Path
from typing import NoReturn

from outage_tools import agree, check
from outage_tools.cli import Parser, add_page_arguments, run_job
from outage_tools.commands import write_rows
from outage_tools.compare import Checked, open_book
from outage_tools.copies import log_of
from outage_tools.errors import BookError
from outage_tools.forms import write_text
from outage_tools.keys import Keys
from outage_tools.oms import convert
from outage_tools.oms.complaints import Complaints, Notes
from outage_tools.oms.convert import EXPORTS, Run, conversion_of, save_keys
from outage_tools.oms.files import Export, format_of
from outage_tools.oms.known import Known
from outage_tools.oms.outages import COUNTS
from outage_tools.placing import check_free_book, new_file, own_folder, place_for, writing
from outage_tools.report import Asked, page

ROOM = 64_000_000  # bytes that a book takes in its folder, beside what grows with its exports
ROOM_PER_BYTE = 20
PR_SET_PDEATHSIG = 1  # of <linux/prctl.h>
ENDING = (signal.SIGINT, signal.SIGTERM, signal.SIGHUP)
STEPS = 5
LIBC = ctypes.CDLL(None, use_errno=True)


class ExportsWrong(Exception):
    """The check has found something wrong, and has shown it."""


# The program.


@contextmanager
def held() -> Iterator[set[int]]:
    """Signals to end wait until the block is over: one that comes while Python forks would be lost. Gives the mask before."""
    before = signal.pthread_sigmask(signal.SIG_BLOCK, ENDING)
    try:
        yield {int(number) for number in before}
    finally:
        signal.pthread_sigmask(signal.SIG_SETMASK, before)


def ends_with(parent: int, mask: set[int]) -> Callable[[], None]:
    """What a child does first, so that it ends when its parent is killed."""

    def prepare() -> None:
        signal.pthread_sigmask(signal.SIG_SETMASK, mask)
        LIBC.prctl(PR_SET_PDEATHSIG, signal.SIGKILL)
        if os.getppid() != parent:
            os._exit(1)

    return prepare


def output_of(command: list[str]) -> tuple[int, str, str]:
    """The status of a program and what it printed. On a terminal its messages go there, since they show how far it is."""
    child: subprocess.Popen[str] | None = None
    try:
        with held() as mask:
            child = subprocess.Popen(
                command,
                stdin=subprocess.DEVNULL,
                stdout=subprocess.PIPE,
                stderr=None if sys.stderr.isatty() else subprocess.PIPE,
                text=True,
                preexec_fn=ends_with(os.getpid(), mask),
            )
        printed, told = child.communicate()
        return child.returncode, printed, told or ""
    except BaseException:
        if child is not None:
            child.kill()
            child.wait()
        raise


@dataclass(frozen=True)
class Program:
    """The proved program, at work on a book."""

    path: str
    book: Path

    def run(self, job: str, *words: object) -> str:
        """What one of its jobs prints, which ends well."""
        try:
            status, printed, told = output_of([self.path, job, "--book", str(self.book), *map(str, words)])
        except OSError as error:
            raise BookError(
                f"the program {self.path} can't be run ({error.strerror}): --program PATH names it"
            ) from None
        if status != 0:
            reason = (told or printed).strip() or f"status {status}"
            raise BookError(f"{job}: {reason}; no book was made")
        return printed


# The steps.


class Progress:
    """A line on a terminal for each step as it begins; nothing anywhere else."""

    def __init__(self) -> None:
        self.done = 0

    def step(self, text: str) -> None:
        self.done += 1
        if sys.stderr.isatty():
            print(f"step {self.done} of {STEPS}: {text}", file=sys.stderr, flush=True)


def check_exports(args: argparse.Namespace) -> None:
    """Shows what check.py shows, and ends the run where something is wrong."""
    looked = check.looked_at(args, Known())
    check.write_text(looked)
    sys.stdout.flush()
    if looked.is_wrong:
        raise ExportsWrong


def write_exports(args: argparse.Namespace, path: Path) -> tuple[int, Keys | None]:
    """Writes the rows of the exports: how many there are, and the keys of their customers."""
    run = Run(args, conversion_of(args, Known()), format_of(args))
    with writing(path), path.open("w", encoding="utf-8", newline="") as file:
        write_rows(run.commands(), file)
    run.refuse()
    return run.told().written, run.conversion.keys


def import_rows(program: Program, args: argparse.Namespace, rows: Path, count: int) -> None:
    """Makes the book of the period, and imports the rows, all of which it has to take."""
    program.run("init", "--first", args.first, "--days", args.days, "--zone", args.zone.text)
    printed = program.run("import", "--whole", rows)
    if printed != f"added {count} again 0\n":
        raise BookError(f"the import of {count} rows prints {printed.strip()!r}; no book was made")
    # It holds nothing that the book's file hasn't (docs/reference/BOOK-FILE.md); the audit is of the file alone.
    log_of(program.book).unlink(missing_ok=True)


def audit(program: Program) -> None:
    printed = program.run("audit")
    if printed != "audit ok\n":
        raise BookError(f"the audit prints {printed.strip()!r}; no book was made")


def counts_file(args: argparse.Namespace) -> str | None:
    """The file of the OMS's own counts: the one that is named; else the outages' export, if it has them."""
    if args.counts:
        return str(args.counts)
    notes = Notes("counts", args.oms)
    next(iter(Export(args.oms, COUNTS, (), format_of(args), Complaints(), notes).rows()), None)
    if {"customers", "customer_minutes"} <= set(notes.columns):
        return str(args.oms)
    if args.counts is not None:
        raise BookError(f"{args.oms} hasn't the columns customers and customer_minutes: --counts FILE names a file")
    return None


def agreement_of(found: Checked, args: argparse.Namespace) -> agree.Agreement | None:
    """The OMS's counts next to the book's, which are shown too; None where there are none."""
    path = counts_file(args)
    if path is None:
        return None
    told = agree.read_counts(path, args.by_step, format_of(args), args.cancelled)
    agreement = agree.agreement_of(found, told, args.prefix)
    write_text(agree.figures_of(found.book, agreement, agree.FIRST_PAGE))
    return agreement


def compared(program: Program, folder: Path, args: argparse.Namespace, count: int) -> str:
    """Compares the book with the program's table, shows what the two say together, and answers the page of the period."""
    table = folder / "table.txt"
    text = program.run("table")
    with writing(table):
        table.write_text(text, encoding="ascii")
    with open_book(str(program.book), str(table), program.path) as found:
        commands = found.database.execute("SELECT count(*) FROM cmd").fetchone()[0]
        if commands != count:
            raise BookError(f"the book has {commands} commands of {count} rows; no book was made")
        agreement = agreement_of(found, args)
        return page(found, Asked(args.name, args.date, agreement=agreement)) if args.report else ""


def make_book(args: argparse.Namespace, folder: Path, progress: Progress) -> tuple[Path, str, Keys | None]:
    """Makes a book in a folder: its file, whole and checked, its page if that is asked for, and its customers' keys."""
    program, rows = Program(args.program, folder / "book.db"), folder / "rows.csv"
    progress.step("writes the rows")
    count, keys = write_exports(args, rows)
    progress.step(f"imports {count} rows")
    import_rows(program, args, rows, count)
    progress.step("audits the book")
    audit(program)
    progress.step("compares the book")
    text = compared(program, folder, args, count)
    print(f"{count} commands, audit ok, equal to the program's table")
    return program.book, text, keys


def room_for(args: argparse.Namespace) -> int:
    """The bytes that the book takes in its folder while it is made, about."""
    files = [Path(getattr(args, export)) for export in EXPORTS]
    return ROOM + ROOM_PER_BYTE * sum(file.stat().st_size for file in files if file.exists())


def make(args: argparse.Namespace) -> None:
    """Makes a book and its page, and gives both their names; the book first."""
    progress = Progress()
    check_free_book(args.book)
    with ExitStack() as stack:
        report = stack.enter_context(new_file(args.report)) if args.report else None
        file = stack.enter_context(new_file(args.book))
        progress.step("checks the exports")
        check_exports(args)
        place = args.work_folder or place_for(room_for(args))
        folder = stack.enter_context(own_folder(place))
        made, text, keys = make_book(args, folder, progress)
        with writing(args.book), made.open("rb") as source:
            shutil.copyfileobj(source, file)
        if report is not None:
            with writing(args.report):
                report.write(text.encode())
        check_free_book(args.book)
        save_keys(keys)


# The command.


def make_parser() -> Parser:
    parser = Parser(description="Makes a checked book of the exports of other systems: whole, or none.")
    parser.add_argument("book", metavar="BOOK", type=Path, help="the book's file, which must not exist")
    convert.add_export_arguments(parser, are_required=True)
    convert.add_period_arguments(parser, are_required=True)
    parser.add_argument("--meshed", action="store_true", help="loops of closed devices are meant: they aren't wrong")
    parser.add_argument(
        "--counts",
        metavar="FILE",
        nargs="?",
        const="",
        help="a CSV of the OMS's own counts, as outagebook-agree reads it (the outages' export, if it has them)",
    )
    parser.add_argument("--by-step", action="store_true", help="each row of the counts has those of a step")
    parser.add_argument("--report", metavar="FILE", type=Path, help="write a page of the period too, as HTML")
    add_page_arguments(parser, "Outage book")
    parser.add_argument(
        "--work-folder", metavar="DIR", type=Path, help="where the book is made until it is whole (memory, else /tmp)"
    )
    parser.add_argument("--program", metavar="PATH", default="outagebook", help="the program (outagebook on the path)")
    return parser


def end(number: int, _frame: object) -> NoReturn:
    """A signal to end removes what was made so far."""
    sys.exit(128 + number)


def main() -> int:
    parser = make_parser()
    args = parser.parse_args()
    if args.report == args.book:
        parser.error("--report and BOOK name one file")
    for number in ENDING:
        if signal.getsignal(number) is not signal.SIG_IGN:  # as nohup has it
            signal.signal(number, end)
    is_wrong = False

    def job() -> None:
        nonlocal is_wrong
        try:
            make(args)
        except ExportsWrong:
            is_wrong = True
            print("error: something is wrong with the exports, and no book was made", file=sys.stderr)
        except BrokenPipeError:
            raise BookError("nobody reads what is printed, and no book was made") from None
        else:
            print(f"made {args.book}")

    return run_job(job) or (check.WRONG if is_wrong else 0)
