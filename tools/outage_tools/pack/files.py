"""The files of a pack: those that the program prints of a book, and those that the tools make of it."""

import shutil
import tempfile
from collections.abc import Iterator
from contextlib import contextmanager
from dataclasses import dataclass, field
from pathlib import Path
from typing import Any

from outage_tools.commands import read_commands, write_rows
from outage_tools.compare import Checked
from outage_tools.filings import TITLES, filing
from outage_tools.forms import write_csv_to
from outage_tools.keys import keys_shown
from outage_tools.lists import read_cause_groups, read_names, read_section_groups
from outage_tools.outages import interruptions
from outage_tools.program import answer_of
from outage_tools.report import Asked, page
from outage_tools.versions import Made
from outage_tools.workbook import Wanted, sheets_of, write_workbook

BOOK, TABLE, MOVES, COMMANDS = "book.db", "table.txt", "moves.csv", "commands.csv"
INTERRUPTIONS, WORKBOOK, REPORT, README = "interruptions.csv", "workbook.xlsx", "report.html", "readme.txt"
LISTS = ("causes", "names", "by")  # a user's lists, as the words that name them
KEYS = "keys"  # the table of the customers' keys, of the book's customers alone


@dataclass(frozen=True)
class Order:
    """What a pack was asked to have: kept in its manifest, so that it can be made again."""

    name: str = "Outage book"
    date: str = ""
    filings: list[str] = field(default_factory=list)
    above: int | None = None
    lists: list[str] = field(default_factory=list)

    def as_json(self) -> dict[str, Any]:
        return {
            "name": self.name,
            "date": self.date,
            "filings": self.filings,
            "above": self.above,
            "lists": self.lists,
        }


def list_file(folder: Path, name: str) -> Path:
    """Where a pack has one of the user's lists."""
    return folder / "lists" / f"{name}.csv"


# By the program.


@contextmanager
def own_copy(book: Path) -> Iterator[Path]:
    """A copy for the program to open: it may make files beside a book, and the pack's stays as it is."""
    with tempfile.TemporaryDirectory(prefix="outagebook-") as name:
        copy = Path(name) / BOOK
        shutil.copyfile(book, copy)
        yield copy


def write_program_files(book: Path, folder: Path, program: str) -> None:
    """The annual table and the moves, as the program prints them."""
    with own_copy(book) as copy:
        (folder / TABLE).write_text(answer_of(program, "table", "--book", copy), encoding="ascii")
        answer_of(program, "export", "--book", copy, folder / MOVES)


# By the tools.


def asked_by(found: Checked, order: Order, lists: dict[str, Path]) -> tuple[Asked, Wanted]:
    """What the report and the workbook show, with the lists read."""
    path = {name: str(lists[name]) for name in order.lists}
    names = read_names(path["names"], found.book) if "names" in path else None
    causes = read_cause_groups(path["causes"], found.book) if "causes" in path else None
    sections = read_section_groups(path["by"], found.book) if "by" in path else None
    keys = keys_shown(path[KEYS], path[KEYS], found.database) if KEYS in path else None
    asked = Asked(order.name, order.date, names, causes, sections)
    wanted = Wanted(
        name=order.name,
        date=order.date,
        names=names,
        cause_groups=causes,
        section_groups=sections,
        least=order.above,
        keys=keys,
        filings=order.filings,
    )
    return asked, wanted


def write_tool_files(found: Checked, order: Order, lists: dict[str, Path], folder: Path, made: Made) -> None:
    """Commands, rows of interruptions, filings, report and workbook."""
    asked, wanted = asked_by(found, order, lists)
    with (folder / COMMANDS).open("w", encoding="utf-8", newline="") as file:
        write_rows((command.row() for command in read_commands(found.database)), file)
    with (folder / INTERRUPTIONS).open("w", encoding="utf-8", newline="") as file:
        write_csv_to(interruptions(found), file)
    for name in order.filings:
        with (folder / f"filing-{name}.csv").open("w", encoding="utf-8", newline="") as file:
            write_csv_to(filing(found, name, wanted.cause_groups), file)
    (folder / REPORT).write_text(page(found, asked), encoding="utf-8")
    (folder / README).write_text(readme(found, order), encoding="utf-8")
    write_workbook(folder / WORKBOOK, sheets_of(found, wanted, made), f"{order.name} {found.book.period.days[0]}")


def tool_files(order: Order) -> list[str]:
    """The names of what the tools make."""
    filings = [f"filing-{name}.csv" for name in order.filings]
    return [COMMANDS, INTERRUPTIONS, *filings, REPORT, README, WORKBOOK]


MEANINGS = {
    BOOK: "the book: its network, customers, switchings and all that follows from them",
    TABLE: "the annual table, as the proved program prints it",
    MOVES: "what each command moved, as the program exports it",
    COMMANDS: "the accepted commands: imported into a fresh book they give the same table",
    INTERRUPTIONS: "every interruption with its customers and seconds",
    WORKBOOK: "the figures as spreadsheets; its first sheet says how each is made",
    REPORT: "the figures as a page to print",
}
OF_LISTS = {
    "causes": "the utility's groups of causes",
    "names": "the utility's names of feeders",
    "by": "the utility's groups of sections",
    KEYS: "the utility's own keys of the book's customers, by their numbers",
}


def readme(found: Checked, order: Order) -> str:
    """What each file is, and how to check the pack."""
    period = found.book.period
    meanings = {
        **MEANINGS,
        **{f"filing-{name}.csv": TITLES[name] for name in order.filings},
        **{f"lists/{name}.csv": OF_LISTS[name] for name in order.lists},
        "manifest.json": "the program, the tools, the size and the sha256 of each file",
    }
    width = max(map(len, meanings)) + 2
    lines = [
        f"{order.name}: {period.days[0]} to {period.days[-1]}, {len(period.days)} days, zone {period.zone.text}",
        "",
        *(f"{name:{width}}{meaning}" for name, meaning in meanings.items()),
        "",
        "To check it on another machine that has the program and its tools: outagebook-verify FOLDER or FILE.zip",
        f"{BOOK} and {COMMANDS} have customers' numbers and crews: hand them on by your rules on data.",
    ]
    return "".join(f"{line}\n" for line in lines)
