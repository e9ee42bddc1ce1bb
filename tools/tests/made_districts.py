"""Makes books of whole networks and of their parts, for the tests of sums and cuts, by the plain model.

    python3 tools/tests/made_districts.py FOLDER --seeds FIRST LAST [--ties]
    python3 tools/tests/made_districts.py FOLDER --texts FILE

Of each seed a random text of commands is acted (make_commands.py), and its network is cut in two: the nodes that devices
join, GRID aside, stay together, so that no tie joins the parts. With --ties only those that normally closed devices join
stay together; an open device between the parts is in both of them a device from GRID, and whatever is said of it is said
to both, and ties are added and switched, so that some are closed. FOLDER gets SEED-whole, SEED-a and SEED-b as .db, .csv and .table.txt, with SEED-ties.csv; the names of the seeds
and their periods are printed. With --texts FOLDER gets the books of texts instead: lines of FILE are a text, the first day
of its period, its days and its zone, by spaces; a book has its text's name.
"""

import argparse
import csv
import random
import sqlite3
import sys
from collections.abc import Iterator
from contextlib import closing
from pathlib import Path
from typing import Any

# The oracle's modules import one another by their names.
sys.path[0] = str(Path(__file__).resolve().parents[2] / "oracle")

from make_commands import period_of, text_of  # noqa: E402
from model import Book  # noqa: E402
from state import Period  # noqa: E402
from tables import TABLES  # noqa: E402

PARTS = ("a", "b")
Device = tuple[str, str, str]  # its name and its ends


class Groups:
    """Nodes that belong together."""

    def __init__(self, nodes: list[str]) -> None:
        self.group = {node: {node} for node in nodes}

    def join(self, a: str, b: str) -> None:
        if self.group[a] is not self.group[b]:
            self.group[a] |= self.group[b]
            for node in self.group[b]:
                self.group[node] = self.group[a]


class Cut:
    """A network cut in two: the part of each node, and the ties between the parts."""

    def __init__(self, whole: Any, rng: random.Random, with_ties: bool) -> None:
        nodes = [node for node in whole.feeders if node != "GRID"]
        groups = Groups(nodes)
        for device in whole.devices.values():
            if "GRID" not in device.ends and not (with_ties and device.normal == "open"):
                groups.join(*device.ends)
        self.part: dict[str, str] = {}
        for node in nodes:
            if node not in self.part:
                part = rng.choice(PARTS)
                self.part.update(dict.fromkeys(groups.group[node], part))
        self.ends = {device.name: device.ends for device in whole.devices.values()}
        self.customers = {number: section for number, (section, _, _) in whole.customers.items()}

    def parts_of(self, device: str) -> list[str]:
        return sorted({self.part[node] for node in self.ends[device] if node != "GRID"})

    def ties(self) -> Iterator[list[str]]:
        """The rows of the list of ties, as a cut writes them."""
        for name, (a, b) in self.ends.items():
            if len(self.parts_of(name)) == 2:
                yield [name, self.part[a], a, self.part[b], b]


def said_to(cut: Cut, part: str, commands: list[tuple[str, str]]) -> Iterator[list[str]]:
    """The rows of a part: those of all commands that concern it, with entries by their numbers in it."""
    devices: list[str] = []  # of the whole's entries
    number_of: dict[int, int] = {}
    for ref, body in commands:
        kind, *fields = body.split(" ")
        if kind in ("bus", "section"):
            concerns = cut.part[fields[0]] == part
        elif kind in ("device", "life", "switch"):
            concerns = part in cut.parts_of(fields[0])
        elif kind in ("correct", "withdraw"):
            concerns = part in cut.parts_of(devices[int(fields[0]) - 1])
        elif kind in ("connect", "revise"):
            concerns = cut.part[cut.customers[int(fields[0])]] == part
        else:
            concerns = True
        if kind == "switch":
            devices.append(fields[0])
            if concerns:
                number_of[len(devices)] = len(number_of) + 1
        if not concerns:
            continue
        if kind in ("correct", "withdraw"):
            fields[0] = str(number_of[int(fields[0])])
        if kind == "device":
            fields[1:3] = ["GRID" if cut.part.get(node, part) != part else node for node in fields[1:3]]
        fields = ["" if field == "-" else field for field in fields]
        yield [kind, ref, *fields, *[""] * (6 - len(fields))]


def book_of(period: tuple[str, int, str], rows: list[list[str]]) -> Any:
    """The model's book of some rows, none of which is refused."""
    book = Book(Period(*period))
    for row in rows:
        book.act(row)
    return book


def write(book: Any, rows: list[list[str]], path: Path) -> None:
    """A book's file, its rows and its annual table."""
    with closing(sqlite3.connect(f"{path}.db")) as database:
        database.execute("PRAGMA journal_mode = wal")
        database.execute("PRAGMA synchronous = off")
        database.executescript(TABLES)
        for table, values in book.tables().items():
            for row in values:
                database.execute(f"INSERT INTO {table} VALUES ({', '.join('?' * len(row))})", row)
        database.commit()
    with open(f"{path}.csv", "w", newline="", encoding="ascii") as file:
        csv.writer(file, lineterminator="\n").writerows([["kind", "ref", *(f"f{n}" for n in range(1, 7))], *rows])
    lines = "".join(f"{line}\n" for line in book.table_lines())
    Path(f"{path}.table.txt").write_text(lines, encoding="ascii")


def rows_of(commands: list[tuple[str, str]]) -> Iterator[list[str]]:
    for ref, body in commands:
        kind, *fields = body.split(" ")
        fields = ["" if field == "-" else field for field in fields]
        yield [kind, ref, *fields, *[""] * (6 - len(fields))]


def add_ties(whole: Any, rng: random.Random) -> None:
    """Some open devices between any two nodes, each closed and opened a few times."""
    nodes = [node for node in whole.feeders if node != "GRID"]
    period, code = whole.period, max(whole.causes)
    for number in range(1, rng.randint(1, 4) if len(nodes) > 1 and code else 0):
        tie = f"TIE-{number}"
        whole.act(["device", f"NEW-{tie}", tie, *rng.sample(nodes, 2), "open", "", ""])
        for turn in range(rng.randint(0, 4)):
            second = rng.randrange(period.first, period.end)
            whole.act(
                ["switch", f"{tie}-{turn}", tie, "open" if turn % 2 else "close", str(second), str(code), "K9", ""]
            )


def make(folder: Path, seed: int, with_ties: bool) -> None:
    period = period_of(seed)
    whole = Book(Period(*period))
    whole.import_text(text_of(seed))
    if with_ties:
        add_ties(whole, random.Random(f"ties {seed}"))
    cut = Cut(whole, random.Random(f"cut {seed}"), with_ties)
    write(whole, list(rows_of(whole.commands)), folder / f"{seed}-whole")
    for part in PARTS:
        rows = list(said_to(cut, part, whole.commands))
        write(book_of(period, rows), rows, folder / f"{seed}-{part}")
    with open(folder / f"{seed}-ties.csv", "w", newline="", encoding="ascii") as file:
        writer = csv.writer(file, lineterminator="\n")
        writer.writerow(["tie", "district", "node", "other_district", "other_node"])
        for tie, a_part, a, b_part, b in cut.ties():
            writer.writerow([tie, f"{seed}-{a_part}", a, f"{seed}-{b_part}", b])
    print(seed, *period)


def make_of_text(folder: Path, line: str) -> None:
    """The book of a text; a row that is refused is an error."""
    text, first, days, zone = line.split()
    book = Book(Period(first, int(days), zone))
    _, _, refusal = book.import_text(Path(text).read_bytes())
    if refusal:
        sys.exit(f"{text}: {refusal}")
    write(book, list(rows_of(book.commands)), folder / Path(text).stem)


def main() -> None:
    words = argparse.ArgumentParser(description="Makes books of whole networks and of their parts.")
    words.add_argument("folder", type=Path)
    which = words.add_mutually_exclusive_group(required=True)
    which.add_argument("--seeds", type=int, nargs=2, metavar=("FIRST", "LAST"), help="random networks and their parts")
    which.add_argument("--texts", type=Path, metavar="FILE", help="the books of texts")
    words.add_argument("--ties", action="store_true", help="cut ties too")
    given = words.parse_args()
    given.folder.mkdir(parents=True, exist_ok=True)
    for line in given.texts.read_text().splitlines() if given.texts else ():
        make_of_text(given.folder, line)
    for seed in range(given.seeds[0], given.seeds[1] + 1) if given.seeds else ():
        make(given.folder, seed, given.ties)


if __name__ == "__main__":
    main()
