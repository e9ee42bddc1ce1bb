"""What each district's desk is doing, and whether its book is equal to its program's table."""

import csv
import json
import sys
from concurrent.futures import ThreadPoolExecutor
from dataclasses import asdict, dataclass
from datetime import datetime, timezone
from pathlib import Path
from typing import Any
from urllib.error import HTTPError, URLError
from urllib.request import urlopen

from outage_tools.compare import open_book
from outage_tools.district_files import Row, read_rows, write_rows
from outage_tools.errors import BookError, Differs
from outage_tools.parallel import over_books

MOST_COMMANDS = 1_000_000


@dataclass(frozen=True)
class Desk:
    """A district's desk: where it is, and the file of its book, which `compare` looks at."""

    district: str
    url: str
    book: str


def read_desks(path: str) -> list[Desk]:
    rows = read_rows(path, ("district", "url"))
    desks = [Desk(row["district"].strip(), row["url"].strip().rstrip("/"), row.get("book", "").strip()) for row in rows]
    for place, desk in enumerate(desks, 1):
        if not desk.district or not desk.url.startswith(("http://", "https://")):
            raise BookError(f"{path}: row {place}: a district and an http address are needed")
    return desks


def has_command(desk: Desk, number: int, wait: float) -> bool:
    """The desk has a command of this number."""
    try:
        with urlopen(f"{desk.url}/commands/{number}", timeout=wait) as reply:
            json.load(reply)
            return True
    except HTTPError as error:
        if error.code == 404:
            return False
        raise BookError(f"answers {error.code}") from None
    except (URLError, OSError, ValueError) as error:
        raise BookError(f"no answer ({getattr(error, 'reason', error)})") from None


def commands_of(desk: Desk, wait: float) -> int:
    """How many commands a desk has: it tells each by its number, and they have no gaps."""
    least, most = 0, 1
    while most <= MOST_COMMANDS and has_command(desk, most, wait):
        least, most = most, most * 2
    while most - least > 1:
        middle = (least + most) // 2
        if has_command(desk, middle, wait):
            least = middle
        else:
            most = middle
    return least


def state_of(desk: Desk, wait: float) -> tuple[str, str]:
    """Whether a desk is up, and its number of commands."""
    try:
        return "up", str(commands_of(desk, wait))
    except BookError as error:
        return f"down: {error}", ""


def last_compared(path: Path) -> dict[str, Row]:
    """What was kept last of each district's comparison."""
    return {row["district"]: row for row in read_rows(str(path), ("district",))} if path.exists() else {}


def compared_path(args: Any) -> Path:
    return Path(args.compared) if args.compared else Path(args.desks).with_name("compared.csv")


def tell_desks(args: Any) -> None:
    """The job `desks`: a row for each."""
    desks = read_desks(args.desks)
    compared = last_compared(compared_path(args))
    with ThreadPoolExecutor(max(1, min(16, len(desks)))) as pool:
        states = list(pool.map(lambda desk: state_of(desk, args.wait), desks))
    writer = csv.writer(sys.stdout, lineterminator="\n")
    writer.writerow(["district", "state", "commands", "compared", "compared_commands", "result"])
    for desk, (state, commands) in zip(desks, states):
        last = compared.get(desk.district, {})
        row = [last.get("moment", "never"), last.get("commands", ""), last.get("result", "")]
        writer.writerow([desk.district, state, commands, *row])


@dataclass(frozen=True)
class Comparison:
    """What was found of a desk's book, and when: its commands as of its last commit, whether its figures are the program's."""

    moment: str
    commands: str
    result: str


def compare_book(path: str, table: str | None, program: str) -> Comparison:
    """Compares a book with its program's table; a book that can't be read is a result too."""
    commands = ""
    try:
        with open_book(path, table, program) as found:
            (count,) = found.database.execute("SELECT count(*) FROM cmd").fetchone()
            commands, result = str(count), "equal"
    except Differs as differs:
        result = f"differs: {differs}"
    except BookError as error:
        result = f"error: {error}"
    return Comparison(datetime.now(timezone.utc).isoformat(timespec="seconds"), commands, result)


def compare_desks(args: Any) -> None:
    """The job `compare`: each book with its program's table, kept in a file for `desks`."""
    desks = read_desks(args.desks)
    path = compared_path(args)
    compared = last_compared(path)
    for desk in desks:
        if not desk.book:
            raise BookError(f"{args.desks} has no book of {desk.district}")
    books = [desk.book for desk in desks]
    found = over_books(compare_book, books, [None] * len(books), args.program, args.processes, args.cluster)
    for desk, each in zip(desks, found):
        compared[desk.district] = {"district": desk.district, **asdict(each)}
        print(f"{desk.district}: {each.result}{f', {each.commands} commands' if each.commands else ''}")
    results = [each.result for each in found]
    columns = ("district", "moment", "commands", "result")
    write_rows(path, columns, ([row[column] for column in columns] for row in compared.values()))
    if any(result.startswith("differs") for result in results):
        raise Differs("books", sum(result != "equal" for result in results), "all to be equal")
    if any(result != "equal" for result in results):
        raise BookError("not every book could be compared")
