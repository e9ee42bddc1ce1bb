"""Which exports went into a book: a list beside it, with the moment of each, the folder of its run, and the sum of what that folder names.

An export is cut with the names of the last one, and they go in by the order of their moments: an older one would take back what a later
one said. The last one may be given again, since its import may have failed.
"""

import csv
import hashlib
from dataclasses import dataclass, field
from pathlib import Path

from outage_tools.commands import read_second
from outage_tools.errors import BookError
from outage_tools.lists import ListRow, read_list
from outage_tools.oms.writing import whole_file

COLUMNS = ("at", "folder", "names")


def sum_of(folder: Path) -> str:
    """The SHA-256 of a folder's names."""
    try:
        return hashlib.sha256((folder / "names.csv").read_bytes()).hexdigest()
    except OSError as error:
        raise BookError(f"{folder / 'names.csv'} can't be read: {error.strerror}") from None


def second_in(row: ListRow) -> int:
    try:
        return read_second(row["at"])
    except ValueError:
        raise row.refused(f"at {row['at']!r} is no moment with its offset") from None


@dataclass
class Ledger:
    """The list of a book, in the order in which the exports went in."""

    path: Path
    rows: list[ListRow] = field(default_factory=list)

    def check(self, at: int, earlier: Path) -> None:
        """The export is none that lies before the last one, and it is cut with the last one's names."""
        if not self.rows:
            return
        last, names = self.rows[-1], sum_of(earlier)
        if at < second_in(last):
            raise last.refused(f"the export of {last['at']} went in, and --at lies before it")
        before = [row["names"] for row in self.rows if second_in(row) < at] or [names]
        if names not in (last["names"], before[-1] if at == second_in(last) else ""):
            raise last.refused(
                f"the last export that went in is that of {last['folder']}, and --as {earlier} is another"
            )

    def write(self, *new: tuple[str, str, str]) -> None:
        """The list, with a further row."""
        with whole_file(self.path) as file:
            writer = csv.writer(file, lineterminator="\n")
            writer.writerow(COLUMNS)
            writer.writerows([row[column] for column in COLUMNS] for row in self.rows)
            writer.writerows(new)


def ledger_of(book: str) -> Ledger:
    path = Path(book).with_suffix(".exports.csv")
    return Ledger(path, list(read_list(str(path), COLUMNS)) if path.exists() else [])
