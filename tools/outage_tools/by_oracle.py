"""A book's figures found anew by the model of oracle/, which shares no code with the program and the tools.

    python3 tools/compare.py BOOK [--table FILE | --program PATH]      # compares, and says so

The model takes the book's accepted commands. Its annual table, its interruptions and its rows of the book's tables, but
for what each command moved, have to be the program's and the file's.
"""

import json
import subprocess
import sys
from pathlib import Path
from typing import Any

from outage_tools.cli import Parser, add_table_arguments, run_job
from outage_tools.compare import Checked, compare_table, figures_of_table, open_book
from outage_tools.errors import BookError, Differs
from outage_tools.interruptions import joined

PLACES = Path(__file__).resolve().parents[1:3]  # where tools are installed, and in the clone


def said_by_oracle(copy: Path) -> dict[str, Any]:
    """What the model finds of the commands of a book."""
    oracle = next((place / "oracle" for place in PLACES if (place / "oracle" / "from_file.py").exists()), None)
    if oracle is None:
        raise BookError("the model (oracle/from_file.py) isn't there: install.sh puts it next to the tools")
    command = [sys.executable, str(oracle / "from_file.py"), str(copy)]
    done = subprocess.run(command, capture_output=True, text=True, check=False)
    if done.returncode:
        raise BookError(f"the model takes no commands of this book: {done.stderr.strip().splitlines()[-1]}")
    said: dict[str, Any] = json.loads(done.stdout)
    return said


def compare_rows(here: list[str], there: list[str]) -> None:
    """Every line of the interruptions is the same."""
    for number, (one, other) in enumerate(zip(here, there)):
        if one != other:
            raise Differs(f"row {number} of the interruptions", one, other)
    if len(here) != len(there):
        raise Differs("rows of the interruptions", len(here), len(there))


def compare_with_oracle(found: Checked) -> str:
    """Compares a book with the model: what is equal, in words."""
    said = said_by_oracle(found.file)
    compare_table(figures_of_table(said["table"]), figures_of_table(found.table))
    compare_rows(said["interruptions"], found.rows_file.read_text(encoding="ascii").splitlines())
    if said["differs"]:
        raise Differs(f"table {said['differs']} of the book", "other rows", "its own")
    return (
        f"equal: {said['runs']} runs, {sum(1 for _ in joined(found.interruptions))} interruptions of equal customers,"
        f" {len(found.book.postings)} postings, {len(found.table)} lines of the table"
    )


def main() -> int:
    parser = Parser(description="Finds a book's figures anew, and compares them with the program's and the book's own.")
    parser.add_argument("book", help="the book's file")
    add_table_arguments(parser)
    args = parser.parse_args()

    def job() -> None:
        with open_book(args.book, args.table, args.program) as found:
            print(compare_with_oracle(found))

    return run_job(job)
