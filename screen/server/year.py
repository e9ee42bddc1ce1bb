"""The program's annual table, line by line as it stands, and what else is made of a whole book: report and downloads."""

import subprocess
import tempfile
from pathlib import Path
from typing import Any

from .reader import BookError, copy_of, tool_words

TOOL_SECONDS = 300


def table_view(table: str) -> dict[str, Any]:
    """The lines of the annual table by what they tell; each text is the program's."""
    shown: dict[str, Any] = {"heading": "", "totals": {}, "causes": [], "feeders": [], "days": [], "indices": {}}
    for line in table.splitlines():
        words = line.split()
        if line.startswith("OUTAGE BOOK "):
            shown["heading"] = line
        elif words[0] == "P":
            shown["totals"] = dict(zip(words[::2], words[1::2]))
        elif words[0] == "cause":
            shown["causes"].append(words[1:])
        elif words[0] == "feeder":
            shown["feeders"].append(words[1:])
        elif words[0] == "day":
            shown["days"].append(words[1:])
        else:
            name, which, *value = words
            shown["indices"].setdefault(name, {})[which] = value
    return shown


def run(words: list[str]) -> bytes:
    """What a tool or the program prints."""
    try:
        done = subprocess.run(words, capture_output=True, check=False, timeout=TOOL_SECONDS)
    except (OSError, subprocess.TimeoutExpired) as error:
        raise BookError(f"{words[0]} can't be run: {error}") from None
    if done.returncode != 0:
        raise BookError(f"{words[0]} ended with {done.returncode}: {done.stderr.decode(errors='replace').strip()}")
    return done.stdout


def moves_csv(program: str, book: Path) -> bytes:
    with copy_of(book) as copy:
        output = copy.with_name("moves.csv")
        run([program, "export", "--book", str(copy), str(output)])
        return output.read_bytes()


def commands_csv(program: str, book: Path) -> bytes:
    return run([*tool_words("commands"), str(book), "--program", program])


TEXTS = {"commands.csv": commands_csv, "moves.csv": moves_csv}  # by the names under which they are downloaded


def report_page(program: str, book: Path) -> bytes:
    with tempfile.TemporaryDirectory(prefix="screen-") as folder:
        output = Path(folder) / "report.html"
        run([*tool_words("report"), str(book), "-o", str(output), "--program", program])
        return output.read_bytes()
