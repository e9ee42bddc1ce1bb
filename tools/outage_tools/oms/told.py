"""What a run tells of the files that it read: on standard error in short, and whole in a report."""

import json
from collections.abc import Iterable, Iterator
from dataclasses import dataclass
from pathlib import Path

from outage_tools.oms.complaints import CHANGED, LEFT_OUT, NOTICED, Complaint, Notes
from outage_tools.oms.conversion import SMALL_LETTERS
from outage_tools.oms.steps import CANCELLED_STEPS

QUIET = {SMALL_LETTERS, CANCELLED_STEPS}  # what the page says of every run
GROUPS = (LEFT_OUT, CHANGED, NOTICED)
DELIMITER_NAMES = {",": "comma", ";": "semicolon", "\t": "tab"}
MOST_RANGES = 8  # of rows in one line


@dataclass(frozen=True)
class Told:
    """What was read of each file, and the rows that can't be."""

    files: list[Notes]
    complaints: list[Complaint]

    @property
    def written(self) -> int:
        return 0 if self.complaints else sum(sum(notes.commands.values()) for notes in self.files)


def ranges_of(rows: Iterable[int]) -> Iterator[str]:
    """Numbers of rows, those that follow one another as a range."""
    begin = end = 0
    for row in sorted(set(rows)):
        if row != end + 1 or not begin:
            if begin:
                yield range_text(begin, end)
            begin = row
        end = row
    if begin:
        yield range_text(begin, end)


def range_text(begin: int, end: int) -> str:
    return str(begin) if begin == end else f"{begin}-{end}"


def rows_text(rows: list[int], most: int | None = MOST_RANGES) -> str:
    """Rows in a line of text, not all of many."""
    ranges = list(ranges_of(rows))
    more = ["..."] if most is not None and len(ranges) > most else []
    return f"row{'s' if len(set(rows)) > 1 else ''} {', '.join(ranges[:most] + more)}"


def lines_of_notes(files: Iterable[Notes]) -> Iterator[str]:
    """What was left out, changed or noticed, a line for each file and reason."""
    for notes in files:
        for (what, reason), rows in notes.noted.items():
            if reason not in QUIET:
                yield f"{notes.file}: {what}: {reason}: {len(set(rows))} ({rows_text(rows)})"


def text_lines(told: Told) -> Iterator[str]:
    for notes in told.files:
        yield f"{notes.export}: {notes.file}"
        yield f"  rows read: {notes.rows} ({notes.encoding}, {DELIMITER_NAMES.get(notes.delimiter, 'no delimiter')})"
        yield f"  columns read: {', '.join(notes.columns) or 'none'}"
        yield f"  columns not read: {', '.join(map(repr, notes.unread)) or 'none'}"
        yield f"  commands: {', '.join(f'{kind} {count}' for kind, count in notes.commands.items()) or 'none'}"
        for group in GROUPS:
            for (what, reason), rows in notes.noted.items():
                if what == group:
                    yield f"  {what}: {reason}: {len(set(rows))} ({rows_text(rows)})"
    if told.complaints:
        yield f"refused: {len(told.complaints)}, and nothing was written"
        yield from (f"  {complaint}" for complaint in told.complaints)
    else:
        yield f"written: {told.written} commands"


def json_of(told: Told) -> dict[str, object]:
    """The same for programs, with all rows."""
    files = []
    for notes in told.files:
        groups: dict[str, list[dict[str, object]]] = {group.replace(" ", "_"): [] for group in GROUPS}
        for (what, reason), rows in notes.noted.items():
            listed = sorted(set(rows))
            groups[what.replace(" ", "_")].append({"reason": reason, "count": len(listed), "rows": listed})
        files.append(
            {
                "export": notes.export,
                "file": notes.file,
                "encoding": notes.encoding,
                "delimiter": notes.delimiter,
                "columns": notes.columns,
                "columns_not_read": notes.unread,
                "rows": notes.rows,
                "commands": notes.commands,
                **groups,
            }
        )
    refused = [{"file": each.file, "row": each.row, "reason": each.text} for each in told.complaints]
    return {"files": files, "refused": refused, "written": told.written}


def report_text(path: Path, told: Told) -> str:
    """A report in the form that its file's name asks for."""
    if path.suffix.lower() == ".json":
        return json.dumps(json_of(told), indent=1) + "\n"
    return "".join(f"{line}\n" for line in text_lines(told))
