"""What the rows of a CSV of commands say: the forms of docs/reference/FORMATS.md, for the plain programs beside this one."""

import csv
import io
import re
from collections.abc import Callable, Iterator
from datetime import date

Value = str | int  # of a field, as it is read
Reader = Callable[[str], Value | None]

HEADER = ["kind", "ref", "f1", "f2", "f3", "f4", "f5", "f6"]
MOST_ROWS = 1_000_000
LAST_SECOND = 99_999_999_999

NAMES = {
    1: "BadField",
    2: "UnknownName",
    3: "NameTaken",
    5: "OutOfPeriod",
    6: "UnknownEntry",
    7: "Stale",
    8: "Withdrawn",
    9: "UnknownCustomer",
    10: "BadService",
    11: "RefConflict",
    12: "Full",
    13: "MarkedAlready",
    14: "NotMarked",
    15: "UnknownCause",
    18: "BadLife",
}


class Refusal(Exception):
    """A refusal by its number, with its detail where it has one."""

    def __init__(self, number: int, detail: int | None = None) -> None:
        super().__init__(number, detail)
        self.number = number
        self.detail = detail

    def __str__(self) -> str:
        detail = "" if self.detail is None else f" {self.detail}"
        return f"refused {self.number} {NAMES[self.number]}{detail}"


def number_reader(digits: int, most: int) -> Reader:
    """A reader of 1 to so many digits with a value from 1 up to the most."""

    def read(text: str) -> Value | None:
        if re.fullmatch(f"[0-9]{{1,{digits}}}", text) and 1 <= int(text) <= most:
            return int(text)
        return None

    return read


def identifier_reader(most: int) -> Reader:
    """A reader of 1 to so many bytes of A to Z, 0 to 9, - and _."""

    def read(text: str) -> Value | None:
        return text if re.fullmatch(f"[A-Z0-9_-]{{1,{most}}}", text) else None

    return read


def word_reader(values: dict[str, str]) -> Reader:
    """A reader of one of some words."""
    return values.get


def read_second(text: str) -> int | None:
    """The Unix second of a moment: 1 to 11 digits, or a civil moment with its offset; None where it is neither."""
    if re.fullmatch("[0-9]{1,11}", text):
        return int(text)
    form = "([0-9]{4}-[0-9]{2}-[0-9]{2})T([0-9]{2}):([0-9]{2}):([0-9]{2})(Z|[+-][0-9]{2}:[0-9]{2})"
    match = re.fullmatch(form, text)
    if match is None:
        return None
    day, offset = match[1], match[5]
    hours, minutes, seconds = int(match[2]), int(match[3]), int(match[4])
    ahead_hours, ahead_minutes = (0, 0) if offset == "Z" else (int(offset[1:3]), int(offset[4:]))
    if read_date(day) is None or max(hours, ahead_hours) > 23 or max(minutes, seconds, ahead_minutes) > 59:
        return None
    if day.startswith("0000"):
        return None  # before second 0
    ahead = 3_600 * ahead_hours + 60 * ahead_minutes
    if offset.startswith("-"):
        ahead = -ahead
    days = (date.fromisoformat(day) - date(1970, 1, 1)).days
    second = 86_400 * days + 3_600 * hours + 60 * minutes + seconds - ahead
    return second if 0 <= second <= LAST_SECOND else None


def read_date(text: str) -> str | None:
    """A true civil date as its text; the year 0000 is one, with a leap day."""
    if re.fullmatch("[0-9]{4}-[0-9]{2}-[0-9]{2}", text) is None:
        return None
    year, month, day = int(text[:4]), int(text[5:7]), int(text[8:])
    try:
        date(year or 2000, month, day)
    except ValueError:
        return None
    return text


def read_since(text: str) -> int | None:
    """The beginning of a life: an empty one is 0."""
    return 0 if text == "" else read_second(text)


def read_until(text: str) -> Value | None:
    """The end of a service or a life: `-` is none."""
    return "-" if text == "" else read_second(text)


NAME = identifier_reader(24)
REF = identifier_reader(40)
CREW = identifier_reader(16)
CAUSE = number_reader(2, 63)
FEEDER = number_reader(3, 255)
SERIAL = number_reader(10, 4_294_967_295)
NORMAL = word_reader({"open": "open", "closed": "closed"})
ACT = word_reader({"open": "open", "close": "close"})

KINDS: dict[str, list[Reader]] = {
    "cause": [CAUSE, NAME],
    "bus": [NAME],
    "section": [NAME, FEEDER],
    "device": [NAME, NAME, NAME, NORMAL, read_since, read_until],
    "life": [NAME, read_since, read_until],
    "connect": [SERIAL, NAME, read_second, read_until],
    "revise": [SERIAL, read_second, read_until],
    "switch": [NAME, ACT, read_second, CAUSE, CREW],
    "correct": [SERIAL, SERIAL, ACT, read_second, CAUSE, CREW],
    "withdraw": [SERIAL, SERIAL],
    "mark": [read_date, CREW],
    "unmark": [read_date, CREW],
}


def read_row(row: list[str]) -> tuple[str, str, list[Value]]:
    """The reference, the kind and the fields' values of a row; the leftmost bad column refuses it."""
    if len(row) != 8:
        raise Refusal(1, 0)
    kind, ref, *texts = row
    if kind not in KINDS:
        raise Refusal(1, 1)
    if REF(ref) is None:
        raise Refusal(1, 2)
    readers = KINDS[kind]
    values: list[Value] = []
    for column, text in enumerate(texts, 3):
        if len(values) == len(readers):
            if text:
                raise Refusal(1, column)
            continue
        value = readers[len(values)](text)
        is_second_end = kind == "device" and column == 5
        if value is None or (is_second_end and value == values[1]):
            raise Refusal(1, column)
        values.append(value)
    return ref, kind, values


def body_text(kind: str, values: list[Value]) -> str:
    """The one text of a command: two spellings of a command have one."""
    return " ".join([kind, *map(str, values)])


def rows_of(data: bytes) -> Iterator[tuple[int, list[str]]]:
    """The rows of a CSV text behind its header, numbered from 1, as pairs of the number and the fields.

    Where the header is missing, or is another, row 0 is refused.
    """
    text = data.removeprefix(b"\xef\xbb\xbf").decode("latin-1")
    csv.field_size_limit(1 << 30)
    rows = (row for row in csv.reader(io.StringIO(text, newline="")) if row)
    if next(rows, None) != HEADER:
        raise RowRefusal(0, Refusal(1, 0))
    for number, row in enumerate(rows, 1):
        if number > MOST_ROWS:
            raise RowRefusal(number, Refusal(12, MOST_ROWS))
        yield number, row


class RowRefusal(Exception):
    """A refusal of a row."""

    def __init__(self, row: int, refusal: Refusal) -> None:
        super().__init__(row, refusal)
        self.row = row
        self.refusal = refusal

    def __str__(self) -> str:
        return f"{self.refusal} row {self.row}"
