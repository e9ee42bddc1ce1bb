"""Civil time by a POSIX rule such as `CET-1CEST,M3.5.0,M10.5.0/3`: offsets, midnights, the hour that comes twice.

`zoneinfo` reads such a rule at the end of a file of zone data, and the smallest of these files has nothing else. It reads
more than the book's program does, and takes some rules for others. So what a rule may be is said here first.
"""

import io
import re
import struct
from datetime import date, datetime, timedelta, timezone
from functools import lru_cache
from zoneinfo import ZoneInfo

EPOCH = datetime(1970, 1, 1, tzinfo=timezone.utc)
SECOND = timedelta(seconds=1)

LONGEST_RULE = 64
NAME = "(?:[A-Za-z]{3,15}|<[A-Za-z0-9+-]{3,15}>)"
SIXTIETHS = "(?::[0-5][0-9]){0,2}"
OFFSET = f"[+-]?(?:[01]?[0-9]|2[0-2]){SIXTIETHS}"  # an hour more in summer is less than 24 hours too
CHANGE = f"M(0?[1-9]|1[0-2])\\.([1-5])\\.[0-6](?:/[+-]?[0-9]{{1,2}}{SIXTIETHS})?"
RULE = re.compile(f"{NAME}{OFFSET}(?:{NAME}(?:{OFFSET})?,{CHANGE},{CHANGE})?")
DAY_OF_YEAR = re.compile(",J?[0-9]")
LONG_CLOCK = re.compile("/[+-]?[0-9]{3}")


class Zone:
    """The clock of a POSIX rule. Seconds are Unix seconds."""

    def __init__(self, text: str):
        """A ValueError says why the text is no rule, or is one that isn't read here."""
        check_rule(text)
        self.text = text
        self.info = zone_info(text)

    def __reduce__(self) -> tuple[type["Zone"], tuple[str]]:
        """Between processes its rule alone goes: a zone that came from no file can't be sent."""
        return Zone, (self.text,)

    def offset_at(self, second: int) -> int:
        """By how many seconds the clock is ahead of UTC."""
        offset = datetime.fromtimestamp(second, self.info).utcoffset()
        return (offset or timedelta()) // SECOND

    def instants(self, moment: datetime) -> list[int]:
        """The seconds at which the clock shows a moment: one, two in a fold, none in a gap; rising."""
        shown = moment.replace(tzinfo=None, fold=0)
        first, second = (second_of(moment.replace(tzinfo=self.info, fold=fold)) for fold in (0, 1))
        if first == second:  # neither a fold nor a gap, in which both readings differ
            return [first]
        return sorted(
            each
            for each in (first, second)
            if datetime.fromtimestamp(each, self.info).replace(tzinfo=None, fold=0) == shown
        )

    def midnight(self, day: date) -> int:
        """The second at which a date begins: the earlier one of a fold; in a gap that of the offset before it."""
        return second_of(datetime(day.year, day.month, day.day, tzinfo=self.info, fold=0))

    def text_of(self, second: int) -> str:
        """A second by this clock with its offset: `2025-03-27T14:22:10+01:00`."""
        return datetime.fromtimestamp(second, self.info).isoformat()

    def short_text(self, second: int) -> str:
        """A second by this clock without its offset, to be read by people: `2025-03-27 14:22:10`."""
        return self.text_of(second)[:19].replace("T", " ")


def second_of(moment: datetime) -> int:
    """The Unix second of a moment whose offset is known."""
    return (moment - EPOCH) // SECOND


def check_rule(text: str) -> None:
    """What the program refuses is refused here, and what `zoneinfo` takes for another rule."""
    if not text.isascii() or not 1 <= len(text) <= LONGEST_RULE:
        raise ValueError(f"{text!r} is no POSIX rule of a zone: it has 1 to {LONGEST_RULE} ASCII characters")
    match = RULE.fullmatch(text)
    if match is None:
        raise ValueError(f"{text!r} is no POSIX rule of a zone{hint_for(text)}")
    for month, week in (match.group(1, 2), match.group(3, 4)):
        if month and (int(month), int(week)) in [(1, 1), (12, 4), (12, 5)]:
            raise ValueError(f"{text!r} changes the clock about New Year, which isn't read here")


def hint_for(text: str) -> str:
    """What may be wrong with a rule."""
    if DAY_OF_YEAR.search(text):
        return (
            " that is read here: it changes the clock on a day of the year, not of a month, week and weekday (M3.5.0)"
        )
    if LONG_CLOCK.search(text):
        return " that is read here: it changes the clock more than 99 hours from its day"
    return ", such as CET-1CEST,M3.5.0,M10.5.0/3"


@lru_cache(maxsize=None)
def zone_info(rule: str) -> ZoneInfo:
    """The zone of a rule, by a file of zone data (TZif, version 2; RFC 8536) without any change of its own."""
    head = struct.pack(">4sc15x6l", b"TZif", b"2", 0, 0, 0, 0, 1, 4)  # one kind of time, named by four bytes
    data = struct.pack(">lBB4s", 0, 0, 0, b"UTC")  # UTC, which no second has: the rule is for all
    file = head + data + head + data + b"\n" + rule.encode("ascii") + b"\n"
    try:
        return ZoneInfo.from_file(io.BytesIO(file), key=rule)
    except ValueError as error:
        raise ValueError(f"{rule!r} is no POSIX rule of a zone: {error}") from None
