"""The fields of rows: names, numbers, zones and moments."""

import re
from datetime import date, datetime, time, timedelta, timezone
from functools import lru_cache

from outage_tools.oms.complaints import BadRow
from outage_tools.zone import EPOCH, SECOND, Zone

LATEST_MOMENT = 99_999_999_999
LATEST_YEAR = 5138  # whose moments a book reads, but for its last weeks
SHOWN = 60  # characters of a field that are shown

CLOCK = "([0-9]{2}):([0-9]{2})(?::([0-9]{2})(?:[.,]([0-9]{1,9}))?)?"
ISO = re.compile(f"([0-9]{{4}}-[0-9]{{2}}-[0-9]{{2}})(?:[T ]{CLOCK} ?(Z|[+-][0-9]{{2}}(?::?[0-9]{{2}})?)?)?")
NUMBER = re.compile("([0-9]{1,10})(?:[.,](0+))?")
CLOCK_WORDS = re.compile("%[HIMSXcp]")

Civil = tuple[datetime, bool]  # a moment by a clock or with its offset, and whether its time of day was told


def shown(text: str) -> str:
    """A field as it is told, not all of a long one."""
    return repr(text if len(text) <= SHOWN else f"{text[:SHOWN]}..")


@lru_cache(maxsize=None)
def names_up_to(most: int) -> re.Pattern[str]:
    """The names of at most so many characters."""
    return re.compile(f"[A-Z0-9_-]{{1,{most}}}")


def identifier(text: str, most: int, what: str) -> str:
    """A name in capitals: letters, digits, - and _."""
    name = text.upper()
    if not names_up_to(most).fullmatch(name) or not text.isascii():
        raise BadRow(f"{what} {shown(text)} isn't 1 to {most} of A-Z, 0-9, - and _")
    return name


def number(text: str, most: int, what: str) -> int:
    """A whole number in digits, from 1 on; a decimal point or comma may have noughts behind it, unless they may be thousands."""
    match = NUMBER.fullmatch(text)
    if match is None or not 1 <= int(match.group(1)) <= most:
        raise BadRow(f"{what} {shown(text)} isn't a number from 1 to {most}")
    if match.group(2) and len(match.group(2)) == 3:
        raise BadRow(f"{what} {shown(text)} may be thousands or a decimal fraction: write it without")
    return int(match.group(1))


@lru_cache(maxsize=1_000)
def read_zone(text: str) -> Zone:
    """The clock of a POSIX rule."""
    try:
        return Zone(text)
    except ValueError as error:
        raise BadRow(str(error)) from None


def check_format(text: str) -> str:
    """A format of dates in the words of `strptime`; a ValueError says where it doesn't tell a whole date."""
    for day in (datetime(2004, 2, 29), datetime(2025, 10, 21)):
        try:
            read = datetime.strptime(day.strftime(text), text)
        except (ValueError, re.error, OverflowError) as error:
            raise ValueError(f"{text!r} is no format of dates: {error}") from None
        if read.date() != day.date():
            raise ValueError(f"{text!r} doesn't give the year, the month and the day of a date")
    return text


def iso_civil(text: str, what: str) -> Civil | None:
    """A moment in the spelling of ISO 8601, `2025-10-21 08:14:05` or `2025-10-21T08:14+02:00`; a day ends at 24:00."""
    match = ISO.fullmatch(text)
    if match is None:
        return None
    day_text, hour, minute, second, fraction, offset = match.groups()
    try:
        day = date.fromisoformat(day_text)
        if hour is None:
            return datetime.combine(day, time()), False
        if int(fraction or 0):
            raise BadRow(f"{what} {shown(text)} has a fraction of a second")
        ends_day = (hour, minute, second or "00") == ("24", "00", "00")
        clock = time() if ends_day else time(int(hour), int(minute), int(second or 0))
        moment = datetime.combine(day, clock) + timedelta(days=ends_day)
        return moment.replace(tzinfo=offset_of(offset) if offset else None), True
    except (ValueError, OverflowError):
        return None


def offset_of(text: str) -> timezone:
    """`Z`, `+01`, `+0100` or `+01:00`; a ValueError where it is a day or more."""
    if text == "Z":
        return timezone.utc
    digits = text[1:].replace(":", "").ljust(4, "0")
    if digits[2:] > "59":
        raise ValueError(text)
    ahead = timedelta(hours=int(digits[:2]), minutes=int(digits[2:]))
    return timezone(-ahead if text[0] == "-" else ahead)


def formatted_civil(text: str, pattern: str, what: str) -> Civil | None:
    """A moment in a format of the user's."""
    try:
        moment = datetime.strptime(text, pattern)
    except (ValueError, OverflowError, re.error):
        return None
    if moment.microsecond:
        raise BadRow(f"{what} {shown(text)} has a fraction of a second")
    return moment, CLOCK_WORDS.search(pattern) is not None


def civil_of(text: str, formats: tuple[str, ...], what: str) -> Civil:
    """The moment that a text tells; one that it tells in two ways is refused."""
    readings = [iso_civil(text, what), *(formatted_civil(text, pattern, what) for pattern in formats)]
    found = [reading for reading in readings if reading is not None]
    if len(found) == 1:
        return found[0]
    if not found:
        raise BadRow(
            f"{what} {shown(text)} is no time such as 2025-10-21 08:14:05 (--date-format gives another spelling)"
        )
    found = sorted(set(found), key=str)
    if len({moment for moment, _ in found}) > 1:
        raise BadRow(f"{what} {shown(text)} may be {' or '.join(str(moment) for moment, _ in found)}")
    return found[0]


@lru_cache(maxsize=50_000)  # registers have many services that begin on one day, and a check reads a file twice
def read_moment(
    text: str, hour: str, zone: Zone | None, what: str, formats: tuple[str, ...] = (), wants_clock: bool = False
) -> int:
    """The second of a local time, or of a time with its offset; before 1970 it is negative. `hour` is A for the first, B for
    the second reading of the hour that comes twice in autumn; without it such a time is refused, and so is one that no clock
    showed. A date alone is the second at which the day begins."""
    moment, has_clock = civil_of(text, formats, what)
    if wants_clock and not has_clock:
        raise BadRow(f"{what} {shown(text)} has no time of day")
    if moment.tzinfo is None and zone is None:
        raise BadRow(f"{what} {shown(text)} has no zone: give the column zone, --zone or --book")
    second = second_of(moment, has_clock, hour, zone, what)
    if second > LATEST_MOMENT:
        raise BadRow(
            f"{what} {shown(text)} lies after {LATEST_YEAR}, which no book reads: leave it empty where there is no end"
        )
    return second


def second_of(moment: datetime, has_clock: bool, hour: str, zone: Zone | None, what: str) -> int:
    """The second of a moment with its offset, or by the clock of a zone."""
    if zone is None or moment.tzinfo is not None or not 1969 <= moment.year <= LATEST_YEAR:
        return (moment.replace(tzinfo=moment.tzinfo or timezone.utc) - EPOCH) // SECOND
    if not has_clock:
        return zone.midnight(moment.date())
    seconds = zone.instants(moment)
    if not seconds:
        raise BadRow(f"{what} {moment} was shown by no clock: the hour was left out")
    if len(seconds) == 1:
        return seconds[0]
    if hour.upper() not in ("A", "B"):
        raise BadRow(f"{what} {moment} came twice: its hour is A (the first) or B (the second)")
    return seconds["AB".index(hour.upper())]


def moment_text(second: int, zone: Zone | None) -> str:
    """A moment with its offset written, which a book reads."""
    if zone is None or zone.offset_at(second) % 60:
        zone = Zone("UTC0")
    return zone.text_of(second)


def life_texts(since: int | None, until: int | None, zone: Zone | None) -> tuple[str | None, str | None]:
    """The two ends of a life or a service as a book reads them; None where there is none."""
    return (
        None if since is None else moment_text(since, zone),
        None if until is None else moment_text(until, zone),
    )
