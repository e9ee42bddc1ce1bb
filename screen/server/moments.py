"""Moments as people type them: by the clock of the book's zone, with the offset where that clock shows an hour twice."""

import re
import time
from bisect import bisect_left
from collections.abc import Sequence
from datetime import date, datetime, timedelta

from .reader import Zone
from .state import Refused

UNIX = re.compile(r"\d{7,11}", re.ASCII)
TYPED = re.compile(
    r"(?:(\d{4}-\d\d-\d\d|\d{1,2}\.\d{1,2}\.\d{4}|today|yesterday)[ T])?"
    r"(\d{1,2}):?(\d\d)(?::?(\d\d))? ?(Z|[+-]\d\d:\d\d)?",
    re.ASCII | re.IGNORECASE,
)
DAYS_BACK = {"today": 0, "yesterday": 1}
LAST = 99_999_999_999
AHEAD_SECONDS = 60  # that a clock may go before the server's


def double_hours(zone: Zone, bounds: Sequence[int]) -> list[tuple[str, str]]:
    """The times of some days that the clock shows twice: of each span the first one, and the one at which it ends."""
    found = []
    for since, until in zip(bounds, bounds[1:]):
        offset = zone.offset_at(since)
        back = offset - zone.offset_at(until)
        if back > 0:
            turn = since + bisect_left(range(since, until), True, key=lambda at: zone.offset_at(at) < offset)
            begin = datetime.fromisoformat(zone.text_of(turn)[:19])
            found.append((begin.isoformat(), (begin + timedelta(seconds=back)).isoformat()))
    return found


def day_of_word(zone: Zone, word: str) -> date:
    """Today or yesterday, by the clock of the book's zone."""
    today = date.fromisoformat(zone.text_of(int(time.time()))[:10])
    return today - timedelta(days=DAYS_BACK[word.lower()])


def date_of(zone: Zone, typed: str) -> date:
    """A date as it is typed: `2026-11-28`, `28.11.2026`, or a word."""
    if typed.lower() in DAYS_BACK:
        return day_of_word(zone, typed)
    day, _, rest = typed.partition(".")
    month, _, year = rest.partition(".")
    return date(int(year), int(month), int(day)) if rest else date.fromisoformat(typed)


def read_moment(zone: Zone, text: str, may_come: bool = False) -> list[int]:
    """The seconds that a typed moment may mean: one, or two where the clock shows it twice. Without a date it is the latest
    one that has come; where it `may_come`, that of today."""
    text = text.strip()
    if UNIX.fullmatch(text):
        return [int(text)]
    text = f"{text} 00:00" if text.lower() in DAYS_BACK else text
    match = TYPED.fullmatch(text)
    if match is None:
        example = f"{day_of_word(zone, 'today')} 06:10:00"
        raise Refused(f"a moment is typed as {example}, or 06:10 for today, by the clock of the book's zone")
    day, *clock = match.groups()
    try:
        found = seconds_of(zone, date_of(zone, day or "today"), *clock)
        if not day and not may_come:
            come = [each for each in found if each <= time.time() + AHEAD_SECONDS]
            found = come or seconds_of(zone, day_of_word(zone, "yesterday"), *clock) if found else []
    except (ValueError, OverflowError):
        raise Refused(f"{text} is no date and time") from None
    if not found:
        raise Refused(f"the clock of the book's zone never shows {text}: it is set forward over that hour")
    if not all(0 <= each <= LAST for each in found):
        raise Refused(f"{text} lies outside of what a book can hold")
    return found


def seconds_of(zone: Zone, day: date, hour: str, minute: str, second: str | None, offset: str | None) -> list[int]:
    """The seconds at which the clock shows a time of a day: none, one or two."""
    shown = datetime.fromisoformat(f"{day}T{hour:0>2}:{minute}:{second or '00'}{(offset or '').upper()}")
    return [int(shown.timestamp())] if offset else zone.instants(shown)
