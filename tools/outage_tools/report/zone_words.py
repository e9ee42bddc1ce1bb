"""The rule of a zone in words: `CET-1CEST,M3.5.0,M10.5.0/3` as a reader of a page wants it."""

import re
from dataclasses import dataclass

MONTHS = ["January", "February", "March", "April", "May", "June", "July", "August", "September", "October"]
MONTHS += ["November", "December"]
WEEKDAYS = ("Sunday", "Monday", "Tuesday", "Wednesday", "Thursday", "Friday", "Saturday")
WEEKS = ("first", "second", "third", "fourth", "last")
HOUR = 3_600
CHANGED_AT = 2 * HOUR  # where a rule names no time of the day

NAME = "(<[^>]*>|[A-Za-z]+)"
CLOCK = "([+-]?[0-9:]+)"
RULE = re.compile(f"{NAME}{CLOCK}(?:{NAME}{CLOCK}?,([^,]*),([^,]*))?")
CHANGE = re.compile(f"M([0-9]+)\\.([0-9])\\.([0-9])(?:/{CLOCK})?")


@dataclass(frozen=True)
class Clock:
    """A clock of a zone: its name, and by how many seconds it is ahead of UTC."""

    name: str
    ahead: int

    @property
    def text(self) -> str:
        if not self.ahead:
            return "UTC" if self.name == "UTC" else f"{self.name}, which is UTC"
        one = "hour" if abs(self.ahead) == HOUR else "hours"
        return f"{self.name}, {hours_text(abs(self.ahead))} {one} {'ahead of' if self.ahead > 0 else 'behind'} UTC"


def seconds_of(text: str) -> int:
    """Hours, minutes and seconds with a sign in seconds."""
    parts = [int(part) for part in text.lstrip("+-").split(":")]
    amount = sum(part * unit for part, unit in zip(parts, (HOUR, 60, 1)))
    return -amount if text.startswith("-") else amount


def clock_text(seconds: int) -> str:
    """A time of the day: `02:00`."""
    hours, rest = divmod(abs(seconds), HOUR)
    shown = f"{hours:02}:{rest // 60:02}" + (f":{rest % 60:02}" if rest % 60 else "")
    return f"\u2212{shown}" if seconds < 0 else shown


def hours_text(seconds: int) -> str:
    """A number of hours: `5`, `5:30`."""
    return str(seconds // HOUR) if seconds % HOUR == 0 else clock_text(seconds).removeprefix("0")


def change_text(rule: str) -> str:
    """The moment at which the clock is changed: `the last Sunday of March, 02:00`."""
    match = CHANGE.fullmatch(rule)
    if match is None:
        return rule
    month, week, day, at = match.groups()
    moment = clock_text(seconds_of(at) if at else CHANGED_AT)
    return f"the {WEEKS[int(week) - 1]} {WEEKDAYS[int(day)]} of {MONTHS[int(month) - 1]}, {moment}"


def zone_words(rule: str) -> str:
    """The clocks of a zone and when they change; a rule that has no such words as it stands."""
    match = RULE.fullmatch(rule)
    if match is None:
        return rule
    name, offset, summer_name, summer_offset, begin, end = match.groups()
    standard = Clock(name.strip("<>"), -seconds_of(offset))
    if summer_name is None:
        return standard.text
    ahead = -seconds_of(summer_offset) if summer_offset else standard.ahead + HOUR
    summer = Clock(summer_name.strip("<>"), ahead)
    return f"{standard.text}; {summer.text}, from {change_text(begin)}, to {change_text(end)}"
