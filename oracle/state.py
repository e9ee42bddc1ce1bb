"""What was said in accepted commands, and what a command is refused for: for the plain programs beside this one."""

import os
import time
from abc import ABC, abstractmethod
from bisect import bisect_right
from collections.abc import Iterator
from datetime import date, timedelta
from typing import Literal

from commands import Refusal, RowRefusal, Value, body_text, read_row, rows_of

End = int | Literal["-"]  # of a service or a life: a second, or none
Imported = tuple[int, int, RowRefusal | None]  # how many were added, how many came again, the refusal

DAY = 86_400
MOST_NODES = 1_024
MOST_DEVICES = 2_048
MOST_CUSTOMERS = 100_000
MOST_ENTRIES = 50_000
MOST_COMMANDS = 1_000_000


def offset_of(second: int) -> int:
    """How far the clock of the zone is ahead of UTC."""
    return time.localtime(second).tm_gmtoff


def midnight_of(day: date) -> int:
    """The second of a date's midnight: the earlier one of a fold; in a gap that of the offset before it."""
    civil = (day - date(1970, 1, 1)).days * DAY
    before, after = offset_of(civil - 2 * DAY), offset_of(civil + 2 * DAY)
    seconds = [civil - offset for offset in {before, after} if offset_of(civil - offset) == offset]
    return min(seconds, default=civil - before)


class Period:
    """Whole civil days of a zone, by the seconds at which they begin; the last bound is the end."""

    def __init__(self, first: str, days: int, zone: str) -> None:
        self.zone = zone
        self.days = [date.fromisoformat(first) + timedelta(days=number) for number in range(days + 1)]
        os.environ["TZ"] = zone
        time.tzset()
        self.bounds = [midnight_of(day) for day in self.days]
        self.first, self.end = self.bounds[0], self.bounds[-1]
        self.length = self.end - self.first

    def holds(self, second: int) -> bool:
        return self.first <= second < self.end

    def day_of(self, second: int) -> int:
        return bisect_right(self.bounds, second) - 1

    def index_of(self, text: str) -> int | None:
        """The number of a date's day, None where it lies outside."""
        texts = [day.isoformat() for day in self.days[:-1]]
        return texts.index(text) if text in texts else None

    def parts(self, since: int, until: int) -> Iterator[tuple[int, int]]:
        """The days that an interval touches, each with its number of seconds."""
        while since < until:
            day = self.day_of(since)
            end = min(until, self.bounds[day + 1])
            yield day, end - since
            since = end


class Device:
    """A device with its life: outside the seconds from `since` up to `until`, or "-" for without end, it is open."""

    def __init__(self, name: str, ends: tuple[str, str], normal: str, since: int, until: End) -> None:
        self.name = name
        self.ends = ends
        self.normal = normal
        self.since, self.until = since, until

    def is_alive(self, second: int) -> bool:
        return self.since <= second and (self.until == "-" or second < self.until)

    def turns(self) -> list[int]:
        """The seconds at which its life begins and ends."""
        return [self.since] if self.until == "-" else [self.since, self.until]


class Entry:
    """A line of the switching sheet. Its position is `open` or `closed`."""

    def __init__(self, device: str) -> None:
        self.device = device
        self.revision = 1
        self.is_kept = True

    def say(self, act: str, second: int, cause: int, crew: str) -> None:
        self.position = "closed" if act == "close" else "open"
        self.second, self.cause, self.crew = second, cause, crew


class State(ABC):
    """What was said. Nodes are names; a node's feeder is None where it is no section.

    Commands and their references are kept by those who derive from it.
    """

    def __init__(self, period: Period) -> None:
        self.period = period
        self.causes = {0: "UNASSIGNED"}
        self.feeders: dict[str, int | None] = {"GRID": None}
        self.devices: dict[str, Device] = {}
        self.customers: dict[int, tuple[str, int, End]] = {}  # number: section, since, until
        self.entries: list[Entry] = []
        self.marks: dict[int, str] = {}  # day: engineer

    @abstractmethod
    def known(self, ref: str) -> tuple[int, str] | None:
        """The number and the body of a reference's command, None where there is none."""

    @abstractmethod
    def accepted(self) -> int:
        """How many commands were accepted."""

    @abstractmethod
    def accept(self, ref: str, kind: str, values: list[Value], body: str) -> int:
        """Takes a command that nothing refuses; answers its number."""

    def act(self, row: list[str]) -> int | None:
        """Takes the command of a row: its number, or None where it was accepted before. A refusal changes nothing."""
        ref, kind, values = read_row(row)
        body = body_text(kind, values)
        known = self.known(ref)
        if known:
            number, known_body = known
            refuse_if(body != known_body, 11, number)
            return None
        self.check(kind, values)
        return self.accept(ref, kind, values, body)

    def check(self, kind: str, values: list[Value]) -> None:
        """Raises what a command under a new reference is refused for."""
        getattr(self, f"check_{kind}")(*values)
        refuse_if(self.accepted() == MOST_COMMANDS, 12, MOST_COMMANDS)

    def say(self, kind: str, values: list[Value]) -> None:
        """What an accepted command changes."""
        getattr(self, f"say_{kind}")(*values)

    def import_text(self, data: bytes) -> Imported:
        """Acts the rows of a text up to the first refusal: how many were added, how many again, the refusal or None."""
        added, again = 0, 0
        try:
            for number, row in rows_of(data):
                try:
                    if self.act(row) is None:
                        again += 1
                    else:
                        added += 1
                except Refusal as refusal:
                    return added, again, RowRefusal(number, refusal)
        except RowRefusal as refusal:
            return added, again, refusal
        return added, again, None

    # What each kind is refused for, in the order in which it is looked for.

    def check_cause(self, code: int, name: str) -> None:
        refuse_if(code in self.causes or name in self.causes.values(), 3)

    def check_bus(self, name: str, _feeder: int | None = None) -> None:
        refuse_if(name in self.feeders, 3)
        refuse_if(len(self.feeders) == MOST_NODES, 12, MOST_NODES)

    check_section = check_bus

    def check_device(self, name: str, a: str, b: str, _normal: str, since: int, until: End) -> None:
        refuse_if(a not in self.feeders or b not in self.feeders, 2)
        refuse_if(name in self.devices, 3)
        refuse_if(until != "-" and until <= since, 18)
        refuse_if(len(self.devices) == MOST_DEVICES, 12, MOST_DEVICES)

    def check_life(self, name: str, since: int, until: End) -> None:
        refuse_if(name not in self.devices, 2)
        refuse_if(until != "-" and until <= since, 18)

    def check_connect(self, number: int, section: str, since: int, until: End) -> None:
        refuse_if(self.feeders.get(section) is None, 2)
        refuse_if(number in self.customers, 3)
        refuse_if(until != "-" and until <= since, 10)
        refuse_if(len(self.customers) == MOST_CUSTOMERS, 12, MOST_CUSTOMERS)

    def check_revise(self, number: int, since: int, until: End) -> None:
        refuse_if(number not in self.customers, 9)
        refuse_if(until != "-" and until <= since, 10)

    def check_switch(self, device: str, _act: str, second: int, cause: int, _crew: str) -> None:
        refuse_if(device not in self.devices, 2)
        refuse_if(not self.period.holds(second), 5)
        refuse_if(cause not in self.causes, 15)
        refuse_if(len(self.entries) == MOST_ENTRIES, 12, MOST_ENTRIES)

    def check_withdraw(self, number: int, revision: int) -> None:
        refuse_if(number > len(self.entries), 6)
        entry = self.entries[number - 1]
        refuse_if(not entry.is_kept, 8)
        refuse_if(revision != entry.revision, 7, entry.revision)

    def check_correct(self, number: int, revision: int, _act: str, second: int, cause: int, _crew: str) -> None:
        self.check_withdraw(number, revision)
        refuse_if(not self.period.holds(second), 5)
        refuse_if(cause not in self.causes, 15)

    def check_mark(self, day: str, _engineer: str) -> None:
        refuse_if(self.period.index_of(day) is None, 5)
        refuse_if(self.period.index_of(day) in self.marks, 13)

    def check_unmark(self, day: str, _engineer: str) -> None:
        refuse_if(self.period.index_of(day) is None, 5)
        refuse_if(self.period.index_of(day) not in self.marks, 14)

    # What each kind does.

    def say_cause(self, code: int, name: str) -> None:
        self.causes[code] = name

    def say_bus(self, name: str, feeder: int | None = None) -> None:
        self.feeders[name] = feeder

    say_section = say_bus

    def say_device(self, name: str, a: str, b: str, normal: str, since: int, until: End) -> None:
        self.devices[name] = Device(name, (a, b), normal, since, until)

    def say_life(self, name: str, since: int, until: End) -> None:
        self.devices[name].since, self.devices[name].until = since, until

    def say_connect(self, number: int, section: str, since: int, until: End) -> None:
        self.customers[number] = (section, since, until)

    def say_revise(self, number: int, since: int, until: End) -> None:
        self.customers[number] = (self.customers[number][0], since, until)

    def say_switch(self, device: str, act: str, second: int, cause: int, crew: str) -> None:
        self.entries.append(Entry(device))
        self.entries[-1].say(act, second, cause, crew)

    def say_correct(self, number: int, _revision: int, act: str, second: int, cause: int, crew: str) -> None:
        self.entries[number - 1].say(act, second, cause, crew)
        self.entries[number - 1].revision += 1

    def say_withdraw(self, number: int, _revision: int) -> None:
        self.entries[number - 1].is_kept = False
        self.entries[number - 1].revision += 1

    def day_said(self, text: str) -> int:
        """The number of a day that was found to be in the period."""
        day = self.period.index_of(text)
        assert day is not None
        return day

    def say_mark(self, day: str, engineer: str) -> None:
        self.marks[self.day_said(day)] = engineer

    def say_unmark(self, day: str, _engineer: str) -> None:
        del self.marks[self.day_said(day)]


def is_old(body: str, has_entries: bool) -> bool:
    """Whether version 1 had a command: no life, each device in service for ever, no part once there is an entry."""
    kind, *fields = body.split()
    if kind == "life" or (kind == "device" and fields[4:] != ["0", "-"]):
        return False
    return kind not in ["bus", "section", "device"] or not has_entries


def refuse_if(condition: bool, number: int, detail: int | None = None) -> None:
    if condition:
        raise Refusal(number, detail)
