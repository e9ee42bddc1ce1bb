"""What switchings, corrections and withdrawals moved, late ones among them, and devices that join and leave."""

from collections import defaultdict
from collections.abc import Iterable, Iterator
from dataclasses import dataclass, replace

from outage_tools.commands import Command, read_commands
from outage_tools.compare import Checked
from outage_tools.forms import Figures, Value
from outage_tools.rows import CAUSE, Book, Entry


def moved_by(found: Checked) -> dict[int, tuple[int, int]]:
    """Of each command that moved something: by how much W, and how much in its dimension that it moved most."""
    select = "SELECT cmd, dim, sum(delta), sum(abs(delta)) FROM moved GROUP BY cmd, dim"
    moved: dict[int, tuple[int, int]] = {}
    for command, dim, net, gross in found.database.execute(select):
        was_net, was_gross = moved.get(command, (0, 0))
        moved[command] = net if dim == CAUSE else was_net, max(gross, was_gross)
    return moved


@dataclass(frozen=True)
class Work:
    """A switching, a correction or a withdrawal: by how many seconds it lies before the latest departure from a normal position
    that a command before it has, and what it moved. (Returns are entered before their departures where rows come from files.)

    `own` is what the outage as a whole changed W by: at the second half of a late outage both halves, at a withdrawal
    what it takes back too, at the first half nothing yet, else as moved. `others` are the commands that it is told with.
    """

    command: Command
    entry: int
    behind: int
    net: int
    gross: int
    own: int | None
    others: tuple[int, ...] = ()

    @property
    def is_late(self) -> bool:
        """It isn't a switching in the order of time."""
        return self.behind > 0 or self.command.kind != "switch"

    @property
    def kind(self) -> str:
        return "late switch" if self.behind and self.command.kind == "switch" else self.command.kind


def works_of(found: Checked) -> list[Work]:
    """All switchings, corrections and withdrawals in the order of their commands."""
    moved = moved_by(found)
    latest = 0
    works = []
    for command in read_commands(found.database):
        if command.entry is None:
            continue
        second = second_of(command)
        behind = max(0, latest - second) if second is not None else 0
        if second is not None and departs(found.book, command):
            latest = max(latest, second)
        net, gross = moved.get(command.number, (0, 0))
        works.append(Work(command, command.entry, behind, net, gross, net))
    return as_wholes(found.book, works)


def departs(book: Book, command: Command) -> bool:
    """A switching by which a device leaves its normal position."""
    if command.kind != "switch" or command.entry is None:
        return False
    device = book.devices[book.entries[command.entry - 1].device]
    return device.is_closed == (command.fields[1] == "open")


def as_wholes(book: Book, works: list[Work]) -> list[Work]:
    """The works with what their outages as wholes changed W by."""
    of_entry: dict[int, list[Work]] = defaultdict(list)
    for work in works:
        of_entry[work.entry].append(work)
    before: dict[int, list[Work]] = {}
    first_halves = set()
    for opening, closing in outages_of(book):
        first, second = sorted((of_entry[opening][0], of_entry[closing][0]), key=lambda work: work.command.number)
        if first.is_late and second.is_late:
            before[second.command.number] = [first]
            first_halves.add(first.command.number)
    for work in works:
        if work.command.kind == "withdraw":
            before[work.command.number] = of_entry[work.entry][:-1]
    return [with_others(work, before.get(work.command.number, []), first_halves) for work in works]


def with_others(work: Work, others: list[Work], first_halves: set[int]) -> Work:
    """A work as a part of its outage."""
    if work.command.number in first_halves:
        return replace(work, own=None)
    own = work.net + sum(other.net for other in others)
    return replace(work, own=own, others=tuple(other.command.number for other in others))


def outages_of(book: Book) -> Iterator[tuple[int, int]]:
    """Each opening that the next switching of its device closed again: the numbers of both entries, as they count now."""
    of_device: dict[int, list[Entry]] = defaultdict(list)
    for entry in sorted(book.entries, key=lambda entry: (entry.second, entry.number)):
        if entry.is_kept:
            of_device[entry.device].append(entry)
    for entries in of_device.values():
        for entry, following in zip(entries, entries[1:]):
            if not entry.closes and following.closes:
                yield entry.number, following.number


def second_of(command: Command) -> int | None:
    """The second that a switching or a correction tells."""
    place = {"switch": 2, "correct": 3}.get(command.kind)
    return int(command.fields[place]) if place is not None else None


def switchings(found: Checked, late_alone: bool = False) -> Figures:
    """Switchings, corrections and withdrawals with what each moved, those that moved most first."""
    columns = {
        "command": "the command's number",
        "reference": "its reference",
        "kind": "switch, late switch, correct or withdraw",
        "entry": "the entry that it made or changed",
        "device": "the entry's device",
        "position": "open or close; empty for a withdrawal",
        "second": "the second that it enters, by the clock of the book's zone",
        "behind": "by how many seconds that lies before the latest departure from a normal position entered before it",
        "cause": "the cause's code that it enters",
        "crew": "the crew that it enters",
        "moved": "by how many customer-seconds it changed W",
        "shifted": "how much it moved in all, in the dimension (cause, feeder, day) in which this is most",
        "own": "what the outage as a whole changed W by: a late opening and its closing together, counted at the second of"
        " them; a withdrawal with what it takes back; else as moved",
        "with": "the commands that are in it too",
    }
    works = [work for work in works_of(found) if work.is_late or not late_alone]
    if not late_alone:
        works.sort(key=lambda work: (-work.gross, work.command.number))
    about = [
        "What each command moved when it was accepted: an opening takes the rest of the period, its closing gives it back.",
        "A switching is late if a departure from a normal position at a later second had been entered before: the book"
        " knows the order of commands, not when they were sent.",
    ]
    if late_alone:
        about.append(
            f"Late entries, corrections and withdrawals alone, in their order. They moved W by "
            f"{sum(work.net for work in works)} in all, and by {own_sum(works)} with what withdrawals took back."
        )
    return Figures("switchings", about, columns, [work_values(found.book, work) for work in works])


def own_sum(works: Iterable[Work]) -> int:
    """What outages as wholes changed W by."""
    return sum(work.own for work in works if work.own is not None)


def work_values(book: Book, work: Work) -> list[Value]:
    command, second = work.command, second_of(work.command)
    said = {"switch": command.fields[1:], "correct": command.fields[2:], "withdraw": ["", "", "", ""]}[command.kind]
    return [
        command.number,
        command.ref,
        work.kind,
        work.entry,
        book.devices[book.entries[work.entry - 1].device].name,
        said[0],
        "" if second is None else book.period.zone.text_of(second),
        work.behind,
        said[2],
        said[3],
        work.net,
        work.gross,
        "" if work.own is None else work.own,
        " ".join(map(str, work.others)),
    ]


def life_of(command: Command) -> tuple[int, int | None]:
    """The life that a `device` or a `life` says."""
    since, until = command.fields[-2:]
    return int(since), None if until == "-" else int(until)


def lives(found: Checked) -> Figures:
    """Devices that join and leave, with what each command moved that said so."""
    columns = {
        "command": "the command's number",
        "reference": "its reference",
        "kind": "device or life",
        "device": "the device whose in-service interval it enters",
        "since": "when the interval begins, by the clock of the book's zone; empty: the device was there before",
        "until": "when it ends; empty: without end",
        "moved": "by how many customer-seconds it changed W",
        "shifted": "how much it moved in all, in the dimension (cause, feeder, day) in which this is most",
    }
    about = [
        "Every `life` and every `device` with a life that begins or ends, and what each moved when it was accepted.",
        "A later `life` of the same device takes the place of an earlier one.",
    ]
    moved = moved_by(found)
    rows: list[list[Value]] = []
    for command in read_commands(found.database):
        if command.kind not in ("device", "life") or (command.kind == "device" and life_of(command) == (0, None)):
            continue
        since, until = life_of(command)
        texts = [found.book.period.zone.text_of(second) if second else "" for second in (since, until)]
        rows.append(
            [command.number, command.ref, command.kind, command.fields[0], *texts, *moved.get(command.number, (0, 0))]
        )
    return Figures("lives", about, columns, rows)
