"""What a shift did and hands over: the log by time of sending, what was entered since a time and by whom, open outages,
marked days."""

import re
import time
from collections.abc import Iterable
from datetime import timedelta
from itertools import islice

from .answers import Outage
from .journal import ELSEWHERE, IMPORT, Sending
from .moments import DAYS_BACK, LAST, date_of, read_moment
from .names import name_in
from .office import Office
from .reader import Past
from .state import Refused, State
from .views import Json, command_words, day_name, entry_view, moment, outages_of, text

SHIFT_SECONDS = 8 * 3_600
MOST_ROWS = 500
DAY = re.compile(r"\d{4}-\d\d-\d\d", re.ASCII)
OTHER = "another program"
MADE = {"switch": "entered", "correct": "corrected", "withdraw": "withdrawn"}


# From when, until when, and by whom.


def bound_of(state: State, typed: str, is_end: bool) -> int:
    """The second of a moment; a day alone is its first second, or as an end the one after its last."""
    zone, typed = state.period.zone, typed.strip()
    if typed.lower() in DAYS_BACK or DAY.fullmatch(typed):
        try:
            found = zone.midnight(date_of(zone, typed) + timedelta(days=int(is_end)))
        except (ValueError, OverflowError):
            raise Refused(f"{typed} is no day") from None
        if not 0 <= found <= LAST:
            raise Refused(f"{typed} lies outside of what a book can hold")
        return found
    return read_moment(zone, typed, may_come=is_end)[-1 if is_end else 0]


def bounds_of(state: State, wanted: dict[str, str], since: int) -> tuple[int, int]:
    """The seconds that are asked for, from the first up to the last; where none are told, from one up to now."""
    begin, end = wanted.get("since", "").strip(), wanted.get("until", "").strip()
    first = bound_of(state, begin, False) if begin else since
    last = bound_of(state, end, True) if end else int(time.time()) + 1
    if begin and end and first >= last:
        raise Refused("the time until which has to lie after the one since which")
    return first, last


# The log.


def log_view(office: Office, wanted: dict[str, str]) -> list[Json]:
    """What was sent, latest first."""
    since, until = bounds_of(office.state, wanted, 0)
    found = office.journal.between(since, until, wanted.get("name", "").strip().upper())
    return [sending_view(office.state, each) for each in islice(found, MOST_ROWS)]


def sending_view(state: State, sending: Sending) -> Json:
    entry = state.changed.get(sending.number) if sending.number else None
    return {
        "at": text(state, sending.at),
        "by": sending.login or OTHER,
        "reference": sending.reference,
        "words": words_of(state, sending),
        "remark": sending.remark,
        "result": result_of(sending, entry),
        "entry": entry,
    }


def words_of(state: State, sending: Sending) -> str:
    if sending.kind == IMPORT:
        return "a file of changes"
    if sending.kind == ELSEWHERE:
        return elsewhere_words(state, *(sending.commands or (0, 0)))
    words = command_words(state, sending.kind, sending.fields)
    device = device_of(state, sending.fields[0]) if sending.kind in ("correct", "withdraw") else ""
    return words + (f" ({device})" if device else "")


def elsewhere_words(state: State, first: int, last: int) -> str:
    """Commands of another program; a single one by what it is, where it is one of the latest."""
    found = next((each for each in state.latest if each.number == first == last), None)
    if found is None:
        return f"{last - first + 1} changes" if first < last else "a change"
    return f"{command_words(state, found.kind, found.fields)} ({found.ref})"


def device_of(state: State, entry: str) -> str:
    """The device of an entry, for words that name its number alone."""
    known = re.fullmatch(r"\d{1,6}", entry, re.ASCII) and 1 <= int(entry) <= len(state.entries)
    return state.devices[state.entries[int(entry) - 1].device].name if known else ""


def result_of(sending: Sending, entry: int | None) -> str:
    """What came of it, in words."""
    numbers = sending.commands and numbers_words(*sending.commands)
    if sending.outcome == "refused":
        return f"refused: {sending.refusal}" + (f"; saved before it: {numbers}" if numbers else "")
    if sending.outcome == "unanswered":
        return "no answer: it isn't known whether it is saved"
    if sending.number is None:
        return f"saved: {numbers}" if numbers else "saved already"
    return f"saved: {numbers_words(sending.number, sending.number)}" + (f", entry {entry}" if entry else "")


def numbers_words(first: int, last: int) -> str:
    return f"changes no. {first} to {last}" if first < last else f"change no. {first}"


# What a shift hands over.


async def shift_view(office: Office, wanted: dict[str, str]) -> Json:
    """Open outages, and what changed from a second up to another, by whom."""
    state, part = office.state, wanted.get("name", "").strip().upper()
    since, until = bounds_of(state, wanted, (int(time.time()) - SHIFT_SECONDS) // 60 * 60)
    supply, past = await office.supply(state.now()), await office.past()
    sendings = list(office.journal.between(since, until, part))
    entered = entered_by(state, sendings)
    rest = [each for each in sendings if not is_entered(state, each)]
    return {
        "number": state.number,
        "as_of": moment(state, supply.second),
        "since": moment(state, since),
        "until": moment(state, min(until, int(time.time()))),
        "open": outages_of(state, supply.outages),
        "ended": ended_view(state, past, since, until),
        "entered": entered_view(state, dict(islice(entered.items(), MOST_ROWS))),
        "entered_found": len(entered),
        "rest": [sending_view(state, each) for each in rest[:MOST_ROWS]],
        "rest_found": len(rest),
        "unanswered": sum(is_open(office, each) for each in sendings),
    }


def is_entered(state: State, sending: Sending) -> bool:
    """Whether the list of entries tells all of a sending."""
    if sending.kind == ELSEWHERE and sending.commands is not None:
        return len(numbers_of(state, sending)) > sending.commands[1] - sending.commands[0]
    return sending.kind in MADE and sending.outcome == "saved"


def is_open(office: Office, sending: Sending) -> bool:
    """Whether a sending has no answer, nor another one under its reference."""
    others = (each for each in office.journal.sendings if each.reference == sending.reference)
    return sending.outcome == "unanswered" and all(each.outcome == "unanswered" for each in others)


def entered_view(state: State, found: dict[int, list[Json]]) -> list[Json]:
    """Entries as they are now, by the time of switching, each with what was done to it."""
    late = state.late_entries()
    entries = sorted((state.entries[number - 1] for number in found), key=lambda entry: (entry.second, entry.number))
    return [{**entry_view(state, entry, late), "done": found[entry.number]} for entry in entries]


def entered_by(state: State, sendings: Iterable[Sending]) -> dict[int, list[Json]]:
    """What was done to each entry that was made or changed, latest first."""
    found: dict[int, list[Json]] = {}
    for sending in sendings:
        for number in numbers_of(state, sending):
            entry = state.changed[number]
            command = next(each for each in state.histories[entry] if each.number == number)
            by = sending.login or name_in(command.ref) or OTHER
            done = {"what": MADE[command.kind], "at": moment(state, sending.at), "by": by, "no": number}
            if all(each["no"] != number for each in found.setdefault(entry, [])):
                found[entry].append({**done, "remark": sending.remark})
    return found


def numbers_of(state: State, sending: Sending) -> list[int]:
    """The commands of a sending that made or changed an entry, latest first."""
    first, last = (sending.number, sending.number) if sending.number is not None else sending.commands or (1, 0)
    return [number for number in range(last, first - 1, -1) if number in state.changed]


def ended_view(state: State, past: Past, since: int, until: int) -> list[Json]:
    """The outages that ended from a second up to another, and not at the period's end, with their customers when they began."""
    end, found = min(until, state.now() + 1, state.period.end), list[Outage]()
    for name, rows in past.items():
        for begun, ended, entry in (row for row in rows if since <= row[1] < end):
            cause = state.entries[entry - 1].cause if entry else 0
            customers = state.customers_at(state.node_numbers[name], begun)
            found.append(Outage(name, begun, ended, entry, cause, customers))
    return outages_of(state, found)


def marks_view(office: Office) -> list[Json]:
    """The marked days, each with who marked it, and when, where the log knows that."""
    state, rows = office.state, list[Json]()
    marks = (each for each in office.journal.sendings if each.kind == "mark" and each.outcome == "saved")
    told = {tuple(each.fields): each for each in marks}
    for number, engineer in sorted(state.marks.items()):
        day = day_name(state, number)
        found = told.get((day, engineer))
        at, login = (moment(state, found.at), found.login) if found else (None, "")
        rows.append({"day": day, "engineer": engineer, "at": at, "login": login})
    return rows
