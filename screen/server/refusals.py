"""The desk's refusals in a person's words, beside their number."""

from collections.abc import Sequence
from typing import Any

from .commands import FIELDS
from .state import State
from .views import entry_view, text

FIRST_FIELD = 3
SHOWN_LETTERS = 40  # of a text that can't be read
NAME = "1 to 24 of A-Z, 0-9, - and _"
CREW, MOMENT = "1 to 16 of A-Z, 0-9, - and _", "a second, or a moment with its offset"
SPELLINGS = {
    **dict.fromkeys(("crew", "engineer"), CREW),
    **dict.fromkeys(("second", "since", "until", "beginning", "end"), MOMENT),
    **dict.fromkeys(("code", "cause"), "a number of 1 to 2 digits"),
    **dict.fromkeys(("customer", "entry", "revision"), "a number of 1 to 10 digits"),
    "home feeder": "a number from 1 to 255",
    "day": "a date",
    "position": "open or close",
    "normal position": "open or closed",
}
PLAIN = {
    3: "The name, the code or the customer's number is in use already.",
    6: "No entry of the sheet has this number.",
    8: "The entry was withdrawn: it stays on the sheet and acts no more.",
    9: "No customer has this number.",
    10: "The end of the service has to lie after its beginning.",
    13: "The day is marked already.",
    14: "The day isn't marked.",
    15: "No cause has this code.",
    18: "The end of the life has to lie after its beginning: look at the field of the end.",
}


def words_of(state: State, kind: str, fields: Sequence[str], reply: dict[str, Any]) -> str:
    """What a refusal means for the command that was refused."""
    number, detail = reply.get("refused"), reply.get("detail")
    if number == 1:
        return bad_field(kind, fields, detail)
    if number == 2:
        return unknown_name(state, kind, fields)
    if number == 5:
        first, last = text(state, state.period.first), text(state, state.period.end - 1)
        return f"The second or the day lies outside the book's period, which goes from {first} to {last}."
    if number == 7:
        return f"Somebody changed this entry: it has revision {detail} by now. Look at what it is, and correct that if need be."
    if number == 11:
        return f"This reference was used for another change, no. {detail} of the book. Nothing was done."
    if number == 12:
        return f"The book is full here: it takes {detail} of these."
    return PLAIN.get(number if isinstance(number, int) else 0, "The book's server refused this change.")


def bad_field(kind: str, fields: Sequence[str], column: object) -> str:
    """Which field can't be read, and what it has to be."""
    names = FIELDS.get(kind, ())
    place = column - FIRST_FIELD if isinstance(column, int) else -1
    if not 0 <= place < len(names):
        return f"The {'reference' if column == 2 else 'change'} can't be read."
    name, text = names[place], fields[place][:SHOWN_LETTERS]
    words = SPELLINGS.get(name, NAME)
    return f"The {name} {text} can't be read, it has to be {words}." if text else f"The {name} is missing."


def unknown_name(state: State, kind: str, fields: Sequence[str]) -> str:
    """The field whose name the book doesn't know: its refusal doesn't say which."""
    for field, value in zip(FIELDS[kind], fields):
        is_device = field == "device"
        is_node = field in ("first node", "second node", "section")
        if (is_device and value not in state.device_numbers) or (is_node and value not in state.node_numbers):
            return f"The book knows no {field} {value}."
        if field == "section" and not state.is_section(state.node_numbers[value]):
            return f"{value} is a bus: customers are on sections."
    return "The book knows no such name."


def stale_entry(state: State, kind: str, fields: Sequence[str]) -> dict[str, Any] | None:
    """What the entry of a correction or a withdrawal is now."""
    number = int(fields[0]) if kind in ("correct", "withdraw") and fields[0].isdecimal() else 0
    return entry_view(state, state.entries[number - 1]) if 1 <= number <= len(state.entries) else None
