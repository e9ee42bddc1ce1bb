"""The kinds of commands that a book knows, each with the names of its fields; a command as an object of texts."""

from collections.abc import Mapping, Sequence

FIELDS: dict[str, tuple[str, ...]] = {
    "cause": ("code", "name"),
    "bus": ("name",),
    "section": ("name", "home feeder"),
    "device": ("name", "first node", "second node", "normal position", "beginning", "end"),
    "life": ("device", "beginning", "end"),
    "connect": ("customer", "section", "since", "until"),
    "revise": ("customer", "since", "until"),
    "switch": ("device", "position", "second", "cause", "crew"),
    "correct": ("entry", "revision", "position", "second", "cause", "crew"),
    "withdraw": ("entry", "revision"),
    "mark": ("day", "engineer"),
    "unmark": ("day", "engineer"),
}


def members_of(kind: str, fields: Sequence[str]) -> dict[str, str]:
    """A command as the desk and pages write it: its fields as f1 to f6."""
    return {"kind": kind, **{f"f{place}": text for place, text in enumerate(fields, 1)}}


def fields_of(members: Mapping[str, str]) -> list[str]:
    """The fields of such an object; one that is left out is empty."""
    return [members.get(f"f{place}", "") for place, _ in enumerate(FIELDS.get(members.get("kind", ""), ()), 1)]
