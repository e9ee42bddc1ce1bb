"""The search of the switching log: which entries some filters ask for. What can't be read is refused, and says why."""

import re
from collections.abc import Callable

from .moments import DAYS_BACK, day_of_word
from .names import NAME
from .reader import Entry, Past
from .state import Refused, State
from .views import Json, day_name, entry_view, statuses_of, text

PAGE_ROWS = 100
FIELDS = ("device", "crew", "cause", "section", "feeder", "day", "marked")
STATUSES = ("late", "corrected", "withdrawn")
ORDERS = ("", "newest", "second", "entered")
Test = Callable[[Entry], bool]


def wants_past(wanted: dict[str, str]) -> bool:
    """Whether a search asks for what cut sections off."""
    return any(wanted.get(name, "").strip() for name in ("section", "feeder"))


def sheet_view(state: State, wanted: dict[str, str], past: Past) -> Json:
    """A page of the entries that are asked for: the latest switching first, or the earliest, or what was entered last; `past` are
    all outages, where they are asked for."""
    search = Search(state, past)
    tests = search.tests(wanted)
    found = [entry for entry in state.entries if all(test(entry) for test in tests)]
    if wanted.get("order", "") not in ORDERS:
        raise Refused(f"there is no order {wanted['order']}")
    if wanted.get("order") != "entered":
        found.sort(key=lambda entry: (entry.second, entry.number))
    if wanted.get("order") != "second":
        found.reverse()
    begin = int(wanted["from"]) if re.fullmatch(r"\d{1,5}", wanted.get("from", ""), re.ASCII) else 0
    return {
        "number": state.number,
        "found": len(found),
        "of": len(state.entries),
        "day": day_of(state, wanted["day"]) if wanted.get("day") else "",
        "rows": [entry_view(state, entry, search.late) for entry in found[begin : begin + PAGE_ROWS]],
    }


def day_of(state: State, typed: str) -> str:
    """A day of the period: YYYY-MM-DD, or today or yesterday by the clock of the book's zone."""
    is_word = typed.lower() in DAYS_BACK
    day = day_of_word(state.period.zone, typed).isoformat() if is_word else typed
    if day not in {each.isoformat() for each in state.period.days}:
        first, last = day_name(state, 0), day_name(state, len(state.period.days) - 1)
        what = f"{typed}, {day}," if is_word else typed
        raise Refused(f"{what} is no day of the book's period: days are typed as {first}, from then to {last}")
    return day


class Search:
    """What each field of a search asks of an entry."""

    def __init__(self, state: State, past: Past):
        self.state, self.past, self.late = state, past, state.late_entries()

    def tests(self, wanted: dict[str, str]) -> list[Test]:
        """What all fields ask for; an empty field asks for nothing."""
        typed = {name: wanted.get(name, "").strip() for name in FIELDS}
        return [getattr(self, f"of_{name}")(words) for name, words in typed.items() if words]

    def of_device(self, typed: str) -> Test:
        devices, name = self.state.devices, typed.upper()
        if not any(name in device.name for device in devices):
            raise Refused(f"no device has {name} in its name")
        return lambda entry: name in devices[entry.device].name

    def of_crew(self, typed: str) -> Test:
        name = typed.upper()
        if not NAME.fullmatch(name):
            raise Refused(f"the crew {typed[:40]} can't be read, it has to be of A-Z, 0-9, - and _, 16 at most")
        return lambda entry: name in entry.crew

    def of_cause(self, typed: str) -> Test:
        if typed not in map(str, self.state.causes):
            raise Refused(f"there is no cause {typed}")
        return lambda entry: str(entry.cause) == typed

    def of_day(self, typed: str) -> Test:
        day = day_of(self.state, typed)
        return lambda entry: text(self.state, entry.second)[:10] == day

    def of_section(self, typed: str) -> Test:
        part = typed.upper()
        return self.of_sections(lambda name, *_: part in name, f"has {part} in its name")

    def of_feeder(self, typed: str) -> Test:
        return self.of_sections(lambda *node: str(node[2]) == typed, f"has the home feeder {typed}")

    def of_sections(self, is_meant: Callable[[str, int, int], bool], words: str) -> Test:
        """Entries of the devices at some sections, and those that cut them off."""
        nodes = self.state.nodes
        found = {node: nodes[node][0] for node in self.state.sections() if is_meant(*nodes[node])}
        if not found:
            raise Refused(f"no section {words}")
        at_them = {device.number for device in self.state.devices if device.a in found or device.b in found}
        cutters = {entry for name in found.values() for _, _, entry in self.past.get(name, ())}
        return lambda entry: entry.device in at_them or entry.number in cutters

    def of_marked(self, typed: str) -> Test:
        if typed not in STATUSES:
            raise Refused(f"entries are {', '.join(STATUSES)}, and not {typed}")
        return lambda entry: bool(statuses_of(self.state, entry, self.late)[typed])
