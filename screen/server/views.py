"""What the pages show of a state: plain values for JSON. Each moment comes with its text by the clock of the book's zone."""

import re
from collections import defaultdict
from collections.abc import Container, Iterable, Sequence
from typing import Any

from .answers import Outage, Supply
from .commands import FIELDS, members_of
from .diagram import closed_devices, layout_of, normal_ways, supplied_nodes
from .moments import double_hours
from .reader import Command, Entry
from .state import State

Json = dict[str, Any]
TIMES = ("second", "beginning", "end", "since", "until")  # fields of commands that are moments


def text(state: State, second: int) -> str:
    return state.period.zone.text_of(second)


def moment(state: State, second: int) -> Json:
    return {"second": second, "text": text(state, second)}


def day_name(state: State, day: int) -> str:
    return state.period.days[day].isoformat()


def book_view(state: State) -> Json:
    """Names and numbers that forms complete from: they change seldom."""
    period = state.period
    return {
        "number": state.number,
        "first": moment(state, period.first),
        "last": moment(state, period.end - 1),
        "days": [day.isoformat() for day in period.days],
        "zone": period.zone.text,
        "doubles": double_hours(period.zone, period.bounds),
        "today": text(state, state.now())[:10],
        "causes": sorted(state.causes.items()),
        "nodes": [{"name": name, "kind": kind, "feeder": feeder} for name, kind, feeder in state.nodes],
        "devices": [device_view(state, number) for number in range(len(state.devices))],
        "crews": sorted(state.crews),
    }


def device_view(state: State, number: int) -> Json:
    device = state.devices[number]
    return {
        "name": device.name,
        "a": device.a,
        "b": device.b,
        "normal": "closed" if device.is_closed else "open",
        **span_view(state, device.since, device.until),
    }


def span_view(state: State, since: int, until: int | None) -> Json:
    """From when and until when, where it isn't always."""
    return {"since": text(state, since) if since else "", "until": "" if until is None else text(state, until)}


def reference_of(state: State, entry: int) -> str:
    return state.histories[entry][0].ref if state.histories.get(entry) else ""


def outages_of(state: State, outages: Iterable[Outage]) -> list[Json]:
    """Outages of sections, gathered by what cut them off; those of most customers first, as of the sections of each."""
    found: dict[tuple[int, int], list[Outage]] = defaultdict(list)
    for row in sorted(outages, key=lambda row: (-row.customers, row.section)):
        found[row.entry, 0 if row.entry else row.since].append(row)
    shown = [outage_view(state, rows) for rows in found.values()]
    return sorted(shown, key=lambda row: (-row["customers"], row["since"]["second"]))


def outage_view(state: State, rows: Sequence[Outage]) -> Json:
    """What one switching cut off: since when, until when as the book stands, and what that was."""
    number, until = rows[0].entry, max(row.until for row in rows)
    shown: Json = {
        "customers": sum(row.customers for row in rows),
        "sections": [{"section": row.section, "customers": row.customers} for row in rows],
        "feeders": sorted({state.feeder_of(row.section) for row in rows}),
        "since": moment(state, min(row.since for row in rows)),
        "until": moment(state, until) if until < state.period.end else None,
        "entry": number,
    }
    if number:
        entry = state.entries[number - 1]
        shown |= {
            "device": state.devices[entry.device].name,
            "cause": rows[0].cause,
            "cause_name": state.causes.get(rows[0].cause, ""),
            "crew": entry.crew,
            "reference": reference_of(state, number),
        }
    return shown


def news_view(state: State, commands: Sequence[Command], supply: Supply) -> list[Json]:
    """The outages that go on and were begun by switchings among some commands."""
    begun = {state.changed[each.number]: each.number for each in commands if each.kind == "switch"}
    found = outages_of(state, (row for row in supply.outages if row.entry in begun))
    return [{**row, "no": begun[row["entry"]], "ref": row["reference"]} for row in found]


def now_view(state: State, supply: Supply) -> Json:
    """Who is without supply at a second, and how all devices stand then."""
    at = supply.second
    return {
        "number": state.number,
        "at": moment(state, at),
        "outages": outages_of(state, supply.outages),
        "customers_out": sum(row.customers for row in supply.outages),
        "customers_served": sum(state.customers_at(node, at) for node in state.sections()),
        **diagram_view(state, supply),
    }


def diagram_view(state: State, supply: Supply) -> Json:
    """The one-line diagram: parts without supply first, the others by feeder."""
    at, devices = supply.second, state.devices
    closed, supplied = closed_devices(state, supply), supplied_nodes(state, supply)
    order = [(int(supplied[number]), feeder, number) for number, (_, _, feeder) in enumerate(state.nodes)]
    layout = layout_of(devices, order)
    normal, tree = normal_ways(layout, closed), {number for number, _ in layout.above.values()}
    return {
        "nodes": [
            {
                "name": name,
                "kind": kind,
                "feeder": feeder,
                "layer": layout.layer[number],
                "row": layout.row[number],
                "supplied": supplied[number],
                "by_tie": supplied[number] and not normal[number],
                "customers": state.customers_at(number, at) if kind == 2 else 0,
            }
            for number, (name, kind, feeder) in enumerate(state.nodes)
        ],
        "devices": [
            {
                "name": device.name,
                "a": device.a,
                "b": device.b,
                "closed": closed[device.number],
                "normal": device.is_closed,
                "alive": supply.alive[device.name],
                "tree": device.number in tree,
            }
            for device in devices
        ],
    }


# The switching sheet.


def statuses_of(state: State, entry: Entry, late: Container[int]) -> Json:
    """What the log marks of an entry."""
    is_corrected = any(command.kind == "correct" for command in state.histories.get(entry.number, []))
    return {"late": entry.number in late, "corrected": is_corrected, "withdrawn": not entry.is_kept}


def entry_view(state: State, entry: Entry, late: Container[int] | None = None) -> Json:
    return {
        "no": entry.number,
        "revision": entry.revision,
        "device": state.devices[entry.device].name,
        "action": "close" if entry.closes else "open",
        "second": moment(state, entry.second),
        "cause": entry.cause,
        "cause_name": state.causes.get(entry.cause, ""),
        "crew": entry.crew,
        "kept": entry.is_kept,
        **statuses_of(state, entry, state.late_entries() if late is None else late),
        "reference": reference_of(state, entry.number),
    }


def command_words(state: State, kind: str, fields: Sequence[str]) -> str:
    """What a command is, for people: its kind and all of its fields."""
    values = dict(zip(FIELDS.get(kind, ()), fields))
    for name, value in values.items():
        if name in TIMES and re.fullmatch(r"[0-9]{1,11}", value) and value != "0":
            shown = text(state, int(value))
            values[name] = f"{shown[:10]} {shown[11:19]} {shown[19:]}"
    if kind in ("switch", "correct"):
        cause = state.causes.get(int(values["cause"]), "") if values["cause"].isdecimal() else ""
        what = f"{values['position']} at {values['second']}, cause {values['cause']} {cause}, crew {values['crew']}"
        return f"{values['device']} {what}" if kind == "switch" else f"correct entry {values['entry']}: {what}"
    if kind == "withdraw":
        return f"withdraw entry {values['entry']}"
    rest = [f"{name} {value}" for name, value in values.items() if value not in ("", "-")]
    return f"{kind}: {', '.join(rest)}"


def command_view(state: State, told: Sequence[str] | None) -> Json | None:
    """A command as a page sends it, with its words; nothing where there is none."""
    if told is None:
        return None
    kind, *fields = told
    return {"command": members_of(kind, fields), "words": command_words(state, kind, fields)}


def between_view(state: State, seen: int, number: int) -> list[Json]:
    """The commands that came after one that a page had seen and before another one."""
    return [
        {
            "ref": command.ref,
            "words": command_words(state, command.kind, command.fields),
            "entry": state.changed.get(command.number),
        }
        for command in state.latest
        if seen < command.number < number
    ]


def history_view(state: State, command: Command) -> Json:
    shown: Json = {"no": command.number, "ref": command.ref, "kind": command.kind, "fields": list(command.fields)}
    if command.kind in ("switch", "correct"):
        shown["second"] = text(state, int(command.fields[-3]))
    return shown


# Customers.


def customers_view(state: State, query: dict[str, str]) -> Json:
    """The customers of a section, or the one of a number with its section."""
    section, number = query.get("section", ""), query.get("number", "")
    only = int(number) if number.isdecimal() and len(number) < 11 else None
    node = state.customers[only][0] if only in state.customers else state.node_numbers.get(section)
    if node is None or not state.is_section(node):
        return {"section": section, "customers": [], "found": 0}
    section, numbers = state.nodes[node][0], sorted(state.members[node]) if only is None else [only]
    rows = [{"no": each, **span_view(state, *state.customers[each][1:])} for each in numbers[:500]]
    return {"section": section, "customers": rows, "found": len(numbers)}
