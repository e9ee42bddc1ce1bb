"""What a page shows of what a command would do: the desk's plan, with the sections that lose or get back supply, what a person
should know who enters it, and why a closing gives nobody back supply."""

from collections.abc import Iterable, Mapping, Sequence

from .answers import Interval, NotPlanned, Plan, Supply
from .commands import FIELDS
from .diagram import closed_devices, layout_of, supplied_nodes
from .office import Office
from .reader import Moves
from .refusals import words_of
from .state import LATE_SECONDS, Refused, State
from .to_now import is_live, marks_view
from .views import Json, command_words, moment

FUTURE_SECONDS = 60  # clocks of browsers and servers differ
MOST_NAMED = 3  # devices above one that is closed
NO_COPY = "How it moves the SAIDI without major event days isn't known now: there is no copy of the book to try it on."
Seconds = list[tuple[int, int]]  # from one up to another
Parts = Mapping[str, tuple[Seconds, Seconds]]  # by section: what is lost, and what is got back
Changes = Mapping[str, tuple[Sequence[Interval], Sequence[Interval]]]  # by section: its outages before and after


async def forecast(office: Office, kind: str, fields: Sequence[str]) -> Json:
    """What a command would do as the book stands."""
    if kind not in FIELDS:
        raise Refused(f"there is no change {kind}")
    try:
        planned = await office.plan(kind, fields)
    except NotPlanned as refused:
        raise Refused(refusal_words(office.state, kind, fields, refused)) from None
    second = second_of(kind, fields)
    supply = None if second is None else await office.supply(second)
    shown = forecast_view(office.state, kind, fields, planned.moves, changes_of([planned]))
    shown |= notes_of(office.state, kind, fields, supply, bool(shown["sections"]))
    if kind in ("mark", "unmark"):
        shown["unmarked"] = await marks_view(office, kind, fields)
        shown["hints"] += [] if shown["unmarked"] else [NO_COPY]
    return shown


def refusal_words(state: State, kind: str, fields: Sequence[str], refused: NotPlanned) -> str:
    """Why the desk wouldn't take a command, as a part of a sentence."""
    words = words_of(state, kind, fields, refused.reply)
    return words[0].lower() + words[1:].removesuffix(".")


def second_of(kind: str, fields: Sequence[str]) -> int | None:
    """The second at which an entry acts that is made or changed."""
    text = fields[-3] if kind in ("switch", "correct") else ""
    return int(text) if text.isdecimal() else None


def changes_of(plans: Iterable[Plan]) -> Changes:
    """The sections that some plans change, each on what those before it leave: their outages before and after all."""
    found: dict[str, tuple[Sequence[Interval], Sequence[Interval]]] = {}
    for planned in plans:
        for row in planned.changes:
            found[row.section] = found.get(row.section, (row.before,))[0], row.after
    return found


def forecast_view(state: State, kind: str, fields: Sequence[str], moves: Moves, changes: Changes) -> Json:
    second, parts = second_of(kind, fields), changed_parts(state, changes)
    ahead = 0 if second is None else second - state.now()
    total = sum(amount for dim, _, amount in moves if dim == "cause")
    return {
        "number": state.number,
        "is_change": kind in ("correct", "withdraw"),
        "sections": sections_of(state, parts),
        "moved": [list(move) for move in moves],
        "total": total,
        "up_to_now": up_to_now(state, total, parts),
        "hints": [],
        "reason": None,
        "unmarked": None,
        "future": ahead if ahead > FUTURE_SECONDS else 0,
        "late": -ahead if kind == "switch" and -ahead > LATE_SECONDS else 0,
        "words": command_words(state, kind, fields),
    }


def changed_parts(state: State, changes: Changes) -> Parts:
    """The sections whose supply changes, each with the seconds that are lost and those that are got back. One that would join
    the network isn't there yet."""
    known = ((name, *changes[name]) for name in changes if name in state.node_numbers)
    found = {name: (uncovered(after, before), uncovered(before, after)) for name, before, after in known}
    return {name: parts for name, parts in found.items() if any(parts)}


def up_to_now(state: State, total: int, parts: Parts) -> int | None:
    """What has passed of a total that counts to the end of a period that goes on; None where it doesn't."""
    now, sides = state.now(), [(name, *side) for name, pair in parts.items() for side in zip((1, -1), pair)]
    spans = [(state.node_numbers[name], sign, *span) for name, sign, seconds in sides for span in seconds]
    if not is_live(state) or all(until < state.period.end for *_, until in spans):
        return None
    return total - sum(sign * state.served(node, max(since, now), until) for node, sign, since, until in spans)


def sections_of(state: State, parts: Parts) -> list[Json]:
    """The sections whose supply changes: how many seconds, and the customers when that begins."""
    rows: list[Json] = []
    for name, (lost, back) in parts.items():
        since, until = min(part[0] for part in lost + back), max(part[1] for part in lost + back)
        shown: Json = {"section": name, "feeder": state.feeder_of(name)}
        shown["customers"] = state.customers_at(state.node_numbers[name], since)
        shown |= {"since": moment(state, since), "until": moment(state, until)}
        rows.append({**shown, "loses": length(lost), "gets_back": length(back)})
    return sorted(rows, key=lambda row: (row["feeder"], row["section"]))


def length(parts: Seconds) -> int:
    return sum(until - since for since, until in parts)


def uncovered(outages: Sequence[Interval], others: Sequence[Interval]) -> Seconds:
    """The seconds of some outages that lie in none of others; both rising."""
    parts = []
    for since, until, _ in outages:
        for begin, end, _ in others:
            if end <= since or begin >= until:
                continue
            if since < begin:
                parts.append((since, begin))
            since = max(since, end)
        if since < until:
            parts.append((since, until))
    return parts


def notes_of(state: State, kind: str, fields: Sequence[str], supply: Supply | None, changes_supply: bool) -> Json:
    """What a person should know who enters a switching, by the supply at its second before it; nothing of it is a refusal."""
    is_switch = kind == "switch"
    if supply is None or not is_switch and int(fields[0]) > len(state.entries):
        return {"hints": [], "reason": None}
    closes = fields[-4] == "close"
    device = state.device_numbers[fields[0]] if is_switch else state.entries[int(fields[0]) - 1].device
    name, hints = state.devices[device].name, []
    if is_switch and not supply.alive[name]:
        hints.append(f"{name} isn't in the network at that second: the entry acts from the start of a later life on.")
    if is_switch and supply.closed[name] == closes:
        hints.append(f"{name} is {'closed' if closes else 'open'} at that second already.")
    entry = len(state.entries) + 1 if is_switch else int(fields[0])
    reason = still_cut_off(state, supply, device, entry) if closes and not changes_supply else None
    return {"hints": hints, "reason": reason}


def still_cut_off(state: State, supply: Supply, number: int, entry: int) -> str | None:
    """What keeps a device without supply at the second at which an entry closes it; nothing where it gets supply then. The
    supply is that before the entry."""
    device, second = state.devices[number], supply.second
    same = [each for each in state.entries if each.device == number and each.is_kept and each.second == second]
    if not supply.alive[device.name] or any(each.number > entry for each in same):
        return None
    closed, supplied = closed_devices(state, supply), supplied_nodes(state, supply)
    if supplied[device.a] or supplied[device.b]:
        return None
    closed[number] = True
    above = open_above(state, number, closed)
    words = [open_words(state, supply, each) for each in above[:MOST_NAMED]]
    more = f" and {len(above) - MOST_NAMED} more" if len(above) > MOST_NAMED else ""
    why = f"above it {', '.join(words)}{more}" if words else "no way leads from GRID to it"
    return f"Still cut off: {why}."


def open_above(state: State, number: int, closed: list[bool]) -> list[int]:
    """The open devices between a device and GRID, by the ways of normal positions; the nearest one first."""
    layout = layout_of(state.devices, [(node,) for node in range(len(state.nodes))])
    node = min((state.devices[number].a, state.devices[number].b), key=lambda each: layout.layer[each])
    found = []
    while node in layout.above:
        over, node = layout.above[node]
        found += [] if closed[over] else [over]
    return found


def open_words(state: State, supply: Supply, number: int) -> str:
    """Since when a device is open."""
    device = state.devices[number]
    entry = state.last_entry(device, supply.second)
    if not supply.alive[device.name]:
        return f"{device.name} isn't in the network"
    if entry is None:
        return f"{device.name} is normally open"
    return f"{device.name} is open since {state.period.zone.short_text(entry.second)}"
