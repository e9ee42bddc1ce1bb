"""A whole outage: what its steps would do one after the other, the order in which they are sent, and the entries that it has."""

import json
from collections import defaultdict
from collections.abc import Sequence
from itertools import chain

from .answers import NotPlanned
from .commands import FIELDS
from .desk import Away
from .forecasts import changes_of, forecast_view, notes_of, refusal_words, second_of
from .names import outage_in
from .office import Office
from .reader import Entry, Moves
from .deskcopy import Step, Tried
from .state import NotNow, Refused, State
from .views import Json, entry_view, reference_of

MOST_STEPS = 30
SHOWN = ("words", "reason", "total", "future", "late", "sections", "hints", "is_change")  # of the forecast of each step
SECONDS = {"switch": 3, "correct": 4}  # where a step has its second


def steps_in(text: str) -> list[Step]:
    """The steps that a page asks about."""
    try:
        found = json.loads(text)
    except (ValueError, RecursionError):
        raise Refused("the list of steps is no JSON") from None
    if not isinstance(found, list) or not 1 <= len(found) <= MOST_STEPS or not all(map(is_step, found)):
        raise Refused(f"a list has 1 to {MOST_STEPS} switchings, corrections or withdrawals, each with its fields")
    return found


def is_step(found: object) -> bool:
    words = [each for each in found if isinstance(each, str)] if isinstance(found, list) else []
    if words != found or not words or words[0] not in (*SECONDS, "withdraw") or len(words) != 1 + len(FIELDS[words[0]]):
        return False
    second = words[SECONDS[words[0]]] if words[0] in SECONDS else "0"
    return second.isdecimal() and len(second) < 12


async def forecast(office: Office, steps: Sequence[Step]) -> Json:
    """What some steps would do, as they were tried on a copy of the desk: each on what those before it in time leave, all
    together, and what each moves in the order in which they are sent."""
    state, in_time = office.state, order_in_time(steps)
    order = order_to_send(state, steps, in_time)
    try:
        tried, *sent = await office.copy.walk(state, steps, [in_time] if order == in_time else [in_time, order])
    except NotPlanned as refused:
        kind, *fields = steps[refused.reply["step"]]
        raise Refused(f"step {refused.reply['step'] + 1}: {refusal_words(state, kind, fields, refused)}") from None
    except Away as away:
        raise NotNow(f"what these steps would do isn't known now, since they can't be tried: {away}") from None
    rows, before = list[Json](), state
    for place, step in zip(in_time, tried):
        rows.append({**step_view(before, steps[place], step), "place": place})
        before = before.after(*steps[place])
    kind, *fields = steps[in_time[0]]
    plans = [each.plan for each in tried]
    whole = forecast_view(state, kind, fields, added([plan.moves for plan in plans]), changes_of(plans))
    return {
        **whole,
        "late": max(row["late"] for row in rows),
        "future": max(row["future"] for row in rows),
        "words": "; ".join(row["words"] for row in rows),
        "steps": rows,
        "order": list(order),
        "sent": [[list(move) for move in each.plan.moves] for each in (sent or [tried])[0]],
    }


def step_view(state: State, step: Step, tried: Tried) -> Json:
    """What a step would do; of the sections those whose supply changes at its second, and not only later on."""
    kind, *fields = step
    shown = forecast_view(state, kind, fields, tried.plan.moves, changes_of([tried.plan]))
    shown |= notes_of(state, kind, fields, tried.before, bool(shown["sections"]))
    second = second_of(kind, fields)
    shown["sections"] = [row for row in shown["sections"] if second in (None, row["since"]["second"])]
    return {name: shown[name] for name in SHOWN}


def added(lists: Sequence[Moves]) -> Moves:
    """Moves of several commands, added up: as the desk lists them."""
    sums: dict[tuple[str, int], int] = defaultdict(int)
    for dim, key, amount in chain.from_iterable(lists):
        sums[dim, key] += amount
    places = ("cause", "feeder", "day")
    kept = [(dim, key, amount) for (dim, key), amount in sums.items() if amount]
    return sorted(kept, key=lambda move: (places.index(move[0]), move[1]))


def order_in_time(steps: Sequence[Step]) -> list[int]:
    """Switchings by their second; with corrections or withdrawals among them as they are given."""
    places = range(len(steps))
    are_switchings = all(step[0] == "switch" for step in steps)
    return sorted(places, key=lambda place: int(steps[place][3])) if are_switchings else list(places)


def order_to_send(state: State, steps: Sequence[Step], in_time: list[int]) -> list[int]:
    """Of an outage that is over the returns to the normal position come first: while the rest is sent, nobody is shown it as
    going on. Steps of one second keep their order, which counts."""
    seconds = [int(step[3]) for step in steps if step[0] == "switch"]
    if len(set(seconds)) < len(steps) or max(seconds) > state.now():
        return in_time
    return sorted(in_time, key=lambda place: not is_return(state, steps[place]))


def is_return(state: State, step: Step) -> bool:
    device = state.device_numbers.get(step[1])
    return device is not None and state.devices[device].is_closed == (step[2] == "close")


def outage_view(state: State, number: int) -> Json:
    """The entries of an outage, by time, found by one of them: those whose references have its name."""
    name = outage_in(reference_of(state, number))

    def is_part(entry: Entry) -> bool:
        return entry.is_kept and name is not None and outage_in(reference_of(state, entry.number)) == name

    entries = [entry for entry in state.entries if entry.number == number or is_part(entry)]
    entries.sort(key=lambda each: (each.second, each.number))
    return {"outage": name, "entries": [entry_view(state, entry, set()) for entry in entries]}
