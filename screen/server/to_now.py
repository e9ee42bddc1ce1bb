"""Figures up to a second: what a book whose period goes on says before its open outages are counted to the period's end.

They are the desk's figures of the whole period, less what outages that the desk knows of count behind that second for the
customers who are in service then. At the period's end nothing is left out.
"""

import time
from collections import defaultdict
from collections.abc import Container, Iterable, Sequence
from fractions import Fraction

from .answers import Outage
from .desk import Away
from .office import Office
from .reader import LONGEST_MOMENTARY, Counts, indices_of, quotient_text
from .state import State
from .views import Json, day_name, moment

NAMES = ("SAIFI", "SAIDI", "CAIDI", "ASAI")
MOST_LATER = 200  # seconds to come at which something is switched


def is_live(state: State) -> bool:
    """Whether the period goes on: some of it has passed, and some is to come."""
    return state.period.first < int(time.time()) < state.period.end


async def outages_behind(office: Office, end: int) -> list[Outage]:
    """The outages that last at a second, and those that begin later on."""
    state = office.state
    seconds = {entry.second for entry in state.entries if entry.is_kept}
    seconds |= {bound for device in state.devices for bound in (device.since, device.until) if bound}
    later = sorted(second for second in seconds if end < second < state.period.end)
    if len(later) > MOST_LATER:
        raise Away(f"switchings at {len(later)} seconds to come are entered already")
    found: dict[tuple[str, int], Outage] = {}
    for second in [end, *later] if end < state.period.end else []:
        for row in (await office.supply(second)).outages:
            found[row.section, row.since] = row
    return list(found.values())


def indices_up_to(
    state: State, indices: Json, end: int, behind: Iterable[Outage], marked: Container[int]
) -> dict[str, list[str]]:
    """The indices up to a second, as the annual table writes them: from the desk's, with the outages behind that second cut
    there; those that begin on a marked day are left out."""
    counts, first = Counts(indices["sustained"]), state.period.first
    if counts.sustained:
        counts.sustained_seconds = int(Fraction(indices["caidi"]) * 60 * counts.sustained)
    for row in behind:
        for since, until, customers in state.within(state.node_numbers[row.section], row.since, row.until):
            if state.period.day_of(since) not in marked:
                count(counts, -customers, until - since)
                count(counts, customers, min(until, end) - since)
    served = sum(state.served(node, first, end) for node in state.sections())
    found = indices_of(counts, served, end - first)
    return {name: quotient_text(found[name]).split() for name in NAMES}


def count(counts: Counts, customers: int, seconds: int) -> None:
    if seconds > LONGEST_MOMENTARY:
        counts.sustained += customers
        counts.sustained_seconds += customers * seconds


async def figures(office: Office, end: int) -> Json:
    """The figures of the book up to a second."""
    state, behind = office.state, await outages_behind(office, end)
    totals, indices = await office.view("/totals"), await office.view("/indices")
    marks: dict[str, Container[int]] = {"all": (), "unmarked": state.marks}
    of_sets = {name: indices_up_to(state, indices[name], end, behind, marked) for name, marked in marks.items()}
    return {
        "indices": {name: {each: of_sets[each][name] for each in marks} for name in NAMES},
        **amounts_up_to(state, totals, end, behind),
    }


def amounts_up_to(state: State, totals: Json, end: int, behind: Sequence[Outage]) -> Json:
    """Customer-seconds without supply before a second, by cause, feeder and day: the desk's, less those behind it."""
    today = state.period.day_of(end)
    less: dict[tuple[str, int], int] = defaultdict(int)
    for row in behind:
        node, since = state.node_numbers[row.section], max(row.since, end)
        amount = state.served(node, since, row.until)
        less["cause", row.cause] += amount
        less["feeder", state.nodes[node][2]] += amount
        if today < len(state.period.days):
            less["day", today] += state.served(node, since, min(row.until, state.period.bounds[today + 1]))
    rows = {
        dim: [[key, amount - less[dim, key]] for key, amount in totals[dim] if amount > less[dim, key]]
        for dim in ("cause", "feeder", "day")
    }
    days = [[day_name(state, day), amount, day in state.marks] for day, amount in rows["day"] if day <= today]
    parts = {"causes": rows["cause"], "feeders": rows["feeder"], "days": days}
    return {"W": sum(amount for _, amount in rows["cause"]), **parts}


async def to_now_view(office: Office) -> Json:
    """What the year says up to now; nothing where its period is over or hasn't begun, or why it can't be had."""
    state = office.state
    if not is_live(state):
        return {"open": 0, "to_now": None}
    now = state.now()
    outages = (await office.supply(now)).outages
    shown: Json = {"open": len({row.entry for row in outages if row.until == state.period.end})}
    try:
        shown["to_now"] = {"at": moment(state, now), **await figures(office, now)}
    except Away as away:
        shown |= {"to_now": None, "why": str(away)}
    return shown


async def marks_view(office: Office, kind: str, fields: Sequence[str]) -> Json | None:
    """The unmarked SAIDI before a day is marked or unmarked, and after it, as the desk's copy says once it is done there: up to
    now where the period goes on, and of the whole period as the book stands. None where there is no copy."""
    state = office.state
    try:
        found = [indices["unmarked"] for indices in await office.copy.indices_around(kind, fields)]
    except Away:
        return None
    marks = state.marks.keys(), state.marks.keys() ^ {state.day_number(fields[0])}

    async def saidi(end: int) -> list[str]:
        behind = await outages_behind(office, end)
        shown = (indices_up_to(state, indices, end, behind, marked) for indices, marked in zip(found, marks))
        return [each["SAIDI"][-1] for each in shown]

    ends = {"to_now": state.now()} if is_live(state) else {}
    return {name: await saidi(end) for name, end in {**ends, "whole": state.period.end}.items()}
