"""What is implausible in single rows of outages, and in those of one ticket or one device."""

from collections import defaultdict
from collections.abc import Iterator
from dataclasses import replace
from fractions import Fraction

from outage_tools.implausible.draft import total_of
from outage_tools.implausible.lines import (
    Line,
    Look,
    begin_of,
    hours_text,
    named,
    percent,
    places_of,
    step_text,
)
from outage_tools.interruptions import LONGEST_MOMENTARY
from outage_tools.oms.steps import Step
from outage_tools.rows import Entry
from outage_tools.supply import interruptions_of, sweep


def by_weight(look: Look, steps: list[Step]) -> list[Step]:
    """The steps with most customer-seconds first."""
    return sorted(steps, key=lambda step: (-look.draft.seconds_of([step]), -look.length(step), step.number))


def long_steps(look: Look) -> Iterator[Line]:
    """Devices that are closed normally and stay open for long; what isn't over lasts up to the exports."""
    found = by_weight(look, [step for step in look.outages if look.length(step) > look.limits.long])
    if not found:
        return
    seconds = sum(weight(look, step) for step in found)
    head = f"steps over {look.limits.long // 3_600} h ({len(found)})"
    yield Line("long", f"{head}: {named(found, look.lasting)}", seconds, places_of(found))


def weight(look: Look, step: Step) -> int:
    """The customer-seconds of what a step has begun; of one that begins no outage, those behind its device while it lasts."""
    begun = look.draft.seconds_of([step])
    return begun or look.draft.out_in(look.draft.behind(step.device, begin_of(step)), *look.span(step))


def without_length(look: Look) -> Iterator[Line]:
    """Steps that end in the second in which they begin: nobody is without supply for a second."""
    found = [step for step in look.outages if step.leave == step.back]
    if not found or len(found) < look.limits.no_length:
        return
    customers = sum(customers_behind(look, step) for step in found)
    text = (
        f"steps of no length ({len(found)}), with the share of momentary interruptions: {customers} of customers aren't counted"
        f" beside {look.draft.counts.momentary}: {named(found)}"
    )
    yield Line("no-length", text, 0, places_of(found), customers)


def customers_behind(look: Look, step: Step) -> int:
    """The customers behind a step's device who are in service and supplied when it begins."""
    second = begin_of(step)
    behind = look.draft.behind(step.device, second)
    return look.draft.customers_in((each for each in behind if look.draft.out_at(each, second) is None), second)


def apart(look: Look) -> Iterator[Line]:
    """Steps of a ticket that begin long after the one before."""
    late, steps = [], []
    for listed in look.tickets.values():
        found = [
            each for before, each in zip(listed, listed[1:]) if begin_of(each) - begin_of(before) > look.limits.apart
        ]
        late += found
        steps += listed if found else []
    if late:
        head = (
            f"steps that begin over {look.limits.apart // 3_600} h after the one before in their ticket ({len(late)})"
        )
        yield Line("apart", f"{head}: {named(late)}", look.draft.seconds_of(steps), places_of(late))


def before_first(look: Look) -> Iterator[Line]:
    """Steps that begin before a step of their ticket with a lower number."""
    early, steps = [], []
    for listed in look.tickets.values():
        numbered = sorted((each for each in listed if each.step.isdigit()), key=lambda each: int(each.step))
        found = [each for each in numbered[1:] if begin_of(each) < begin_of(numbered[0])]
        early += found
        steps += listed if found else []
    if early:
        head = f"steps that begin before the first one of their ticket ({len(early)})"
        yield Line("before-first", f"{head}: {named(early)}", look.draft.seconds_of(steps), places_of(early))


def owners(look: Look, step: Step) -> set[str | None]:
    """The tickets by which what a step's device feeds was out already, when the step begins; None is none of the rows."""
    second, found, own = begin_of(step), set[str | None](), look.draft.entries_of(step)
    for section in look.draft.behind(step.device, second):
        run = look.draft.out_at(section, second)
        if run is not None and run.cutter is not None and run.cutter.number not in own:
            found.add(look.draft.ticket_of_entry.get(run.cutter.number))
    return found


def nobody_cut_off(look: Look) -> Iterator[Line]:
    """Steps that cut nobody off, but for those that divide the outage of their own ticket, or go on with one of another ticket."""
    kinds: dict[str, list[Step]] = defaultdict(list)
    elsewhere = {step.number for step in touching_steps(look)} | look.overlapping
    for step in look.outages:
        if step.leave == step.back or step.number in elsewhere or look.draft.cut_by(step):
            continue
        others = owners(look, step)
        if step.ticket in others:
            continue
        is_empty = not look.draft.served_in(look.draft.behind(step.device, begin_of(step)), *look.span(step))
        kind = "out already by another ticket" if others else "nobody behind" if is_empty else "supplied another way"
        kinds[kind].append(step)
    found = [step for listed in kinds.values() for step in listed]
    if not found or len(found) < look.limits.nobody:
        return
    texts = (f"{kind} {len(listed)}: {named(listed)}" for kind, listed in kinds.items())
    seconds = sum(not_counted(look, step) for step in found)
    yield Line("nobody", f"steps that cut nobody off ({len(found)}): {'; '.join(texts)}", seconds, places_of(found))


def not_counted(look: Look, step: Step) -> int:
    """The customer-seconds for which those behind a step's device are in service and supplied, while it is open."""
    behind, span = look.draft.behind(step.device, begin_of(step)), look.span(step)
    return look.draft.served_in(behind, *span) - look.draft.out_in(behind, *span)


def ties_closed(look: Look) -> Iterator[Line]:
    """Devices that are open normally and stay closed for long, with what else would be counted."""
    ties = (step for step in look.steps if not step.is_closed and step.leave is not None)
    found = [step for step in ties if look.length(step) > look.limits.tie_closed]
    if not found:
        return
    entries = {entry.number: entry for entry in look.draft.book.entries}
    for step in found:
        leaving, back = (look.draft.entry_of.get(step.ref_of(leaves)) for leaves in (True, False))
        if leaving is None:
            continue
        left = entries[leaving]
        number = back if back is not None else len(entries) + 1
        entries[number] = Entry(
            number, 1, left.device, False, left.second + look.limits.tie_closed, left.cause, "", True
        )
    book = replace(look.draft.book, entries=tuple(entries.values()))
    seconds = abs(total_of(interruptions_of(book, sweep(book))) - look.draft.total)
    hours = look.limits.tie_closed // 3_600

    told = f"ties closed for over {hours} h ({len(found)}), with what differs if they had been opened then"
    yield Line("tie-closed", f"{told}: {named(found, look.lasting)}", seconds, places_of(found))


def ties_unused(look: Look) -> Iterator[Line]:
    """No tie has a row, though outages are divided by switches as where a tie brings a part back."""
    ties = {device.name for device in look.draft.book.devices if not device.is_closed}
    if not ties or ties & {step.device for step in look.steps}:
        return
    divided = [
        step
        for step in look.outages
        if step.leave != step.back and not look.draft.cut_by(step) and step.ticket in owners(look, step)
    ]
    if divided:
        seconds = sum(
            look.draft.out_in(look.draft.behind(step.device, begin_of(step)), *look.span(step)) for step in divided
        )
        text = (
            f"no row of any of the {len(ties)} devices that are open normally, though steps divide the outage of their ticket"
            f" ({len(divided)}): {named(divided)}"
        )
        yield Line("ties-unused", text, seconds, places_of(divided))


def touching_steps(look: Look) -> list[Step]:
    """The later one of each two tickets of one device of which one begins when the other has ended."""
    by_device: dict[str, list[Step]] = defaultdict(list)
    for step in look.outages:
        if look.length(step) > LONGEST_MOMENTARY:
            by_device[step.device].append(step)
    return [
        after
        for listed in by_device.values()
        for before, after in zip(listed, listed[1:])
        if before.ticket != after.ticket
        and (back := look.draft.back(before)) is not None
        and 0 <= begin_of(after) - back <= look.limits.touching
    ]


def touching(look: Look) -> Iterator[Line]:
    """Tickets that go on where another one of their device ends."""
    found = touching_steps(look)
    if found:
        seconds = sum(
            look.draft.out_in(look.draft.behind(step.device, begin_of(step)), *look.span(step)) for step in found
        )
        head = f"tickets that begin when another one of their device ends ({len(found)})"
        yield Line("touching", f"{head}: {named(by_weight(look, found))}", seconds, places_of(found))


def overlapping(look: Look) -> Iterator[Line]:
    """Rows that overlap, of which one outage was made."""
    found = [step for step in look.steps if step.number in look.overlapping]
    if found:
        head = f"steps that overlap, of which one outage is made ({len(found)})"
        yield Line("overlapping", f"{head}: {named(found)}", look.draft.seconds_of(found), places_of(found))


def whole_minutes(look: Look) -> Iterator[Line]:
    """Times that have no seconds, told once with what that does to momentary interruptions."""
    moments = [moment for step in look.steps for moment in (step.leave, step.back) if moment is not None]
    whole = sum(moment % 60 == 0 for moment in moments)
    if not moments or whole < look.limits.whole_minutes * len(moments):
        return
    none = sum(customers_behind(look, step) for step in look.outages if step.leave == step.back)
    at_limit = sum(each.customers for each in look.draft.interruptions if each.seconds == LONGEST_MOMENTARY)
    share = percent(Fraction(whole, len(moments)))
    text = (
        f"times at whole minutes ({share} of {len(moments)}), with the share of momentary interruptions:"
        f" those within a minute aren't counted ({none} of customers), those told as 5 minutes may be sustained ({at_limit})"
    )
    yield Line("whole-minutes", text, 0, (), none + at_limit, is_failure=False)


LINES = (
    long_steps,
    without_length,
    apart,
    before_first,
    nobody_cut_off,
    ties_closed,
    ties_unused,
    touching,
    overlapping,
    whole_minutes,
)
