"""Rows whose clocks differ. Which one is right isn't guessed."""

from collections import defaultdict
from collections.abc import Iterator

from outage_tools.implausible.lines import Line, Look, begin_of, named, places_of
from outage_tools.oms.steps import Step
from outage_tools.zone import Zone


def offsets(zone: Zone, other: Zone, bounds: tuple[int, ...]) -> set[int]:
    """By how much one clock is ahead of another one, at the beginnings of days."""
    return {zone.offset_at(second) - other.offset_at(second) for second in bounds}


def clock_of_a_part(look: Look) -> Iterator[Line]:
    """Rows with a zone whose clock is that of the period for a part of it alone, as one without summer time, in the other part."""
    period = look.draft.period
    found: dict[str, list[Step]] = defaultdict(list)
    zones = {step.zone.text: step.zone for step in look.steps if step.zone is not None and step.is_local}
    parted = {
        text: zone
        for text, zone in zones.items()
        if len(ahead := offsets(zone, period.zone, period.bounds)) > 1 and 0 in ahead
    }
    for step in look.steps:
        second = begin_of(step)
        if (
            step.is_local
            and step.zone
            and step.zone.text in parted
            and step.zone.offset_at(second) != period.zone.offset_at(second)
        ):
            found[step.zone.text].append(step)
    for text, steps in found.items():
        head = f"rows with the zone {text}, which has the clock of {period.zone.text} for a part of the period alone"
        yield Line("zone", f"{head} ({len(steps)}): {named(steps)}", look.draft.seconds_of(steps), places_of(steps))


def several_clocks(look: Look) -> Iterator[Line]:
    """Devices whose rows have several zones."""
    zones: dict[str, dict[str, list[Step]]] = defaultdict(lambda: defaultdict(list))
    for step in filter(lambda step: step.is_local, look.steps):
        zones[step.device][step.zone.text if step.zone else ""].append(step)
    steps = [step for listed in zones.values() if len(listed) > 1 for each in listed.values() for step in each]
    if steps:
        devices = sum(len(listed) > 1 for listed in zones.values())
        text = f"devices with rows in several zones ({devices}): {named(steps)}"
        yield Line("zones", text, look.draft.seconds_of(steps), places_of(steps))


LINES = (clock_of_a_part, several_clocks)
