"""A made utility for the tests: feeders as trees of sections, ties between them, customers, and tickets with the counts
that its outage management system would tell. These counts are traced over the trees, and share nothing with the tools.
"""

import copy
import random
from collections.abc import Iterator
from dataclasses import dataclass, field

FIRST = 1_735_689_600  # 2025-01-01 by UTC0
PERIOD = ("2025-01-01", "41", "UTC0")
HOUR = 3_600


@dataclass
class Switch:
    """A switching device from its node on the side of the supply to the section behind it."""

    node: str
    section: str
    is_closed: bool = True
    since: int | None = None


@dataclass
class Step:
    """An opening and a closing of a device; a tie is closed first."""

    device: str
    out: int
    restored: int


@dataclass
class Ticket:
    """A ticket with the customers and the customer-minutes that the OMS counts, these in whole minutes."""

    name: str
    device: str
    steps: list[Step]
    customers: int
    customer_minutes: int


@dataclass
class Town:
    """What the exports would say. Each section of a feeder is behind one device, `D<section>`; ties are open."""

    feeders: dict[str, int] = field(default_factory=dict)  # of each section
    devices: dict[str, Switch] = field(default_factory=dict)
    customers: dict[int, str] = field(default_factory=dict)  # the section of each
    ends: dict[int, int] = field(default_factory=dict)  # of services that end
    tickets: list[Ticket] = field(default_factory=list)

    def behind(self, device: str) -> set[str]:
        """The sections that the device's section feeds, itself among them."""
        found = {self.devices[device].section}
        while more := {
            each.section
            for each in self.devices.values()
            if each.is_closed and each.node in found and each.section not in found
        }:
            found |= more
        return found

    def counted(self, sections: set[str]) -> int:
        return sum(section in sections for section in self.customers.values())

    def rows(self) -> Iterator[str]:
        """The rows of commands, as the exports would be turned into them."""
        yield "cause,CAUSE-1,1,WIND"
        yield from (f"bus,GIS-BUS-{bus},{bus}" for bus in ("BUS-A", "BUS-B"))
        yield from (f"section,GIS-SECTION-{name},{name},{feeder}" for name, feeder in self.feeders.items())
        yield from (f"device,GIS-DEVICE-IN-{bus},IN-{bus},GRID,BUS-{bus},closed" for bus in ("A", "B"))
        for name, device in self.devices.items():
            normal = "closed" if device.is_closed else "open"
            life = f",{device.since}" if device.since else ""
            yield f"device,GIS-DEVICE-{name},{name},{device.node},{device.section},{normal}{life}"
        for number, section in self.customers.items():
            yield f"connect,CIS-{number},{number},{section},0,{self.ends.get(number, '')}"
        for ticket in self.tickets:
            for number, step in enumerate(ticket.steps, 1):
                ends = [("O", "open", step.out), ("C", "close", step.restored)]
                for end, act, second in sorted(ends, key=lambda each: each[2]):
                    yield f"switch,OMS-{ticket.name}-{number}-{end},{step.device},{act},{second},1,CREW"

    def counts(self) -> str:
        """What the OMS counts, as a CSV."""
        rows = (f"{each.name},{each.customers},{each.customer_minutes}" for each in self.tickets)
        return "\n".join(["ticket,customers,customer_minutes", *rows]) + "\n"


def made_town(seed: int) -> Town:
    """Eight feeders of five to eight sections, a tie for each, and eighty tickets, one after the other."""
    draw = random.Random(seed)
    town = Town()
    for feeder in range(1, 9):
        sections = [f"F{feeder}-{number}" for number in range(draw.randint(5, 8))]
        for place, section in enumerate(sections):
            node = f"BUS-{'AB'[feeder % 2]}" if place == 0 else sections[max(0, place - draw.choice((1, 1, 2)))]
            town.feeders[section] = feeder
            town.devices[f"D{section}"] = Switch(node, section)
            first = 1_000 * feeder + 100 * place
            town.customers |= {number: section for number in range(first, first + draw.randint(2, 12))}
    devices = list(town.devices)
    for feeder in range(1, 9):
        tie = Switch(f"F{feeder}-4", f"F{feeder % 8 + 1}-3", is_closed=False)
        town.devices[f"TIE-{feeder}"] = tie
    drawn = devices + [draw.choice(devices) for _ in range(80 - len(devices))]
    draw.shuffle(drawn)
    for number, device in enumerate(drawn):
        town.tickets.append(made_ticket(town, f"T-{number}", device, FIRST + (number * 12 + 2) * HOUR, draw))
    return town


def made_ticket(town: Town, name: str, device: str, out: int, draw: random.Random) -> Ticket:
    """An outage of all behind a device; now and then, where a tie leads to a part of it, this part is restored by the tie."""
    length = draw.randint(400, 6 * HOUR)
    sections = town.behind(device)
    steps = [Step(device, out, out + length)]
    minutes = town.counted(sections) * round(length / 60)
    feeder = town.feeders[town.devices[device].section]
    cut = next((each for each in town.devices if each == f"DF{feeder}-4" and each != device), None)
    if cut and town.behind(cut) < sections and draw.random() < 0.6:
        part, early = town.behind(cut), out + length // 2
        steps += [Step(cut, early - 60, out + length + 60), Step(f"TIE-{feeder}", out + length + 120, early)]
        minutes = town.counted(sections - part) * round(length / 60) + town.counted(part) * round((early - out) / 60)
    return Ticket(name, device, steps, town.counted(sections), minutes)


def changed(town: Town) -> Town:
    """A copy in which mistakes can be planted."""
    return copy.deepcopy(town)
