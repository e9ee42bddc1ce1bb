"""For the tests: a made network and its year, as exports of other systems would tell it, and as rows by hand.

Seconds are drawn, and their local times found by the C library. A later export tells the same tickets with what has changed
since: moments and causes, tickets that came late or were a mistake, services and lives that end.
"""

import os
import random
import time
from collections.abc import Iterable, Iterator
from dataclasses import dataclass, field
from datetime import date, datetime, timedelta, timezone

DAY = 86_400
ZONES = [  # each with a day on which its clock is set back
    ("CET-1CEST,M3.5.0,M10.5.0/3", date(2025, 10, 26)),
    ("GMT0BST,M3.5.0/1,M10.5.0", date(2025, 10, 26)),
    ("EET-2EEST,M3.5.0/3,M10.5.0/4", date(2025, 10, 26)),
    ("EST5EDT,M3.2.0,M11.1.0", date(2025, 11, 2)),
    ("NST3:30NDT,M3.2.0,M11.1.0", date(2025, 11, 2)),
    ("AEST-10AEDT,M10.1.0,M4.1.0/3", date(2025, 4, 6)),
    ("<-04>4<-03>,M9.1.6/24,M4.1.6/24", date(2025, 4, 5)),
    ("IST-5:30", date(2025, 4, 6)),
]
CAUSES = {1: "WIND", 2: "TREE", 3: "CABLE", 4: "PLANNED"}
WORDS = {1: ["Wind", "Storm"], 2: ["Tree down"], 3: ["Cable fault"], 4: ["Planned work"]}
CREWS = ["CREW-A", "CREW-B", "OMS"]


def offset_at(second: int) -> int:
    return time.localtime(second).tm_gmtoff


def local_text(second: int, form: str = "%Y-%m-%d %H:%M:%S") -> str:
    return time.strftime(form, time.localtime(second))


def hour_of(second: int) -> str:
    """A for the first, B for the second reading of an hour that comes twice; nothing for one that comes once."""
    if local_text(second) == local_text(second + 3_600):
        return "A"
    return "B" if local_text(second) == local_text(second - 3_600) else ""


def midnight_of(day: date) -> int:
    """The first second of a day."""
    second = int(datetime(day.year, day.month, day.day, tzinfo=timezone.utc).timestamp())
    return next(
        at
        for at in range(second - 15 * 3_600, second + 15 * 3_600, 900)
        if local_text(at, "%Y-%m-%d") == day.isoformat()
    )


@dataclass
class Device:
    name: str
    a: str
    b: str
    is_closed: bool
    since: int | None = None
    until: int | None = None


@dataclass
class Customer:
    number: int
    section: str
    since: int
    until: int | None


@dataclass
class Step:
    """A device out of its normal position, from `leave` to `back`."""

    ticket: str
    step: int
    device: Device
    leave: int
    back: int | None
    cause: int
    crew: str
    slot: tuple[int, int]
    is_cancelled: bool = False


@dataclass
class Year:
    """A network and what happened in it. `shares` makes seconds that hold several switchings, of different devices."""

    seed: int
    shares: bool = False
    rng: random.Random = field(init=False)
    sections: dict[str, int] = field(default_factory=dict)
    devices: list[Device] = field(default_factory=list)
    customers: list[Customer] = field(default_factory=list)
    steps: list[Step] = field(default_factory=list)
    drawn: set[int] = field(default_factory=set)

    def __post_init__(self) -> None:
        self.rng = random.Random(f"year {self.seed}")
        self.zone, turn = ZONES[self.seed % len(ZONES)]
        os.environ["TZ"] = self.zone
        time.tzset()
        self.days = self.rng.choice([10, 31, 90, 366])
        self.first_day = turn - timedelta(days=self.rng.randrange(2, min(self.days - 2, 200)))
        self.first = midnight_of(self.first_day)
        self.end = midnight_of(self.first_day + timedelta(days=self.days))
        changes = (at for at in range(self.first, self.end, 900) if offset_at(at) < offset_at(at - 900))
        self.set_back = next(changes, None)
        self.draw_network()
        self.draw_customers()
        self.draw_steps()

    # What there is.

    def draw_network(self) -> None:
        rng, ends = self.rng, []
        self.devices.append(Device("INC", "GRID", "BUS", True))
        for feeder in range(1, rng.randrange(2, 5)):
            nodes = ["BUS"]
            for number in range(1, rng.randrange(2, 6)):
                name = f"S{feeder}-{number}"
                self.sections[name] = feeder
                before = nodes[-1] if number == 1 or rng.random() < 0.7 else rng.choice(nodes[1:])
                self.devices.append(Device(f"SW{feeder}-{number}", before, name, True))
                nodes.append(name)
            ends.append(nodes[-1])
        for number, (a, b) in enumerate(zip(ends, ends[1:]), 1):
            tie = Device(f"TIE-{number}", a, b, False)
            if rng.random() < 0.4:
                tie.since = rng.randrange(self.first, self.end)
            self.devices.append(tie)
        spur = rng.choice(list(self.sections))
        self.sections["SPUR"] = self.sections[spur]
        self.devices.append(Device("FUSE-OLD", spur, "SPUR", True, None, rng.randrange(self.first, self.end)))
        self.devices.append(Device("FUSE-NEW", spur, "SPUR", True, self.devices[-1].until, None))

    def draw_customers(self) -> None:
        rng = self.rng
        for number, section in enumerate((section for section in self.sections for _ in range(rng.randrange(1, 5))), 1):
            since = self.first - rng.randrange(1, 20_000) * DAY
            until = None
            if rng.random() < 0.3:
                since = rng.randrange(self.first, self.end)
            if rng.random() < 0.2:
                until = max(since, self.first) + rng.randrange(1, 40 * DAY)
            if rng.random() < 0.1:
                since, until = self.first - 900 * DAY, self.first - rng.randrange(800) * DAY
            self.customers.append(Customer(number, section, since, until))

    # What happened.

    def second_in(self, since: int, until: int) -> int:
        """A second of its own, or more often than not one of others."""
        others = sorted(second for second in self.drawn if since <= second < until) if self.shares else []
        if others and self.rng.random() < 0.7:
            return self.rng.choice(others)
        while True:
            second = self.rng.randrange(since, until)
            if second not in self.drawn:
                self.drawn.add(second)
                return second

    def draw_steps(self) -> None:
        rng, width = self.rng, (self.end - self.first) // 8
        tickets = 0
        for device in self.devices:
            for slot in rng.sample(range(8), rng.randrange(4)):
                tickets += 1
                since = self.first + slot * width
                self.draw_step(f"T-{tickets}", device, (since, since + width))
        if self.set_back is not None:
            device = next(each for each in self.devices if each.is_closed)
            self.steps = [step for step in self.steps if step.device is not device]
            leave, back = self.second_in(self.set_back - 3_600, self.set_back), self.second_in(
                self.set_back, self.set_back + 3_600
            )
            self.steps.append(Step("T-TWICE", 1, device, leave, back, 1, "CREW-A", (leave, leave)))
        self.draw_over_bounds(width)

    def draw_step(self, ticket: str, device: Device, slot: tuple[int, int]) -> None:
        leave = self.second_in(*slot)
        back = self.second_in(leave, min(slot[1], leave + self.rng.choice([400, 20_000, 10 * DAY])) + 300)
        if back >= slot[1]:
            back = leave
        step = len([each for each in self.steps if each.ticket == ticket]) + 1
        cause = self.rng.choice(list(CAUSES))
        self.steps.append(Step(ticket, step, device, leave, back, cause, self.rng.choice(CREWS), slot))

    def draw_over_bounds(self, width: int) -> None:
        """A ticket that is over before the period, one that runs over its beginning, one over its end, one after it."""
        idle = [device for device in self.devices if all(step.device is not device for step in self.steps)]
        self.rng.shuffle(idle)
        for number, device in enumerate(idle[:3]):
            slot = [
                (self.first - 9_000, self.first - 1_000),
                (self.first - 9_000, self.first + 9_000),
                (self.end - 9_000, self.end + 9_000),
            ][number]
            leave, back = self.second_in(slot[0], slot[0] + 900), self.second_in(slot[1] - 900, slot[1])
            self.steps.append(Step(f"B-{number}", 1, device, leave, back, 2, "CREW-B", (0, 0)))

    def change(self) -> None:
        """What another export tells of it."""
        rng, width = self.rng, (self.end - self.first) // 8
        for step in self.steps:
            if step.slot[0] == step.slot[1] or step.is_cancelled:
                continue
            what = rng.random()
            if what < 0.15 and step.back is not None and step.back > step.leave + 10:
                step.back = self.second_in(step.leave + 1, step.slot[1])
            elif what < 0.25 and step.back is not None and step.back > step.leave + 10:
                step.leave = self.second_in(step.slot[0], step.back)
            elif what < 0.35:
                step.cause, step.crew = rng.choice(list(CAUSES)), rng.choice(CREWS)
            elif what < 0.42:
                step.is_cancelled = True
        for device in self.devices:
            taken = {(step.slot[0] - self.first) // width for step in self.steps if step.device is device}
            free = set(range(8)) - taken
            if (
                free
                and rng.random() < 0.2
                and all(step.slot[0] != step.slot[1] for step in self.steps if step.device is device)
            ):
                since = self.first + rng.choice(sorted(free)) * width
                self.draw_step(f"L-{len(self.steps)}", device, (since, since + width))
        for customer in self.customers:
            if rng.random() < 0.1 and (customer.until is None or customer.until > self.first):
                customer.until = max(customer.since, self.first) + rng.randrange(1, 60 * DAY)
        if rng.random() < 0.5:
            self.devices[-2].until = self.devices[-1].since = rng.randrange(self.first, self.end)

    # As exports.

    def moment(self, second: int) -> tuple[str, str]:
        """A moment as some system writes it, with its hour."""
        way = self.rng.randrange(5)
        if way == 0:
            return datetime.fromtimestamp(second, timezone.utc).strftime("%Y-%m-%dT%H:%M:%SZ"), ""
        if way == 1 and offset_at(second) % 60 == 0:
            ahead = abs(offset_at(second)) // 60
            return (
                local_text(second, "%Y-%m-%d %H:%M:%S")
                + f"{'-' if offset_at(second) < 0 else '+'}{ahead // 60:02}:{ahead % 60:02}",
                "",
            )
        form = (
            "%Y-%m-%dT%H:%M" if way == 2 and second % 60 == 0 else ["%Y-%m-%d %H:%M:%S", "%d.%m.%Y %H:%M:%S"][way % 2]
        )
        return local_text(second, form), hour_of(second)

    def ends(self, since: int | None, until: int | None) -> list[str]:
        """The fields of a life or a service."""
        return [text for second in (since, until) for text in (("", "") if second is None else self.moment(second))]

    def exports(self) -> dict[str, str]:
        return {
            "causes": joined(["code", "name", "oms"], self.cause_rows()),
            "gis": joined(
                ["type", "name", "feeder", "from", "to", "normal", "since", "since_hour", "until", "until_hour"],
                self.gis_rows(),
            ),
            "customers": joined(
                ["customer", "section", "since", "since_hour", "until", "until_hour"], self.customer_rows()
            ),
            "oms": joined(
                [
                    "ticket",
                    "step",
                    "device",
                    "out",
                    "out_hour",
                    "restored",
                    "restored_hour",
                    "cause",
                    "crew",
                    "zone",
                    "status",
                ],
                self.oms_rows(),
            ),
        }

    def cause_rows(self) -> Iterator[list[object]]:
        for code, words in WORDS.items():
            for word in words:
                yield [code, CAUSES[code], word]

    def gis_rows(self) -> Iterator[list[object]]:
        rows: list[list[object]] = [["bus", "BUS", *[""] * 8]]
        rows += [["section", name, feeder, *[""] * 7] for name, feeder in self.sections.items()]
        for device in self.devices:
            normal = "closed" if device.is_closed else "open"
            rows.append(
                ["device", device.name.lower(), "", device.a, device.b, normal, *self.ends(device.since, device.until)]
            )
        self.rng.shuffle(rows)
        yield from rows

    def customer_rows(self) -> Iterator[list[object]]:
        for customer in self.customers:
            yield [customer.number, customer.section, *self.ends(customer.since, customer.until)]

    def oms_rows(self) -> Iterator[list[object]]:
        steps = list(self.steps)
        self.rng.shuffle(steps)
        for step in steps:
            left = self.moment(step.leave)
            back = ("", "") if step.back is None else self.moment(step.back)
            moments = [*left, *back] if step.device.is_closed else [*back, *left]
            word = WORDS[step.cause][step.leave % len(WORDS[step.cause])]
            status = "cancelled" if step.is_cancelled else ""
            yield [step.ticket, step.step, step.device.name, *moments, word, step.crew, "", status]

    # By hand.

    def rows_by_hand(self) -> str:
        """A new book's rows, from the seconds as they were drawn."""
        rows: list[list[object]] = [["cause", f"C{code}", code, name] for code, name in CAUSES.items()]
        rows.append(["bus", "N", "BUS"])
        rows += [["section", f"N-{name}", name, feeder] for name, feeder in self.sections.items()]
        for device in self.devices:
            normal = "closed" if device.is_closed else "open"
            until = "" if device.until is None else device.until
            rows.append(
                ["device", f"D-{device.name}", device.name, device.a, device.b, normal, device.since or 0, until]
            )
        for each in self.customers:
            if each.until is None or each.until > self.first:
                end = "" if each.until is None else each.until
                rows.append(["connect", f"P{each.number}", each.number, each.section, max(0, each.since), end])
        rows += [row for _, row in sorted(self.switch_rows(), key=lambda pair: pair[0])]
        return "".join(f"{','.join([*map(str, row), *[''] * (8 - len(row))])}\n" for row in [HEADER, *rows])

    def switch_rows(self) -> Iterator[tuple[tuple[int, int], list[object]]]:
        """The switchings that lie in the period: a step that runs over its beginning leaves at its first second."""
        for step in self.steps:
            is_over = step.back is not None and step.back <= self.first
            if step.is_cancelled or is_over or step.leave >= self.end:
                continue
            acts = ("open", "close") if step.device.is_closed else ("close", "open")
            ref = f"H-{step.ticket}-{step.step}"
            leave = max(step.leave, self.first)
            yield (leave, 0), ["switch", f"{ref}-L", step.device.name, acts[0], leave, step.cause, step.crew]
            if step.back is not None and step.back < self.end:
                yield (step.back, 1), [
                    "switch",
                    f"{ref}-B",
                    step.device.name,
                    acts[1],
                    step.back,
                    step.cause,
                    step.crew,
                ]


HEADER: list[object] = ["kind", "ref", "f1", "f2", "f3", "f4", "f5", "f6"]


def joined(columns: list[str], rows: Iterable[list[object]]) -> str:
    head: list[object] = [*columns]
    return "".join(f"{','.join(map(str, row))}\n" for row in [head, *rows])
