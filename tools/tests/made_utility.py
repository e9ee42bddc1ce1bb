"""A made utility for the tests: eight feeders, its customers on transformers, and the tickets of a year, as exports tell them.

Six feeders are on Eastern time, two on Central time. Breakers are told by SCADA with UTC and its Z, all else by crews in local time.
The counts that the outage management system would tell are traced over the trees, and share nothing with the tools.
"""

import pickle
import random
from collections.abc import Iterable, Iterator
from dataclasses import dataclass, field, replace
from datetime import datetime, timezone

FIRST = 1_735_707_600  # 2025-01-01 00:00 by Eastern time
DAYS = 365
DAY, HOUR = 86_400, 3_600
EASTERN, CENTRAL = "EST5EDT,M3.2.0,M11.1.0", "CST6CDT,M3.2.0,M11.1.0"
SUMMER = {EASTERN: (1_741_503_600, 1_762_063_200), CENTRAL: (1_741_507_200, 1_762_066_800)}
WINTER = {EASTERN: -5 * HOUR, CENTRAL: -6 * HOUR}
SPAN = (DAYS - 2) * DAY  # in which tickets begin
CHANGES = {67, 68, 305, 306}  # days about a change of clocks, which have no tickets


def local(second: int, zone: str) -> str:
    """A moment by a clock."""
    summer = SUMMER[zone][0] <= second < SUMMER[zone][1]
    return written(second + WINTER[zone] + summer * HOUR)


def written(second: int) -> str:
    return f"{datetime.fromtimestamp(second, timezone.utc):%Y-%m-%d %H:%M:%S}"


@dataclass
class Device:
    a: str
    b: str
    is_closed: bool = True


@dataclass
class Row:
    """A row of the outages: a device that is closed normally is opened at `out`; a tie is closed first. `zone` is that of its clock,
    as far as it isn't told by SCADA."""

    ticket: str
    step: int
    device: str
    out: int | None
    restored: int | None
    zone: str
    is_scada: bool = False


@dataclass
class Customer:
    section: str
    since: int = 946_684_800
    until: int | None = None


@dataclass
class Count:
    customers: int
    customer_seconds: int


@dataclass
class Utility:
    """What the exports say. `zone_of` are the zones as they are written, by the zones that are meant."""

    sections: dict[str, int] = field(default_factory=dict)
    devices: dict[str, Device] = field(default_factory=dict)
    customers: dict[int, Customer] = field(default_factory=dict)
    rows: list[Row] = field(default_factory=list)
    counts: dict[str, Count] = field(default_factory=dict)
    zone_of: dict[str, str] = field(default_factory=lambda: {EASTERN: "", CENTRAL: CENTRAL})
    has_z: bool = True

    # What is behind a device.

    def behind(self, device: str) -> list[str]:
        """The sections that a device feeds; each follows the one that feeds it."""
        found = [self.devices[device].b]
        for section in found:
            found += [each.b for each in self.devices.values() if each.is_closed and each.a == section]
        return found

    def served(self, sections: Iterable[str], second: int) -> int:
        listed = set(sections)
        return sum(
            each.section in listed and each.since <= second and (each.until is None or second < each.until)
            for each in self.customers.values()
        )

    # As exports.

    def moment(self, row: Row, second: int | None) -> str:
        if second is None:
            return ""
        if row.is_scada:
            return written(second).replace(" ", "T") + "Z" if self.has_z else written(second)
        return local(second, row.zone)

    def gis(self) -> Iterator[str]:
        yield "type,name,feeder,from,to,normal"
        yield from ("bus,BUS-A,,,,", "bus,BUS-B,,,,")
        yield from (f"section,{name},{feeder},,," for name, feeder in self.sections.items())
        for name, device in self.devices.items():
            yield f"device,{name},,{device.a},{device.b},{'closed' if device.is_closed else 'open'}"

    def register(self) -> Iterator[str]:
        yield "customer,section,since,until"
        for number, each in self.customers.items():
            ends = (local(second, EASTERN) if second is not None else "" for second in (each.since, each.until))
            yield f"{number},{each.section},{','.join(ends)}"

    def oms(self) -> Iterator[str]:
        yield "ticket,step,device,out,restored,cause,zone,status"
        for row in self.rows:
            zone = "" if row.is_scada else self.zone_of[row.zone]
            moments = f"{self.moment(row, row.out)},{self.moment(row, row.restored)}"
            yield f'{row.ticket},{row.step},{row.device},{moments},WIND,"{zone}",Closed'

    def oms_counts(self) -> Iterator[str]:
        yield "ticket,customers,customer_minutes"
        for ticket, count in self.counts.items():
            yield f"{ticket},{count.customers},{round(count.customer_seconds / 60)}"

    def exports(self) -> dict[str, str]:
        texts = {"gis": self.gis(), "customers": self.register(), "oms": self.oms(), "causes": ["code,name", "1,WIND"]}
        return {name: "".join(f"{line}\n" for line in lines) for name, lines in texts.items()}


def made_utility(seed: int = 1) -> Utility:
    """The network, the customers, and the tickets one after the other."""
    draw, made = random.Random(seed), Utility()
    for bus in ("A", "B"):
        made.devices[f"IN-{bus}"] = Device("GRID", f"BUS-{bus}")
    for feeder in range(1, 9):
        draw_feeder(made, feeder, draw)
    for feeder in range(1, 9):
        made.devices[f"TIE-{feeder}"] = Device(f"F{feeder}-T4", f"F{feeder % 8 + 1}-T3", is_closed=False)
    draw_customers(made, draw)
    draw_tickets(made, draw)
    return made


def draw_feeder(made: Utility, feeder: int, draw: random.Random) -> None:
    """A trunk of four sections, two laterals on each with a fuse, and three or four transformers on each of these."""
    before = f"BUS-{'AB'[feeder % 2]}"
    for place in range(1, 5):
        trunk = f"F{feeder}-T{place}"
        made.sections[trunk] = feeder
        made.devices[f"CB-{feeder}" if place == 1 else f"SW-{feeder}-{place}"] = Device(before, trunk)
        before = trunk
        for lateral in (2 * place - 1, 2 * place):
            name = f"F{feeder}-L{lateral}"
            made.sections[name] = feeder
            made.devices[f"FU-{feeder}-{lateral}"] = Device(trunk, name)
            for number in range(1, draw.randint(4, 5)):
                made.sections[f"{name}-X{number}"] = feeder
                made.devices[f"TR-{feeder}-{lateral}-{number}"] = Device(name, f"{name}-X{number}")


def draw_customers(made: Utility, draw: random.Random) -> None:
    """In no order; of a hundred, one begins and one ends within the year."""
    served = [section for section in made.sections if "-X" in section for _ in range(draw.randint(3, 8))]
    draw.shuffle(served)
    for number, section in enumerate(served, 100_001):
        customer = Customer(section, 946_684_800 + draw.randrange(8_000) * DAY)
        second, what = FIRST + draw.randrange(DAYS) * DAY, draw.random()
        if what < 0.01:
            customer.since = second
        elif what < 0.02:
            customer.until = second
        made.customers[number] = customer


def draw_tickets(made: Utility, draw: random.Random) -> None:
    """Faults of trunks, reclosings, fuses and transformers, some twenty hours apart. SW-4-4 and TIE-4 are never switched."""
    kinds = ["trunk"] * 42 + ["reclosing"] * 55 + ["fuse"] * 130 + ["transformer"] * 196
    draw.shuffle(kinds)
    for number, kind in enumerate(kinds):
        begin = FIRST + 9 * HOUR + number * SPAN // len(kinds) + draw.randrange(8 * HOUR)
        if (begin - FIRST) // DAY in CHANGES:
            continue
        feeder = draw.randint(1, 8)
        ticket, zone = f"T-{number + 1}", EASTERN if feeder < 7 else CENTRAL
        if kind == "trunk":
            draw_trunk(made, ticket, feeder, begin, draw)
        elif kind == "reclosing":
            draw_reclosing(made, ticket, feeder, begin, draw)
        else:
            start = f"{'FU' if kind == 'fuse' else 'TR'}-{feeder}-"
            device = draw.choice([name for name in made.devices if name.startswith(start)])
            length = draw.randint(40 * 60, 5 * HOUR)
            made.rows.append(Row(ticket, 1, device, begin, begin + length, zone))
            customers = made.served(made.behind(device), begin)
            made.counts[ticket] = Count(customers, customers * length)


def draw_trunk(made: Utility, ticket: str, feeder: int, begin: int, draw: random.Random) -> None:
    """The breaker trips; a switch divides the trunk, and the tie brings back what is behind it."""
    zone, place = EASTERN if feeder < 7 else CENTRAL, draw.randint(2, 4)
    divided, brought, over = begin + draw.randint(900, 3_000), 0, begin + draw.randint(2 * HOUR, 4 * HOUR)
    brought = divided + draw.randint(120, 600)
    made.rows.append(Row(ticket, 1, f"CB-{feeder}", begin, over, zone, is_scada=True))
    sections = made.behind(f"CB-{feeder}")
    early: list[str] = []
    if feeder != 4:
        early = made.behind(f"SW-{feeder}-{place}")
        made.rows.append(Row(ticket, 2, f"SW-{feeder}-{place}", divided, over + 600, zone))
        made.rows.append(Row(ticket, 3, f"TIE-{feeder}", over + 900, brought, zone))
    late, soon = made.served(set(sections) - set(early), begin), made.served(early, begin)
    made.counts[ticket] = Count(late + soon, late * (over - begin) + soon * (brought - begin))


def draw_reclosing(made: Utility, ticket: str, feeder: int, begin: int, draw: random.Random) -> None:
    """The breaker opens for some seconds, once or twice."""
    zone, customers = EASTERN if feeder < 7 else CENTRAL, made.served(made.behind(f"CB-{feeder}"), begin)
    made.counts[ticket] = Count(customers, 0)
    for step in range(1, draw.randint(2, 3)):
        length, out = draw.randint(3, 45), begin + 70 * step
        made.rows.append(Row(ticket, step, f"CB-{feeder}", out, out + length, zone, is_scada=True))
        made.counts[ticket].customer_seconds += customers * length


# Mistakes.


def single(made: Utility, start: str, count: int) -> list[Row]:
    """Rows of devices that no other row has, the first ones of the year."""
    devices = [row.device for row in made.rows]
    return [row for row in made.rows if row.device.startswith(start) and devices.count(row.device) == 1][:count]


def later(second: int | None, by: int) -> int | None:
    return None if second is None else second + by


def on_a_month_late(made: Utility) -> None:
    for row in single(made, "TR", 10):
        row.restored = later(row.restored, 30 * DAY)


def on_lost(made: Utility) -> None:
    single(made, "TR", 1)[0].restored = None


def ties_left_out(made: Utility) -> None:
    made.rows = [row for row in made.rows if not row.device.startswith("TIE")]


def scada_without_z(made: Utility) -> None:
    made.has_z = False


def rows_cut_off(made: Utility) -> None:
    del made.rows[400:]


def bad_second_ticket(made: Utility) -> None:
    row = single(made, "FU", 1)[0]
    made.rows.append(replace(row, ticket="T-2ND", out=later(row.out, 1_200), restored=later(row.out, 20 * DAY)))


def without_summer(made: Utility) -> None:
    made.zone_of[EASTERN] = "EST5"


def open_point_moved(made: Utility) -> None:
    made.devices["TIE-4"].is_closed, made.devices["SW-4-4"].is_closed = True, False


def one_phase(made: Utility) -> None:
    for row in [row for row in made.rows if row.device.startswith("FU")][:30]:
        count = made.counts[row.ticket]
        made.counts[row.ticket] = Count(count.customers // 3, count.customer_seconds // 3)


def tie_not_opened(made: Utility) -> None:
    row = [row for row in made.rows if row.device == "TIE-2"][-1]
    row.out = None


def register_cut_off(made: Utility) -> None:
    made.customers = dict(list(made.customers.items())[: len(made.customers) * 5 // 6])


def closed_late(made: Utility) -> None:
    for row in single(made, "TR", 16):
        made.rows.append(replace(row, ticket=f"{row.ticket}-B", out=row.restored, restored=later(row.restored, 5_400)))


def year_early(made: Utility) -> None:
    for row in single(made, "TR", 15):
        row.out, row.restored = later(row.out, -DAYS * DAY), later(row.restored, -DAYS * DAY)


def central_without_zone(made: Utility) -> None:
    made.zone_of[CENTRAL] = ""


def some(made: Utility, share: float) -> list[Customer]:
    listed = [each for each in made.customers.values() if each.until is None and each.since < FIRST]
    return random.Random(2).sample(listed, int(share * len(listed)))


def meters_exchanged(made: Utility) -> None:
    for customer in some(made, 0.05):
        customer.until = FIRST + 182 * DAY


def moved_in(made: Utility) -> None:
    draw = random.Random(3)
    for customer in some(made, 0.25):
        customer.since = FIRST + draw.randrange(300) * DAY


def of_today(made: Utility) -> None:
    made.customers = {number: each for number, each in made.customers.items() if each.until is None}


def fuse_elsewhere(made: Utility) -> None:
    made.devices["FU-3-2"].a = "F3-T4"


def neighbouring_fuse(made: Utility) -> None:
    for row in [row for row in made.rows if row.device in ("FU-2-1", "FU-3-1", "FU-5-1", "FU-6-1")][:10]:
        row.device = row.device.replace("-1", "-2")


def other_transformers(made: Utility) -> None:
    """All customers of some transformers hang on the next ones."""
    listed = [section for section in made.sections if section.endswith("-X2")][:22]
    for customer in made.customers.values():
        if customer.section in listed:
            customer.section = customer.section.replace("-X2", "-X1")


def cut_to_minutes(made: Utility) -> None:
    for row in made.rows:
        row.out, row.restored = (None if second is None else second // 60 * 60 for second in (row.out, row.restored))


def reclosings_without_length(made: Utility) -> None:
    for row in made.rows:
        if row.out is not None and row.restored is not None and 0 < row.restored - row.out < 60:
            row.restored = row.out


def wrong_circuit(made: Utility) -> None:
    for section in made.behind("SW-5-4"):
        made.sections[section] = 6


MISTAKES = {
    "ten On times a month late": on_a_month_late,
    "one lost On": on_lost,
    "tie steps not exported": ties_left_out,
    "SCADA times in UTC without Z": scada_without_z,
    "export cut off after 400 rows": rows_cut_off,
    "second ticket with a bad end, joined": bad_second_ticket,
    "Eastern rows without summer time": without_summer,
    "open point of today's GIS": open_point_moved,
    "one phase of three": one_phase,
    "last opening of a tie lost": tie_not_opened,
    "register cut off after five sixths": register_cut_off,
    "call-backs closed late as second tickets": closed_late,
    "fifteen rows a year early": year_early,
    "Central rows without zone": central_without_zone,
    "services end where meters were exchanged": meters_exchanged,
    "services begin where tenants moved in": moved_in,
    "register of today's customers alone": of_today,
    "fuse on the wrong trunk section": fuse_elsewhere,
    "ten outages on the neighbouring fuse": neighbouring_fuse,
    "customers on other transformers": other_transformers,
    "all times cut to the minute": cut_to_minutes,
    "reclosings with On as Off": reclosings_without_length,
    "wrong circuit on a fifth of a feeder": wrong_circuit,
}


def with_mistake(made: Utility, mistake: str) -> Utility:
    """A copy with one mistake."""
    found: Utility = pickle.loads(pickle.dumps(made))
    MISTAKES[mistake](found)
    return found
