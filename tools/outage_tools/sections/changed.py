"""A network that changed, against a book: what the book has keeps its names, and devices that are otherwise end and begin anew.

No command changes a device's ends, its normal position, a section's feeder or a customer's section. So a device that is otherwise ends
at a moment, and another one begins under a further name; sections keep the names under which the book has their customers; customers
with keys go on elsewhere under further numbers (moves.py). What can't be said is refused by its row, or told.
"""

from collections import Counter, defaultdict
from collections.abc import Iterable, Iterator, Set
from dataclasses import dataclass, field, replace

from outage_tools.errors import BookError
from outage_tools.oms.complaints import BadRow, Complaints, Notes
from outage_tools.oms.conversion import MOST_NAME
from outage_tools.oms.fields import read_moment, read_zone
from outage_tools.oms.files import Row, Spot
from outage_tools.sections.cut import GRID_AREA, Cut
from outage_tools.sections.model import DeviceRow, Model, NodeRow
from outage_tools.sections.moves import MOVED, parts_of
from outage_tools.sections.naming import told_apart
from outage_tools.sections.placing import Placed
from outage_tools.sections.there import There

IN_ORDER = "exports go in by the order of their moments"
LAST_RUN = "did this export go in already? Else name the folder of the last one that did"


# Names of buses and sections.


def kept_names(
    there: There, cut: Cut, placed: Placed, of_area: dict[int, str], became: dict[str, str]
) -> dict[int, str]:
    """The areas that are a bus or a section of the book: those that have most of its customers, or else most of the edges that lay
    in it in the earlier run."""
    votes: dict[tuple[int, str], list[int]] = defaultdict(lambda: [0, 0])
    for number, area in placed.area.items():
        customer = cut.raw.customers[number]
        service = there.service_of(customer.number)
        if service is not None and there.covers(customer):
            votes[area, service.section][0] += 1
    for area, edges in cut.inside().items():
        for edge in edges:
            votes[area, became.get(edge.name, "")][1] += 1
    found: dict[int, str] = {}
    taken: set[str] = set()
    for (area, name), _ in sorted(votes.items(), key=lambda each: ([-count for count in each[1]], each[0])):
        is_section = there.nodes.get(name) is not None
        is_like = (
            area != GRID_AREA
            and name in there.nodes
            and is_section == bool(of_area.get(area) or area not in cut.reached)
        )
        if is_like and area not in found and name not in taken:
            found[area] = name
            taken.add(name)
    return found


def renamed_feeders(
    there: There, of_area: dict[int, str], kept: dict[int, str], earlier: dict[str, int]
) -> dict[str, int]:
    """Circuits under another name: new ones with the feeder that most of their sections have in the book, if no circuit of the export
    is that feeder. Where circuits are numbers each is a feeder of its own."""
    now = {*of_area.values()}
    free = {number for name, number in earlier.items() if name not in now}
    if all(name == str(number) for name, number in earlier.items()):
        return {}
    votes = Counter(
        (of_area[area], feeder)
        for area, node in kept.items()
        if of_area.get(area, "") not in ("", *earlier) and (feeder := there.nodes[node]) in free
    )
    found: dict[str, int] = {}
    for (circuit, feeder), _ in sorted(votes.items(), key=lambda each: (-each[1], each[0])):
        if feeder is not None and circuit not in found and feeder not in found.values():
            found[circuit] = feeder
    return found


# Rows.


@dataclass
class Change:
    """Turns the model into rows that the book takes."""

    there: There
    model: Model
    complaints: Complaints
    said: list[str] = field(default_factory=list)
    notes: dict[str, Notes] = field(default_factory=dict)  # by their files

    @property
    def names(self) -> dict[str, list[str]]:
        """All names of each device's label, the first one first."""
        return self.model.names

    def apply(self) -> None:
        """Changes the model's rows, and tells what no row says."""
        self.check_order()
        self.check_customers()
        self.check_nodes()
        devices = [row for each in self.model.devices for row in self.rows_of(each)]
        told = {row.name for row in devices}
        for name in self.there.devices:
            is_meter = any(end in self.there.supply for end in self.there.ends[name])
            if name not in told and not is_meter and self.there.devices[name].has(self.there.at):
                self.said.append(f"the device {name} isn't in the export any more, and ends")
                devices.append(self.ended(name, name))
        self.model.devices = devices
        self.model.has_lives = True

    def check_order(self) -> None:
        """Nothing of the book's network begins after the second of this export: it would be put before a later one."""
        later = {name: life.since for name, life in self.there.devices.items() if life.since > self.there.at}
        told = False
        for label, names in self.names.items():
            for name in (each for each in names if each in later):
                text = f"{name} begins in the book at {self.there.text(later[name])}, after --at: {IN_ORDER}"
                self.complaints.add(self.spot_of(label), text)
                told = True
        if later and not told:
            name, since = min(later.items(), key=lambda each: (each[1], each[0]))
            raise BookError(f"the device {name} begins in the book at {self.there.text(since)}, after --at: {IN_ORDER}")

    def check_customers(self) -> None:
        """A customer stays on its section, or goes on under a further number of its key."""
        for number, section in self.model.sections.items():
            customer = self.model.raw.customers[number]
            before = self.there.service_of(customer.number)
            is_moved = before is not None and before.section != section and self.there.covers(customer)
            parts = [] if customer.meter in self.model.meters else parts_of(self.there, customer, section)
            if parts:
                self.model.parts[number] = parts
            if parts and is_moved:
                self.notes[customer.spot.file].noticed(MOVED, customer.spot)
            elif before is not None and is_moved:
                self.complaints.add(
                    customer.spot,
                    f"customer {customer.number} is on {before.section} in the book, and on {section} in this export: end its"
                    " service, and give the one that goes on another number",
                )

    def check_nodes(self) -> None:
        """A section keeps its feeder, and those that the export hasn't stay."""
        nodes = []
        for node in self.model.nodes:
            if node.name in self.there.nodes and self.there.nodes[node.name] != node.feeder:
                home = self.there.nodes[node.name]
                self.said.append(
                    f"{node.name} hangs on feeder {node.feeder} now, and stays under feeder {home} in the book"
                )
                node = NodeRow(node.name, home)
            nodes.append(node)
        self.model.nodes = nodes
        gone = self.there.nodes.keys() - {node.name for node in nodes} - self.there.supply.keys()
        for name, count in sorted(self.left_on(gone).items()):
            self.said.append(
                f"{name} isn't in the export any more; customers of the book there, without supply: {count}"
            )

    def left_on(self, gone: Set[str]) -> Counter[str]:
        """The customers of the book on sections that aren't there any more, but for those whose service the register ends."""
        there, model = self.there, self.model
        counts = Counter(each.section for each in there.customers.values() if each.has(there.at))
        for number, section in model.sections.items():
            service = there.service_of(model.raw.customers[number].number)
            if service is not None and service.section in gone and (section in gone or number in model.parts):
                counts[service.section] -= service.has(there.at)
        return Counter({name: counts[name] for name in gone if counts[name] > 0})

    def rows_of(self, row: DeviceRow) -> Iterator[DeviceRow]:
        """The row of a device that is as it was; else of its end and of its beginning under a further name."""
        there, names = self.there, self.names[row.label]
        living = next(
            (name for name in reversed(names) if name in there.devices and there.devices[name].has(there.at)), None
        )
        if living is not None:
            life = there.devices[living]
            if (life.ends, life.is_closed) == (frozenset(row.ends), row.is_closed):
                yield replace(row, name=living)
                return
            if life.since == there.at:
                text = f"{living} begins in the book at --at, and is otherwise here: give a later --at"
                self.complaints.add(self.spot_of(row.label), text)
            yield self.ended(living, row.label)
        fresh = next((name for name in names if name not in there.devices), None) or self.new_name(row.label, names)
        if fresh not in names:
            names.append(fresh)
        before = f"{living} ends, and goes on as {fresh}" if living else f"{fresh} begins"
        self.said.append(
            f"{row.label}: {before}: {' to '.join(row.ends)}, normally {'closed' if row.is_closed else 'open'}"
        )
        yield replace(row, name=fresh, since=there.text(there.at))

    def spot_of(self, label: str) -> Spot:
        """The row of an edge, or of a customer behind a meter."""
        edge = self.model.raw.edges.get(label)
        return edge.spot if edge else next(each.spot for each in self.model.raw.customers if each.meter == label)

    def ended(self, name: str, label: str) -> DeviceRow:
        life, there = self.there.devices[name], self.there
        since = there.text(life.since) if life.since else ""
        return DeviceRow(name, label, there.ends[name], life.is_closed, since, there.text(there.at))

    def new_name(self, label: str, names: list[str]) -> str:
        """The first name of a device with a number that nothing has. If the book has a device of such a name that the earlier run
        doesn't know, another export went in since then."""
        told = {each for listed in (*self.names.values(), *self.model.gone.values()) for each in listed}
        for number in range(2, 1_000):
            name = f"{names[0]}-{number}"
            name = name if len(name) <= MOST_NAME else told_apart(name, f"{label} {number}")
            if name in self.there.devices and name not in told:
                text = f"the book has {name}, which the folder of --as doesn't know: {LAST_RUN}"
                self.complaints.add(self.spot_of(label), text)
                told.add(name)
            if name not in told and name not in self.there.nodes:
                return name
        raise BadRow(f"{label} has too many names")

    # Tickets.

    def name_at(self, label: str, second: int) -> str:
        """The name of a device at a second."""
        names = self.model.names_of(label)
        new = {
            row.name for row in self.model.devices if row.label == label and row.since == self.there.text(self.there.at)
        }
        for name in names:
            life = self.there.devices.get(name)
            ends_now = bool(new) and life is not None and name not in new
            if life is not None and life.has(second) and not (ends_now and second >= self.there.at):
                return name
        return names[-1] if second >= self.there.at else names[0]

    def name_in(self, row: Row, label: str) -> str:
        """The name of the device that a ticket's row switched; one that changes while it is switched is refused."""
        names = self.model.names_of(label)
        if len(names) == 1:
            return names[0]
        zone = read_zone(row["zone"]) if row["zone"] else self.there.rows_zone
        moments = [
            read_moment(row[column], row[f"{column}_hour"], zone, column, self.there.dates, wants_clock=True)
            for column in ("out", "restored")
            if row[column]
        ]
        if not moments:
            return names[-1]
        first, last = min(moments), max(moments)
        found = self.name_at(label, first), self.name_at(label, max(first, last - 1))
        if found[0] != found[1]:
            raise BadRow(f"{label} is {found[0]} at its beginning and {found[1]} at its end: choose another --at")
        return found[0]
