"""Makes the model of what was read: the cut, its checks, and names for all that is in it."""

from collections.abc import Iterator
from dataclasses import dataclass, field, replace

from outage_tools.normal_state import SOURCE
from outage_tools.oms.complaints import Notes
from outage_tools.sections.changed import Change, kept_names, renamed_feeders
from outage_tools.sections.circuits import (
    Circuits,
    area_circuits,
    circuits_of,
    note_differences,
    note_mixed,
    numbers_of,
)
from outage_tools.sections.cut import GRID_AREA, Choice, Cut, cut_of
from outage_tools.sections.edges import Edge
from outage_tools.sections.islands import look_at_islands, look_at_loops, rings_of
from outage_tools.sections.meters import Named, meter_areas, named_in, note_names
from outage_tools.sections.model import DeviceRow, Earlier, Model, NodeRow
from outage_tools.sections.naming import BUS, SECTION, book_names, node_name
from outage_tools.sections.placing import Placed, placed_of, refuse_without_feeder
from outage_tools.sections.reading import Reading, Tickets
from outage_tools.sections.there import There


@dataclass
class Maker:
    """Makes the model of what was read; `reading` gets the complaints and the notes. With `there` the network is compared with a book's."""

    reading: Reading
    choice: Choice
    earlier: Earlier
    is_meshed: bool
    there: There | None = None
    said: list[str] = field(default_factory=list)  # what was told of the book

    def model(self, tickets: Tickets | None) -> Model:
        """The model; an error where something is refused."""
        reading, raw = self.reading, self.reading.raw
        notes = {each.file: each for each in reading.files}
        named = self.named(tickets)
        meters = self.meters_of_book(named)
        circuits = circuits_of(raw)
        cut = cut_of(raw, self.chosen(circuits))
        of_area = area_circuits(cut, circuits, reading.complaints)
        rings = list(rings_of(cut))
        looped = frozenset(edge.name for ring in rings for edge in ring) if self.is_meshed else frozenset()
        past = self.there.past_section if self.there else lambda _: None
        placed = placed_of(cut, reading.complaints, looped, past)
        refuse_without_feeder(cut, placed, of_area, reading.complaints)
        left = look_at_islands(cut, placed, {*named.edges} | self.in_book(), reading.complaints, notes)
        look_at_loops(cut, rings, of_area, self.is_meshed, reading.complaints, notes)
        own = meter_areas(raw, placed, named, max(cut.area.values()) + 1, reading.complaints)
        reading.refuse()
        self.note(cut, notes)
        note_differences(raw, circuits, notes)
        note_mixed(cut, circuits, of_area, notes)
        kept = kept_names(self.there, cut, placed, of_area, self.earlier.became) if self.there else {}
        numbers = self.numbers(of_area, kept)
        made = Naming(Model(raw, cut, numbers), self.earlier, of_area, left, own, kept).named(placed)
        made.gone_feeders = {name: each for name, each in self.earlier.feeders.items() if each not in numbers.values()}
        made.of_row, made.meters = named.of_row, meters
        self.note_names(made, named, tickets, notes)
        if self.there:
            Change(self.there, made, reading.complaints, self.said, notes).apply()
            reading.refuse()
        return made

    def numbers(self, of_area: dict[int, str], kept: dict[int, str]) -> dict[str, int]:
        """The feeder's number of each circuit; against a book one that is only called otherwise keeps it."""
        earlier = self.earlier.feeders
        renamed = renamed_feeders(self.there, of_area, kept, earlier) if self.there else {}
        for circuit, feeder in renamed.items():
            before = next(name for name, number in earlier.items() if number == feeder)
            self.said.append(f"the circuit {before} is called {circuit} now, and stays feeder {feeder}")
        return numbers_of(sorted({circuit for circuit in of_area.values() if circuit}), earlier | renamed)

    def named(self, tickets: Tickets | None) -> Named:
        """What the tickets name; meters that had a section in an earlier run keep it."""
        raw = self.reading.raw
        found = named_in(raw, tickets, self.earlier.names, self.reading.complaints) if tickets else Named()
        meters = {each.meter for each in raw.customers}
        for meter in self.earlier.meters:
            if meter in meters:
                found.meters.setdefault(meter, [])
        return found

    def meters_of_book(self, named: Named) -> dict[str, str]:
        """Against a book: the names of meters that it has as devices, or that tickets name for the first time. Their customers stay where
        they are: outagebook-from-oms lets them go on behind the meters."""
        if self.there is None:
            return {}
        labels = {each.meter for each in self.reading.raw.customers if each.meter} - {*self.earlier.meters}
        edges = {name for listed in self.earlier.names.values() for name in listed}
        names = {label: name for label, name in book_names(sorted(labels), {}, set()).items() if name not in edges}
        self.there.take_meters(names.values())
        found = {label: name for label, name in names.items() if label in named.meters or name in self.there.devices}
        for label in found:
            named.meters.pop(label, None)
        return found

    def in_book(self) -> set[str]:
        """The labels of which the book has a device."""
        devices = self.there.devices if self.there else {}
        return {label for label, names in self.earlier.names.items() if any(name in devices for name in names)}

    def chosen(self, circuits: Circuits) -> Choice:
        """The devices: in a coarse network with those at which circuits begin, and with those that the book has."""
        if self.choice.opened is None:
            return self.choice
        heads = circuits.devices_at_heads(self.reading.raw, self.choice)
        return replace(self.choice, opened=self.choice.opened | heads | self.in_book())

    def note_names(self, made: Model, named: Named, tickets: Tickets | None, notes: dict[str, Notes]) -> None:
        """Tells labels that aren't names of a book, and rows of tickets that name no device."""
        raw = self.reading.raw
        for label, names in made.names.items():
            if label in raw.edges and label.upper() != names[0]:
                edge = raw.edges[label]
                notes[edge.spot.file].changed("labels that became other names of devices", edge.spot)
        if tickets:
            note_names(raw, named, {row.label for row in made.devices}, notes[tickets.path])

    def note(self, cut: Cut, notes: dict[str, Notes]) -> None:
        """Tells the edges that are no devices though their kind is, and the open ones that are though theirs isn't."""
        for edge in cut.raw.edges.values():
            if edge.a == edge.b:
                notes[edge.spot.file].left_out("edges from a node to itself", edge.spot)
        for edge in cut.around:
            reason = "devices with both ends in one section: there is a way around them"
            notes[edge.spot.file].left_out(reason, edge.spot)
        for edge in cut.devices.values():
            if not edge.is_closed and edge.kind not in self.choice.kinds:
                notes[edge.spot.file].noticed("edges that are devices since they are normally open", edge.spot)


@dataclass
class Naming:
    """Gives names to what a cut has."""

    model: Model
    earlier: Earlier
    of_area: dict[int, str]
    left: set[int]
    meters: dict[str, tuple[int, int]]
    kept: dict[int, str]  # of areas that a book has
    of_node: dict[int, str] = field(default_factory=lambda: {GRID_AREA: SOURCE})
    taken: set[str] = field(default_factory=set)  # names of devices and nodes

    def named(self, placed: Placed) -> Model:
        model, cut = self.model, self.model.cut
        kept = [edge for edge in cut.devices.values() if not self.left & {*cut.areas_of(edge)}]
        labels = [*(edge.name for edge in kept), *self.meters]
        first = book_names(labels, {label: names[0] for label, names in self.earlier.names.items()}, self.further())
        model.names = {label: [name, *self.earlier.names.get(label, ())[1:]] for label, name in first.items()}
        model.gone = {label: names for label, names in self.earlier.names.items() if label not in model.names}
        self.name_nodes()
        model.devices += [self.device_row(edge) for edge in kept]
        for meter, (area, own) in self.meters.items():
            ends = self.of_node[area], self.of_node[own]
            model.devices.append(DeviceRow(model.names[meter][0], meter, ends, True))
        model.sections = {number: self.of_node[area] for number, area in placed.area.items()} | placed.past
        model.became = dict(self.what_became())
        return model

    def further(self) -> set[str]:
        """Names of an earlier run that no new label may have."""
        return {name for names in self.earlier.names.values() for name in names}

    def name_nodes(self) -> None:
        """Buses and sections by the device that feeds them, those of meters by the meter."""
        model, cut = self.model, self.model.cut
        self.taken = {SOURCE, *self.kept.values(), *(name for names in model.names.values() for name in names)}
        areas = [area for area in cut.reached.before if area != GRID_AREA and area not in self.left]
        for area in areas:
            circuit = self.of_area.get(area, "")
            self.add_node(area, SECTION if circuit else BUS, cut.feeding(area) or "", circuit)
        for meter, (area, own) in self.meters.items():
            self.add_node(own, SECTION, meter, self.of_area[area])

    def add_node(self, area: int, prefix: str, label: str, circuit: str) -> None:
        name = self.kept.get(area) or node_name(prefix, self.model.names[label][0], label, self.taken)
        self.taken.add(name)
        self.of_node[area] = name
        self.model.nodes.append(NodeRow(name, self.model.feeders[circuit] if circuit else None))

    def device_row(self, edge: Edge) -> DeviceRow:
        """A device from the end that the walk reaches first."""
        cut = self.model.cut
        a, b = cut.areas_of(edge)
        if cut.feeding(a) == edge.name:
            a, b = b, a
        return DeviceRow(self.model.names[edge.name][0], edge.name, (self.of_node[a], self.of_node[b]), edge.is_closed)

    def what_became(self) -> Iterator[tuple[str, tuple[str, str]]]:
        """What each edge and each meter is in the book."""
        model, cut = self.model, self.model.cut
        for edge in model.raw.edges.values():
            a, b = cut.areas_of(edge)
            if edge.name in model.names:
                yield edge.name, ("device", model.names[edge.name][0])
            elif a != b or a in self.left or edge in cut.around or edge.a == edge.b:
                yield edge.name, ("left out", "")
            else:
                kind = "source" if a == GRID_AREA else "section" if self.of_area.get(a) else "bus"
                yield edge.name, (kind, self.of_node[a])
        for meter in self.meters:
            yield meter, ("device", model.names[meter][0])
