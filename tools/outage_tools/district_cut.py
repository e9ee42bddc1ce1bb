"""Cutting a utility's exports into those of districts, each of which one book holds."""

from collections import Counter, defaultdict
from collections.abc import Iterator, Sequence
from dataclasses import dataclass, field
from pathlib import Path
from typing import Any

from outage_tools.district_files import Export, Form, Row, check_renamed, export_of, read_rows, write_rows, written_to
from outage_tools.errors import BookError
from outage_tools.graphs import graph_of, networkx
from outage_tools.oms.files import DELIMITERS

MOST_NODES, MOST_DEVICES, MOST_CUSTOMERS, MOST_FEEDERS = 1_024, 2_048, 100_000, 255
ROOM = 20  # per cent of each bound that a cut leaves free
GRID_NAME = "GRID"
TIE_COLUMNS = ("tie", "district", "node", "other_district", "other_node")
GIS_COLUMNS = ("type", "name", "feeder", "from", "to", "normal")
COUNT_COLUMNS = ("customers", "customer_minutes")  # of a ticket, by the outage management system
UNREAD = "rows can't be read, and nothing was written:"


def label(text: str) -> str:
    """A name as a book has it."""
    return text.strip().upper()


# The network of an export.


@dataclass(frozen=True)
class Link:
    """A device of an export: the nodes at its ends, and whether it is normally closed."""

    name: str
    ends: tuple[str, str]
    is_closed: bool

    @property
    def nodes(self) -> list[str]:
        return [node for node in self.ends if node != GRID_NAME]


@dataclass
class Network:
    """The nodes of an export in its order, the feeders of its sections, its devices, and the customers of sections."""

    nodes: list[str] = field(default_factory=list)
    feeder: dict[str, str] = field(default_factory=dict)
    links: list[Link] = field(default_factory=list)
    customers: "Counter[str]" = field(default_factory=Counter)


def read_network(gis: Export, customers: Export | None) -> Network:
    """The network of the exports, and how many customers each section has; rows that can't be read are all told."""
    network, bad = Network(), list[str]()
    devices = read_nodes(network, gis, bad)
    read_links(network, gis, devices, bad)
    if customers:
        count_customers(network, customers, bad)
    if bad:
        raise BookError("\n".join([UNREAD, *bad]))
    return network


def read_nodes(network: Network, gis: Export, bad: list[str]) -> list[tuple[int, Row]]:
    """Puts the nodes into the network: the rows of the devices, whose ends may come later."""
    devices: list[tuple[int, Row]] = []
    names: set[tuple[bool, str]] = set()
    for number, row in gis.rows(bad):
        kind, name = row["type"].strip().lower(), label(row["name"])
        if kind not in ("bus", "section", "device"):
            bad.append(f"{gis.path}: row {number}: type {row['type']!r} is no bus, section or device")
        elif not name or (kind != "device" and name == GRID_NAME) or (kind == "device", name) in names:
            bad.append(f"{gis.path}: row {number}: the name {row['name']!r} is empty, GRID, or comes twice")
        elif kind == "device":
            devices.append((number, row))
        elif kind == "section" and not row["feeder"].strip():
            bad.append(f"{gis.path}: row {number}: the section {row['name']!r} has no feeder")
        else:
            network.nodes.append(name)
            if kind == "section":
                network.feeder[name] = row["feeder"].strip()
        names.add((kind == "device", name))
    return devices


def read_links(network: Network, gis: Export, devices: list[tuple[int, Row]], bad: list[str]) -> None:
    """Puts the devices into the network."""
    known = {GRID_NAME, *network.nodes}
    for number, row in devices:
        ends = label(row["from"]), label(row["to"])
        normal = row["normal"].strip().lower()
        if not set(ends) <= known or ends[0] == ends[1]:
            bad.append(f"{gis.path}: row {number}: a device from {ends[0]!r} to {ends[1]!r}, which aren't two nodes")
        elif normal not in ("open", "closed"):
            bad.append(f"{gis.path}: row {number}: normal {row['normal']!r} is neither open nor closed")
        else:
            network.links.append(Link(label(row["name"]), ends, normal == "closed"))


def count_customers(network: Network, customers: Export, bad: list[str]) -> None:
    place = customers.place("section")
    for number, record in customers.records(bad):
        section = label(record[place])
        if section not in network.feeder:
            bad.append(f"{customers.path}: row {number}: {record[place]!r} is no section")
        network.customers[section] += 1


# Cutting.


@dataclass(frozen=True)
class Size:
    """How much of a book's bounds some nodes take, GRID among them."""

    nodes: int
    devices: int
    customers: int
    feeders: int

    def passes(self, per_cent: int) -> list[str]:
        """The bounds, of which so many per cent may be used, that it passes."""
        bounds = {
            "nodes": (self.nodes, MOST_NODES),
            "devices": (self.devices, MOST_DEVICES),
            "customers": (self.customers, MOST_CUSTOMERS),
            "feeders": (self.feeders, MOST_FEEDERS),
        }
        return [f"{size} of {most} {name}" for name, (size, most) in bounds.items() if size * 100 > most * per_cent]

    def __str__(self) -> str:
        return f"{self.nodes} nodes, {self.devices} devices, {self.customers} customers, {self.feeders} feeders"


@dataclass(frozen=True)
class Area:
    """Nodes that normally closed devices join: they can't be cut apart."""

    nodes: tuple[str, ...]
    devices: frozenset[str]  # all that have an end here
    feeders: frozenset[str]
    customers: int

    @property
    def name(self) -> str:
        return f"the area of {self.nodes[0]} (feeders {', '.join(sorted(self.feeders)) or 'none'})"


class District:
    """Areas that are gathered, and how much of a book they take."""

    def __init__(self, areas: Sequence[Area] = ()) -> None:
        self.areas: list[Area] = []
        self.nodes, self.customers = 1, 0  # GRID among the nodes
        self.devices: set[str] = set()
        self.feeders: set[str] = set()
        for area in areas:
            self.add(area)

    def add(self, area: Area) -> None:
        self.areas.append(area)
        self.nodes += len(area.nodes)
        self.customers += area.customers
        self.devices |= area.devices
        self.feeders |= area.feeders

    @property
    def size(self) -> Size:
        return Size(self.nodes, len(self.devices), self.customers, len(self.feeders))

    def size_with(self, area: Area) -> Size:
        """What it takes with an area more."""
        return Size(
            nodes=self.nodes + len(area.nodes),
            devices=len(self.devices) + len(area.devices - self.devices),
            customers=self.customers + area.customers,
            feeders=len(self.feeders) + len(area.feeders - self.feeders),
        )


def joined_nodes(network: Network) -> list[list[str]]:
    """The nodes that normally closed devices join, in the order of the export."""
    closed = (link for link in network.links if link.is_closed and len(link.nodes) == 2)
    graph = graph_of(network.nodes, ((*link.ends, link.name) for link in closed))
    places = {node: place for place, node in enumerate(network.nodes)}
    return [sorted(group, key=places.__getitem__) for group in networkx().connected_components(graph)]


def areas_of(network: Network) -> list[Area]:
    """The areas of a network; the node that GRID feeds comes first in each."""
    devices: dict[str, set[str]] = defaultdict(set)
    fed: set[str] = set()
    for link in network.links:
        for node in link.nodes:
            devices[node].add(link.name)
        if len(link.nodes) == 1:
            fed.add(link.nodes[0])
    return [
        Area(
            nodes=tuple(sorted(group, key=lambda node: node not in fed)),
            devices=frozenset().union(*(devices[node] for node in group)),
            feeders=frozenset(network.feeder[node] for node in group if node in network.feeder),
            customers=sum(network.customers[node] for node in group),
        )
        for group in joined_nodes(network)
    ]


@dataclass
class Cut:
    """The districts by their names, and what is to be said of them."""

    districts: dict[str, District] = field(default_factory=dict)
    said: list[str] = field(default_factory=list)

    def district_of(self) -> dict[str, str]:
        """The district of each node."""
        return {node: name for name, each in self.districts.items() for area in each.areas for node in area.nodes}


def keep_old(areas: Sequence[Area], old: dict[str, str], cut: Cut) -> list[Area]:
    """Puts the areas that an earlier cut knows into their districts: the others."""
    others = []
    for area in areas:
        names = {old[node]: node for node in area.nodes if node in old}
        if len(names) > 1:
            told = ", ".join(f"{node} in {name}" for name, node in sorted(names.items()))
            raise BookError(
                f"{area.name} lies in several districts of the earlier cut ({told}): normally closed devices join them now"
            )
        if names:
            cut.districts.setdefault(next(iter(names)), District()).add(area)
        else:
            others.append(area)
    return others


def refuse_large(areas: Sequence[Area]) -> None:
    """Areas that no book holds, all with their numbers."""
    passed = [(area.name, District([area]).size.passes(100)) for area in areas]
    large = [f"{name}: {', '.join(bounds)}" for name, bounds in passed if bounds]
    if large:
        way = "join what is never switched, as outagebook-sections --only-opened does"
        raise BookError("\n".join(["a book doesn't hold what normally closed devices join here:", *large, way]))


def cut_areas(network: Network, areas: Sequence[Area], old: dict[str, str], room: int) -> Cut:
    """Gathers areas into districts: to each the area with most ties to it that fits, else the next of the export."""
    refuse_large(areas)
    cut = Cut()
    waiting = keep_old(areas, old, cut)
    for name, kept in cut.districts.items():
        if kept.size.passes(100):
            raise BookError(f"{name} has outgrown a book: {', '.join(kept.size.passes(100))}")
    ties = ties_between(network, areas)
    waiting = follow_ties(cut, waiting, ties, room)
    for kept in cut.districts.values():
        waiting = fill(kept, waiting, ties, room)
    number = 0
    while waiting:
        number += 1
        name = f"district-{number}"
        if name not in cut.districts:
            cut.districts[name] = District(waiting[:1])
            waiting = fill(cut.districts[name], waiting[1:], ties, room)
    for name, kept in cut.districts.items():
        passed = kept.size.passes(100 - room)
        if passed:
            cut.said.append(f"{name} has less than {room} per cent of room: {', '.join(passed)}")
    return cut


Ties = dict[str, dict[str, int]]  # how many devices join two areas, by the first nodes of both


def ties_between(network: Network, areas: Sequence[Area]) -> Ties:
    first = {node: area.nodes[0] for area in areas for node in area.nodes}
    found: Ties = defaultdict(lambda: defaultdict(int))
    for link in network.links:
        if len(link.nodes) == 2:
            a, b = (first[node] for node in link.ends)
            found[a][b] += 1
            found[b][a] += 1
    return found


def follow_ties(cut: Cut, waiting: Sequence[Area], ties: Ties, room: int) -> list[Area]:
    """Puts areas that an earlier cut doesn't know where they hang, those with most ties to a district first: the others."""
    rest = list(waiting)
    while True:
        name_of = {area.nodes[0]: name for name, each in cut.districts.items() for area in each.areas}
        joined = []  # the ties of an area to a district that has room for it
        for area in rest:
            counts: Counter[str] = Counter()
            for other, count in ties[area.nodes[0]].items():
                if other in name_of:
                    counts[name_of[other]] += count
            joined += [
                (count, area, name) for name, count in counts.items() if has_room(cut.districts[name], area, room)
            ]
        if not joined:
            return rest
        _, best, name = max(joined, key=lambda each: each[0])
        cut.districts[name].add(best)
        rest.remove(best)


def has_room(district: District, area: Area, room: int) -> bool:
    """Whether a district with an area would keep so many per cent of each bound free."""
    return not district.size_with(area).passes(100 - room)


def fill(district: District, waiting: Sequence[Area], ties: Ties, room: int) -> list[Area]:
    """Takes areas that wait into a district while they fit, those with most ties to it first: the others."""
    joined: dict[str, int] = defaultdict(int)  # ties to the district, by the first node of an area
    for area in district.areas:
        for other, count in ties[area.nodes[0]].items():
            joined[other] += count
    taken: set[str] = set()
    fitting = list(waiting)
    while True:
        # what doesn't fit now won't fit later
        fitting = [
            area for area in fitting
            if area.nodes[0] not in taken and has_room(district, area, room)
        ]  # fmt: skip
        if not fitting:
            return [area for area in waiting if area.nodes[0] not in taken]
        best = max(fitting, key=lambda area: joined[area.nodes[0]])
        district.add(best)
        taken.add(best.nodes[0])
        for other, count in ties[best.nodes[0]].items():
            joined[other] += count


# Writing the exports of the districts.


def numbers_of_feeders(cut: Cut) -> dict[tuple[str, str], int]:
    """The number of each district's feeders in its book: the export's own where all are numbers that a book takes."""
    numbers: dict[tuple[str, str], int] = {}
    for name, each in cut.districts.items():
        feeders = list(dict.fromkeys(feeder for area in each.areas for feeder in sorted(area.feeders)))
        if all(feeder.isdigit() and 1 <= int(feeder) <= MOST_FEEDERS for feeder in feeders):
            numbers.update({(name, feeder): int(feeder) for feeder in feeders})
        else:
            numbers.update({(name, feeder): number for number, feeder in enumerate(feeders, 1)})
    return numbers


@dataclass(frozen=True)
class Exports:
    """A utility's exports."""

    gis: Export
    customers: Export | None
    oms: Export | None


class Writing:
    """What the files of a cut's districts are written from."""

    def __init__(self, exports: Exports, network: Network, cut: Cut, folder: Path) -> None:
        self.exports, self.folder, self.names = exports, folder, list(cut.districts)
        self.district = cut.district_of()
        self.numbers = numbers_of_feeders(cut)
        self.of_device = {
            link.name: sorted({self.district[node] for node in link.nodes}) for link in network.links
        }  # fmt: skip

    def write_gis(self) -> None:
        """Each district's nodes, and the devices that have an end in it; the other end of a tie becomes GRID."""
        gis = self.exports.gis
        kind, name, feeder, *ends = (gis.place(column) for column in GIS_COLUMNS[:5])
        with written_to(self.folder, self.names, "gis.csv", gis.header) as writers:
            for _, record in gis.records([]):
                if record[kind].strip().lower() == "device":
                    for district in self.of_device[label(record[name])]:
                        told = list(record)
                        for end in ends:
                            if self.district.get(label(record[end]), district) != district:
                                told[end] = GRID_NAME
                        writers[district].writerow(told)
                    continue
                district = self.district[label(record[name])]
                if record[kind].strip().lower() == "section":
                    record[feeder] = str(self.numbers[district, record[feeder].strip()])
                writers[district].writerow(record)

    def write_customers(self, customers: Export) -> None:
        place = customers.place("section")
        with written_to(self.folder, self.names, "customers.csv", customers.header) as writers:
            for _, record in customers.records([]):
                writers[self.district[label(record[place])]].writerow(record)

    def write_oms(self, oms: Export) -> None:
        """The outages of each district: those of a tie go to both of its districts, with the counts of customers in one of them."""
        device, ticket = oms.place("device"), oms.columns.index("ticket") if "ticket" in oms.columns else None
        counts = [oms.place(column) for column in COUNT_COLUMNS if column in oms.columns]
        homes = self.homes_of_tickets(oms, device, ticket) if ticket is not None and counts else {}
        with written_to(self.folder, self.names, "oms.csv", oms.header) as writers:
            for _, record in oms.records([]):
                home = homes.get(record[ticket].strip()) if ticket is not None else None
                for district in self.of_device[label(record[device])]:
                    is_home = not home or district in home
                    writers[district].writerow(record if is_home else without(record, counts))

    def homes_of_tickets(self, oms: Export, device: int, ticket: int) -> dict[str, set[str]]:
        """Of each ticket that switches a tie between two districts, those of its other devices: there its customers are."""
        homes: dict[str, set[str]] = {}
        for _, record in oms.records([]):
            if len(self.of_device[label(record[device])]) > 1:
                homes[record[ticket].strip()] = set()
        for _, record in oms.records([]):
            districts = self.of_device[label(record[device])]
            if record[ticket].strip() in homes and len(districts) == 1:
                homes[record[ticket].strip()].update(districts)
        return homes


def without(record: list[str], places: Sequence[int]) -> list[str]:
    """A row without some of its fields."""
    return ["" if place in places else field for place, field in enumerate(record)]


def check_outages(oms: Export, network: Network) -> None:
    """Rows of outages that can't be read, or are of no device."""
    bad: list[str] = []
    devices, place = {link.name for link in network.links}, oms.place("device")
    for number, record in oms.records(bad):
        if label(record[place]) not in devices:
            bad.append(f"{oms.path}: row {number}: no device of the network is {record[place]!r}")
    if bad:
        raise BookError("\n".join([UNREAD, *bad]))


def tie_rows(network: Network, district: dict[str, str]) -> Iterator[list[str]]:
    """The devices between two districts."""
    for link in network.links:
        places = [district.get(node, "") for node in link.ends]
        if all(places) and places[0] != places[1]:
            yield [link.name, places[0], link.ends[0], places[1], link.ends[1]]


def write_cut(exports: Exports, network: Network, cut: Cut, folder: Path) -> None:
    """The exports of each district, with the lists of districts, feeders and ties."""
    writing = Writing(exports, network, cut, folder)
    writing.write_gis()
    if exports.customers:
        writing.write_customers(exports.customers)
    if exports.oms:
        writing.write_oms(exports.oms)
    write_rows(folder / "districts.csv", ("node", "district"), sorted(writing.district.items()))
    feeders = ((name, number, feeder) for (name, feeder), number in writing.numbers.items())
    write_rows(folder / "feeders.csv", ("district", "number", "feeder"), feeders)
    write_rows(folder / "ties.csv", TIE_COLUMNS, tie_rows(network, writing.district))


def cut(args: Any) -> None:
    """The job `cut`: tells each district's size and the ties that were cut."""
    form = Form(args.encoding, DELIMITERS.get(args.delimiter), tuple(args.renamed))
    gis = export_of(args.gis, GIS_COLUMNS, form)
    customers = export_of(args.customers, ("customer", "section"), form) if args.customers else None
    oms = export_of(args.oms, ("device",), form) if args.oms else None
    check_renamed([gis, customers, oms], form)
    earlier = read_rows(args.earlier, ("node", "district")) if args.earlier else []
    network = read_network(gis, customers)
    if oms:
        check_outages(oms, network)
    old = {label(row["node"]): row["district"] for row in earlier}
    made = cut_areas(network, areas_of(network), old, args.room)
    write_cut(Exports(gis, customers, oms), network, made, Path(args.output))
    ties = Counter(name for row in tie_rows(network, made.district_of()) for name in (row[1], row[3]))
    for name, each in made.districts.items():
        print(f"{name}: {each.size}, {ties[name]} ties to others")
    for line in made.said:
        print(line)
