"""What exports hold, row by row, with all that is wrong with a row by itself or beside another one.

Nothing is refused here: a row that can't be read is a finding, and the next one is read.
"""

from collections.abc import Callable
from dataclasses import dataclass, field
from enum import Enum
from typing import NamedTuple

from outage_tools.normal_state import SOURCE, TestedDevice
from outage_tools.oms.complaints import BadRow, Complaint, Notes
from outage_tools.oms.conversion import MOST_NAME, Conversion
from outage_tools.keys import read_key
from outage_tools.oms.customers import read_customer
from outage_tools.oms.fields import identifier, number, read_moment, read_zone, shown
from outage_tools.oms.files import Export, Row
from outage_tools.oms.known import Service
from outage_tools.oms.services import Meters
from outage_tools.oms.steps import MOST_STEP


class Topic(Enum):
    """What a finding is about, in the order in which they are told."""

    REFUSED = "rows that can't be taken"
    TWICE = "told twice"
    OTHERWISE = "otherwise in the book, where no command changes it"
    NO_NODE = "devices with an end that is no bus or section"
    NO_SECTION = "customers on no section"
    NO_DEVICE = "switchings of a device that no row has"
    NO_CAUSE = "switchings with a cause that no row has"
    ALONE = "buses and sections that no device joins"
    NOT_REACHED = "not reached, with or without ties"
    TIES_ALONE = "reached through ties alone"
    LOOP = "loops of devices that are closed normally"
    BETWEEN = "devices on no loop that are closed normally between two feeders"
    NOTED = "left out, changed or noticed when rows are written"


class Place(NamedTuple):
    """A row of a file; the book has no rows."""

    file: str
    row: int = 0

    def __str__(self) -> str:
        return f"{self.file} row {self.row}" if self.row else self.file


BOOK = Place("the book")
FROM_THE_START = Place("from the start")


@dataclass(frozen=True)
class Finding:
    """What was found: the names that it is about, in words, and the rows. One that isn't wrong is only worth a look. Customers in
    service that aren't supplied count their seconds under cause 0."""

    topic: Topic
    names: tuple[str, ...]
    text: str
    places: tuple[Place, ...] = ()
    is_wrong: bool = True
    customers: int = 0
    customer_seconds: int = 0


@dataclass(frozen=True)
class Node:
    """A bus, or a section with its home feeder."""

    name: str
    feeder: int | None
    place: Place


@dataclass(frozen=True)
class Switched:
    """A step of a ticket: the device and the cause that its row names."""

    device: str
    cause: str
    place: Place


@dataclass
class Contents:
    """What the exports and the book hold together; where a name is told twice, its first row counts."""

    conversion: Conversion
    nodes: dict[str, Node] = field(default_factory=dict)
    devices: dict[str, TestedDevice] = field(default_factory=dict)
    gone: set[str] = field(default_factory=set)  # devices that were taken down before the period
    customers: dict[int, Service] = field(default_factory=dict)
    causes: dict[int, str] = field(default_factory=dict)
    words: set[str] = field(default_factory=set)  # for causes
    switched: list[Switched] = field(default_factory=list)
    places: dict[tuple[str, str], Place] = field(default_factory=dict)  # the first row of each kind of thing and name
    findings: list[Finding] = field(default_factory=list)

    def __post_init__(self) -> None:
        self.places["node", SOURCE] = FROM_THE_START
        self.nodes[SOURCE] = Node(SOURCE, None, FROM_THE_START)
        book = self.conversion.known.book
        if book is None:
            return
        feeders = {section.name: section.feeder for section in book.sections.values()}
        self.nodes |= {name: Node(name, feeders.get(name), BOOK) for number, name in book.nodes.items() if number}
        for device in book.devices:
            ends = book.nodes[device.a], book.nodes[device.b]
            self.devices[device.name] = TestedDevice(device.name, ends, device.is_closed, device.since, device.until)
        self.causes = {code: name for code, name in book.causes.items() if code}
        self.words = set(self.causes.values())
        self.customers = dict(self.conversion.known.customers)

    def is_first(self, kind: str, name: str, row: Row) -> bool:
        """The first row of a name; a further one is a finding."""
        place = Place(row.file, row.number)
        first = self.places.setdefault((kind, name), place)
        if first != place:
            self.findings.append(Finding(Topic.TWICE, (name,), f"{kind} {name}: {first} and {place}", (place,)))
        return first == place

    def keyed(self, key: str, service: Service) -> int | None:
        """The number of a key's service, as the rows would have it; None where none is wanted. What is wrong with it is told where the
        rows are written."""
        keys = self.conversion.keys
        if keys is None:
            return None
        found = keys.find(key, service, self.conversion.known.customers)
        if found is None and not self.conversion.is_over(service.until):
            found = keys.give(key)
        keys.used |= {found} if found is not None else set()
        return found

    def behind_meter(self, meter: str, section: str) -> str:
        """The section behind a customer's meter, where it is a device at the section that supplies it; else the section itself."""
        ends = self.devices[meter].ends if meter in self.devices else ()
        others = [end for end in ends if end != section] if section in ends else []
        if not others:
            return section
        listed = [device for device in self.devices.values() if set(others) & set(device.ends)]
        return others[0] if len(listed) == 1 else section

    def take_meters(self, meters: Meters) -> None:
        """The sections and devices that tickets of single services get when rows are written."""
        for meter in meters.made:
            ends, is_closed = meters.network.devices[meter]
            place = Place(meters.tickets[meter].file, meters.tickets[meter].number)
            self.nodes[ends[1]] = Node(ends[1], meters.network.nodes[ends[1]], place)
            self.devices[meter] = TestedDevice(meter, ends, is_closed, 0, None)
            self.places["node", ends[1]] = self.places["device", meter] = place

    def customer_text(self, customer: int) -> str:
        """A customer's number, with its key beside it where there is a table of keys."""
        return self.conversion.keys.text(customer) if self.conversion.keys is not None else str(customer)

    def differs(self, kind: str, name: str, here: str, there: str, row: Row) -> None:
        """A finding where the book has something else."""
        place = Place(row.file, row.number)
        if here != there:
            text = f"{kind} {name}: {here} in {place}, {there} in the book"
            self.findings.append(Finding(Topic.OTHERWISE, (name,), text, (place,)))

    def refused(self, complaint: Complaint) -> None:
        """A row that can't be taken."""
        place = Place(complaint.file, complaint.row)
        self.findings.append(Finding(Topic.REFUSED, (), str(complaint), (place,)))

    def read(self, export: Export, take: "Callable[[Contents, Row], None]") -> None:
        """Takes the rows of an export; those that can't be read are findings."""
        for row in export.rows():
            with export.complaints.about(row):
                take(self, row)
        for complaint in export.complaints.found:
            self.refused(complaint)

    def ends(self, row: Row) -> tuple[int | None, int | None]:
        """The two ends of a life."""
        return self.conversion.ends(row, Notes("", row.file))


# The network.


def take_network(contents: Contents, row: Row) -> None:
    """A bus, a section or a device."""
    kind, name = row["type"].lower(), identifier(row["name"], MOST_NAME, "the name")
    if kind == "device":
        take_device(contents, row, name)
    elif kind in ("bus", "section"):
        feeder = number(row["feeder"], 255, "the feeder") if kind == "section" else None
        if contents.is_first("node", name, row):
            before = contents.nodes.setdefault(name, Node(name, feeder, contents.places["node", name]))
            contents.differs("node", name, node_text(feeder), node_text(before.feeder), row)
    else:
        raise BadRow(f"type {shown(row['type'])} is no bus, section or device")


def node_text(feeder: int | None) -> str:
    return "a bus" if feeder is None else f"a section of feeder {feeder}"


def take_device(contents: Contents, row: Row, name: str) -> None:
    a, b = (identifier(row[column], MOST_NAME, f"the node {column}") for column in ("from", "to"))
    if a == b:
        raise BadRow(f"both of its ends are {a}")
    if row["normal"].lower() not in ("open", "closed"):
        raise BadRow(f"normal {shown(row['normal'])} is neither open nor closed")
    since, until = contents.ends(row)
    if not contents.is_first("device", name, row):
        return
    here = TestedDevice(name, (a, b), row["normal"].lower() == "closed", max(0, since or 0), until)
    before = contents.devices.get(name)
    if before is not None:
        contents.differs("device", name, device_text(here), device_text(before), row)
        if (since, until) != (None, None):
            contents.devices[name] = TestedDevice(name, before.ends, before.is_closed, here.since, here.until)
    elif contents.conversion.is_over(until):
        contents.gone.add(name)
    else:
        contents.devices[name] = here


def device_text(device: TestedDevice) -> str:
    """What no command changes of a device."""
    return f"{' to '.join(sorted(device.ends))}, normally {'closed' if device.is_closed else 'open'}"


# Customers, causes, outages.


def take_customer(contents: Contents, row: Row) -> None:
    """A customer; one whose service was over before the period doesn't come into its book."""
    keys = contents.conversion.keys
    who: int | str = read_customer(row["customer"]) if keys is None else read_key(row["customer"])
    section = identifier(row["section"], MOST_NAME, "the section")
    if not row["since"]:
        raise BadRow("since is empty")
    since, until = contents.ends(row)
    section = contents.behind_meter(row["meter"].upper(), section)
    service = Service(section, max(0, since or 0), until)
    customer = who if isinstance(who, int) else contents.keyed(who, service)
    if customer is None or not contents.is_first("customer", str(customer), row):
        return
    before = contents.customers.get(customer)
    if before is not None:
        contents.differs("customer", str(customer), f"on {service.section}", f"on {before.section}", row)
        contents.customers[customer] = Service(before.section, service.since, service.until)
    elif not contents.conversion.is_over(service.until):
        contents.customers[customer] = service


def take_cause(contents: Contents, row: Row) -> None:
    """A cause; several rows may give one cause further words."""
    code = number(row["code"], 63, "the code")
    name = identifier(row["name"], MOST_NAME, "the name")
    contents.words |= {word for word in (row["name"], name, row["oms"]) if word}
    codes = {name: code for code, name in contents.causes.items()}
    if contents.causes.get(code, name) != name or codes.get(name, code) != code:
        place = Place(row.file, row.number)
        there = f"code {code} is {contents.causes.get(code, 'new')}, and {name} has {codes.get(name, 'no code')}"
        contents.findings.append(
            Finding(Topic.TWICE, (name,), f"cause {code} {name}, {place}: {there} before", (place,))
        )
    contents.causes.setdefault(code, name)


def take_outage(contents: Contents, row: Row) -> None:
    """A step of a ticket, but for one that was cancelled."""
    ticket = identifier(row["ticket"], MOST_NAME, "the ticket")
    step = identifier(row["step"] or "1", MOST_STEP, "the step")
    if (
        not contents.is_first("ticket and step", f"{ticket} {step}", row)
        or row["status"].lower() in contents.conversion.cancelled
    ):
        return
    if not row["out"] and not row["restored"]:
        raise BadRow("neither out nor restored is given")
    device = identifier(row["device"], MOST_NAME, "the device")
    zone = read_zone(row["zone"]) if row["zone"] else contents.conversion.zone
    for column in ("out", "restored"):
        if row[column]:
            hour, dates = row[f"{column}_hour"], contents.conversion.dates
            read_moment(row[column], hour, zone, column, dates, wants_clock=True)
    contents.switched.append(Switched(device, row["cause"], Place(row.file, row.number)))
