"""Buses, sections and devices of a geographic information system."""

from collections.abc import Iterable, Iterator
from dataclasses import dataclass, field

from outage_tools.oms.complaints import BadRow, Notes
from outage_tools.oms.conversion import MOST_NAME, Conversion, note_small_letters
from outage_tools.oms.fields import identifier, life_texts, number, shown
from outage_tools.oms.files import Row

COLUMNS = ("type", "name", "feeder", "from", "to", "normal", "since", "since_hour", "until", "until_hour")
REQUIRED = ("type", "name", "feeder", "from", "to", "normal")
MOST_NODES = 1_024
MOST_DEVICES = 2_048
SOURCE = "GRID"
BOOK = "the book"

Ends = tuple[str, str]  # of a device: its nodes
Life = tuple[int, int | None]


@dataclass
class Network:
    """The network of the rows and of the book: the feeder of each node, which a bus has none of, and each device's ends and
    normal position."""

    conversion: Conversion
    nodes: dict[str, int | None] = field(default_factory=dict)
    devices: dict[str, tuple[Ends, bool]] = field(default_factory=dict)  # its nodes, and whether it is closed normally
    lives: dict[str, Life] = field(default_factory=dict)  # of the book's devices
    told_lives: dict[str, Life] = field(default_factory=dict)  # by rows
    gone: set[str] = field(default_factory=set)  # devices that were taken down before the period
    rows: dict[tuple[str, str], int] = field(default_factory=dict)  # by kind and name
    is_known: bool = False  # by rows, or by a book
    is_whole: bool = False  # and each of its rows could be read

    def __post_init__(self) -> None:
        self.nodes[SOURCE] = None
        book = self.conversion.known.book
        if book is None:
            return
        self.is_known = self.is_whole = True
        for node, name in book.nodes.items():
            self.nodes[name] = book.sections[node].feeder if node in book.sections else None
        for device in book.devices:
            self.devices[device.name] = (book.nodes[device.a], book.nodes[device.b]), device.is_closed
            self.lives[device.name] = device.since, device.until

    def is_section(self, name: str) -> bool:
        return self.nodes.get(name) is not None

    def is_alive(self, device: str, second: int) -> bool:
        """The second lies in the device's life."""
        since, until = self.told_lives.get(device) or self.lives.get(device) or (0, None)
        return since <= second and (until is None or second <= until)

    def read(self, rows: Iterable[Row], notes: Notes) -> Iterator[list[str]]:
        """Buses and sections, then devices. Of those that the book has only other lives are written, where they are given."""
        book = self.conversion.known.book
        taken = {SOURCE, *book.nodes.values()} if book else {SOURCE}
        devices = []
        complaints = self.conversion.complaints.found
        before = len(complaints)
        for row in rows:
            with self.conversion.complaints.about(row):
                if row["type"].lower() == "device":
                    devices.append(row)
                else:
                    yield from self.node_commands(row, taken, notes)
        for row in devices:
            with self.conversion.complaints.about(row):
                yield from self.device_commands(row, notes)
        self.is_known, self.is_whole = True, len(complaints) == before

    def told_once(self, kind: str, name: str, row: Row) -> None:
        """A second row of one name is refused."""
        first = self.rows.setdefault((kind, name), row.number)
        if first != row.number:
            raise BadRow(f"{name} was told in row {first} already")

    def node_commands(self, row: Row, taken: set[str], notes: Notes) -> Iterator[list[str]]:
        """A new bus or section; one that the book has is the same there."""
        kind, name = row["type"].lower(), identifier(row["name"], MOST_NAME, "the name")
        if kind not in ("bus", "section"):
            raise BadRow(f"type {shown(row['type'])} is no bus, section or device")
        note_small_letters(row, ("name",), notes)
        feeder = number(row["feeder"], 255, "the feeder") if kind == "section" else None
        if kind == "bus" and row["feeder"]:
            notes.left_out("feeders of buses, which have none", row)
        self.told_once("node", name, row)
        if name in taken:
            if name == SOURCE or self.nodes[name] != feeder:
                raise BadRow(
                    f"{name} is {node_text(self.nodes[name])} already, and stays so: give another one another name"
                )
            return
        if len(self.nodes) >= MOST_NODES:
            raise BadRow(f"a book has at most {MOST_NODES} nodes, GRID among them")
        self.nodes[name] = feeder
        ref = self.conversion.known.unused(f"GIS-{kind.upper()}-{name}")
        yield self.conversion.command(notes, kind, ref, name, *([] if feeder is None else [feeder]))

    def device_commands(self, row: Row, notes: Notes) -> Iterator[list[str]]:
        """A new device, or another life of one that the book has, where the row tells a life."""
        name = identifier(row["name"], MOST_NAME, "the name")
        a, b = (identifier(row[column], MOST_NAME, f"the node {column}") for column in ("from", "to"))
        note_small_letters(row, ("name", "from", "to"), notes)
        if row["normal"].lower() not in ("open", "closed"):
            raise BadRow(f"normal {shown(row['normal'])} is neither open nor closed")
        if a == b:
            raise BadRow(f"both of its ends are {a}")
        for node in (a, b):
            if node not in self.nodes:
                raise BadRow(f"no bus or section is called {node}")
        since, until = self.conversion.ends(row, notes)
        self.told_once("device", name, row)
        said = (a, b), row["normal"].lower() == "closed"
        if name in self.lives:
            yield from self.life_commands(row, name, said, since, until, notes)
        elif self.conversion.is_over(until):
            self.gone.add(name)
            notes.left_out("devices that were taken down before the period", row)
        else:
            yield self.new_device(row, name, said, since, until, notes)

    def new_device(
        self, row: Row, name: str, said: tuple[Ends, bool], since: int | None, until: int | None, notes: Notes
    ) -> list[str]:
        if len(self.devices) >= MOST_DEVICES:
            raise BadRow(f"a book has at most {MOST_DEVICES} devices")
        self.devices[name] = said
        since = self.conversion.from_1970(since, row, notes)
        self.told_lives[name] = since or 0, until
        texts = life_texts(since, until, self.conversion.zone)
        ref = self.conversion.known.unused(f"GIS-DEVICE-{name}")
        return self.conversion.command(notes, "device", ref, name, *said[0], normal_text(said[1]), *texts)

    def life_commands(
        self, row: Row, name: str, said: tuple[Ends, bool], since: int | None, until: int | None, notes: Notes
    ) -> Iterator[list[str]]:
        """Another life of a device that the book has; its nodes and its normal position stay."""
        there = self.devices[name]
        if (set(there[0]), there[1]) != (set(said[0]), said[1]):
            raise BadRow(
                f"{name} is from {there[0][0]} to {there[0][1]}, normally {normal_text(there[1])}, in the book and stays so:"
                " end its in-service interval, and give the other device another name"
            )
        if until is not None and until <= 0:
            raise BadRow(f"until {row['until']!r} lies before 1970, and the book has the device: give a later moment")
        since = self.conversion.from_1970(since, row, notes)
        if (since, until) != (None, None) and (since or 0, until) != self.lives[name]:
            self.told_lives[name] = since or 0, until
            texts = life_texts(since, until, self.conversion.zone)
            ref = self.conversion.known.unused(f"GIS-LIFE-{name}")
            yield self.conversion.command(notes, "life", ref, name, *texts)


def normal_text(is_closed: bool) -> str:
    return "closed" if is_closed else "open"


def node_text(feeder: int | None) -> str:
    return "a bus (or the source)" if feeder is None else f"a section of feeder {feeder}"
