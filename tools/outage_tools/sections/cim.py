"""A network model in CIM RDF/XML (IEC 61970-301, 61968-11): conducting equipment between connectivity nodes as edges.

A row is a line of the file at which an object begins. The circuit of an edge is the Feeder that contains it. Customers are the usage
points, or the energy consumers where there are none.
"""

from collections import defaultdict
from dataclasses import dataclass, field
from typing import Any
from xml.parsers import expat

from outage_tools.errors import BookError, lacks
from outage_tools.oms.complaints import BadRow, Notes
from outage_tools.oms.files import Spot
from outage_tools.sections.edges import LINE, SWITCHING, TRANSFORMER, Edge, Load
from outage_tools.sections.reading import Reading

KINDS = {
    "ACLineSegment": LINE,
    "SeriesCompensator": LINE,
    "PowerTransformer": TRANSFORMER,
    "Breaker": "breaker",
    "DisconnectingCircuitBreaker": "breaker",
    "ProtectedSwitch": "breaker",
    "Recloser": "recloser",
    "Switch": "switch",
    "LoadBreakSwitch": "switch",
    "Sectionaliser": "switch",
    "Disconnector": "disconnector",
    "Fuse": "fuse",
    "Jumper": "jumper",
}
SOURCES = ("EnergySource", "ExternalNetworkInjection")
BASE = "http://outagebook.invalid/model"  # for identifiers that a file tells without one
RDF = "http://www.w3.org/1999/02/22-rdf-syntax-ns#"


@dataclass
class Thing:
    """An object: its class, and its attributes and references by their names."""

    key: str
    kind: str = ""
    values: dict[str, list[str]] = field(default_factory=lambda: defaultdict(list))
    spot: Spot = Spot("", 0)

    def one(self, name: str) -> str:
        return self.values[name][0] if self.values.get(name) else ""

    @property
    def name(self) -> str:
        return self.one("IdentifiedObject.name") or self.key

    @property
    def mrid(self) -> str:
        return self.one("IdentifiedObject.mRID") or self.key

    @property
    def told(self) -> str:
        return f"{self.kind} {self.name}"


def key_of(text: str) -> str:
    """An identifier without its base."""
    return text.rpartition("#")[2] or text


def lines_of(path: str) -> dict[str, int]:
    """The line at which each object of a file begins."""
    found: dict[str, int] = {}
    parser = expat.ParserCreate(namespace_separator="")

    def start(_: str, attributes: dict[str, str]) -> None:
        for name in ("ID", "about"):
            if f"{RDF}{name}" in attributes:
                found.setdefault(key_of(attributes[f"{RDF}{name}"]), parser.CurrentLineNumber)

    parser.StartElementHandler = start
    try:
        with open(path, "rb") as file:
            parser.ParseFile(file)
    except OSError as error:
        raise BookError(f"{path} can't be read: {error.strerror or error}") from None
    except expat.ExpatError as error:
        raise BookError(f"{path}: row {error.lineno}: it is no XML: {expat.errors.messages[error.code]}") from None
    return found


def graph_of(path: str) -> Any:
    """The statements of a file, by Debian's rdflib."""
    try:
        import rdflib
    except ImportError:
        raise lacks("CIM is read", "python3-rdflib") from None
    graph = rdflib.Graph()
    try:
        graph.parse(path, format="xml", publicID=BASE)
    except Exception as error:  # rdflib has no kind of its own for what is no RDF
        raise BookError(f"{path}: it is no RDF/XML: {error}") from None
    return graph


def things_in(reading: Reading, path: str, notes: Notes, things: dict[str, Thing]) -> None:
    """The objects of a file, added to those of the files before."""
    lines = lines_of(path)
    for subject, predicate, value in graph_of(path):
        key, name = key_of(str(subject)), key_of(str(predicate))
        thing = things.setdefault(key, Thing(key, spot=Spot(path, 0)))
        if thing.spot.number == 0 and key in lines:
            thing.spot = Spot(path, lines[key])
        if str(predicate) == f"{RDF}type":
            thing.kind = key_of(str(value))
        else:
            thing.values[name].append(key_of(str(value)) if is_reference(value) else str(value).strip())
    notes.rows = len(lines)


def is_reference(value: Any) -> bool:
    return type(value).__name__ == "URIRef"


@dataclass
class Network:
    """Turns the objects of a model into edges, sources and loads."""

    reading: Reading
    notes: dict[str, Notes]
    things: dict[str, Thing]
    by_mrid: bool
    terminals: dict[str, list[Thing]] = field(default_factory=lambda: defaultdict(list))
    labels: dict[str, str] = field(default_factory=dict)  # of transformers that are edges, by their keys
    supplies: dict[str, list[Thing]] = field(default_factory=lambda: defaultdict(list))  # usage points, by their keys

    def all(self) -> None:
        in_order = sorted(self.things.values(), key=lambda each: (each.spot.file, each.spot.number, each.key))
        for each in in_order:
            if each.kind == "Terminal":
                self.terminals[each.one("Terminal.ConductingEquipment")].append(each)
            for key in each.values.get("Equipment.UsagePoints", ()):
                self.supplies[key].append(each)
        for each in in_order:
            with self.reading.complaints.about(each.spot):
                if each.kind in KINDS:
                    self.take_edge(each)
                elif each.kind in SOURCES:
                    self.reading.raw.sources.setdefault(self.nodes_of(each, 1)[0], each.spot)
                elif len(self.terminals[each.key]) > 1:
                    self.notes[each.spot.file].left_out(
                        f"equipment of the class {each.kind}, which isn't read", each.spot
                    )
        points = [each for each in in_order if each.kind == "UsagePoint"]
        consumers = [each for each in in_order if each.kind in ("EnergyConsumer", "ConformLoad", "NonConformLoad")]
        for each in points or consumers:
            with self.reading.complaints.about(each.spot):
                self.take_load(each)

    def label(self, thing: Thing) -> str:
        return thing.mrid if self.by_mrid else thing.name

    def nodes_of(self, thing: Thing, most: int = 9) -> list[str]:
        """The connectivity nodes of its terminals, in their order."""
        terminals = sorted(self.terminals[thing.key], key=lambda each: number_of(each))
        nodes = [each.one("Terminal.ConnectivityNode") for each in terminals]
        if not nodes or not all(nodes):
            raise BadRow(f"{thing.told} has no terminal with a connectivity node")
        if len(nodes) > most:
            raise BadRow(f"{thing.told} has {len(nodes)} terminals")
        return nodes

    def take_edge(self, thing: Thing) -> None:
        """An edge; of a transformer with further windings one for each."""
        notes = self.notes[thing.spot.file]
        if "false" in (thing.one("Equipment.normallyInService").lower(), thing.one("Equipment.inService").lower()):
            notes.left_out("equipment that isn't in service", thing.spot)
            return
        kind = KINDS[thing.kind]
        nodes = self.nodes_of(thing)
        if len(nodes) < 2 or (len(nodes) > 2 and kind != TRANSFORMER):
            raise BadRow(f"{thing.told} has {len(nodes)} terminals, and an edge has two")
        self.labels[thing.key] = self.label(thing)
        for number, node in enumerate(nodes[1:], 2):
            label = self.label(thing) if number == 2 else f"{self.label(thing)}/{number}"
            edge = Edge(label, kind, nodes[0], node, is_closed(thing, kind), self.circuit(thing), thing.spot)
            self.add(edge, notes)

    def add(self, edge: Edge, notes: Notes) -> None:
        """Objects of one name are two edges, also where they are alike."""
        first = self.reading.raw.edges.get(edge.name)
        if first is not None:
            raise BadRow(f"{edge.name} is the name of row {first.spot.number} too (--label mrid takes identifiers)")
        self.reading.add_edge(edge, notes)

    def circuit(self, thing: Thing) -> str:
        """The feeder that contains it."""
        keys = (
            *thing.values.get("Equipment.EquipmentContainer", ()),
            *thing.values.get("Equipment.AdditionalEquipmentContainer", ()),
        )
        containers = (self.things[key] for key in keys if key in self.things)
        return next((each.name for each in containers if each.kind == "Feeder"), "")

    def take_load(self, thing: Thing) -> None:
        """A usage point by its equipment, or a consumer by its node."""
        if thing.kind != "UsagePoint":
            told = thing.one("EnergyConsumer.customerCount")
            if not told:
                self.notes[thing.spot.file].noticed("consumers without customerCount, of one customer each", thing.spot)
            if told and not told.isdecimal():
                raise BadRow(f"{thing.told}: customerCount {told!r} is no number")
            self.add_load(thing, "", self.nodes_of(thing, 1)[0], int(told or 1))
            return
        keys = thing.values.get("UsagePoint.Equipments", ())
        supplies = [*(self.things[key] for key in keys if key in self.things), *self.supplies[thing.key]]
        if not supplies:
            raise BadRow(f"{thing.told} has no equipment that supplies it")
        if supplies[0].key in self.labels and supplies[0].kind == "PowerTransformer":
            self.add_load(thing, self.labels[supplies[0].key], "", 1)
        else:
            self.add_load(thing, "", self.nodes_of(supplies[0], 1)[0], 1)

    def add_load(self, thing: Thing, transformer: str, node: str, count: int) -> None:
        label = self.label(thing)
        first = self.reading.raw.loads.setdefault(label, Load(label, transformer, node, count, thing.spot))
        if first.spot != thing.spot:
            raise BadRow(f"{label} is the name of row {first.spot.number} too (--label mrid takes identifiers)")


def number_of(terminal: Thing) -> int:
    text = terminal.one("ACDCTerminal.sequenceNumber") or terminal.one("Terminal.sequenceNumber")
    return int(text) if text.isdecimal() else 0


def is_closed(thing: Thing, kind: str) -> bool:
    """The normal position: of a switch it has to be told."""
    if kind not in SWITCHING:
        return True
    told = thing.one("Switch.normalOpen").lower()
    if told not in ("true", "false"):
        raise BadRow(f"{thing.told} without a normal position (Switch.normalOpen)")
    return told == "false"


def read_cim(reading: Reading, paths: list[str], by_mrid: bool) -> None:
    """The network and the customers of a model, which may be in several files."""
    things: dict[str, Thing] = {}
    notes = {path: reading.notes("cim", path) for path in paths}
    for path in paths:
        things_in(reading, path, notes[path], things)
    Network(reading, notes, things, by_mrid).all()
