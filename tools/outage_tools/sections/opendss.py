"""A circuit of OpenDSS: its lines, switches, transformers and protective devices as edges, its loads as customers.

A row is a line of the script. Lines with `switch=yes` or a SwtControl are switches; a Fuse, Recloser or Relay is an edge of its own at
the end of what it switches. Transformers of one `bank` between the same buses are one. The circuit of an edge is that of an EnergyMeter
on it; without meters all but the transformers are of the one circuit.
"""

import re
from dataclasses import dataclass, field
from pathlib import Path

from outage_tools.oms.complaints import BadRow, Notes
from outage_tools.oms.decoding import open_lines
from outage_tools.oms.files import Spot
from outage_tools.sections.edges import LINE, TRANSFORMER, Edge, Load
from outage_tools.sections.reading import Reading

VALUE = r"""\([^)]*\)|\[[^\]]*\]|\{[^}]*\}|"[^"]*"|'[^']*'|[^\s,]+"""
TOKEN = re.compile(rf"(?:([^\s,=\"'(\[{{]+)\s*=\s*)?({VALUE})")
COMMENT = re.compile(r"!|//")
MORE = ("~", "more", "m")
NAMING = ("new", "edit", "redirect", "compile", "open", "close", "enable", "disable", "buscoords")  # something
SAY_NOTHING = ("set", "solve", "calcvoltagebases", "calcv", "show", "plot", "export", "visualize")  # of the network
READ_CLASSES = ("circuit", "vsource", "line", "transformer", "reactor", "load", "energymeter", "swtcontrol")
PROTECTIVE = {"fuse": "fuse", "recloser": "recloser", "relay": "breaker"}
YES, OPEN = ("y", "yes", "t", "true"), ("o", "open")
MOST_DEPTH = 20  # of scripts that call scripts


@dataclass
class Element:
    """An element of a circuit: its properties by their names, and the buses of a transformer's windings."""

    kind: str
    name: str
    spot: Spot
    properties: dict[str, str] = field(default_factory=dict)
    windings: dict[int, str] = field(default_factory=dict)
    winding: int = 1
    is_enabled: bool = True

    @property
    def label(self) -> str:
        return f"{self.kind}.{self.name}"

    def put(self, name: str, value: str) -> None:
        """A property; those of a winding are of the one that was told last."""
        if name == "wdg":
            if not value.isdecimal():
                raise BadRow(f"wdg {value!r} is no number")
            self.winding = int(value)
        elif name == "bus" and self.kind == "transformer":
            self.windings[self.winding] = bus_of(value)
        elif name == "buses":
            self.windings = {number: bus_of(bus) for number, bus in enumerate(values_of(value), 1)}
        elif name == "enabled":
            self.is_enabled = value.lower() in YES
        else:
            self.properties[name] = value

    def bus(self, name: str) -> str:
        if name not in self.properties:
            raise BadRow(f"{self.label} has no {name}")
        return bus_of(self.properties[name])


def bare(value: str) -> str:
    """A value without its quotes."""
    return value[1:-1].strip() if value[:1] in "\"'([{" and len(value) > 1 else value


def values_of(value: str) -> list[str]:
    return [bare(each) for _, each in TOKEN.findall(value)]


def bus_of(value: str) -> str:
    """A bus without the nodes behind it: 671.1.2.3 is 671."""
    return bare(value).partition(".")[0].strip().lower()


@dataclass
class Script:
    """The elements of a script, by class and name."""

    reading: Reading
    notes: dict[str, Notes] = field(default_factory=dict)  # of each file
    elements: dict[str, Element] = field(default_factory=dict)
    last: Element | None = None
    opened: dict[str, bool] = field(default_factory=dict)  # by `open` and `close`

    def read(self, path: Path, depth: int = 0) -> None:
        """A script, and those that it calls."""
        if depth > MOST_DEPTH:
            raise BadRow(f"scripts call one another more than {MOST_DEPTH} deep")
        is_comment = False
        notes = self.notes.get(str(path)) or self.reading.notes("opendss", str(path))
        self.notes[str(path)] = notes
        with open_lines(str(path), self.reading.format.encoding) as (_, lines):
            for number, line in enumerate(lines, 1):
                notes.rows += 1
                line = line.strip()
                is_comment = is_comment or line.startswith("/*")
                text = "" if is_comment else COMMENT.split(line, 1)[0].strip()
                is_comment = is_comment and "*/" not in line
                if text:
                    spot = Spot(str(path), number)
                    with self.reading.complaints.about(spot):
                        self.take(text, spot, path, depth)

    def take(self, text: str, spot: Spot, path: Path, depth: int) -> None:
        """A statement."""
        tokens = [(name.lower(), bare(value)) for name, value in TOKEN.findall(text)]
        if not tokens:
            raise BadRow("it is no statement")
        first, rest = tokens[0], tokens[1:]
        command = (first[0] or first[1]).lower()
        if command in NAMING and not rest:
            raise BadRow(f"{command} names nothing")
        if command in MORE:
            self.put(self.last, rest)
        elif command in ("new", "edit"):
            self.element(command, rest, spot)
        elif command in ("redirect", "compile"):
            self.read(beside(path, rest[0][1]), depth + 1)
        elif command in ("open", "close"):
            self.opened[rest[0][1].lower()] = command == "open"
        elif command in ("enable", "disable"):
            self.named(rest[0][1]).is_enabled = command == "enable"
        elif command == "buscoords":
            self.read_points(beside(path, rest[0][1]))
        elif command == "clear":
            self.elements.clear()
        elif command.count(".") and command.split(".")[0] in (*READ_CLASSES, *PROTECTIVE):
            self.edit(command, first[1], rest)
        elif command not in SAY_NOTHING:
            self.notes[spot.file].left_out(f"the command {command}", spot)

    def edit(self, command: str, value: str, rest: list[tuple[str, str]]) -> None:
        """A property of an element that is there, as `Line.L1.enabled=no`."""
        kind, name, *properties = command.split(".")
        self.put(self.named(f"{kind}.{name}"), [*((each, value) for each in properties), *rest])

    def element(self, command: str, rest: list[tuple[str, str]], spot: Spot) -> None:
        """A new element, or more of one."""
        kind, _, name = rest[0][1].lower().partition(".")
        label = f"{kind}.{name}"
        if command == "edit" or kind == "circuit" and "vsource.source" in self.elements:
            self.put(self.named("vsource.source" if kind == "circuit" else label), rest[1:])
            return
        if label in self.elements:
            raise BadRow(f"{label} was told in row {self.elements[label].spot.number} already")
        self.last = Element(kind, name, spot)
        if kind == "circuit":
            self.elements["vsource.source"] = self.last
        else:
            self.elements[label] = self.last
        if kind not in (*READ_CLASSES, *PROTECTIVE):
            self.notes[spot.file].left_out(f"elements of the class {kind}, which join nothing", spot)
        self.put(self.last, rest[1:])

    def put(self, element: Element | None, properties: list[tuple[str, str]]) -> None:
        if element is None:
            raise BadRow("it goes on with an element, and there is none")
        self.last = element
        for name, value in properties:
            if name == "like":
                other = self.named(f"{element.kind}.{value.lower()}")
                element.properties |= other.properties
                element.windings |= other.windings
            elif name:
                element.put(name, value)
            elif element.kind in (*READ_CLASSES, *PROTECTIVE):
                raise BadRow(f"the value {value!r} has no name of a property")

    def named(self, label: str) -> Element:
        found = self.elements.get(label.lower())
        if found is None:
            raise BadRow(f"there is no element {label.lower()}")
        return found

    def read_points(self, path: Path) -> None:
        """The coordinates of buses."""
        with open_lines(str(path), self.reading.format.encoding) as (_, lines):
            for number, line in enumerate(lines, 1):
                fields = line.replace(",", " ").split()
                if not fields:
                    continue
                with self.reading.complaints.about(Spot(str(path), number)):
                    try:
                        self.reading.raw.points[fields[0].lower()] = float(fields[1]), float(fields[2])
                    except (IndexError, ValueError):
                        raise BadRow("it isn't a bus with two coordinates") from None


def beside(path: Path, name: str) -> Path:
    """A file that a script names: also by other letters, as on Windows."""
    wanted = path.parent / name.replace("\\", "/")
    if not wanted.exists() and wanted.parent.is_dir():
        alike = [each for each in wanted.parent.iterdir() if each.name.lower() == wanted.name.lower()]
        wanted = alike[0] if len(alike) == 1 else wanted
    return wanted


# Elements as edges.


@dataclass
class Wiring:
    """Turns the elements of a script into edges, sources and loads."""

    reading: Reading
    script: Script
    controls: dict[str, list[Element]] = field(default_factory=dict)  # by what they switch
    circuits: dict[str, str] = field(default_factory=dict)  # of metered elements
    banks: dict[str, Element] = field(default_factory=dict)

    def all(self) -> None:
        elements = [each for each in self.script.elements.values() if self.is_enabled(each)]
        source = self.script.elements.get("vsource.source")
        for each in elements:
            with self.reading.complaints.about(each.spot):
                self.control(each)
        if not any(each.kind == "energymeter" for each in elements) and source:
            self.circuits = {each.label: source.name for each in elements if each.kind != "transformer"}
        for each in elements:
            with self.reading.complaints.about(each.spot):
                self.wire(each)

    def is_enabled(self, element: Element) -> bool:
        if not element.is_enabled:
            self.script.notes[element.spot.file].left_out("elements that are not enabled", element.spot)
        return element.is_enabled

    def control(self, element: Element) -> None:
        """What a control switches, and what a meter measures."""
        if element.kind == "energymeter":
            self.circuits[self.target(element, "element")] = element.name
        elif element.kind == "swtcontrol" or element.kind in PROTECTIVE:
            name = "switchedobj" if "switchedobj" in element.properties else "monitoredobj"
            self.controls.setdefault(self.target(element, name), []).append(element)

    def target(self, element: Element, name: str) -> str:
        if name not in element.properties:
            raise BadRow(f"{element.label} has no {name}")
        return self.script.named(bare(element.properties[name])).label

    def wire(self, element: Element) -> None:
        """The edges, sources or loads of an element."""
        if element.kind in ("circuit", "vsource"):
            bus = bus_of(element.properties.get("bus1", "sourcebus"))
            self.reading.raw.sources.setdefault(bus, element.spot)
        elif element.kind == "line" or element.kind == "reactor" and "bus2" in element.properties:
            self.wire_line(element)
        elif element.kind == "transformer":
            self.wire_transformer(element)
        elif element.kind == "load":
            count = element.properties.get("numcust", "1")
            if not count.isdecimal():
                raise BadRow(f"numcust {count!r} is no number")
            self.reading.raw.loads[element.label] = Load(
                element.label, "", element.bus("bus1"), int(count), element.spot
            )

    def wire_line(self, element: Element) -> None:
        switches = [each for each in self.controls.get(element.label, ()) if each.kind == "swtcontrol"]
        is_switch = bool(switches) or element.properties.get("switch", "n").lower() in YES
        is_open = self.script.opened.get(element.label, False) or any(normally_open(each) for each in switches)
        if is_open and not is_switch:
            raise BadRow(f"{element.label} is opened, and is no switch")
        kind = "switch" if is_switch else LINE
        self.between(element, element.label, kind, (element.bus("bus1"), element.bus("bus2")), not is_open)

    def wire_transformer(self, element: Element) -> None:
        """From the first winding's bus to each other one; further transformers of a bank are those of the first."""
        buses = list(dict.fromkeys(bus for _, bus in sorted(element.windings.items())))
        if len(buses) < 2:
            raise BadRow(f"{element.label} has no two buses")
        label = element.label
        if bank := element.properties.get("bank", "").lower():
            label = f"bank.{bank}"
            first = self.banks.setdefault(bank, element)
            if first is not element:
                if set(first.windings.values()) != set(buses):
                    raise BadRow(f"{element.label} of the bank {bank} has other buses than {first.label}")
                return
        for number, bus in enumerate(buses[1:], 2):
            own = label if number == 2 else f"{label}/{number}"
            self.between(element, own, TRANSFORMER, (buses[0], bus), True)

    def between(self, element: Element, label: str, kind: str, ends: tuple[str, str], is_closed: bool) -> None:
        """An edge, with those of its protective devices in series at its ends."""
        circuit, reading = self.circuits.get(element.label, ""), self.reading
        notes = self.script.notes[element.spot.file]
        inner = list(ends)
        for each in self.controls.get(element.label, ()):
            if each.kind in PROTECTIVE:
                side = 1 if each.properties.get("switchedterm", "1") == "2" else 0
                middle = f"{inner[side]}/{each.label}"
                is_open = self.script.opened.get(each.label, False) or normally_open(each)
                own = Edge(each.label, PROTECTIVE[each.kind], inner[side], middle, not is_open, circuit, each.spot)
                reading.add_edge(own, notes)
                inner[side] = middle
        reading.add_edge(Edge(label, kind, inner[0], inner[1], is_closed, circuit, element.spot), notes)


def normally_open(control: Element) -> bool:
    """The normal position of a control, or else the one in which it begins."""
    told = (control.properties.get(name, "") for name in ("normal", "state", "action"))
    return next((bare(each).lower() in OPEN for each in told if each), False)


def read_opendss(reading: Reading, path: str) -> None:
    """The network and the loads of a script."""
    script = Script(reading)
    script.read(Path(path))
    Wiring(reading, script).all()
