"""The cut of a network as a book takes it: buses, sections and devices by their names, and where each customer is."""

from dataclasses import dataclass, field

from outage_tools.sections.cut import Cut
from outage_tools.sections.edges import Raw
from outage_tools.sections.loads import Numbers


@dataclass(frozen=True)
class NodeRow:
    """A bus, or a section with its feeder's number."""

    name: str
    feeder: int | None


@dataclass(frozen=True)
class DeviceRow:
    """A device by its name and its label, the names of its nodes, the one nearer to the source first; its life, where one is told."""

    name: str
    label: str
    ends: tuple[str, str]
    is_closed: bool
    since: str = ""
    until: str = ""


@dataclass(frozen=True)
class Part:
    """A service of a customer whose row stands for several, one behind another."""

    section: str
    since: str
    until: str


@dataclass
class Earlier:
    """What an earlier run named: devices by their labels, the first name first; the labels of meters with a section of their own; the
    bus or section of each other edge; feeders by their circuits; customers by their loads."""

    names: dict[str, list[str]] = field(default_factory=dict)
    meters: list[str] = field(default_factory=list)
    became: dict[str, str] = field(default_factory=dict)
    feeders: dict[str, int] = field(default_factory=dict)
    customers: Numbers = field(default_factory=dict)  # of loads


@dataclass
class Model:
    """What is written. `became` has the name of the section, bus or device that each edge is or lies in, and which of these it
    is; edges that are left out have no name."""

    raw: Raw
    cut: Cut
    feeders: dict[str, int]
    nodes: list[NodeRow] = field(default_factory=list)
    devices: list[DeviceRow] = field(default_factory=list)
    sections: dict[int, str] = field(default_factory=dict)  # of customers, by their places in the register
    parts: dict[int, list[Part]] = field(default_factory=dict)  # the services of those who were moved
    became: dict[str, tuple[str, str]] = field(default_factory=dict)
    names: dict[str, list[str]] = field(default_factory=dict)  # of devices, by their labels: the first one first
    of_row: dict[int, str] = field(default_factory=dict)  # labels, by the rows of tickets
    gone: dict[str, list[str]] = field(default_factory=dict)  # of devices that an earlier run had
    gone_feeders: dict[str, int] = field(
        default_factory=dict
    )  # of circuits that it had: no other one gets their numbers
    has_lives: bool = False  # rows of devices may tell a life
    meters: dict[str, str] = field(
        default_factory=dict
    )  # names of meters that the book has or gets as devices, by their labels

    def names_of(self, label: str) -> list[str]:
        """The names of a device, or of one that was there."""
        return self.names.get(label, self.gone.get(label, []))
