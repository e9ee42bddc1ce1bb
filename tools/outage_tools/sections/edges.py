"""Raw connectivity: edges between nodes, the nodes of sources, and what hangs on both."""

from collections.abc import Iterable, Iterator
from dataclasses import dataclass, field

from outage_tools.oms.files import Spot

LINE, BUSBAR, TRANSFORMER = "line", "busbar", "transformer"
SWITCHING = ("breaker", "recloser", "switch", "disconnector", "fuse", "jumper")  # these have a position
KINDS = (LINE, BUSBAR, TRANSFORMER, *SWITCHING)
DEVICE_KINDS = (*SWITCHING, TRANSFORMER)  # what is a device, if the user doesn't say it

Point = tuple[float, float]


@dataclass(frozen=True)
class Edge:
    """A piece of equipment between two nodes, by the label that it has in its export."""

    name: str
    kind: str
    a: str
    b: str
    is_closed: bool
    circuit: str
    spot: Spot

    @property
    def ends(self) -> tuple[str, str]:
        return self.a, self.b

    @property
    def told(self) -> str:
        """It with its row."""
        return f"{self.name} (row {self.spot.number})"


@dataclass(frozen=True)
class Customer:
    """A customer of the register: its number, the transformer or the node that supplies it, its meter, and its service as the
    register tells it."""

    number: str
    transformer: str
    node: str
    meter: str
    service: tuple[str, ...]
    spot: Spot


@dataclass(frozen=True)
class Load:
    """A load or a usage point of a model, by its label: the transformer or the node that supplies it, and its customers."""

    name: str
    transformer: str
    node: str
    customers: int
    spot: Spot


@dataclass
class Raw:
    """All edges by their labels, in the order of the export; the nodes of sources; the customers; a model's loads; where nodes
    lie."""

    edges: dict[str, Edge] = field(default_factory=dict)
    sources: dict[str, Spot] = field(default_factory=dict)
    customers: list[Customer] = field(default_factory=list)
    loads: dict[str, Load] = field(default_factory=dict)
    points: dict[str, Point] = field(default_factory=dict)
    has_customers: bool = False  # a register was given

    def joining(self) -> Iterator[Edge]:
        """The edges between two nodes."""
        return (edge for edge in self.edges.values() if edge.a != edge.b)


@dataclass(frozen=True)
class Labels:
    """Labels that may be written in small letters or capitals, where that makes no second one."""

    exact: frozenset[str]
    by_capitals: dict[str, str | None]

    def find(self, label: str) -> str | None:
        """The label that is meant."""
        return label if label in self.exact else self.by_capitals.get(label.upper())


def labels_of(labels: Iterable[str]) -> Labels:
    exact = frozenset(labels)
    by_capitals: dict[str, str | None] = {}
    for label in exact:
        by_capitals[label.upper()] = None if label.upper() in by_capitals else label
    return Labels(exact, by_capitals)
