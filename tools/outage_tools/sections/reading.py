"""The files of a run: edges, sources, the register of customers, and the names in an outage management system's tickets."""

from collections.abc import Iterable, Iterator
from dataclasses import dataclass, field

from outage_tools.errors import BookError
from outage_tools.oms import outages
from outage_tools.oms.complaints import BadRow, Complaints, Notes, lines_of
from outage_tools.oms.fields import shown
from outage_tools.oms.files import Export, Format, Row, Spot
from outage_tools.sections.edges import SWITCHING, Customer, Edge, Point, Raw
from outage_tools.sections.words import LEFT_OUT, Words

SERVICE = ("since", "since_hour", "until", "until_hour")
EDGE_COLUMNS = ("name", "kind", "from", "to", "normal", "circuit", "from_x", "from_y", "to_x", "to_y")
EDGE_REQUIRED = ("name", "kind", "from", "to", "normal", "circuit")
CUSTOMER_COLUMNS = ("customer", "transformer", "node", "meter", *SERVICE)
CUSTOMER_REQUIRED = ("customer", "since", "until")
OMS_COLUMNS = tuple(dict.fromkeys((*outages.COLUMNS, *outages.COUNTS)))
SOURCE_COLUMNS = ("node",)


@dataclass
class Reading:
    """What a run reads with, and what it has read."""

    words: Words
    format: Format = Format()
    raw: Raw = field(default_factory=Raw)
    complaints: Complaints = field(default_factory=Complaints)
    files: list[Notes] = field(default_factory=list)

    def notes(self, export: str, path: str) -> Notes:
        notes = Notes(export, path)
        self.files.append(notes)
        return notes

    def rows(self, notes: Notes, columns: tuple[str, ...], required: tuple[str, ...]) -> Iterator[Row]:
        return iter(Export(notes.file, columns, required, self.format, self.complaints, notes).rows())

    def refuse(self) -> None:
        """Nothing is written where something is wrong."""
        complaints = self.complaints.found
        if complaints:
            raise BookError("\n".join(["nothing was written:", *lines_of(complaints, "--report FILE tells")]))

    def check_columns(self) -> None:
        """A column's name that no file has is a slip of the pen."""
        read = {each for notes in self.files for each in notes.renamed}
        known = {*EDGE_COLUMNS, *SOURCE_COLUMNS, *CUSTOMER_COLUMNS, *OMS_COLUMNS}
        for theirs, ours in self.format.columns:
            if ours not in known:
                raise BookError(f"--column {theirs}={ours}: no file here has a column {ours}")
            given = {column for notes in self.files for column in columns_of(notes.export)}
            if ours in given and (theirs, ours) not in read:
                raise BookError(f"no file has a column {theirs!r} that --column names as {ours}")

    def add_edge(self, edge: Edge, notes: Notes) -> None:
        """An edge; one that is told twice in the same words is left out, and another one of its name is refused."""
        first = self.raw.edges.setdefault(edge.name, edge)
        if first is edge:
            return
        if differences := list(differing(first, edge)):
            raise BadRow(f"{edge.name} was told in row {first.spot.number}, otherwise: {', '.join(differences)}")
        notes.left_out("edges told twice in the same words", edge.spot)


def columns_of(export: str) -> tuple[str, ...]:
    return {
        "edges": EDGE_COLUMNS,
        "sources": SOURCE_COLUMNS,
        "customers": CUSTOMER_COLUMNS,
        "oms": OMS_COLUMNS,
    }.get(export, ())


def differing(first: Edge, second: Edge) -> Iterator[str]:
    """What two edges of one name have different."""
    if first.kind != second.kind:
        yield f"a {first.kind} there, a {second.kind} here"
    if set(first.ends) != set(second.ends):
        yield f"from {first.a} to {first.b} there, from {second.a} to {second.b} here"
    if first.is_closed != second.is_closed:
        yield f"normally {position(first)} there, {position(second)} here"
    if first.circuit != second.circuit:
        yield f"circuit {first.circuit or 'none'} there, {second.circuit or 'none'} here"


def position(edge: Edge) -> str:
    return "closed" if edge.is_closed else "open"


# Edges and sources.


def read_edges(reading: Reading, path: str) -> None:
    """The edges of a CSV file."""
    notes = reading.notes("edges", path)
    for row in reading.rows(notes, EDGE_COLUMNS, EDGE_REQUIRED):
        with reading.complaints.about(row):
            take_edge(reading, row, notes)


def take_edge(reading: Reading, row: Row, notes: Notes) -> None:
    kind = reading.words.kind(row["kind"])
    if kind == LEFT_OUT:
        notes.left_out("kinds that join nothing (--word left-out)", row)
        return
    for column in ("name", "from", "to"):
        if not row[column]:
            raise BadRow(f"{column} is empty")
    is_closed = reading.words.is_closed(row["normal"], kind)
    edge = Edge(row["name"], kind, row["from"], row["to"], is_closed, row["circuit"], Spot(row.file, row.number))
    for end, node in (("from", edge.a), ("to", edge.b)):
        point = point_of(row, end)
        if point:
            reading.raw.points.setdefault(node, point)
    reading.add_edge(edge, notes)


def point_of(row: Row, end: str) -> Point | None:
    """The coordinates of an end, where they are given."""
    texts = [row[f"{end}_x"], row[f"{end}_y"]]
    if not any(texts):
        return None
    try:
        x, y = (float(text.replace(",", ".")) for text in texts)
    except ValueError:
        raise BadRow(f"the coordinates {shown(' '.join(texts))} of {end} aren't two numbers") from None
    return x, y


def read_sources(reading: Reading, path: str | None, nodes: Iterable[str]) -> None:
    """The nodes of sources: those of a CSV file, and those of the command line."""
    for number, node in enumerate(nodes, 1):
        reading.raw.sources.setdefault(node, Spot("--source", number))
    if path:
        notes = reading.notes("sources", path)
        for row in reading.rows(notes, SOURCE_COLUMNS, SOURCE_COLUMNS):
            with reading.complaints.about(row):
                if not row["node"]:
                    raise BadRow("node is empty")
                reading.raw.sources.setdefault(row["node"], Spot(row.file, row.number))
    if reading.complaints.found:
        return
    if not any(edge.circuit for edge in reading.raw.edges.values()):
        raise BookError(f"{reading.files[0].file}: no edge has a circuit, so no section would have a feeder")
    if not reading.raw.sources:
        raise BookError("no source is given: --source NODE, or --sources FILE")
    nodes_there = {end for edge in reading.raw.edges.values() for end in edge.ends}
    for node, spot in reading.raw.sources.items():
        if node not in nodes_there:
            reading.complaints.add(spot, f"the source {shown(node)} is on no edge")


# The register and the tickets.


def read_customers(reading: Reading, path: str) -> None:
    """The register of customers, each on a transformer or a node."""
    notes = reading.notes("customers", path)
    reading.raw.has_customers = True
    for row in reading.rows(notes, CUSTOMER_COLUMNS, CUSTOMER_REQUIRED):
        with reading.complaints.about(row):
            if not row["customer"]:
                raise BadRow("customer is empty")
            if row["transformer"] and row["node"]:
                raise BadRow("it has a transformer and a node: one of them supplies the customer")
            if not row["transformer"] and not row["node"]:
                raise BadRow(f"customer {row['customer']} has no transformer")
            load = reading.raw.loads.get(row["node"])
            by = (load.transformer, load.node) if load else (row["transformer"], row["node"])
            service = tuple(row[column] for column in SERVICE)
            spot = Spot(row.file, row.number)
            reading.raw.customers.append(Customer(row["customer"], *by, row["meter"], service, spot))


@dataclass
class Tickets:
    """The rows of an outage management system's export, each as it came, and the columns that it has."""

    path: str
    columns: list[str] = field(default_factory=list)
    rows: list[Row] = field(default_factory=list)

    def devices(self) -> set[str]:
        """The names of what was switched."""
        return {row["device"] for row in self.rows if row["device"]}


def read_tickets(reading: Reading, path: str) -> Tickets:
    notes = reading.notes("oms", path)
    found = Tickets(path)
    found.rows = list(reading.rows(notes, OMS_COLUMNS, ("ticket", "device")))
    found.columns = [column for column in OMS_COLUMNS if column in notes.columns]
    return found
