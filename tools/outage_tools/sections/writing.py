"""The files that a run writes: exports in the form of docs/use/IMPORTING.md, and the table of labels and names."""

import csv
from collections.abc import Callable, Iterable, Iterator, Sequence
from contextlib import ExitStack
from pathlib import Path

from outage_tools.errors import BookError
from outage_tools.oms.files import Row
from outage_tools.oms.told import GROUPS, rows_text
from outage_tools.oms.writing import whole_file
from outage_tools.sections.loads import Numbers, numbers_text
from outage_tools.sections.model import Model
from outage_tools.sections.reading import SERVICE, Reading, Tickets

GIS = ("type", "name", "feeder", "from", "to", "normal", "since", "until")
Table = tuple[Sequence[str], Iterable[Sequence[object]]]
Tables = dict[str, Table]  # by the files' names
NameIn = Callable[[Row, str], str]  # the name of the device of a label in a row of a ticket


def gis_rows(model: Model) -> Iterator[tuple[object, ...]]:
    """Nodes, then devices; with their lives where the network is compared with a book's."""
    none = ("", "") if model.has_lives else ()
    for node in model.nodes:
        yield ("bus" if node.feeder is None else "section"), node.name, node.feeder or "", "", "", "", *none
    for each in model.devices:
        life = (each.since, each.until) if model.has_lives else ()
        yield "device", each.name, "", *each.ends, "closed" if each.is_closed else "open", *life


def customer_rows(model: Model, columns: list[str]) -> Iterator[tuple[object, ...]]:
    for number, customer in enumerate(model.raw.customers):
        own = model.sections[number], dict(zip(SERVICE, customer.service))
        parts = [(each.section, {"since": each.since, "until": each.until}) for each in model.parts.get(number, ())]
        meter = [model.meters.get(customer.meter, "")] if model.meters else []
        for section, service in parts or [own]:
            yield customer.number, section, *(service.get(column, "") for column in columns), *meter


def name_rows(model: Model, customers: Numbers) -> Iterator[tuple[object, ...]]:
    """What became of each edge, of each meter with a section of its own, and of each load."""
    for label, (what, name) in model.became.items():
        edge = model.raw.edges.get(label)
        for each in model.names[label] if what == "device" else [name]:
            yield label, edge.kind if edge else "meter", what, each
    for label, names in model.gone.items():
        yield from ((label, "gone", "device", name) for name in names)
    for label, numbers in customers.items():
        yield label, "load", "customers", numbers_text(numbers)


def ticket_rows(model: Model, tickets: Tickets, name_in: NameIn) -> Iterator[tuple[object, ...]]:
    """The rows of tickets, with devices by their names in the book; the others as they came."""
    for row in tickets.rows:
        label = model.of_row.get(row.number, "")
        name = name_in(row, label) if model.names_of(label) else model.meters.get(label, row["device"])
        yield tuple(name if column == "device" else row[column] for column in tickets.columns)


def tables_of(model: Model, reading: Reading, tickets: Tickets | None, customers: Numbers, name_in: NameIn) -> Tables:
    """The files by their names; `customers` are the numbers of a model's loads."""
    found: Tables = {"gis.csv": (GIS if model.has_lives else GIS[:6], gis_rows(model))}
    if model.raw.has_customers:
        told = {column for notes in reading.files if notes.export == "customers" for column in notes.columns}
        columns = [column for column in SERVICE if column in told or column in ("since", "until")]
        meter = ["meter"] if model.meters else []  # for the tool that lets customers go on behind them
        found["customers.csv"] = ("customer", "section", *columns, *meter), customer_rows(model, columns)
    if tickets:
        found["oms.csv"] = tickets.columns, ticket_rows(model, tickets, name_in)
    found["names.csv"] = ("label", "kind", "became", "name"), name_rows(model, customers)
    feeders = sorted((number, circuit) for circuit, number in (model.gone_feeders | model.feeders).items())
    found["feeders.csv"] = ("feeder", "name"), feeders
    return found


def write_tables(folder: Path, tables: Tables) -> None:
    """The files in a folder: all of them, or none."""
    try:
        folder.mkdir(parents=True, exist_ok=True)
    except OSError as error:
        raise BookError(f"{folder} can't be made: {error.strerror}") from None
    with ExitStack() as stack:
        for name, (columns, rows) in tables.items():
            writer = csv.writer(stack.enter_context(whole_file(folder / name)), lineterminator="\n")
            writer.writerow(columns)
            writer.writerows(rows)


def report_lines(reading: Reading, said: list[str]) -> Iterator[str]:
    """What was read, left out and noticed, with all rows, what is otherwise than in the book, and what was refused."""
    for notes in reading.files:
        yield f"{notes.export}: {notes.file}"
        yield f"  rows read: {notes.rows}"
        yield f"  columns read: {', '.join(notes.columns) or 'none'}"
        yield f"  columns not read: {', '.join(map(repr, notes.unread)) or 'none'}"
        for group in GROUPS:
            for (what, reason), rows in notes.noted.items():
                if what == group:
                    yield f"  {what}: {reason}: {len(rows)} ({rows_text(rows, most=None)})"
    yield from ("the book:", *(f"  {line}" for line in said)) if said else ()
    complaints = reading.complaints.found
    yield f"refused: {len(complaints) or 'nothing'}"
    yield from (f"  {complaint}" for complaint in complaints)
