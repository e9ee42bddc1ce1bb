"""Writes the commands of the worked example of IEEE Std 1366: a feeder of 2,000 customers with nine events in a year.

    python3 examples/ieee/make_feeder.py > examples/ieee/feeder.csv
    python3 examples/ieee/make_feeder.py --kva > examples/ieee/kva.csv

The guide lists the events: the day, the times, the customers and the kVA. The network below is our choice: the sections
that an event cuts off have its customers and its kVA. A test holds both files to what this program writes.
"""

import argparse
import csv
import sys
from collections.abc import Iterable, Iterator
from dataclasses import dataclass

HEADER = ["kind", "ref", "f1", "f2", "f3", "f4", "f5", "f6"]
FEEDER = 1
YEAR = 2025
DAYLIGHT = "-04:00"  # all events lie between the changes of the clock
START = "2025-01-01T00:00:00-05:00"  # of the year, and of each customer's service
CREW = "CREW-1"
FAULT, PLANNED = 1, 2
CAUSES = {FAULT: "FAULT", PLANNED: "PLANNED"}


@dataclass(frozen=True)
class Section:
    """A section, the device that feeds it, and where from; its customers and their connected kVA."""

    name: str
    device: str
    source: str
    customers: int
    kva: int


@dataclass(frozen=True)
class Event:
    """A switching of the year: the day, then openings and closings of devices, each with its time."""

    month: int
    day: int
    cause: int
    switchings: tuple[tuple[str, str, str], ...]  # device, position, time


SECTIONS = [
    Section("T1", "CB-1", "GRID", 200, 200),
    Section("T2", "REC-2", "T1", 800, 700),
    Section("T3", "REC-3", "T2", 75, 225),
    Section("T4", "REC-4", "T3", 200, 200),
    Section("T5", "REC-5", "T4", 100, 800),
    Section("T6", "REC-6", "T5", 210, 300),
    Section("L1", "FUSE-1", "T2", 200, 800),
    Section("L2", "FUSE-2", "T2", 100, 200),
    Section("L3", "FUSE-3", "T3", 25, 75),
    Section("L4", "FUSE-4", "T6", 90, 500),
]
NEXT_BUS = "NEXT-BUS"  # of the feeder next to it, which has no customers here
OTHERS = [("CB-2", "GRID", NEXT_BUS, "closed"), ("TIE-1", "T6", NEXT_BUS, "open")]


def outage(month: int, day: int, device: str, off: str, on: str) -> Event:
    """An event of one device, which opens and closes again."""
    return Event(month, day, FAULT, ((device, "open", off), (device, "close", on)))


EVENTS = [
    outage(3, 17, "FUSE-1", "12:12:20", "12:20:30"),
    outage(4, 15, "REC-5", "18:23:56", "18:24:26"),
    outage(5, 5, "REC-4", "00:23:10", "01:34:29"),
    outage(6, 12, "FUSE-3", "23:17:00", "23:47:14"),
    outage(7, 6, "CB-1", "09:30:10", "09:31:10"),
    outage(8, 20, "FUSE-4", "15:45:39", "20:12:50"),
    outage(8, 31, "REC-3", "08:20:00", "10:20:00"),
    Event(  # the tie feeds T6 and L4 meanwhile, so 1,500 customers are without supply and not 1,800
        *(9, 3, PLANNED),
        (
            ("TIE-1", "close", "17:05:00"),
            ("REC-6", "open", "17:06:00"),
            ("REC-2", "open", "17:10:00"),
            ("REC-2", "close", "17:20:00"),
            ("REC-6", "close", "17:22:00"),
            ("TIE-1", "open", "17:23:00"),
        ),
    ),
    outage(10, 27, "FUSE-2", "10:15:00", "10:55:00"),
]


def network() -> Iterator[list[str]]:
    """Causes, nodes and devices, each as its kind and fields."""
    for code, name in CAUSES.items():
        yield ["cause", str(code), name]
    yield ["bus", NEXT_BUS]
    for section in SECTIONS:
        yield ["section", section.name, str(FEEDER)]
    for section in SECTIONS:
        yield ["device", section.device, section.source, section.name, "closed"]
    for name, node, other, position in OTHERS:
        yield ["device", name, node, other, position]


def commands() -> Iterator[list[str]]:
    """The rows of feeder.csv: the network, the customers section by section, the switchings."""
    for number, (kind, *fields) in enumerate(network(), 1):
        yield [kind, f"NET-{number}", *fields]
    homes = [section.name for section in SECTIONS for _ in range(section.customers)]
    for number, home in enumerate(homes, 1):
        yield ["connect", f"CUSTOMER-{number}", str(number), home, START]
    for event in EVENTS:
        for number, (device, position, time) in enumerate(event.switchings, 1):
            ref = f"EVENT-{event.month:02}{event.day:02}-{number}"
            second = f"{YEAR}-{event.month:02}-{event.day:02}T{time}{DAYLIGHT}"
            yield ["switch", ref, device, position, second, str(event.cause), CREW]


def kva() -> Iterator[list[str]]:
    """The rows of kva.csv."""
    for section in SECTIONS:
        yield [section.name, str(section.kva)]


def write(header: list[str], rows: Iterable[list[str]]) -> None:
    """Prints rows as CSV, each filled up to the width of the header."""
    out = csv.writer(sys.stdout, lineterminator="\n")
    out.writerow(header)
    for row in rows:
        out.writerow(row + [""] * (len(header) - len(row)))


def main() -> int:
    parser = argparse.ArgumentParser(description="Writes the feeder of the worked example of IEEE Std 1366 as CSV.")
    parser.add_argument("--kva", action="store_true", help="the connected kVA of the sections, not the commands")
    if parser.parse_args().kva:
        write(["section", "kva"], kva())
    else:
        write(HEADER, commands())
    return 0


if __name__ == "__main__":
    sys.exit(main())
