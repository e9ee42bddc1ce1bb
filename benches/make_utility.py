"""Makes the exports of a utility that is larger than one book: substations with two feeders each, ties, customers, outages.

    python3 benches/make_utility.py FOLDER [--substations 500] [--customers 1000000] [--outages 250000]
    python3 tools/districts.py cut FOLDER/gis.csv FOLDER/customers.csv --oms FOLDER/oms.csv -o FOLDER/cut
"""

import argparse
import csv
import random
from collections.abc import Iterable, Sequence
from pathlib import Path

FEEDERS, SECTIONS, TIES = 2, 45, 50  # of a substation; of a feeder; of a substation
NEAR = 900  # a tie joins sections that are so near one another in their order


def write(path: Path, columns: Sequence[str], rows: Iterable[Sequence[object]]) -> None:
    with path.open("w", newline="", encoding="ascii") as file:
        writer = csv.writer(file, lineterminator="\n")
        writer.writerow(columns)
        writer.writerows(rows)


class Utility:
    """The network of a utility: its nodes as rows of the export, its sections, its devices with their ends."""

    def __init__(self, substations: int, rng: random.Random) -> None:
        self.nodes: list[list[object]] = []
        self.sections: list[str] = []
        self.devices: list[list[str]] = []
        for substation in range(1, substations + 1):
            bus = f"BUS-{substation}"
            self.nodes.append(["bus", bus, "", "", "", ""])
            self.devices.append([f"IN-{substation}", "GRID", bus, "closed"])
            for feeder in range((substation - 1) * FEEDERS + 1, substation * FEEDERS + 1):
                self.add_feeder(bus, feeder, rng)
        for tie in range(1, substations * TIES + 1):
            a = rng.randrange(len(self.sections))
            b = min(len(self.sections) - 1, max(0, a + rng.randint(-NEAR, NEAR)))
            if a != b:
                self.devices.append([f"TIE-{tie}", self.sections[a], self.sections[b], "open"])

    def add_feeder(self, bus: str, feeder: int, rng: random.Random) -> None:
        """A feeder that branches."""
        above = [bus]
        for number in range(1, SECTIONS + 1):
            section = f"S-{feeder}-{number}"
            self.nodes.append(["section", section, feeder, "", "", ""])
            self.devices.append([f"SW-{feeder}-{number}", rng.choice(above[-4:]), section, "closed"])
            above.append(section)
            self.sections.append(section)


def main() -> None:
    words = argparse.ArgumentParser(description="Makes the exports of a utility that is larger than one book.")
    words.add_argument("folder", type=Path)
    words.add_argument("--substations", type=int, default=500)
    words.add_argument("--customers", type=int, default=1_000_000)
    words.add_argument("--outages", type=int, default=250_000)
    given = words.parse_args()
    given.folder.mkdir(parents=True, exist_ok=True)
    rng = random.Random("a utility")
    made = Utility(given.substations, rng)
    devices = (["device", name, "", *ends, normal] for name, *ends, normal in made.devices)
    write(given.folder / "gis.csv", ["type", "name", "feeder", "from", "to", "normal"], [*made.nodes, *devices])
    sections = made.sections
    customers = (
        [number, sections[number % len(sections)], "2001-01-01", ""] for number in range(1, given.customers + 1)
    )
    write(given.folder / "customers.csv", ["customer", "section", "since", "until"], customers)
    moments = ["2024-05-01 10:00", "2024-05-01 11:00", "WIND"]
    outages = ([f"T-{number}", rng.choice(made.devices)[0], *moments] for number in range(1, given.outages + 1))
    write(given.folder / "oms.csv", ["ticket", "device", "out", "restored", "cause"], outages)


if __name__ == "__main__":
    main()
