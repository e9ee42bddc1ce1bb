"""Makes the exports of a large network between nodes, the same on every machine, and cuts it: `outagebook-sections`.

    python3 benches/large_network.py FOLDER [--edges 200000] [--islands N] [--cut]

Substations of eight feeders each with laterals, fuses, transformers and customers on these, ties between neighbours, coordinates of
all ends, and a year of tickets. With --islands so many laterals are fed by nothing, and nobody is on them. --cut runs the tool and
prints its seconds and its most memory.
"""

import argparse
import random
import resource
import subprocess
import sys
import time
from collections.abc import Iterator
from dataclasses import dataclass, field
from pathlib import Path

TOOL = Path(__file__).resolve().parent.parent / "tools" / "sections.py"
FEEDERS, PLACES = 8, 120  # of a substation; of a feeder's trunk
SUBSTATIONS = 31  # of feeders with a number of their own there are 255


@dataclass
class Network:
    """The lines of the exports."""

    rng: random.Random
    edges: list[str] = field(default_factory=list)
    customers: list[str] = field(default_factory=list)
    tickets: list[str] = field(default_factory=list)
    sources: list[str] = field(default_factory=list)
    ends: list[str] = field(default_factory=list)  # of the feeders
    points: dict[str, tuple[float, float]] = field(default_factory=dict)

    def node(self, near: str) -> str:
        """A node some meters from another one."""
        name = f"n{len(self.points)}"
        x, y = self.points.get(near, (self.rng.random() * 1e6, self.rng.random() * 1e6))
        self.points[name] = round(x + self.rng.uniform(-90, 90), 1), round(y + self.rng.uniform(-90, 90), 1)
        return name

    def join(self, kind: str, a: str, b: str, normal: str = "", circuit: str = "") -> str:
        name = f"{kind[:2].upper()}/{len(self.edges):06}"
        places = (f"{value}" for node in (a, b) for value in self.points[node])
        self.edges.append(",".join((name, kind, a, b, normal, circuit, *places)))
        return name

    def onward(self, kind: str, near: str, normal: str = "", circuit: str = "") -> str:
        far = self.node(near)
        self.join(kind, near, far, normal, circuit)
        return far

    def lateral(self, at: str, circuit: str, length: int) -> None:
        """A fuse, and transformers behind it, each with lines at both sides and customers."""
        at = self.onward("fuse", at, "closed", circuit)
        if self.rng.random() < 0.05:
            self.ticket(self.edges[-1].split(",")[0])
        for _ in range(length):
            at = self.onward("line", at, circuit=circuit)
            low = self.onward("transformer", at, circuit=circuit)
            name = self.edges[-1].split(",")[0]
            self.onward("line", low, circuit=circuit)
            for _ in range(self.rng.randint(1, 4)):
                self.customers.append(f"{len(self.customers) + 1},{name},2010-01-01,")

    def ticket(self, device: str) -> None:
        day, hour = 1 + len(self.tickets) % 28, len(self.tickets) % 20
        month = 1 + len(self.tickets) // 28 % 12
        self.tickets.append(
            f"T{len(self.tickets) + 1},{device},2025-{month:02}-{day:02} {hour:02}:10,2025-{month:02}-{day:02} {hour + 2:02}:00,WIND"
        )

    def feeder(self, bus: str, circuit: str, laterals: int) -> None:
        at = self.onward("breaker", bus, "closed", circuit)
        for place in range(PLACES):
            at = self.onward("line", at, circuit=circuit)
            if place % 6 == 5:
                at = self.onward("switch", at, "closed", circuit)
            if place < laterals:
                self.lateral(at, circuit, self.rng.randint(1, 3))
        self.ends.append(at)

    def make(self, edges: int, islands: int) -> None:
        laterals = max(1, round((edges / (SUBSTATIONS * FEEDERS) - PLACES * 7 / 6) / 7))
        for number in range(1, SUBSTATIONS + 1):
            source = self.node("")
            self.sources.append(source)
            bus = self.onward("busbar", self.onward("transformer", source))
            for feeder in range(1, FEEDERS + 1):
                self.feeder(bus, f"F{number}-{feeder}", laterals)
        for one, other in zip(self.ends, self.ends[1:]):
            self.join("switch", one, other, "open", "")
        for _ in range(islands):
            self.dead(self.rng.choice(self.ends))

    def dead(self, near: str) -> None:
        """A line of ten edges that nothing feeds."""
        at = self.node(near)
        for _ in range(10):
            at = self.onward("line", at, circuit="F1-1")

    def files(self) -> Iterator[tuple[str, str, list[str]]]:
        yield "edges.csv", "name,kind,from,to,normal,circuit,from_x,from_y,to_x,to_y", self.edges
        yield "customers.csv", "customer,transformer,since,until", self.customers
        yield "oms.csv", "ticket,device,out,restored,cause", self.tickets
        yield "sources.csv", "node", self.sources


def cut(folder: Path) -> None:
    """Runs the tool, and prints how long it took."""
    command = [sys.executable, str(TOOL), "-o", str(folder / "cut")]
    for name in ("edges", "customers", "oms", "sources"):
        command += [f"--{name}", str(folder / f"{name}.csv")]
    begin = time.monotonic()
    done = subprocess.run(command, check=False)
    used = resource.getrusage(resource.RUSAGE_CHILDREN)
    seconds = time.monotonic() - begin
    print(
        f"status {done.returncode}: {seconds:.1f} s, of the processor {used.ru_utime + used.ru_stime:.1f} s, {used.ru_maxrss // 1024} MB"
    )


def main() -> int:
    parser = argparse.ArgumentParser(description="Makes the exports of a large network between nodes.")
    parser.add_argument("folder", type=Path, help="where they go")
    parser.add_argument("--edges", type=int, default=200_000, help="about how many edges (200000)")
    parser.add_argument("--islands", type=int, default=0, help="how many lines of ten edges nothing feeds (0)")
    parser.add_argument("--cut", action="store_true", help="cut it, and print the time")
    args = parser.parse_args()
    args.folder.mkdir(parents=True, exist_ok=True)
    network = Network(random.Random(1))
    network.make(args.edges, args.islands)
    for name, head, lines in network.files():
        (args.folder / name).write_text("".join(f"{line}\n" for line in (head, *lines)))
    print(f"{len(network.edges)} edges, {len(network.customers)} customers, {len(network.tickets)} tickets")
    if args.cut:
        cut(args.folder)
    return 0


if __name__ == "__main__":
    sys.exit(main())
