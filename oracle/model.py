"""A plain model of the book: what commands make of it, by the definitions, standard library alone.

    python3 oracle/model.py examples/fortnight/fortnight.csv --first 2025-03-24 --days 14 --zone CET-1CEST,M3.5.0,M10.5.0/3

It imports CSV texts, one after another, into a new book and prints the annual table, as the program does; --moves
prints the moves as CSV, --totals the totals as JSON, --imports what each import says, --compare FILE the first table
of a book's database that differs. Where a row is refused the rest of its text is left out and the status is 2.

It keeps nothing but what was said: the network with its devices' lives, the sheet, the customers, the marks. The supply of each stretch of
seconds, the runs, the amounts and the indices are found anew each time somebody asks. The clock of a zone is that of
the C library.
"""

import argparse
import json
import sqlite3
import sys
from collections.abc import Iterable, Iterator, Set
from dataclasses import dataclass
from fractions import Fraction
from pathlib import Path

from commands import Value
from state import Entry, Period, State

Field = int | str | None  # of a row of a table
Amounts = dict[tuple[int, int], int]  # by dimension and key
Move = tuple[int, int, int]  # dimension, key, change of the amount

VERSION = 2  # of the tables
LONGEST_MOMENTARY = 300
DIMENSIONS = ["cause", "feeder", "day"]


@dataclass
class Run:
    """A longest interval in which a section isn't supplied, with the entry that cut it off where there is one."""

    section: str
    since: int
    until: int
    cutter: int | None


class Book(State):
    """A book of commands: what was said, and what each command moved where this is kept too."""

    def __init__(self, period: Period, keeps_moves: bool = True) -> None:
        super().__init__(period)
        self.commands: list[tuple[str, str]] = []  # (reference, body)
        self.number_of: dict[str, int] = {}  # reference: number of the command
        self.keeps_moves = keeps_moves
        self.moves: list[tuple[int, int, int, int]] = []  # (command, dimension, key, delta)

    def known(self, ref: str) -> tuple[int, str] | None:
        """The number and the body of a reference's command, None where there is none."""
        number = self.number_of.get(ref)
        return (number, self.commands[number - 1][1]) if number else None

    def accepted(self) -> int:
        return len(self.commands)

    def accept(self, ref: str, kind: str, values: list[Value], body: str) -> int:
        before = self.amounts() if self.keeps_moves else {}
        self.say(kind, values)
        self.commands.append((ref, body))
        number = self.number_of[ref] = len(self.commands)
        after = self.amounts() if self.keeps_moves else {}
        self.moves += [(number, *move) for move in moves_between(before, after)]
        return number

    def supplied(self, positions: dict[str, str], second: int) -> Set[str]:
        """The nodes to which a walk of closed devices leads from GRID; outside its life a device is open."""
        beside: dict[str, list[str]] = {}
        for device in self.devices.values():
            if positions[device.name] == "closed" and device.is_alive(second):
                a, b = device.ends
                beside.setdefault(a, []).append(b)
                beside.setdefault(b, []).append(a)
        reached = {"GRID": None}
        found = ["GRID"]
        for node in found:
            for other in beside.get(node, ()):
                if other not in reached:
                    reached[other] = None
                    found.append(other)
        return reached.keys()

    def steps(self) -> list[tuple[int, list[tuple[int, Entry]]]]:
        """The seconds at which positions may change, the period's first among them, each with its kept entries."""
        turns = (second for device in self.devices.values() for second in device.turns())
        steps: dict[int, list[tuple[int, Entry]]] = {
            second: [] for second in [self.period.first, *turns] if self.period.holds(second)
        }
        for number, entry in enumerate(self.entries, 1):
            if entry.is_kept:
                steps.setdefault(entry.second, []).append((number, entry))
        return sorted(steps.items())

    def runs(self) -> list[Run]:
        """The runs of all sections."""
        sections = [node for node, feeder in self.feeders.items() if feeder is not None]
        positions = {device.name: device.normal for device in self.devices.values()}
        finished, going = list[Run](), dict[str, Run]()
        for second, entries in self.steps():
            cutters = {}
            reached = self.supplied(positions, second)  # lives act before the second's entries
            for number, entry in entries:
                positions[entry.device] = entry.position
                before, reached = reached, self.supplied(positions, second)
                for section in before - reached:
                    cutters[section] = number
            for section in sections:
                is_supplied = section in reached
                if is_supplied and section in going:
                    going[section].until = second
                    finished.append(going.pop(section))
                elif not is_supplied and section not in going:
                    going[section] = Run(section, second, self.period.end, cutters.get(section))
        return finished + [*going.values()]

    def runs_by_section(self) -> dict[str, list[Run]]:
        runs: dict[str, list[Run]] = {}
        for run in self.runs():
            runs.setdefault(run.section, []).append(run)
        return runs

    def cause_of(self, run: Run) -> int:
        """The cause that the entry has now that cut the section off; 0 where none did."""
        return self.entries[run.cutter - 1].cause if run.cutter else 0

    def interruptions(self) -> Iterator[list[tuple[Run, int, int]]]:
        """The interruptions of each customer, as lists of runs with their parts that fall into its service."""
        runs = self.runs_by_section()
        for section, since, until in self.customers.values():
            found = []
            for run in runs.get(section, ()):
                begin = max(run.since, since)
                end = run.until if until == "-" else min(run.until, until)
                if begin < end:
                    found.append((run, begin, end))
            yield found

    def amounts(self) -> Amounts:
        """The customer-seconds without supply by dimension (1 cause, 2 feeder, 3 day) and key; none is 0."""
        amounts: Amounts = {}
        for found in self.interruptions():
            for run, begin, end in found:
                add(amounts, (1, self.cause_of(run)), end - begin)
                add(amounts, (2, self.feeders[run.section] or 0), end - begin)
                for day, seconds in self.period.parts(begin, end):
                    add(amounts, (3, day), seconds)
        return amounts

    def seconds_in_service(self) -> int:
        first, end = self.period.first, self.period.end
        ends = [(since, end if until == "-" else until) for _, since, until in self.customers.values()]
        return sum(max(0, min(until, end) - max(since, first)) for since, until in ends)

    def counts(self, is_unmarked: bool) -> tuple[int, int, list[int], int]:
        """Sustained interruptions, their seconds, the customers with n or more for n from 1 to 10, momentary ones."""
        ci, csi, momentary = 0, 0, 0
        with_some = [0] * 10
        for found in self.interruptions():
            counted = [
                end - begin for _, begin, end in found if not (is_unmarked and self.period.day_of(begin) in self.marks)
            ]
            sustained = [length for length in counted if length > LONGEST_MOMENTARY]
            ci += len(sustained)
            csi += sum(sustained)
            momentary += len(counted) - len(sustained)
            for n in range(min(10, len(sustained))):
                with_some[n] += 1
        return ci, csi, with_some, momentary

    def indices(self, is_unmarked: bool) -> tuple[dict[str, Fraction | None], dict[str, int]]:
        """The indices by name, None where one is undefined, and the two counts."""
        p, s = self.period.length, self.seconds_in_service()
        ci, csi, with_some, momentary = self.counts(is_unmarked)
        indices = {
            "SAIFI": quotient(ci * p, s),
            "SAIDI": quotient(csi * p, 60 * s),
            "CAIDI": quotient(csi, 60 * ci),
            "CAIFI": quotient(ci, with_some[0]),
            "ASAI": quotient(s - csi, s),
        }
        for n, customers in enumerate(with_some, 1):
            indices[f"CEMI-{n}"] = quotient(customers * p, s)
        return indices, {"SUSTAINED": ci, "MOMENTARY": momentary}

    def table_lines(self) -> Iterator[str]:
        """The lines of the annual table."""
        period, amounts = self.period, self.amounts()
        yield f"OUTAGE BOOK {period.days[0]} days {len(period.bounds) - 1} zone {period.zone}"
        yield f"P {period.length} S {self.seconds_in_service()} W {total_of(amounts, 1)}"
        for code, name in sorted(self.causes.items()):
            yield f"cause {code:>3} {name:<24}{amounts.get((1, code), 0):>16}"
        for feeder in sorted({feeder for feeder in self.feeders.values() if feeder is not None}):
            yield f"feeder {feeder:>3}{amounts.get((2, feeder), 0):>40}"
        for number, day in enumerate(period.days[:-1]):
            amount = amounts.get((3, number), 0)
            if amount or number in self.marks:
                yield f"day {day}{amount:>36}{' marked' if number in self.marks else ''}"
        for word in ["all", "unmarked"]:
            indices, counts = self.indices(word == "unmarked")
            for name, value in indices.items():
                yield f"{name:<10}{word:<9}{quotient_text(value)}"
            for name, count in counts.items():
                yield f"{name:<10}{word:<9}{count}"

    def moves_lines(self) -> Iterator[str]:
        """The lines of the moves as CSV."""
        yield "cmd,dim,key,delta"
        for number, dimension, key, delta in self.moves:
            yield f"{number},{DIMENSIONS[dimension - 1]},{key},{delta}"

    def totals_text(self) -> str:
        """The totals as JSON."""
        amounts = self.amounts()
        totals: dict[str, object] = {
            word: [[key, amount] for (other, key), amount in sorted(amounts.items()) if other == dimension]
            for dimension, word in enumerate(DIMENSIONS, 1)
        }
        totals["total"] = total_of(amounts, 1)
        return json.dumps(totals, separators=(",", ":"), sort_keys=True)

    def tables(self) -> dict[str, list[tuple[Field, ...]]]:
        """The rows of the eleven tables of the database of the book, each list sorted by its key."""
        period, amounts = self.period, self.amounts()
        nodes = {name: number for number, name in enumerate(self.feeders)}
        devices = {name: number for number, name in enumerate(self.devices)}
        keys = [(1, code) for code in range(64)] + [(2, feeder) for feeder in range(1, 256)]
        keys += [(3, day) for day in range(len(period.bounds) - 1)]
        return {
            "meta": [(1, VERSION, period.days[0].isoformat(), len(period.bounds) - 1, period.zone)],
            "cause": sorted(self.causes.items()),
            "node": [(nodes[name], name, kind_of(name, feeder), feeder or 0) for name, feeder in self.feeders.items()],
            "device": [
                (devices[name], name, nodes[device.ends[0]], nodes[device.ends[1]], int(device.normal == "closed"))
                for name, device in self.devices.items()
            ],
            "life": [
                (devices[name], device.since, None if device.until == "-" else device.until)
                for name, device in self.devices.items()
            ],
            "customer": [
                (number, nodes[section], since, None if until == "-" else until)
                for number, (section, since, until) in sorted(self.customers.items())
            ],
            "entry": [
                (number, entry.revision, devices[entry.device], int(entry.position == "closed"))
                + (entry.second, entry.cause, entry.crew, int(entry.is_kept))
                for number, entry in enumerate(self.entries, 1)
            ],
            "mark": sorted(self.marks.items()),
            "cmd": [(number, ref, body) for number, (ref, body) in enumerate(self.commands, 1)],
            "moved": [*self.moves],
            "posting": [(dimension, key, amounts.get((dimension, key), 0)) for dimension, key in keys],
        }


def add(amounts: Amounts, key: tuple[int, int], amount: int) -> None:
    amounts[key] = amounts.get(key, 0) + amount


def moves_between(before: Amounts, after: Amounts) -> list[Move]:
    """What leads from amounts to others, by dimension and key; none is 0."""
    changes = [(*key, after.get(key, 0) - before.get(key, 0)) for key in sorted(before.keys() | after.keys())]
    return [change for change in changes if change[2]]


def total_of(amounts: Amounts, dimension: int) -> int:
    return sum(amount for (other, _), amount in amounts.items() if other == dimension)


def quotient(numerator: int, denominator: int) -> Fraction | None:
    return Fraction(numerator, denominator) if denominator else None


def quotient_text(value: Fraction | None) -> str:
    """A fraction in lowest terms and its three decimals, rounded half up."""
    if value is None:
        return "undefined"
    p, q = value.numerator, value.denominator
    thousandths = (2_000 * p + q) // (2 * q)
    return f"{p}/{q} {thousandths // 1_000}.{thousandths % 1_000:03}"


def kind_of(name: str, feeder: int | None) -> int:
    if name == "GRID":
        return 0
    return 1 if feeder is None else 2


def first_difference(book: Book, path: str | Path) -> str | None:
    """The first table of a database that differs from the book's rows, None where all that are kept are equal."""
    with sqlite3.connect(f"file:{path}?mode=ro", uri=True) as database:
        for table, rows in book.tables().items():
            if table == "moved" and not book.keeps_moves:
                continue
            found = database.execute(f"SELECT * FROM {table}").fetchall()
            if sorted(found, key=repr) != sorted(rows, key=repr):
                return table
    return None


def show(book: Book, words: argparse.Namespace) -> Iterable[str]:
    if words.moves:
        return book.moves_lines()
    if words.totals:
        return [book.totals_text()]
    if words.compare:
        table = first_difference(book, words.compare)
        return [f"differs {table}" if table else "equal"]
    return [] if words.imports else book.table_lines()


def main() -> int:
    parser = argparse.ArgumentParser(description="Imports CSV texts into a new book and prints its annual table.")
    parser.add_argument("texts", nargs="+", help="the texts")
    parser.add_argument("--first", required=True, help="the first day of the period")
    parser.add_argument("--days", type=int, required=True, help="how many days it has")
    parser.add_argument("--zone", required=True, help="the POSIX rule of the zone")
    shown = parser.add_mutually_exclusive_group()
    shown.add_argument("--moves", action="store_true", help="print the moves as CSV")
    shown.add_argument("--totals", action="store_true", help="print the totals as JSON")
    shown.add_argument("--imports", action="store_true", help="print what each import says")
    shown.add_argument("--compare", metavar="FILE", help="compare the tables of a book's database")
    parser.add_argument("--no-moves", action="store_true", help="compare without the moves, which take long in a year")
    words = parser.parse_args()
    keeps_moves = words.moves or (words.compare is not None and not words.no_moves)
    book = Book(Period(words.first, words.days, words.zone), keeps_moves)
    status = 0
    for path in words.texts:
        with open(path, "rb") as text:
            added, again, refusal = book.import_text(text.read())
        if words.imports:
            print(f"added {added} again {again}")
        if refusal:
            print(refusal, file=sys.stderr)
            status = 2
    for line in show(book, words):
        print(line)
    return status


if __name__ == "__main__":
    sys.exit(main())
