"""What a cut cost: the districts' books swept together, as if no tie between them had been cut."""

from collections import defaultdict
from collections.abc import Callable, Sequence
from dataclasses import dataclass, field
from typing import Any

from outage_tools.cli import Parser
from outage_tools.compare import Checked, open_book
from outage_tools.counts import SETS, Counts, Rates, quotient_text
from outage_tools.district_cut import TIE_COLUMNS
from outage_tools.district_files import read_rows
from outage_tools.errors import BookError
from outage_tools.graphs import reached
from outage_tools.parallel import over_books
from outage_tools.rows import CAUSE, GRID, Book, Device, Entry
from outage_tools.sums import District, add_up, district_of, tables_given
from outage_tools.supply import Run, Supply, bounds_of_lives, counts_of, interruptions_of


@dataclass(frozen=True)
class Part:
    """A compared book: what it adds to the sums, and what it holds."""

    district: District
    book: Book


def part_of(path: str, found: Checked) -> Part:
    return Part(district_of(path, found), found.book)


def read_part(path: str, table: str | None, program: str) -> Part:
    """The part of the book in a file, compared first."""
    with open_book(path, table, program) as found:
        return part_of(path, found)


@dataclass(frozen=True)
class Tie:
    """A tie between two districts, with its number among each district's devices and the node at each end."""

    name: str
    districts: tuple[str, str]
    devices: tuple[int, int]
    nodes: tuple[int, int]


@dataclass
class TieTimes:
    """The intervals in which a tie was closed while its ends were without supply, and the seconds it was closed."""

    closed: int = 0
    without: list[tuple[int, int]] = field(default_factory=list)

    @property
    def seconds(self) -> int:
        return sum(until - since for since, until in self.without)

    def add(self, since: int, until: int, is_supplied: bool) -> None:
        self.closed += until - since
        if is_supplied:
            return
        if self.without and self.without[-1][1] == since:
            since = self.without.pop()[0]
        self.without.append((since, until))


def read_ties(path: str, books: dict[str, Book]) -> list[Tie]:
    """The ties of a cut, as the books have them: the same device in both, from GRID, with the same life and switchings."""
    ties = []
    for place, row in enumerate(read_rows(path, TIE_COLUMNS), 1):
        places = row["district"], row["other_district"]
        strange = [name for name in places if name not in books]
        if strange:
            raise BookError(f"{path}: row {place}: {row['tie']} joins {strange[0]}, whose book isn't given")
        ends = [
            end_of(books[name], name, row["tie"], node) for name, node in zip(places, (row["node"], row["other_node"]))
        ]
        first, second = ends[0][0], ends[1][0]
        if (first.is_closed, first.since, first.until) != (second.is_closed, second.since, second.until):
            raise BookError(
                f"{row['tie']} has another normal position or in-service interval in {places[0]} than in {places[1]}"
            )
        here, there = (switchings(books[name], end[0]) for name, end in zip(places, ends))
        if here != there:
            (second_of, act), holder = first_that_differs(here, there, places)
            raise BookError(
                f"{row['tie']} was told to {act} at the second {second_of} in {holder} alone: tell a tie's switchings to"
                " both of its districts"
            )
        ties.append(Tie(row["tie"], places, (first.number, second.number), (ends[0][1], ends[1][1])))
    return ties


def end_of(book: Book, district: str, tie: str, node: str) -> tuple[Device, int]:
    """A tie's device in a book, and its node there."""
    for device in book.devices:
        if device.name == tie:
            other = device.b if device.a == GRID else device.a
            if GRID in (device.a, device.b) and book.nodes[other] == node:
                return device, other
            raise BookError(f"{tie} isn't a device from GRID to {node} in the book of {district}")
    raise BookError(f"the book of {district} has no device {tie}")


def switchings(book: Book, device: Device) -> list[tuple[int, str]]:
    """What was kept of a device's switchings, by their seconds."""
    kept = (each for each in book.entries if each.is_kept and each.device == device.number)
    ordered = sorted(kept, key=lambda each: (each.second, each.number))
    return [(each.second, "close" if each.closes else "open") for each in ordered]


def first_that_differs(
    here: list[tuple[int, str]], there: list[tuple[int, str]], names: tuple[str, str]
) -> tuple[tuple[int, str], str]:
    """The first switching that one of two books has alone, and which."""
    for one, other in zip(here, there):
        if one != other:
            return (one, names[0]) if one <= other else (other, names[1])
    return (here[len(there)], names[0]) if len(here) > len(there) else (there[len(here)], names[1])


class DistrictSupply(Supply):
    """A district's own supply: its ties' positions are known, and nothing comes over them."""

    def __init__(self, book: Book, ties: frozenset[int]):
        self.ties = ties
        super().__init__(book)

    def set_position(self, device: Device, is_closed: bool) -> bool:
        if device.number not in self.ties:
            return super().set_position(device, is_closed)
        if is_closed == self.is_closed[device.number]:
            return False
        self.is_closed[device.number] = is_closed
        return True


class Utility:
    """The districts of a utility with the ties between them, second by second: who is supplied as no cut had been made."""

    def __init__(self, books: dict[str, Book], ties: Sequence[Tie]):
        self.books, self.ties = books, ties
        numbers: dict[str, set[int]] = defaultdict(set)
        for tie in ties:
            for name, device in zip(tie.districts, tie.devices):
                numbers[name].add(device)
        self.supplies = {name: DistrictSupply(book, frozenset(numbers[name])) for name, book in books.items()}
        self.own = {name: supply.supplied for name, supply in self.supplies.items()}
        self.supplied: dict[str, frozenset[int]] = {}
        self.find_supplied()

    def is_closed(self, tie: Tie) -> bool:
        return self.supplies[tie.districts[0]].is_closed[tie.devices[0]]

    def find_supplied(self) -> None:
        """Each district's own supply, and what comes over closed ties until nothing more does."""
        self.supplied = dict(self.own)
        closed = [tie for tie in self.ties if self.is_closed(tie)]
        changed = bool(closed)
        while changed:
            changed = False
            for tie in closed:
                is_reached = [node in self.supplied[name] for name, node in zip(tie.districts, tie.nodes)]
                if is_reached[0] != is_reached[1]:
                    name, node = next((n, x) for n, x, is_in in zip(tie.districts, tie.nodes, is_reached) if not is_in)
                    self.supplied[name] = self.supplied[name] | reached(self.supplies[name].closed, node)
                    changed = True

    def changed(self, name: str) -> None:
        """A position of a district changed."""
        self.own[name] = self.supplies[name].supplied
        self.find_supplied()


class TrueSweep:
    """The runs of all districts' sections as the uncut network has them, and the times of the ties."""

    def __init__(self, books: dict[str, Book], ties: Sequence[Tie]):
        self.utility = Utility(books, ties)
        self.books = books
        self.sections = {name: set(book.sections) for name, book in books.items()}
        self.lives = {name: bounds_of_lives(book.devices) for name, book in books.items()}
        self.entries: dict[int, list[tuple[str, Entry]]] = defaultdict(list)
        for name, book in books.items():
            for entry in book.entries:
                if entry.is_kept:
                    self.entries[entry.second].append((name, entry))
        self.going: dict[str, dict[int, tuple[int, Entry | None]]] = {name: {} for name in books}
        self.runs: dict[str, list[Run]] = {name: [] for name in books}
        self.times = {tie.name: TieTimes() for tie in ties}

    def moments(self) -> list[int]:
        period = next(iter(self.books.values())).period
        moments = {period.first, *self.entries}.union(*self.lives.values())
        return sorted(moment for moment in moments if period.first <= moment < period.end)

    def act(self, moment: int) -> dict[str, dict[int, Entry]]:
        """Lives, then the entries of a second, district by district: the entries that cut sections off."""
        utility = self.utility
        for name, lives in self.lives.items():
            if moment in lives and utility.supplies[name].come_to(moment):
                utility.changed(name)
        cutters: dict[str, dict[int, Entry]] = defaultdict(dict)
        for name, entry in self.entries.get(moment, ()):
            if utility.supplies[name].switch(entry, moment):
                before = utility.supplied
                utility.changed(name)
                for other, supplied in utility.supplied.items():
                    if supplied is not before[other]:
                        cutters[other].update((node, entry) for node in before[other] - supplied)
        return cutters

    def look(self, moment: int, cutters: dict[str, dict[int, Entry]]) -> None:
        """Begins and ends runs as a second has it."""
        for name, supplied in self.utility.supplied.items():
            going = self.going[name]
            for section in self.sections[name] & supplied & going.keys():
                since, cutter = going.pop(section)
                self.runs[name].append(Run(section, since, moment, cutter))
            for section in self.sections[name] - supplied - going.keys():
                going[section] = moment, cutters.get(name, {}).get(section)

    def sweep(self) -> None:
        end = next(iter(self.books.values())).period.end
        moments = self.moments()
        for moment, following in zip(moments, [*moments[1:], end]):
            self.look(moment, self.act(moment))
            for tie in self.utility.ties:
                if self.utility.is_closed(tie):
                    is_supplied = tie.nodes[0] in self.utility.supplied[tie.districts[0]]
                    self.times[tie.name].add(moment, following, is_supplied)
        for name, going in self.going.items():
            self.runs[name] += [Run(section, since, end, cutter) for section, (since, cutter) in going.items()]
            self.runs[name].sort(key=lambda run: (run.since, run.section))


@dataclass(frozen=True)
class Cost:
    """What a cut cost a district: by how much each amount and count is more in the uncut network."""

    district: str
    customer_seconds: int
    counts: dict[str, Counts]

    @property
    def is_none(self) -> bool:
        return self.customer_seconds == 0 and all(
            not (each.sustained or each.sustained_seconds or each.momentary or any(each.with_some))
            for each in self.counts.values()
        )


def difference(more: Counts, less: Counts) -> Counts:
    return Counts(
        more.sustained - less.sustained,
        more.sustained_seconds - less.sustained_seconds,
        more.momentary - less.momentary,
        [here - there for here, there in zip(more.with_some, less.with_some)],
    )


def cost_of(name: str, found: Part, runs: Sequence[Run]) -> Cost:
    """What the true runs of a district have more than its book."""
    book, here = found.book, found.district.counts
    interruptions = {"all": interruptions_of(book, runs)}
    interruptions["unmarked"] = [each for each in interruptions["all"] if not book.is_marked(each.since)]
    more = sum(each.customer_seconds for each in interruptions["all"])
    less = sum(book.postings[CAUSE, code] for code in book.causes)
    counts = {each: difference(counts_of(interruptions[each]), here[each]) for each in SETS}
    return Cost(name, more - less, counts)


@dataclass(frozen=True)
class CheckedCut:
    """The times of all ties, what the cut cost each district, and the sums' SAIDI with and without it."""

    ties: list[Tie]
    times: dict[str, TieTimes]
    costs: list[Cost]
    saidi: dict[str, tuple[str, str]]
    zone_text: Callable[[int], str]


def check_cut(ties_path: str, books: dict[str, Part]) -> CheckedCut:
    """What the cut of books that belong together cost."""
    sums = add_up([found.district for found in books.values()], own_numbers=True)
    plain = {name: found.book for name, found in books.items()}
    ties = read_ties(ties_path, plain)
    swept = TrueSweep(plain, ties)
    swept.sweep()
    costs = [cost_of(name, found, swept.runs[name]) for name, found in books.items()]
    saidi = {}
    for each in SETS:
        more = sum((cost.counts[each] for cost in costs), sums.counts[each])
        value = sums.rates(each).saidi
        saidi[each] = quotient_text(value), quotient_text(Rates(more, sums.served_seconds, sums.length).saidi)
    zone = next(iter(plain.values())).period.zone
    return CheckedCut(ties, swept.times, costs, saidi, zone.text_of)


def write_check(checked: CheckedCut) -> None:
    """Each tie with its times, then what the cut cost."""
    for tie in checked.ties:
        times = checked.times[tie.name]
        print(
            f"tie {tie.name} {tie.districts[0]} {tie.districts[1]}: closed {times.closed} seconds,"
            f" of which {times.seconds} while its ends were without supply"
        )
        for since, until in times.without:
            print(f"  from {checked.zone_text(since)} to {checked.zone_text(until)}")
    for cost in checked.costs:
        counts = cost.counts["all"]
        print(
            f"district {cost.district}: without the cut {cost.customer_seconds:+} customer-seconds,"
            f" {counts.sustained:+} sustained, {counts.sustained_seconds:+} of their seconds, {counts.momentary:+} momentary"
        )
    for name, (cut_value, true_value) in checked.saidi.items():
        print(f"SAIDI {name}: {cut_value} with the cut, {true_value} without")
    if all(cost.is_none for cost in checked.costs):
        print("the cut cost nothing")


def check(parser: Parser, args: Any) -> None:
    """The job `check`."""
    tables = tables_given(parser, args.books, args.table)
    parts = over_books(read_part, args.books, tables, args.program, args.processes, args.cluster)
    books = {part.district.name: part for part in parts}
    if len(books) < len(parts):
        raise BookError("a district is one book, whose file has its name: one is given twice")
    write_check(check_cut(args.ties, books))
