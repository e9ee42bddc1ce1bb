"""Which interruptions belong to which ticket, and what they amount to.

An interruption belongs to the ticket of the entry that cut its section off (its cutter). Where there is no such entry, or it is
of no ticket, it belongs to the ticket of the entry that ended it: the last one of the second at which it was over that brought
supply back to the section. Where that one is of no ticket either, it belongs to none. So each interruption counts once.
The interruptions are the program's; which entry began and ended them, of which ticket, is told by a walk of the tools' own.
"""

from bisect import bisect_left, bisect_right
from collections import defaultdict
from collections.abc import Iterable
from dataclasses import dataclass, field

from outage_tools.commands import read_commands
from outage_tools.compare import Checked
from outage_tools.errors import BookError
from outage_tools.feeding import Feeding
from outage_tools.interruptions import Interruption, blocks_by_section
from outage_tools.references import switchings_of
from outage_tools.rows import Block, Book, Entry
from outage_tools.supply import Run, sweep


@dataclass(frozen=True)
class Part(Interruption):
    """An interruption with the run of its section."""

    run: Run


@dataclass
class Ticket:
    """A ticket in a book: its entries, withdrawn ones among them, and the interruptions that belong to it."""

    name: str
    entries: list[Entry] = field(default_factory=list)
    parts: list[Part] = field(default_factory=list)

    @property
    def customers(self) -> int:
        """Those who had at least one of its interruptions, each once."""
        return customers_of(self.parts)

    @property
    def interruptions(self) -> int:
        """Its interruptions: a customer that had two counts twice."""
        return sum(part.customers for part in self.parts)

    @property
    def customer_seconds(self) -> int:
        return sum(part.customer_seconds for part in self.parts)

    def sections(self) -> dict[int, int]:
        """The sections that were interrupted, each with its customers who were; the one with most first."""
        parts: dict[int, list[Part]] = defaultdict(list)
        for part in self.parts:
            parts[part.section].append(part)
        counts = {section: customers_of(listed) for section, listed in parts.items()}
        return dict(sorted(counts.items(), key=lambda pair: (-pair[1], pair[0])))


def customers_of(parts: Iterable[Part]) -> int:
    """The customers of some parts, each once: a customer is in one block."""
    return sum(block.customers for block in {part.block for part in parts})


@dataclass(frozen=True)
class Tickets:
    """The tickets of a book by their names, the ticket of each entry, the interruptions of none, and the runs of each section in
    their order with the ticket to which they belong."""

    feeding: Feeding
    by_name: dict[str, Ticket] = field(default_factory=dict)
    of_entry: dict[int, str] = field(default_factory=dict)
    of_none: list[Part] = field(default_factory=list)
    runs: dict[int, list[tuple[Run, str | None]]] = field(default_factory=lambda: defaultdict(list))
    blocks: dict[int, list[Block]] = field(default_factory=dict)  # of each section

    def owner(self, run: Run) -> str | None:
        """The ticket to which the interruptions of a run belong."""
        owners = (self.of_entry.get(entry.number) for entry in (run.cutter, run.ender) if entry)
        return next((owner for owner in owners if owner is not None), None)

    def run_at(self, section: int, second: int) -> tuple[Run, str | None] | None:
        """The run in which a section was without supply before and after a second, with its ticket."""
        runs = self.runs.get(section, [])
        place = bisect_left(runs, second, key=lambda pair: pair[0].since) - 1
        return runs[place] if place >= 0 and second < runs[place][0].until else None

    def out_at(self, section: int, second: int) -> str | None:
        """The ticket of that run; None where there is none."""
        run = self.run_at(section, second)
        return run[1] if run is not None else None


def tickets_of_entries(found: Checked, prefix: str, known: Iterable[str]) -> dict[int, str]:
    """The ticket of each entry whose reference tells one. `known` are tickets that there are: a reference that may be read
    in several ways is of the one among them."""
    names = set(known)
    tickets: dict[int, str] = {}
    for command in read_commands(found.database):
        if command.kind != "switch" or command.entry is None:
            continue
        ways = [way.ticket for way in switchings_of(command.ref, prefix)]
        among = [ticket for ticket in ways if ticket in names]
        if len(among) > 1:
            raise BookError(f"the reference {command.ref} may be of the tickets {' and '.join(among)}")
        if ways:
            tickets[command.entry] = (among or ways)[0]
    return tickets


def tickets_of(found: Checked, prefix: str = "OMS-", known: Iterable[str] = ()) -> Tickets:
    """The tickets of a book and what belongs to each, in the order in which they were entered."""
    book = found.book
    of_entry = tickets_of_entries(found, prefix, known)
    blocks = blocks_by_section(book)
    tickets = Tickets(Feeding(book), of_entry=of_entry, blocks=blocks)
    for number, name in of_entry.items():
        tickets.by_name.setdefault(name, Ticket(name)).entries.append(book.entries[number - 1])
    for run in sweep(book):
        tickets.runs[run.section].append((run, tickets.owner(run)))
    for each in found.interruptions:
        runs = tickets.runs[each.section]
        run, owner = runs[bisect_right(runs, each.since, key=lambda pair: pair[0].since) - 1]
        parts = tickets.of_none if owner is None else tickets.by_name[owner].parts
        parts.append(Part(**vars(each), run=run))
    return tickets
