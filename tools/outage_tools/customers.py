"""Customers as they were served: groups of equal service, the worst served first."""

from dataclasses import dataclass

from outage_tools.compare import Checked
from outage_tools.forms import Figures, Value
from outage_tools.interruptions import Interruption
from outage_tools.rows import Block, Book


@dataclass(frozen=True)
class Served:
    """Customers of one section with the same service within the period, and the interruptions of each, in their order."""

    block: Block
    had: tuple[Interruption, ...]

    @property
    def sustained(self) -> list[Interruption]:
        return [each for each in self.had if each.is_sustained]

    @property
    def longest(self) -> int:
        """Seconds of the longest interruption: 0 where there is none."""
        return max((each.seconds for each in self.had), default=0)

    @property
    def seconds(self) -> int:
        """Seconds without supply, momentary ones too."""
        return sum(each.seconds for each in self.had)

    @property
    def sustained_seconds(self) -> int:
        return sum(each.seconds for each in self.sustained)

    def rank(self) -> tuple[int, ...]:
        """By the most sustained interruptions, then by the longest one, then by all seconds."""
        return (
            -len(self.sustained),
            -self.longest,
            -self.seconds,
            self.block.section,
            self.block.since,
            self.block.until,
        )

    def causes_text(self, book: Book) -> str:
        """Cause and seconds of each interruption, in the order of time."""
        return "; ".join(f"{book.causes.get(each.cause, each.cause)} {each.seconds}" for each in self.had)


def served_customers(found: Checked) -> list[Served]:
    """All customers that are in service in the period, each counted once, the worst served first."""
    had: dict[Block, list[Interruption]] = {block: [] for block in found.book.blocks}
    for each in found.interruptions:
        had[each.block].append(each)
    return sorted((Served(block, tuple(listed)) for block, listed in had.items()), key=Served.rank)


CUSTOMERS_COLUMNS = {
    "section": "the line section",
    "feeder": "its home feeder",
    "service_since": "the first second of the service in the period",
    "service_until": "its end in the period",
    "customers": "how many customers have this section and this service",
    "sustained": "interruptions of more than 300 seconds that each of them had",
    "longest": "seconds of the longest interruption",
    "seconds": "seconds without supply of each of them, momentary ones too",
    "sustained_seconds": "seconds of the sustained ones",
    "momentary": "interruptions of at most 300 seconds that each of them had",
    "unmarked_sustained": "the sustained ones that don't begin on a marked day",
    "unmarked_sustained_seconds": "their seconds",
    "causes": "cause and seconds of each interruption, in the order of time",
}


def customers(found: Checked) -> Figures:
    """Groups of equal service, the worst served first."""
    about = [
        "Customers of one section whose service within the period is the same had the same interruptions: a row for each"
        " such group, and each customer is in one row.",
        "The most sustained interruptions first, then the longest one, then the most seconds.",
    ]
    rows = [served_values(found.book, served) for served in served_customers(found)]
    return Figures("customers", about, CUSTOMERS_COLUMNS, rows)


def served_values(book: Book, served: Served) -> list[Value]:
    """The values of CUSTOMERS_COLUMNS."""
    section, block = book.sections[served.block.section], served.block
    unmarked = [each.seconds for each in served.sustained if not book.is_marked(each.since)]
    return [
        section.name,
        section.feeder,
        book.period.zone.text_of(block.since),
        book.period.zone.text_of(block.until),
        block.customers,
        len(served.sustained),
        served.longest,
        served.seconds,
        served.sustained_seconds,
        len(served.had) - len(served.sustained),
        len(unmarked),
        sum(unmarked),
        served.causes_text(book),
    ]
