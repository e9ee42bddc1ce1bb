"""The books of the years before the one that a page shows: their sums, and the feeders' ranks in the last of them."""

from collections.abc import Mapping, Sequence
from dataclasses import dataclass, field
from fractions import Fraction

from outage_tools.compare import Checked, open_book
from outage_tools.errors import BookError
from outage_tools.major_days import read_years
from outage_tools.parallel import over_books
from outage_tools.ranking import Ranked
from outage_tools.sums import District, PeriodKey, Sums, district_of

ALIKE = 1  # days by which periods that are compared may differ in length: a leap day


@dataclass(frozen=True)
class FeederBefore:
    """A feeder in the year before: its rank by SAIDI, and that in minutes."""

    rank: int
    saidi: Fraction


@dataclass(frozen=True)
class EarlierBook:
    """What a page takes from the book of an earlier period."""

    district: District
    feeders: dict[int, FeederBefore]


@dataclass(frozen=True)
class Earlier:
    """The periods in their order, the last one that of the page's book; and the feeders of the one before it, by number."""

    years: Sequence[Sums]
    feeders: Mapping[int, FeederBefore] = field(default_factory=dict)

    @property
    def year(self) -> Sums:
        """The period of the page's book."""
        return self.years[-1]

    @property
    def before(self) -> Sums:
        """The period before it."""
        return self.years[-2]


def feeders_of(found: Checked) -> dict[int, FeederBefore]:
    """The feeders of a book that had customers, by number."""
    ranked, feeders = Ranked(found, "all"), dict[int, FeederBefore]()
    for name, rank in ranked.by_saidi.items():
        saidi = ranked.rows[name].rates.saidi
        if saidi is not None:
            feeders[int(name)] = FeederBefore(rank, saidi)
    return feeders


def read_earlier_book(path: str, table: str | None, program: str) -> EarlierBook:
    """The book in a file, compared with its program's table first."""
    with open_book(path, table, program) as found:
        return EarlierBook(district_of(path, found), feeders_of(found))


def read_earlier(path: str, found: Checked, paths: Sequence[str], program: str) -> Earlier:
    """The books of the years before that in `path`; one that isn't before it is refused."""
    own = district_of(path, found)
    books = over_books(read_earlier_book, paths, [None] * len(paths), program, None)
    for file, book in zip(paths, books):
        if book.district.period.last >= own.period.first:
            raise BookError(f"{file}: its period ends on {book.district.period.last}, not before {own.period.first}")
    years = read_years([*(book.district for book in books), own], own_numbers=False)
    last = [book for book in books if book.district.period == years[-2].period]
    return Earlier(years, last[0].feeders if len(last) == 1 else {})


def period_text(period: PeriodKey) -> str:
    """A calendar year by its number, another period by its first and last day."""
    first, last = period.first, period.last
    is_year = first.year == last.year and (first.month, first.day, last.month, last.day) == (1, 1, 12, 31)
    return str(first.year) if is_year else f"{first} to {last}"


def are_alike(period: PeriodKey, other: PeriodKey) -> bool:
    """Whether figures of two periods can be compared: they are of one length, but for a leap day."""
    return abs(period.days - other.days) <= ALIKE
