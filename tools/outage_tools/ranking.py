"""Feeders by SAIDI, the worst first, with their ranks by SAIFI and CAIDI, and those of the year before."""

from collections.abc import Callable, Iterable
from fractions import Fraction

from outage_tools.compare import Checked
from outage_tools.counts import SETS, Rates
from outage_tools.errors import BookError
from outage_tools.feeders import feeder_rows
from outage_tools.forms import Figures, Value
from outage_tools.rates import GroupRow, both, quotient_columns

RANKING_COLUMNS = {
    "rank": "by SAIDI, the worst first; equal ones have one rank; empty: no customer was served",
    "feeder": "the home feeder",
    "set": "all interruptions, or the unmarked ones, which don't begin on a marked day",
    **quotient_columns("customers_served", "S / P: customers in service on average"),
    **quotient_columns("saidi", "minutes per customer served"),
    **quotient_columns("saifi", "interruptions per customer served"),
    **quotient_columns("caidi", "minutes per interruption"),
    "rank_by_saifi": "the rank by SAIFI",
    "rank_by_caidi": "the rank by CAIDI; empty: no sustained interruption",
}
EARLIER_COLUMNS = {
    "earlier_rank": "the rank by SAIDI in the earlier book; empty: it has no such feeder, or none of its customers",
    **quotient_columns("earlier_saidi", "SAIDI in the earlier book"),
    "earlier_rank_by_saifi": "the rank by SAIFI in the earlier book",
}

Ranks = dict[int | str, int]


def ranks_of(rows: Iterable[GroupRow], value_of: Callable[[Rates], Fraction | None]) -> Ranks:
    """The rank of each name, 1 for the greatest value; equal values have one rank, and the next one is left out."""
    values = {row.name: value for row in rows if (value := value_of(row.rates)) is not None}
    return {name: 1 + sum(other > value for other in values.values()) for name, value in values.items()}


class Ranked:
    """The feeders of a book in one of the two sets, with their ranks."""

    def __init__(self, found: Checked, which: str) -> None:
        self.rows = {row.name: row for row in feeder_rows(found) if row.set == which}
        self.by_saidi = ranks_of(self.rows.values(), lambda rates: rates.saidi)
        self.by_saifi = ranks_of(self.rows.values(), lambda rates: rates.saifi)
        self.by_caidi = ranks_of(self.rows.values(), lambda rates: rates.caidi)

    def names(self) -> list[int | str]:
        """The worst first."""
        last = len(self.rows) + 1
        return sorted(self.rows, key=lambda name: (self.by_saidi.get(name, last), name))

    def values(self, name: int | str, which: str) -> list[Value]:
        """The values of RANKING_COLUMNS."""
        rates = self.rows[name].rates
        quotients = [value for each in (rates.customers, rates.saidi, rates.saifi, rates.caidi) for value in both(each)]
        ranks = [self.by_saifi.get(name, ""), self.by_caidi.get(name, "")]
        return [self.by_saidi.get(name, ""), name, which, *quotients, *ranks]

    def as_earlier(self, name: int | str) -> list[Value]:
        """The values of EARLIER_COLUMNS."""
        if name not in self.rows:
            return ["", "", "", ""]
        return [self.by_saidi.get(name, ""), *both(self.rows[name].rates.saidi), self.by_saifi.get(name, "")]


def ranking(found: Checked, earlier: Checked | None = None) -> Figures:
    """A row for each feeder in each set; with an earlier book its ranks there, by the feeder's number."""
    about = ["By the home feeder of the customers' sections, over its own customers; the worst first."]
    columns = {**RANKING_COLUMNS, **(EARLIER_COLUMNS if earlier else {})}
    if earlier:
        first, last = earlier.book.period.days[0], earlier.book.period.days[-1]
        if last >= found.book.period.days[0]:
            raise BookError(f"the earlier book ends on {last}: not before {found.book.period.days[0]}")
        about.append(f"Earlier: the book from {first} to {last}; a feeder is the same one by its number.")
    rows: list[list[Value]] = []
    for which in SETS:
        ranked, before = Ranked(found, which), Ranked(earlier, which) if earlier else None
        for name in ranked.names():
            rows.append([*ranked.values(name, which), *(before.as_earlier(name) if before else [])])
    return Figures("ranking", about, columns, rows)
