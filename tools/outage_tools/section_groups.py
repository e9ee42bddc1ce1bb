"""The indices of groups of line sections that a user has (towns, substations, urban and rural), beside the book's own."""

from collections.abc import Sequence
from dataclasses import dataclass
from typing import Literal

from outage_tools.compare import Checked
from outage_tools.counts import SETS, Counts, Rates, decimal_text, fraction_text, index_decimals
from outage_tools.errors import Differs
from outage_tools.feeders import section_rows
from outage_tools.forms import Figures, Value
from outage_tools.lists import Groups, groups_in_order, told_missing
from outage_tools.rates import GroupRow, both, quotient_columns

INDICES = ("SAIFI", "SAIDI", "CAIDI", "CAIFI", "ASAI", *(f"CEMI-{n}" for n in range(1, 11)))


@dataclass(frozen=True)
class Counted:
    """What is counted of some sections in one of the two sets: a group, the sum of all groups, or the whole book."""

    row: Literal["group", "sum", "book"]
    name: str
    set: str
    sections: int
    customer_seconds: int
    rates: Rates

    @property
    def figures(self) -> tuple[int, int, Rates]:
        """What a sum has equal to the book's own where no section is left out."""
        return self.sections, self.customer_seconds, self.rates


def together(found: Checked, row: Literal["group", "sum"], name: str, which: str, parts: Sequence[GroupRow]) -> Counted:
    """Sections together: a customer has one of them, so their counts add up."""
    served = sum(each.rates.served for each in parts)
    rates = Rates(sum((each.rates.counts for each in parts), Counts()), served, found.book.period.length)
    return Counted(row, name, which, len(parts), sum(each.seconds for each in parts), rates)


def counted_groups(found: Checked, groups: Groups) -> list[Counted]:
    """Each group in both sets, the sum of all, and the book's own, which are equal where every section is in a group."""
    group_of: dict[int | str, str] = {found.book.sections[node].name: group for node, group in groups.items()}
    of_sets = {name: [row for row in section_rows(found) if row.set == name] for name in SETS}
    rows = []
    for name in groups_in_order(groups):
        for which, of_set in of_sets.items():
            parts = [each for each in of_set if group_of.get(each.name) == name]
            rows.append(together(found, "group", name, which, parts))
    for which, of_set in of_sets.items():
        total = together(found, "sum", "", which, [each for each in of_set if each.name in group_of])
        seconds = sum(each.seconds for each in of_set)
        own = Counted("book", "", which, len(of_set), seconds, found.whole[which])
        if len(group_of) == len(of_set) and total.figures != own.figures:
            raise Differs(f"the sum of the groups, {which}", total.figures, own.figures)
        rows += [total, own]
    return rows


def sections_without_group(found: Checked, groups: Groups) -> list[str]:
    return [section.name for node, section in found.book.sections.items() if node not in groups]


def index_columns() -> dict[str, str]:
    columns: dict[str, str] = {}
    for index in INDICES:
        key = index.lower().replace("-", "_")
        if index == "ASAI":
            columns |= {key: "ASAI, as a fraction", f"{key}_5": "the same, five decimals"}
        else:
            columns |= quotient_columns(key, index)
    return columns


COUNTED_COLUMNS = {
    "row": "group; sum: all groups together; book: the book's own",
    "group": "the group's name",
    "set": "all interruptions, or the unmarked ones, which don't begin on a marked day",
    "sections": "how many line sections",
    "served_customer_seconds": "S: customer-seconds in service",
    **quotient_columns("customers_served", "S / P: customers in service on average"),
    "customer_seconds": "W: customer-seconds without supply of the set's interruptions",
    "sustained": "CI: customers' interruptions of more than 300 seconds",
    "sustained_customer_seconds": "CSI: their customer-seconds",
    "momentary": "MI: customers' interruptions of at most 300 seconds",
    "interrupted": "CN: customers with one sustained interruption or more",
    **index_columns(),
}


def groups(found: Checked, of_sections: Groups) -> Figures:
    """S, W, CI, CSI, MI, CN and the indices of each group, their sum, and the book's own."""
    about = [
        "Each group is counted over the customers of its own sections; the sum adds up its counts, and divides them anew.",
        "The sum is the book's own where every section is in a group.",
        *told_missing("Sections in no group, and not in the sum", sections_without_group(found, of_sections)),
    ]
    return Figures(
        "groups", about, COUNTED_COLUMNS, [counted_values(row) for row in counted_groups(found, of_sections)]
    )


def counted_values(row: Counted) -> list[Value]:
    """The values of COUNTED_COLUMNS."""
    rates, counts = row.rates, row.rates.counts
    values: list[Value] = [row.row, row.name, row.set, row.sections, rates.served, *both(rates.customers)]
    values += [row.customer_seconds, counts.sustained, counts.sustained_seconds, counts.momentary, counts.with_some[0]]
    for index in INDICES:
        value = rates.indices[index]
        values += [fraction_text(value), decimal_text(value, index_decimals(index))]
    return values
