"""Causes and groups of causes: their parts of the customer-seconds and of the indices."""

from collections.abc import Iterable
from dataclasses import dataclass, replace
from fractions import Fraction

from outage_tools.compare import Checked
from outage_tools.counts import SETS, Counts, Rates, quotient
from outage_tools.forms import Figures, Value
from outage_tools.interruptions import LONGEST_MOMENTARY
from outage_tools.lists import Groups, groups_in_order, told_missing
from outage_tools.rates import RATES_COLUMNS, both, quotient_columns, rates_values, seconds_of_sets
from outage_tools.rows import CAUSE


@dataclass(frozen=True)
class CauseRow:
    """A cause's part of the customer-seconds, and of the indices of all customers."""

    code: int
    name: str
    posted: int
    share: Fraction | None
    rates: Rates


def cause_rows(found: Checked) -> list[CauseRow]:
    """The causes, greatest first."""
    postings, rates = found.book.postings, found.selected("cause")["all"]
    total = sum(amount for (dim, _), amount in postings.items() if dim == CAUSE)
    rows = [
        CauseRow(code, name, postings[CAUSE, code], quotient(postings[CAUSE, code], total), rates[name])
        for code, name in found.book.causes.items()
    ]
    return sorted(rows, key=lambda row: (-row.posted, row.code))


def causes(found: Checked) -> Figures:
    """Each cause's part of the customer-seconds and of the indices, greatest first."""
    columns = {
        "cause": "its code: 0 where no entry cut the section off",
        "name": "its name",
        "customer_seconds": "the book's customer-seconds without supply",
        **quotient_columns("share", "their share of W"),
        **RATES_COLUMNS,
    }
    about = [
        "Over all interruptions and all customers served, so that the causes' SAIFI and SAIDI add up to the book's."
    ]
    rows: list[list[Value]] = [
        [row.code, row.name, row.posted, *both(row.share), *rates_values(row.rates)] for row in cause_rows(found)
    ]
    return Figures("causes", about, columns, rows)


@dataclass(frozen=True)
class CauseGroup:
    """The causes of a group in one of the two sets, over all customers served; no name: causes in no group."""

    name: str
    causes: tuple[str, ...]
    set: str
    seconds: int
    share: Fraction | None
    rates: Rates


def rates_of_causes(found: Checked, codes: Iterable[int], which: str, over: int = LONGEST_MOMENTARY) -> Rates:
    """CI, CSI and MI of some causes together, over all customers served; who had several of them isn't known."""
    selected, whole = found.selected("cause", over)[which], found.whole[which]
    parts = [selected[found.book.causes[code]].counts for code in codes]
    return Rates(replace(sum(parts, Counts()), with_some=[0] * 10), whole.served, whole.length)


def cause_group_rows(found: Checked, of_causes: Groups) -> list[CauseGroup]:
    """Each group in both sets, as the list names them first, and what is in no group, where there is anything."""
    seconds = seconds_of_sets(found, lambda each: of_causes.get(each.cause, ""))
    names = groups_in_order(of_causes) + [""] * ("" in seconds["all"])
    rows = []
    for name in names:
        causes = {code: text for code, text in found.book.causes.items() if of_causes.get(code, "") == name}
        for which in SETS:
            share = quotient(seconds[which][name], seconds[which].total())
            rates = rates_of_causes(found, causes, which)
            rows.append(CauseGroup(name, tuple(causes.values()), which, seconds[which][name], share, rates))
    return rows


def cause_groups(found: Checked, of_causes: Groups) -> Figures:
    """The indices of each group of causes, planned apart from unplanned where the list parts them so."""
    columns = {
        "group": "the group; empty: causes in no group",
        "causes": "its causes",
        "set": "all interruptions, or the unmarked ones, which don't begin on a marked day",
        "customer_seconds": "customer-seconds without supply of the set's interruptions",
        **quotient_columns("share", "their share of those of the set"),
        **RATES_COLUMNS,
    }
    alone = (name for code, name in found.book.causes.items() if code not in of_causes)
    about = [
        "An interruption has the cause of the switching that cut off. Over all customers served, so that the groups' SAIFI"
        " and SAIDI add up to the book's.",
        *told_missing("Causes in no group", alone),
    ]
    rows: list[list[Value]] = [
        [row.name, "; ".join(row.causes), row.set, row.seconds, *both(row.share), *rates_values(row.rates)]
        for row in cause_group_rows(found, of_causes)
    ]
    return Figures("cause-groups", about, columns, rows)
