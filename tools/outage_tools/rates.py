"""SAIFI, SAIDI and CAIDI of a key as the program says them, and the program's interruptions added up by a key."""

from collections import Counter, defaultdict
from collections.abc import Callable, Hashable, Iterable
from dataclasses import dataclass
from fractions import Fraction
from typing import TypeVar

from outage_tools.compare import Checked
from outage_tools.counts import SETS, Counts, Rates, decimal_text, fraction_text
from outage_tools.forms import Value
from outage_tools.interruptions import Interruption

Key = TypeVar("Key", bound=Hashable)


def counts_by(interruptions: Iterable[Interruption], key_of: Callable[[Interruption], Key]) -> dict[Key, Counts]:
    """CI, CSI and MI by a key."""
    found: dict[Key, Counts] = defaultdict(Counts)
    for each in interruptions:
        found[key_of(each)].add(each)
    return found


def seconds_of_sets(found: Checked, key_of: Callable[[Interruption], Key]) -> dict[str, Counter[Key]]:
    """The customer-seconds without supply of each set, momentary ones too, by a key."""
    seconds = {name: Counter[Key]() for name in SETS}
    for name in SETS:
        for each in found.counted(name):
            seconds[name][key_of(each)] += each.customer_seconds
    return seconds


def both(value: Fraction | None) -> list[Value]:
    """A quotient's two columns."""
    return [fraction_text(value), decimal_text(value)]


def yes_if(condition: bool) -> str:
    return "yes" if condition else ""


def quotient_columns(name: str, meaning: str) -> dict[str, str]:
    return {name: f"{meaning}, as a fraction", f"{name}_3": "the same, three decimals"}


RATES_COLUMNS = {
    "sustained": "CI: customers' interruptions of more than 300 seconds that begin there",
    "momentary": "MI: customers' interruptions of at most 300 seconds that begin there",
    "sustained_customer_seconds": "CSI: customer-seconds of the sustained ones, whole",
    **quotient_columns("saifi", "interruptions per customer served"),
    **quotient_columns("saidi", "minutes per customer served"),
    **quotient_columns("caidi", "minutes per interruption"),
}


def rates_values(rates: Rates) -> list[Value]:
    """The values of RATES_COLUMNS."""
    counts = rates.counts
    values: list[Value] = [counts.sustained, counts.momentary, counts.sustained_seconds]
    for value in (rates.saifi, rates.saidi, rates.caidi):
        values += both(value)
    return values


@dataclass(frozen=True)
class GroupRow:
    """A month, a feeder or a section in one of the two sets; `seconds` are the customer-seconds of the set's interruptions."""

    name: int | str
    set: str
    seconds: int
    rates: Rates


def group_rows(found: Checked, by: str, key_of: Callable[[Interruption], str]) -> list[GroupRow]:
    """Each feeder or section, in both sets."""
    selected, seconds = found.selected(by), seconds_of_sets(found, key_of)
    return [GroupRow(key, name, seconds[name][key], selected[name][key]) for key in selected["all"] for name in SETS]


GROUP_COLUMNS = {
    "set": "all interruptions, or the unmarked ones, which don't begin on a marked day",
    "customer_seconds": "customer-seconds without supply: the book's, and of the unmarked set those of its interruptions",
    **quotient_columns("customers_served", "S / P: customers in service on average"),
    **RATES_COLUMNS,
}


def group_values(row: GroupRow) -> list[Value]:
    """The values of GROUP_COLUMNS."""
    return [row.set, row.seconds, *both(row.rates.customers), *rates_values(row.rates)]
