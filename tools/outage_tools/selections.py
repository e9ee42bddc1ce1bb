"""What the program says of the whole book, and of each feeder, month, cause or section (docs/reference/FORMATS.md)."""

import csv
from pathlib import Path

from outage_tools.counts import SETS, Counts, Rates, fraction_text
from outage_tools.errors import Differs
from outage_tools.interruptions import LONGEST_MOMENTARY
from outage_tools.program import answer_of

COUNTS = ("sustained", "sustained_customer_seconds", "momentary")
Selections = dict[str, dict[str, Rates]]  # of both sets, by the key


def selections_of(program: str, copy: Path, by: str, over: int = LONGEST_MOMENTARY) -> Selections:
    """The program's counts and indices; an interruption of more than `over` seconds is sustained."""
    return read_selections(answer_of(program, "indices", "--book", copy, "--by", by, "--over", over))


def read_selections(text: str) -> Selections:
    """What the program prints, by set and key."""
    found: Selections = {name: {} for name in SETS}
    for row in csv.DictReader(text.splitlines()):
        found[row["set"]][row["key"]] = rates_of(row)
    return found


def rates_of(row: dict[str, str]) -> Rates:
    """A line of the program. What is made of its counts has to be its indices; a month has no ASAI."""
    served, length = int(row["customer_seconds_served"]), int(row["period_seconds"])
    sustained, seconds, momentary = (int(row[name]) for name in COUNTS)
    with_some = [customers_of(row[f"cemi_{n}"], served, length) for n in range(1, 11)]
    rates = Rates(Counts(sustained, seconds, momentary, with_some), served, length)
    here = {index.lower().replace("-", "_"): fraction_text(value) for index, value in rates.indices.items()}
    for name, value in {**here, "maifi": fraction_text(rates.maifi), "interrupted": str(with_some[0])}.items():
        if value != (row[name] or "undefined") and (name, row[name]) != ("asai", ""):
            raise Differs(f"{name} of {row['key']}, {row['set']}", value, row[name])
    return rates


def customers_of(share: str, served: int, length: int) -> int:
    """The customers that the program divides by those who were served; none where nobody was."""
    above, _, below = share.partition("/")
    return int(above) * served // (int(below) * length) if share else 0
