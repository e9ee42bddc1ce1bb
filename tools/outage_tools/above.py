"""Customers by their numbers who had n or more sustained interruptions: for letters and refunds."""

from collections import defaultdict
from collections.abc import Iterator

from outage_tools.compare import Checked
from outage_tools.customers import served_customers
from outage_tools.errors import Differs
from outage_tools.forms import Figures, Value
from outage_tools.keys import Keys

Key = tuple[int, int, int]

ABOVE_COLUMNS = {
    "customer": "the customer's number in the book",
    "section": "the line section",
    "feeder": "its home feeder",
    "service_since": "the first second of the service in the period",
    "service_until": "its end in the period",
    "sustained": "interruptions of more than 300 seconds that the customer had",
    "unmarked_sustained": "those that don't begin on a marked day",
    "longest": "seconds of the longest interruption",
    "sustained_seconds": "seconds of the sustained ones",
    "momentary": "interruptions of at most 300 seconds",
}


def numbers_of(found: Checked) -> dict[Key, list[int]]:
    """The numbers of the customers of each section and service within the period, rising."""
    period = found.book.period
    rows = found.database.execute(
        "SELECT id, section, max(since, :first), min(ifnull(until, :end), :end) FROM customer ORDER BY id",
        {"first": period.first, "end": period.end},
    )
    numbers: dict[Key, list[int]] = defaultdict(list)
    for number, section, since, until in rows:
        numbers[section, since, until].append(number)
    return numbers


KEY_COLUMNS = {
    "key": "the utility's own key of the customer",
    "key_sustained": "sustained interruptions under all numbers that the key has in the book",
}


def rows_of(found: Checked) -> Iterator[tuple[int, int, list[Value]]]:
    """Each customer's number, its sustained interruptions, and its row, the worst served first."""
    book, numbers = found.book, numbers_of(found)
    for served in served_customers(found):
        section, block = book.sections[served.block.section], served.block
        ends = [book.period.zone.text_of(second) for second in (block.since, block.until)]
        counts = [
            len(served.sustained),
            sum(not book.is_marked(each.since) for each in served.sustained),
            served.longest,
            served.sustained_seconds,
            len(served.had) - len(served.sustained),
        ]
        for number in numbers[block.section, block.since, block.until]:
            yield number, len(served.sustained), [number, section.name, section.feeder, *ends, *counts]


def customers_above(found: Checked, least: int, keys: Keys | None = None) -> Figures:
    """A row for each customer with `least` or more sustained interruptions, the worst served first. Where there are keys, the numbers
    of a key count together."""
    totals: dict[str, int] = defaultdict(int)
    for number, sustained, _ in rows_of(found) if keys is not None else ():
        totals[keys.keys[number] if keys is not None else ""] += sustained
    rows: list[list[Value]] = []
    counted_here = 0
    for number, sustained, row in rows_of(found):
        counted_here += sustained >= least
        key = keys.keys[number] if keys is not None else ""
        if sustained >= least or totals.get(key, 0) >= least:
            rows.append(row if keys is None else [row[0], key, totals[key], *row[1:]])
    counted = found.counts["all"].with_some
    if least <= len(counted) and counted_here != counted[least - 1]:
        raise Differs(f"customers with {least} sustained interruptions or more", counted_here, counted[least - 1])
    return Figures("customers above", about_above(least, counted_here, rows, keys), columns_above(keys), rows)


def columns_above(keys: Keys | None) -> dict[str, str]:
    """The columns, those of keys behind the numbers."""
    head, *rest = ABOVE_COLUMNS.items()
    return dict([head, *KEY_COLUMNS.items(), *rest]) if keys is not None else ABOVE_COLUMNS


def about_above(least: int, numbers: int, rows: list[list[Value]], keys: Keys | None) -> list[str]:
    """What is to be said of the rows."""
    about = [
        f"Customers with {least} or more interruptions of more than 300 seconds: {numbers}, the numerator of"
        f" CEMI-{least} of all days. The most interruptions first, then the longest one.",
        "It has customers' numbers: hand it on by your rules on data.",
    ]
    if keys is not None:
        about.insert(
            1,
            f"Keys with {least} or more under all their numbers in the book: {len({row[1] for row in rows})}, each of"
            " their numbers in a row. The annual table counts numbers.",
        )
    return about
