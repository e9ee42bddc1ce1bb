"""What is implausible in the customer register: sections without customers, services that begin and end, and what an earlier
book has otherwise."""

from collections.abc import Iterable, Iterator
from dataclasses import replace
from fractions import Fraction

from outage_tools.feeding import ways_of
from outage_tools.graphs import steps
from outage_tools.implausible.draft import total_of
from outage_tools.implausible.lines import MOST_NAMED, LastBook, Line, Look, percent
from outage_tools.oms.known import Service
from outage_tools.rows import GRID, Block
from outage_tools.supply import interruptions_of, sweep

FEWEST_BEGUN = 10  # services that begin, where none ends
FEWEST_CHANGED = 5  # services that begin, or end


def first_names(names: Iterable[str]) -> str:
    listed = list(names)
    rest = len(listed) - MOST_NAMED
    return ", ".join(listed[:MOST_NAMED]) + (f" and {rest} more" if rest > 0 else "")


# Sections without customers.


def last_sections(look: Look) -> list[int]:
    """The sections that are reached with all devices in their normal positions, and behind which nothing is."""
    ways = ways_of(look.draft.book, look.draft.period.first)
    parents = {node: before for before, node in steps(ways, [GRID])}
    return sorted((parents.keys() & look.draft.book.sections.keys()) - set(parents.values()))


def without_customers(look: Look) -> Iterator[Line]:
    """The last sections of feeders that have no customer, with what those of the others would have had."""
    served = {block.section for block in look.draft.book.blocks}
    listed = last_sections(look)
    empty = [section for section in listed if section not in served]
    if not served or not empty or len(empty) <= look.limits.empty * len(listed):
        return
    others = [section for section in listed if section in served]
    customers = sum(block.customers for section in others for block in look.draft.blocks_in[section])
    seconds = sum(run.until - run.since for section in empty for run in look.draft.runs_of.get(section, ()))
    names = first_names(look.draft.book.sections[section].name for section in empty)
    text = (
        f"sections with nothing behind them and no customer ({len(empty)} of {len(listed)}), with what they would have at the average"
        f" of the others: {names}"
    )
    yield Line("empty", text, seconds * customers // max(1, len(others)))


# Services.


def outside(look: Look, blocks: Iterable[Block], begins: bool) -> int:
    """The customer-seconds without supply of customers before their services begin, or behind their ends."""
    period, seconds = look.draft.period, 0
    for block in blocks:
        since, until = (period.first, block.since) if begins else (block.until, period.end)
        runs = look.draft.runs_of.get(block.section, ())
        seconds += block.customers * sum(max(0, min(run.until, until) - max(run.since, since)) for run in runs)
    return seconds


def services(look: Look) -> Iterator[Line]:
    """Many services begin, or end, within the period, with what is not counted by that."""
    period, blocks = look.draft.period, look.draft.book.blocks
    customers = sum(block.customers for block in blocks)
    begun = [block for block in blocks if block.since > period.first]
    ended = [block for block in blocks if block.until < period.end]
    counts = [sum(block.customers for block in listed) for listed in (begun, ended)]
    for word, listed, count in (("begin", begun, counts[0]), ("end", ended, counts[1])):
        if count >= FEWEST_CHANGED and count > look.limits.services * customers:
            share = percent(Fraction(count, customers))
            text = f"services that {word} within the period ({count} of {customers}, {share}), with what else they would have"
            yield Line(f"services-{word}", text, outside(look, listed, word == "begin"))
    if counts[0] >= FEWEST_BEGUN and not counts[1]:
        text = f"no service ends within the period, though {counts[0]} begin, with what as many would have"
        yield Line("none-ends", text, outside(look, begun, True))


# An earlier book.


def is_served(service: Service, second: int) -> bool:
    return service.since <= second and (service.until is None or second < service.until)


def number_of_customers(look: Look, last: LastBook) -> Iterator[Line]:
    """The number of customers at the last book's end, and by the register, with what as many more would have."""
    listed = look.draft.customers
    second = look.draft.period.first
    if last.is_same:
        listed = {each: listed[each] for each in look.told_customers or () if each in listed}
        second = last.end - 1
    before = sum(is_served(service, last.end - 1) for service in last.customers.values())
    now = sum(is_served(service, second) for service in listed.values())
    if before and abs(now - before) > look.limits.grown * before:
        text = (
            f"customers by the register: {now}, at the last book's end: {before} ({percent(Fraction(abs(now - before), before))}"
            f" {'more' if now > before else 'fewer'}), with what so many have on average"
        )
        yield Line("customers", text, look.draft.total * abs(now - before) // max(1, now))


def not_told(look: Look, last: LastBook, told: frozenset[int]) -> Iterator[Line]:
    """Customers that the last book has in service, and no row of the register."""
    second = last.end - 1
    listed = [each for each, service in last.customers.items() if is_served(service, second)]
    gone = [customer for customer in listed if customer not in told]
    if gone:
        text = (
            f"customers in service at the last book's end whom the register hasn't ({len(gone)} of {len(listed)}), with what as many"
            f" have on average: {first_names(map(look.customer_text, gone))}"
        )
        yield Line("not-told", text, look.draft.total * len(gone) // max(1, len(look.draft.customers)))


def moved_customers(look: Look, last: LastBook) -> Iterator[Line]:
    """Customers on another section than in the last book, with by how much their customer-seconds differ."""
    numbers = {section.name: number for number, section in look.draft.book.sections.items()}
    moved = [
        number
        for number, service in look.draft.customers.items()
        if number in last.customers and last.customers[number].section != service.section
    ]
    seconds = 0
    for number in moved:
        service = look.draft.customers[number]
        here, there = (out_of(look, numbers.get(each.section), service) for each in (service, last.customers[number]))
        seconds += abs(here - there)
    if moved:
        text = f"customers on another section than in the last book ({len(moved)}): {first_names(map(look.customer_text, moved))}"
        yield Line("moved", text, seconds)


def out_of(look: Look, section: int | None, service: Service) -> int:
    """The seconds of a service in which a section is without supply."""
    until = look.draft.period.end if service.until is None else service.until
    runs = look.draft.runs_of.get(section, ()) if section is not None else ()
    return sum(max(0, min(run.until, until) - max(run.since, service.since)) for run in runs)


def moved_devices(look: Look, last: LastBook) -> Iterator[Line]:
    """Devices with other ends or another normal position than in the last book, with by how much W differs by that."""
    book = look.draft.book
    numbers = {name: number for number, name in book.nodes.items()}
    devices, moved = list(book.devices), []
    for device in book.devices:
        here = frozenset((book.nodes[device.a], book.nodes[device.b])), device.is_closed
        ends, is_closed = last.devices.get(device.name, here)
        if (ends, is_closed) != here:
            moved.append(device.name)
            if ends <= numbers.keys():
                a, b = (numbers[end] for end in ends)
                devices[device.number] = replace(device, a=a, b=b, is_closed=is_closed)
    if moved:
        before = replace(book, devices=tuple(devices))
        seconds = abs(total_of(interruptions_of(before, sweep(before))) - look.draft.total)
        text = f"devices with other ends or another normal position than in the last book ({len(moved)}): {first_names(moved)}"
        yield Line("devices", text, seconds)


def against_last(look: Look) -> Iterator[Line]:
    """What the last book has otherwise; of the book that the rows are for, who is in the register alone."""
    if look.last is not None:
        if look.told_customers is not None:
            yield from number_of_customers(look, look.last)
            yield from not_told(look, look.last, look.told_customers)
        if not look.last.is_same:
            yield from moved_customers(look, look.last)
            yield from moved_devices(look, look.last)


LINES = (without_customers, services, against_last)
