"""Customers with keys who go to another section: no command moves a customer, so the service on the old section ends, and the key goes on
under a further number.

A register that calls the customer by its key alone has one row for all of that, and may have it in each later export too.
"""

from outage_tools.oms.known import Service
from outage_tools.sections.edges import Customer
from outage_tools.sections.model import Part
from outage_tools.sections.there import There

MOVED = "customers on another section from --at on, each under a further number of its key"


def chain_of(there: There, key: str) -> list[Service]:
    """The services of a key, where each begins as the one before it ends; nothing where there is a gap, or a meter before one."""
    numbers = there.keys.numbers.get(key, []) if there.keys is not None else []
    found = sorted((there.customers[each] for each in numbers if each in there.customers), key=lambda each: each.since)
    is_whole = all(one.until == other.since for one, other in zip(found, found[1:]))
    return found if is_whole and not any(each.section in there.supply for each in found) else []


def parts_of(there: There, customer: Customer, section: str) -> list[Part]:
    """The services that a row stands for whose customer is moved now, or was before; none where the row is one service."""
    chain = chain_of(there, customer.number)
    if not chain or [each.section for each in chain] == [section]:
        return []
    since, until = there.second_of(customer, "since"), there.second_of(customer, "until")
    if since is None or max(since, 0) != chain[0].since:
        return []
    *before, last = chain
    if until is not None and until <= last.since:
        return []
    end = "" if until is None else there.text(until)
    found = [Part(each.section, there.text(each.since), there.text(each.until or 0)) for each in before]
    if last.section == section:
        return [*found, Part(section, there.text(last.since), end)] if found else []
    if not there.covers(customer) or not last.since < there.at or not last.has(there.at):
        return []
    at = there.text(there.at)
    return [*found, Part(last.section, there.text(last.since), at), Part(section, at, end)]
