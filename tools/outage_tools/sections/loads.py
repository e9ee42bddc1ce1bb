"""The customers of a model's loads and usage points, where no register of customers is given."""

from collections.abc import Iterator

from outage_tools.errors import BookError
from outage_tools.keys import GREATEST_NUMBER
from outage_tools.oms.told import ranges_of
from outage_tools.sections.edges import Customer, Load, Raw
from outage_tools.sections.reading import SERVICE

Numbers = dict[str, list[int]]  # of each load's customers, by its label


def numbers_text(numbers: list[int]) -> str:
    return " ".join(ranges_of(numbers))


def numbers_in(text: str) -> list[int]:
    """The numbers of a text as `17-19 25`."""
    found: list[int] = []
    for part in text.split():
        first, _, last = part.partition("-")
        found += range(int(first), int(last or first) + 1)
    return found


def own_number(load: Load) -> int | None:
    """A load's name that is a customer's number."""
    is_number = load.customers == 1 and load.name.isdecimal() and 1 <= int(load.name) <= GREATEST_NUMBER
    return int(load.name) if is_number else None


def numbers_of(raw: Raw, earlier: Numbers) -> Numbers:
    """The numbers of customers: the names if all are numbers, and were in an earlier run; else those of the earlier run, or the next
    that are free."""
    own = [own_number(load) for load in raw.loads.values()]
    were_own = all(numbers == [int(name)] if name.isdecimal() else False for name, numbers in earlier.items())
    if were_own and len(set(own) - {None}) == len(own):
        return {load.name: [number] for load, number in zip(raw.loads.values(), own) if number is not None}
    free = max((number for numbers in earlier.values() for number in numbers), default=0) + 1
    found: Numbers = {}
    for load in raw.loads.values():
        found[load.name] = earlier.get(load.name, [])[: load.customers]
        more = load.customers - len(found[load.name])
        found[load.name] += range(free, free + more)
        free += more
    return found


def take_customers(raw: Raw, since: str | None, earlier: Numbers) -> Numbers:
    """Makes customers of the loads, and returns their numbers."""
    if not raw.loads:
        return {}
    if not since:
        raise BookError(
            "the model has customers, and no dates of their service: give --since DATE, or --customers FILE"
        )
    found = numbers_of(raw, earlier)
    service = tuple(since if column == "since" else "" for column in SERVICE)
    raw.has_customers = True
    raw.customers = list(customers_of(raw, found, service))
    return found


def customers_of(raw: Raw, numbers: Numbers, service: tuple[str, ...]) -> Iterator[Customer]:
    for load in raw.loads.values():
        for number in numbers[load.name]:
            yield Customer(str(number), load.transformer, load.node, load.name, service, load.spot)
