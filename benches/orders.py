"""The switchings of a made year in other orders, as a file of outages that are over may bring them.

A year as it was entered (make_year.py) has corrections and withdrawals; a file of outages that are over has what came of
them. So each switching has here what its last correction gave it, those that were withdrawn are left out, and all other
commands come first. Those of one second keep their order in each of the four.
"""

import random
import sys
from collections.abc import Iterable, Iterator
from enum import Enum
from itertools import chain, groupby

from places import ROOT

sys.path.insert(1, str(ROOT / "tools"))

from outage_tools.order import Does, Timed, returns_first  # noqa: E402

SWITCHINGS = {"switch", "correct", "withdraw"}
Switching = list[str]  # its device, its position, its second, its cause and its crew


class Order(Enum):
    """The order of the switchings."""

    RETURNS = "returns"  # returns to the normal position, then departures: as outagebook-from-oms writes them
    TIME = "time"
    LATEST = "latest"  # the latest second first
    RANDOM = "random"

    def __str__(self) -> str:
        return self.value


def last_switchings(lines: Iterable[list[str]]) -> list[Switching]:
    """The switchings that are left of a year, each as it was last corrected, by their seconds."""
    entries: list[Switching | None] = []
    for kind, *fields in lines:
        if kind == "switch":
            entries.append(fields)
            continue
        entry = entries[int(fields[0]) - 1]
        if kind == "correct" and entry is not None:
            entries[int(fields[0]) - 1] = [entry[0], *fields[2:]]
        else:
            entries[int(fields[0]) - 1] = None
    return sorted((entry for entry in entries if entry), key=second_of)


def second_of(switching: Switching) -> int:
    return int(switching[2])


def timed(switchings: list[Switching], normal: dict[str, str]) -> Iterator[Timed]:
    """The switchings as the tools order them."""
    for fields in switchings:
        does = Does.RETURN if fields[1] == normal[fields[0]] else Does.DEPARTURE
        yield Timed(second_of(fields), does, fields)


def in_order(lines: Iterable[str], order: Order) -> list[str]:
    """The commands of a year with its switchings in an order, and all else before them."""
    told = [line.split(" ") for line in lines]
    others = [fields for fields in told if fields[0] not in SWITCHINGS]
    switchings = last_switchings(fields for fields in told if fields[0] in SWITCHINGS)
    if order is Order.RETURNS:
        normal = {
            fields[1]: {"closed": "close", "open": "open"}[fields[4]] for fields in others if fields[0] == "device"
        }
        switchings = returns_first(timed(switchings, normal))
    elif order is not Order.TIME:
        seconds = [list(same) for _, same in groupby(switchings, second_of)]
        if order is Order.LATEST:
            seconds.reverse()
        else:
            random.Random("order").shuffle(seconds)
        switchings = list(chain.from_iterable(seconds))
    return [" ".join(fields) for fields in [*others, *(["switch", *fields] for fields in switchings)]]
