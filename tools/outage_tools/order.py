"""The order in which rows of switchings are written, so that a book takes them with the least work.

An opening that a book has without its closing lasts to the period's end: it moves up to 366 days, and its closing moves them
back. If the closing is entered first it moves nothing, since the device is closed, and the opening moves the days of its own
outage alone. So of new switchings the returns to normal positions come first. What a book makes of its entries depends on
their seconds, and in one second on their numbers: so the rows of one second keep their order.
"""

from collections.abc import Iterable
from dataclasses import dataclass
from enum import Enum, auto

Command = list[str]


class Does(Enum):
    """What a row does: a device leaves its normal position, or returns to it, by a new entry; or anything else."""

    DEPARTURE = auto()
    RETURN = auto()
    OTHER = auto()


@dataclass(frozen=True)
class Timed:
    """The command of a row, with the second at which it acts."""

    second: int
    does: Does
    command: Command


def returns_first(rows: Iterable[Timed]) -> list[Command]:
    """The commands of rows that come as time goes: first the returns that no departure precedes within their second, as time
    goes, then all the rest, as time goes. Those of one second keep their order: such a return has none but returns, and rows
    that make no entry, before it."""
    first: list[Command] = []
    rest: list[Command] = []
    departed = None  # the last second in which a device has left
    for row in rows:
        if row.does is Does.RETURN and departed != row.second:
            first.append(row.command)
        else:
            rest.append(row.command)
        if row.does is Does.DEPARTURE:
            departed = row.second
    return [*first, *rest]
