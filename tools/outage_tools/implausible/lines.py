"""A line of what is implausible, and what the lines are found with."""

from collections import defaultdict
from collections.abc import Callable, Iterable
from dataclasses import dataclass, replace
from fractions import Fraction
from functools import cached_property

from outage_tools.contents import Place
from outage_tools.counts import decimal_text
from outage_tools.implausible.draft import Draft
from outage_tools.implausible.limits import HOUR, Limits
from outage_tools.keys import Keys
from outage_tools.oms.known import Service
from outage_tools.oms.steps import Step

MOST_NAMED = 3  # steps, days or sections in a line


@dataclass(frozen=True)
class Line:
    """What is implausible, with the customer-seconds that it weighs: those that are counted, or those that may be missing or too
    many. `momentary` are interruptions of customers that may not be counted as momentary. What holds for all rows alike has no
    share that a job could fail by."""

    kind: str
    text: str
    customer_seconds: int = 0
    places: tuple[Place, ...] = ()
    momentary: int = 0
    is_failure: bool = True


@dataclass(frozen=True)
class LastBook:
    """What is compared with an earlier book: customers, and the ends and normal position of each device. `is_same` where it is the
    book that the rows are for. `keys` are those of its customers."""

    customers: dict[int, Service]
    devices: dict[str, tuple[frozenset[str], bool]]
    end: int
    is_same: bool
    keys: Keys | None = None

    def by(self, keys: Keys) -> "LastBook":
        """The same with customers under the numbers that their keys have in another table, of several numbers the last."""
        before = self.keys.keys if self.keys is not None else {}
        customers = {}
        for number, service in self.customers.items():
            here = keys.numbers.get(before[number]) or [keys.give(before[number])]
            customers[here[-1]] = service
        return replace(self, customers=customers, keys=keys)


@dataclass(frozen=True)
class Look:
    """A draft and what it is looked at with: the limits, the second up to which tickets can have been exported, the numbers of
    rows that overlap and were made one outage, the last book, the customers that the register's rows tell, and their keys.
    """

    draft: Draft
    limits: Limits
    until: int
    overlapping: frozenset[int] = frozenset()
    last: LastBook | None = None
    told_customers: frozenset[int] | None = None
    keys: Keys | None = None

    def customer_text(self, customer: int) -> str:
        """A customer's number, with its key beside it where there is a table of keys."""
        return self.keys.text(customer) if self.keys is not None else str(customer)

    @cached_property
    def steps(self) -> list[Step]:
        """The steps that tell a switching of a known device in the period, in the order of time."""
        period, devices = self.draft.period, {device.name for device in self.draft.book.devices}
        told = (step for step in self.draft.steps if step.device in devices and (step.leave, step.back) != (None, None))
        within = (step for step in told if begin_of(step) < period.end and (step.back or period.end) >= period.first)
        return sorted(within, key=lambda step: (begin_of(step), step.number))

    @cached_property
    def tickets(self) -> dict[str, list[Step]]:
        """The steps of each ticket whose beginning is told, in the order of time."""
        found: dict[str, list[Step]] = defaultdict(list)
        for step in self.steps:
            if step.leave is not None:
                found[step.ticket].append(step)
        return found

    @cached_property
    def outages(self) -> list[Step]:
        """The steps of devices that are closed normally, whose beginning is told."""
        return [step for step in self.steps if step.is_closed and step.leave is not None]

    def length(self, step: Step) -> int:
        """How long a step has lasted when the exports were made, at most up to the period's end."""
        back = self.draft.back(step)
        return 0 if step.leave is None else max(0, min(self.until, self.until if back is None else back) - step.leave)

    def lasting(self, step: Step) -> str:
        """A step with how long it has lasted."""
        return f"{step_text(step)} {hours_text(self.length(step))}{' so far' if self.draft.back(step) is None else ''}"

    def span(self, step: Step) -> tuple[int, int]:
        """The seconds of the period in which the step's device isn't in its normal position, as the book counts."""
        period, back = self.draft.period, self.draft.back(step)
        until = period.end if back is None else min(back, period.end)
        return max(begin_of(step), period.first), until


def begin_of(step: Step) -> int:
    """The first second that a step tells."""
    return step.leave if step.leave is not None else step.back or 0


def places_of(steps: Iterable[Step]) -> tuple[Place, ...]:
    return tuple(Place(step.file, step.number) for step in steps)


def step_text(step: Step) -> str:
    return f"{step.ticket} step {step.step} {step.device} (row {step.number})"


def hours_text(seconds: int) -> str:
    """Hours and minutes."""
    return f"{seconds // HOUR}:{seconds % HOUR // 60:02} h"


def named(steps: Iterable[Step], text: Callable[[Step], str] = step_text) -> str:
    """The first steps of some, and how many more there are."""
    listed = list(steps)
    rest = len(listed) - MOST_NAMED
    return ", ".join(text(step) for step in listed[:MOST_NAMED]) + (f" and {rest} more" if rest > 0 else "")


def percent(share: Fraction) -> str:
    """A share in per cent with one decimal, rounded half up."""
    return f"{decimal_text(100 * share, 1)}%"


def share_of(line: Line, total: int, momentary: int) -> Fraction:
    """The greater one of the line's two shares."""
    seconds = Fraction(line.customer_seconds, total) if total else Fraction(int(line.customer_seconds > 0))
    whole = line.momentary + momentary
    return max(seconds, Fraction(line.momentary, whole) if whole else Fraction(0))
