"""What is implausible, all lines of it with the greatest first, and how that is written."""

import time
from collections.abc import Iterator
from dataclasses import dataclass
from datetime import date, timedelta
from fractions import Fraction
from functools import cached_property

from outage_tools.counts import Rates, decimal_text
from outage_tools.implausible import clocks, days, register, steps
from outage_tools.implausible.lines import LastBook, Line, Look, hours_text, percent, share_of, step_text
from outage_tools.keys import Keys
from outage_tools.oms.known import Known
from outage_tools.oms.steps import Step
from outage_tools.rows import CAUSE, Period

LINES = (*steps.LINES, *days.LINES, *register.LINES, *clocks.LINES)
WIDTH = 18  # of customer-minutes in a text


@dataclass(frozen=True)
class Implausible:
    """What is implausible in exports. `program_total` is W of the book that the rows are for, by the program."""

    look: Look
    program_total: int | None = None

    @cached_property
    def lines(self) -> list[Line]:
        """The greatest first."""
        found = (line for each in LINES for line in each(self.look))
        return sorted(found, key=lambda line: (-line.customer_seconds, -line.momentary))

    @cached_property
    def rows(self) -> list[tuple[Step, int]]:
        """The rows with most customer-seconds, those of the interruptions that they have begun."""
        weighed = ((step, self.look.draft.seconds_of([step])) for step in self.look.steps)
        listed = sorted((pair for pair in weighed if pair[1]), key=lambda pair: (-pair[1], pair[0].number))
        return listed[: self.look.limits.rows]

    def above(self, share: Fraction) -> list[Line]:
        """The lines that weigh more than a share of all customer-minutes, or of all momentary interruptions."""
        total, momentary = self.look.draft.total, self.look.draft.counts.momentary
        return [line for line in self.lines if line.is_failure and share_of(line, total, momentary) > share]

    @property
    def saidi(self) -> Fraction | None:
        book = self.look.draft.book
        return Rates(self.look.draft.counts, book.served_seconds(), book.period.length).saidi


def up_to(period: Period, exported: str | None) -> int:
    """The second up to which tickets can have been exported."""
    second = int(time.time())
    if exported is not None:
        second = period.zone.midnight(date.fromisoformat(exported) + timedelta(days=1))
    return min(period.end, second)


def last_book_of(known: Known, is_same: bool, keys: Keys | None = None) -> LastBook | None:
    """What an earlier book has."""
    book = known.book
    if book is None:
        return None
    devices = {
        device.name: (frozenset((book.nodes[device.a], book.nodes[device.b])), device.is_closed)
        for device in book.devices
        if device.until is None
    }
    return LastBook(known.customers, devices, book.period.end, is_same, keys)


def program_total_of(known: Known) -> int | None:
    """W of a book that was compared with the program."""
    if known.book is None:
        return None
    return sum(amount for (dim, _), amount in known.book.postings.items() if dim == CAUSE)


# Writing.


def minutes_text(customer_seconds: int) -> str:
    """Whole customer-minutes, rounded half up."""
    return str((customer_seconds + 30) // 60)


def weighed(customer_seconds: int, share: Fraction, text: str) -> str:
    return f"{minutes_text(customer_seconds):>{WIDTH}}{percent(share):>9}  {text}"


def head_of(found: Implausible) -> str:
    draft = found.look.draft
    if not draft.book.blocks:
        return "no customer is known, so nothing has a weight"
    by_program = ""
    if found.program_total is not None:
        by_program = (
            f"the book has {minutes_text(found.program_total)} customer-minutes, by the program; with these rows, "
        )
    saidi = f", SAIDI {decimal_text(found.saidi, 1)} minutes" if found.saidi is not None else ""
    return f"{by_program}estimates by the rows alone, not by the program: of {minutes_text(draft.total)} customer-minutes{saidi}"


def text_of(found: Implausible, fail_above: Fraction | None) -> Iterator[str]:
    """What is implausible, and the rows with most customer-minutes."""
    total, momentary = found.look.draft.total, found.look.draft.counts.momentary
    yield f"implausible, not wrong by itself ({len(found.lines) or 'nothing'}): {head_of(found)}"
    if found.lines or found.rows:
        yield f"{'customer-minutes':>{WIDTH}}{'share':>9}"
    for line in found.lines:
        yield weighed(line.customer_seconds, share_of(line, total, momentary), line.text)
    if found.rows:
        share = Fraction(sum(seconds for _, seconds in found.rows), total)
        yield f"rows with most customer-minutes ({percent(share)} of all):"
    look, zone = found.look, found.look.draft.period.zone
    for step, seconds in found.rows:
        since, until = look.span(step)
        to_the_end = " to the period's end" if until == look.draft.period.end else ""
        text = f"{step_text(step)} from {zone.short_text(since)}, {hours_text(until - since)}{to_the_end}"
        yield weighed(seconds, Fraction(seconds, total), text)
    if fail_above is not None:
        above = len(found.above(fail_above))
        yield f"implausible with a share above {decimal_text(100 * fail_above, 3)}%: {above or 'nothing'}"


def json_of(found: Implausible, fail_above: Fraction | None) -> dict[str, object]:
    """The same for programs, with all rows."""
    total, momentary = found.look.draft.total, found.look.draft.counts.momentary
    above = found.above(fail_above) if fail_above is not None else []
    return {
        "about": head_of(found),
        "customer_seconds": total,
        "momentary": momentary,
        "book_customer_seconds": found.program_total,
        "lines": [
            {
                "kind": line.kind,
                "text": line.text,
                "customer_seconds": line.customer_seconds,
                "momentary": line.momentary,
                "share": round(float(share_of(line, total, momentary)), 6),
                "above": line in above,
                "rows": [{"file": place.file, "row": place.row} for place in line.places],
            }
            for line in found.lines
        ],
        "rows": [
            {
                "file": step.file,
                "row": step.number,
                "ticket": step.ticket,
                "step": step.step,
                "device": step.device,
                "customer_seconds": seconds,
            }
            for step, seconds in found.rows
        ],
    }
