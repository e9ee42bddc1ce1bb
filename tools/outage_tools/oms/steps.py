"""Outages and steps of restoration, row by row, of an outage management system."""

import difflib
import re
from collections.abc import Iterable
from dataclasses import dataclass, field
from functools import lru_cache

from outage_tools.oms.causes import Causes
from outage_tools.oms.complaints import BadRow, Notes
from outage_tools.oms.conversion import MOST_NAME, Conversion, note_small_letters
from outage_tools.oms.fields import identifier, moment_text, read_moment, read_zone, shown
from outage_tools.oms.files import ALIKE, Row
from outage_tools.oms.network import Network
from outage_tools.zone import Zone

MOST_STEP = 4
MOST_CREW = 16
CANCELLED_STEPS = "steps that were cancelled"
CANCELLED = ("cancelled", "canceled")
ORDINARY = ("closed", "complete", "completed", "finished", "resolved", "restored")  # statuses of a ticket that is over
OFFSET = re.compile("(Z|[+-][0-9]{2}(:?[0-9]{2})?)$")  # behind a moment
MOST_STATUSES = 20  # words of the status that are told one by one


@dataclass(slots=True, eq=False)
class Step:
    """A row: a device that leaves its normal position and comes back to it, or one of both.

    A device that is closed normally leaves by `out` and comes back by `restored`; a tie the other way round. `ref` is the
    reference of both without its end, O for the opening and C for the closing.
    """

    file: str
    number: int
    ref: str
    ticket: str
    step: str
    device: str
    is_closed: bool
    leave: int | None
    back: int | None
    cause: int
    crew: str
    zone: Zone | None
    is_local: bool = False  # one of its moments is by the clock of the zone

    def ref_of(self, leaves: bool) -> str:
        return f"{self.ref}-{'O' if leaves == self.is_closed else 'C'}"

    @property
    def name(self) -> str:
        return f"ticket {self.ticket} step {self.step}"

    def told(self) -> str:
        return f"{self.name} (row {self.number})"

    def text_of(self, second: int) -> str:
        """A moment by the clock of the row."""
        return moment_text(second, self.zone)


def act_of(is_closed: bool, leaves: bool) -> str:
    """What a device does that leaves its normal position, or comes back to it."""
    return "open" if leaves == is_closed else "close"


@lru_cache(maxsize=1_000)
def is_alike(status: str) -> bool:
    """The word may be meant for that of a cancelled ticket."""
    return bool(difflib.get_close_matches(status, CANCELLED, 1, ALIKE))


def cancelled_words(words: Iterable[str] = ()) -> frozenset[str]:
    """The words of a status that mean a mistake, the user's among them, in small letters."""
    return frozenset({*CANCELLED, *(word.strip().lower() for word in words)})


def ordinary_words(words: Iterable[str] = ()) -> frozenset[str]:
    """The words of a status that say nothing worth a note, the user's among them, in small letters."""
    return frozenset({*ORDINARY, *(word.strip().lower() for word in words)})


def is_local(row: Row) -> bool:
    """One of the row's moments has no offset of its own."""
    return any(row[column] and not OFFSET.search(row[column]) for column in ("out", "restored"))


@dataclass
class StepReader:
    """What rows are read with."""

    conversion: Conversion
    network: Network
    causes: Causes
    prefix: str
    crew: str
    statuses: set[str] = field(default_factory=set)  # words that aren't looked at

    def is_cancelled(self, row: Row, notes: Notes) -> bool:
        """The ticket was a mistake. Other words of a status mean nothing here, and are told, but for those of a ticket that is
        over; one that may be meant for it is refused."""
        status = row["status"].lower()
        if not status or status in self.conversion.cancelled:
            return bool(status)
        if status in self.conversion.ordinary:
            return False
        if is_alike(status):
            raise BadRow(f"status {shown(row['status'])} may be meant for {CANCELLED[0]}")
        if len(self.statuses) < MOST_STATUSES:
            self.statuses.add(status)
        word = f"the status {shown(row['status'])}" if status in self.statuses else "other values of the status"
        advice = "--cancelled WORD names what means a mistake, --ordinary WORD what doesn't"
        notes.noticed(f"rows with {word}, which are taken as others ({advice})", row)
        return False

    def read(self, row: Row, notes: Notes) -> Step:
        """The step of a row; one that was cancelled tells no moment."""
        ticket = identifier(row["ticket"], MOST_NAME, "the ticket")
        step = identifier(row["step"] or "1", MOST_STEP, "the step")
        place = row.file, row.number, f"{self.prefix}{ticket}-{step}", ticket, step
        if self.is_cancelled(row, notes):
            notes.left_out(CANCELLED_STEPS, row)
            return Step(*place, "", True, None, None, 0, "", None)
        device = identifier(row["device"], MOST_NAME, "the device")
        crew = identifier(row["crew"] or self.crew, MOST_CREW, "the crew")
        note_small_letters(row, ("ticket", "step", "device", "crew"), notes)
        zone = read_zone(row["zone"]) if row["zone"] else self.conversion.zone
        out, restored = (self.moment(row, column, zone) for column in ("out", "restored"))
        if out is None and restored is None:
            raise BadRow("neither out nor restored is given")
        code = self.code(row)
        if device not in self.network.devices:
            begin, end = self.ends_without_device(device, out, restored)
            return Step(*place, device, True, begin, end, code, crew, zone)
        is_closed = self.network.devices[device][1]
        leave, back = (out, restored) if is_closed else (restored, out)
        found = Step(*place, device, is_closed, leave, back, code, crew, zone, is_local(row))
        self.check_order(found)
        return found

    def moment(self, row: Row, column: str, zone: Zone | None) -> int | None:
        if not row[column]:
            return None
        dates = self.conversion.dates
        return read_moment(row[column], row[f"{column}_hour"], zone, column, dates, wants_clock=True)

    def code(self, row: Row) -> int:
        if row["cause"] not in self.causes.codes and self.causes.is_whole:
            raise BadRow(f"the cause {shown(row['cause'])} is in no list of causes")
        return self.causes.codes.get(row["cause"], 0)

    def ends_without_device(self, device: str, *moments: int | None) -> tuple[int | None, int | None]:
        """The ends of a step of a device that isn't in the network: another book's, which may have had it, or none to be looked
        at where the network couldn't be read whole."""
        told, period = sorted(moment for moment in moments if moment is not None), self.conversion.period
        if period is not None and (told[0] >= period.end or (len(told) == 2 and told[0] < told[1] <= period.first)):
            return told[0], told[-1]
        if device in self.network.gone:
            raise BadRow(f"the device {device} was taken down before the period")
        if self.network.is_whole:
            raise BadRow(f"no row of the network, nor the book, has a device {device}")
        return None, None

    def check_order(self, step: Step) -> None:
        """A device leaves its normal position before it comes back to it."""
        if step.leave is None or step.back is None or step.leave <= step.back:
            return
        leave, back = step.text_of(step.leave), step.text_of(step.back)
        if step.is_closed:
            raise BadRow(f"{step.device} is closed normally, and restored {back} lies before out {leave}")
        raise BadRow(f"the tie {step.device} is open normally, and out {back} lies before restored {leave}")
