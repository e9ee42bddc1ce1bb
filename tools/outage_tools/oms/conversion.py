"""What a run of the tool knows while it turns rows into commands."""

from dataclasses import dataclass, field

from outage_tools.commands import row_of
from outage_tools.keys import Keys
from outage_tools.oms.complaints import BadRow, Complaints, Notes
from outage_tools.oms.fields import read_moment
from outage_tools.oms.files import Row
from outage_tools.oms.known import Known
from outage_tools.rows import Period
from outage_tools.zone import Zone

LONGEST_REF = 40
MOST_NAME = 24
MOST_COMMANDS = 1_000_000
BEFORE_1970 = "moments before 1970, which became 0"
SMALL_LETTERS = "names with small letters, which became capitals"

Ends = tuple[int | None, int | None]  # of a life or a service


@dataclass
class Conversion:
    """The zone of times that have none of their own, the period of the book, what the book has, and what was said so far.

    `period` is None where neither a book nor a first day is given.
    """

    zone: Zone | None
    period: Period | None
    known: Known
    dates: tuple[str, ...] = ()
    cancelled: frozenset[str] = frozenset()  # words of a status
    ordinary: frozenset[str] = frozenset()
    keys: Keys | None = None  # of customers, where their numbers aren't the register's own
    complaints: Complaints = field(default_factory=Complaints)
    refs: set[str] = field(default_factory=set)  # of the commands of this run

    def command(self, notes: Notes, kind: str, ref: str, *fields: object) -> list[str]:
        """A row of commands; the reference has room and is new."""
        if len(ref) > LONGEST_REF:
            raise BadRow(f"the reference {ref} is longer than {LONGEST_REF}: take a shorter ticket or --prefix")
        if ref in self.refs:
            raise BadRow(f"the reference {ref} is that of another row too")
        if len(self.known.refs) + len(self.refs) >= MOST_COMMANDS:
            raise BadRow(f"a book has at most {MOST_COMMANDS} commands")
        self.refs.add(ref)
        notes.commands[kind] = notes.commands.get(kind, 0) + 1
        return row_of(kind, ref, *fields)

    def ends(self, row: Row, notes: Notes) -> Ends:
        """The two ends that a row tells, those before 1970 as they are told."""
        since, until = (
            read_moment(row[column], row[f"{column}_hour"], self.zone, column, self.dates) if row[column] else None
            for column in ("since", "until")
        )
        if since is not None and until is not None and until <= since:
            raise BadRow(f"until {row['until']!r} isn't after since {row['since']!r}")
        return since, until

    def from_1970(self, since: int | None, row: Row, notes: Notes) -> int | None:
        """A beginning as a book may have it."""
        if since is None or since >= 0:
            return since
        notes.changed(BEFORE_1970, row)
        return 0

    def is_over(self, until: int | None) -> bool:
        """What ends then has no second in the book's period."""
        return until is not None and until <= (self.period.first if self.period else 0)


def note_small_letters(row: Row, columns: tuple[str, ...], notes: Notes) -> None:
    """Names are written in capitals, and that is told."""
    if any(row[column] != row[column].upper() for column in columns):
        notes.changed(SMALL_LETTERS, row)
