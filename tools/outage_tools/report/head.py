"""The head of a page: what it is of, and the book's state."""

from dataclasses import dataclass
from html import escape

from outage_tools.compare import Checked
from outage_tools.report.pieces import number
from outage_tools.report.zone_words import zone_words


@dataclass(frozen=True)
class State:
    """Which state of a book a page shows: how many commands it had, the last one's reference, and when it was written."""

    commands: int
    last: str
    date: str

    @property
    def text(self) -> str:
        said = f"{number(self.commands)} commands, the last one {self.last}" if self.commands else "no commands yet"
        return f"{said}; compared with the program"


def state_of(found: Checked, date: str) -> State:
    count, last = found.database.execute(
        "SELECT count(*), (SELECT ref FROM cmd ORDER BY id DESC LIMIT 1) FROM cmd"
    ).fetchone()
    return State(count, last or "", date)


def clock_words(found: Checked) -> str:
    """The clock of the book's zone, in words and as its rule."""
    rule = found.book.period.zone.text
    words = zone_words(rule)
    return words if words == rule else f"{words} (rule {rule})"


def heading(found: Checked, name: str, state: State) -> str:
    """What the page is of."""
    period = found.book.period
    date = f'on <span class="whole">{escape(state.date)}</span> ' if state.date else ""
    return f"""
<h1>{escape(name)}: <span class="whole">{period.days[0]}</span> to <span class="whole">{period.days[-1]}</span></h1>
<p class="soft">Written {date}from a book of {escape(state.text)}. {number(len(period.days))} days by the clock of
{escape(clock_words(found))}.</p>"""
