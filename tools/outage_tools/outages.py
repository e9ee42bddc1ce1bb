"""Every interruption, and the references of the switchings that cut sections off."""

from outage_tools.commands import read_commands
from outage_tools.compare import Checked
from outage_tools.forms import Figures, Value
from outage_tools.interruptions import Interruption, joined
from outage_tools.rates import yes_if
from outage_tools.rows import Book


INTERRUPTION_COLUMNS = {
    "section": "the line section",
    "feeder": "its home feeder",
    "since": "the first second, by the clock of the book's zone",
    "until": "the second at which it was over, or the customers' service ended",
    "seconds": "its duration",
    "class": "sustained: more than 300 seconds; momentary: at most 300",
    "customers": "customers that had it",
    "customer_seconds": "customers x seconds",
    "cutter": "number of the entry that cut the section off; empty where there is none",
    "device": "the device that this entry switched",
    "cause": "its cause's code: 0 where no entry cut the section off",
    "cause_name": "the cause's name",
    "reference": "the reference of the command that entered it",
    "marked": "yes where it begins on a marked day",
}


def interruptions(found: Checked) -> Figures:
    """Every interruption, customers of the same one counted together."""
    refs = references(found)
    about = [
        "Each longest interval in which customers were in service and without supply, by section and first second."
    ]
    rows = [interruption_values(found.book, each, refs) for each in joined(found.interruptions)]
    return Figures("interruptions", about, INTERRUPTION_COLUMNS, rows)


def interruption_values(book: Book, each: Interruption, refs: dict[int, str]) -> list[Value]:
    """The values of INTERRUPTION_COLUMNS."""
    section, cutter = book.sections[each.section], each.cutter
    return [
        section.name,
        section.feeder,
        book.period.zone.text_of(each.since),
        book.period.zone.text_of(each.until),
        each.seconds,
        "sustained" if each.is_sustained else "momentary",
        each.customers,
        each.customer_seconds,
        cutter.number if cutter else "",
        book.devices[cutter.device].name if cutter else "",
        each.cause,
        book.causes.get(each.cause, ""),
        refs[cutter.number] if cutter else "",
        yes_if(book.is_marked(each.since)),
    ]


def references(found: Checked) -> dict[int, str]:
    """The references of the commands that made the entries, by their numbers."""
    switched = (each for each in read_commands(found.database) if each.kind == "switch")
    return {each.entry: each.ref for each in switched if each.entry is not None}
