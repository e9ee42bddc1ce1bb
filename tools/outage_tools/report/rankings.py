"""The parts of a page that are lists: groups of sections, events, worst interruptions, what late work moved."""

from collections.abc import Iterator
from fractions import Fraction
from html import escape

from outage_tools.compare import Checked
from outage_tools.counts import SETS
from outage_tools.events import Event, Rule, events_of, told_unfit
from outage_tools.interruptions import Interruption, joined
from outage_tools.lists import Groups, Names, told_missing
from outage_tools.outages import references
from outage_tools.report.feeders import feeder_name
from outage_tools.report.pieces import (
    COMPUTED,
    PROVED,
    SET_NAMES,
    Column,
    Part,
    TableRow,
    decimal,
    duration,
    minutes,
    number,
    numbers,
    per_cent,
    signed,
    table,
)
from outage_tools.section_groups import Counted, counted_groups, sections_without_group
from outage_tools.work import Work, own_sum, second_of, works_of

WORST = 25  # rows of a list of what is worst


def of_all(shown: int, count: int, what: str) -> str:
    """How many rows of a list are shown."""
    return f"All {number(count)} {what}" if shown == count else f"{number(shown)} of {number(count)} {what}"


INDICES = ("SAIFI", "SAIDI", "CAIDI", "ASAI")
GROUP_TITLES = {"sum": "all groups together", "book": "the book's own"}


def index_heads(found: Checked) -> list[Column]:
    """The indices of all days, and where a day is marked without major event days too."""
    titles = ("SAIFI", "SAIDI, min", "CAIDI, min", "ASAI")
    if not found.book.marks:
        return numbers(*titles)
    return [column for name in SET_NAMES.values() for column in numbers(*titles, over=name)]


def index_cells(row: Counted) -> list[str]:
    saifi, saidi, caidi, asai = (row.rates.indices[index] for index in INDICES)
    return [decimal(saifi), minutes(saidi), minutes(caidi), per_cent(asai, 3)]


def group_rows(found: Checked, groups: Groups) -> Iterator[TableRow]:
    """Each group, their sum, and the book's own, which are set apart."""
    sets: dict[tuple[str, str], dict[str, Counted]] = {}
    for row in counted_groups(found, groups):
        sets.setdefault((row.row, row.name), {})[row.set] = row
    for (kind, name), rows in sets.items():
        whole, shown = rows["all"], SETS if found.book.marks else SETS[:1]
        counts = number(whole.rates.counts.sustained), number(whole.rates.counts.momentary)
        customers = minutes(whole.rates.customers)
        indices = [cell for which in shown for cell in index_cells(rows[which])]
        yield TableRow([GROUP_TITLES.get(kind, name), customers, *counts, *indices], kind != "group")


def group_part(found: Checked, groups: Groups) -> Part:
    """The indices of groups of sections, beside the book's own."""
    missing = told_missing("Sections in no group, and not in the sum", sections_without_group(found, groups))
    heads = [Column("group"), *numbers("customers served", "sustained", "momentary"), *index_heads(found)]
    content = f"""
<p>Each group over the customers of its own sections. The sum adds up the groups' counts and divides them anew; it is the
book's own where every section is in a group. {escape(" ".join(missing))}</p>
{table(heads, group_rows(found, groups))}"""
    return Part("groups", "Groups of sections", COMPUTED, content)


EVENT_HEADS = [
    Column("event"),
    Column("first"),
    Column("last"),
    *numbers("steps", "customers", "customer-minutes"),
    Column("feeders"),
    Column("causes"),
]


def event_row(found: Checked, event: Event) -> TableRow:
    book = found.book
    cells = [
        event.name,
        book.period.zone.short_text(event.first),
        book.period.zone.short_text(event.last),
        len(event.steps),
        number(event.customers),
        minutes(event.minutes),
        ", ".join(map(str, event.feeders(book))),
        event.causes(book),
    ]
    return TableRow(cells, event.marked(book) != "")


def event_part(found: Checked, rule: Rule) -> Part:
    """The events with the most customer-minutes, a ticket as one."""
    events = events_of(found, rule)
    rows = [event_row(found, event) for event in events[:WORST]]
    content = f"""
<p>{of_all(len(rows), len(events), "events")}, those with the most customer-minutes first: all interruptions that a ticket's
switchings began, each customer counted once. Those that begin on marked days are set apart at the left.
{escape(" ".join(told_unfit(events)))}</p>
{table(EVENT_HEADS, rows)}"""
    return Part("events", "Events", COMPUTED, content)


WORST_HEADS = [
    Column("section"),
    Column("feeder", "name"),
    Column("since"),
    *numbers("duration", "customers", "customer-minutes"),
    Column("cause"),
    Column("reference"),
]


def rank(each: Interruption) -> tuple[int, int, int]:
    """By the most customer-seconds, then by the first second."""
    return -each.customer_seconds, each.since, each.section


def worst_row(found: Checked, each: Interruption, refs: dict[int, str], names: Names) -> TableRow:
    book, cutter = found.book, each.cutter
    section = book.sections[each.section]
    cells = [
        section.name,
        feeder_name(section.feeder, names),
        book.period.zone.short_text(each.since),
        duration(each.seconds),
        number(each.customers),
        minutes(Fraction(each.customer_seconds, 60)),
        book.causes.get(each.cause, ""),
        refs[cutter.number] if cutter else "",
    ]
    return TableRow(cells, book.is_marked(each.since))


def worst_part(found: Checked, names: Names) -> Part:
    """The interruptions with the most customer-seconds."""
    refs, interruptions = references(found), sorted(joined(found.interruptions), key=rank)
    rows = [worst_row(found, each, refs, names) for each in interruptions[:WORST]]
    content = f"""
<p>{of_all(len(rows), len(interruptions), "interruptions")}, those with the most customer-minutes first, customers of one
section with the same interruption together; marked days are set apart at the left. The reference is that of the switching
that cut them off.</p>
{table(WORST_HEADS, rows)}"""
    return Part("worst", "Worst interruptions", COMPUTED, content)


LATE_HEADS = [
    Column("what"),
    Column("references"),
    Column("device"),
    Column("second"),
    *numbers("own, customer-seconds"),
    Column("as it was told"),
]


def late_row(found: Checked, work: Work, by_number: dict[int, Work]) -> TableRow:
    """A piece of late work as a whole: a late outage with both its halves, a withdrawal with what it takes back."""
    book = found.book
    told = [*(by_number[number] for number in work.others), work]
    seconds = sorted(second for each in told if (second := second_of(each.command)) is not None)
    cells = [
        "late outage" if work.others and work.command.kind == "switch" else work.kind,
        ", ".join(each.command.ref for each in told),
        book.devices[book.entries[work.entry - 1].device].name,
        " to ".join(map(book.period.zone.short_text, seconds)),
        signed(work.own or 0),
        " ".join(signed(each.net) for each in told) if work.others else "",
    ]
    return TableRow(cells)


def late_rank(work: Work) -> tuple[int, int, int]:
    return -abs(work.own or 0), -work.gross, work.command.number


def late_part(found: Checked) -> Part:
    """What late entries, corrections and withdrawals moved."""
    works = works_of(found)
    by_number = {work.command.number: work for work in works}
    late = [work for work in works if work.is_late]
    whole = sorted((work for work in late if work.own is not None), key=late_rank)
    rows = [late_row(found, work, by_number) for work in whole[:WORST]]
    if not late:
        return Part("late", "What late work moved", PROVED, "<p>No switching is late, corrected or withdrawn.</p>")
    content = f"""
<p>{number(len(late))} late switchings, corrections and withdrawals; as wholes they changed W by {signed(own_sum(late))}
customer-seconds. A switching is late if a departure from a normal position at a later second had been entered before it. An
opening takes the rest of the period when it is accepted, and its closing gives it back: a late outage is shown by its own size, and a withdrawal together with
what it takes back, with the amounts that each was told with behind it. {of_all(len(rows), len(whole), "of them")}, the
largest first.</p>
{table(LATE_HEADS, rows)}"""
    return Part("late", "What late work moved", PROVED, content)
