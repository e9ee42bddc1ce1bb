"""Indices of IEEE Std 1366-2012 that the annual table doesn't have: MAIFI, MAIFI_E, CTAIDI, CELID, CEMSMI, and of load ASIFI and ASIDI.

They come from the program's interruptions, over the same customers served (S / P), with the same line between sustained
and momentary interruptions. Each is an exact quotient, or undefined where there is nothing
to divide by.
"""

import re
from collections import defaultdict
from collections.abc import Iterable, Mapping, Sequence
from dataclasses import dataclass, field
from fractions import Fraction

from outage_tools.compare import Checked
from outage_tools.counts import SETS, Rates, quotient
from outage_tools.errors import BookError
from outage_tools.interruptions import LONGEST_MOMENTARY, Interruption
from outage_tools.keys import Keys
from outage_tools.lists import heads_of, read_list
from outage_tools.rows import Block, Book
from outage_tools.whole_service import whole_interruptions

HOUR = 3_600
OF_PROGRAM = ("MAIFI",)  # of these indices, those that `outagebook indices` prints
HOURS = (Fraction(4), Fraction(8), Fraction(12), Fraction(24))  # of CELID, where none are asked for
MOST_CEMSMI = 10
LONGEST_EVENT = (
    300  # seconds from an event's first interruption to the beginning of its last; and before a sustained one
)
KVA_KINDS = ("section", "customer")

TERMS = (
    "MI are customers' momentary interruptions, each counted by itself; ME their momentary interruption events; CNS_t customers with a sustained interruption of t"
    " hours or more, CNT_t with t hours or more of sustained ones in all; CNM_n with n or more of either kind."
)


@dataclass
class FurtherCounts:
    """Customers with at least 1 to 10 interruptions of either kind; with a sustained one of so many hours; with so many
    hours of sustained ones in all; and customers' momentary interruption events."""

    with_any: list[int] = field(default_factory=lambda: [0] * MOST_CEMSMI)
    single: dict[Fraction, int] = field(default_factory=dict)
    total: dict[Fraction, int] = field(default_factory=dict)
    events: int = 0

    def __add__(self, other: "FurtherCounts") -> "FurtherCounts":
        """The counts of both, whose customers are distinct."""
        return FurtherCounts(
            [here + there for here, there in zip(self.with_any, other.with_any)],
            {hours: count + other.single[hours] for hours, count in self.single.items()},
            {hours: count + other.total[hours] for hours, count in self.total.items()},
            self.events + other.events,
        )


def lengths_of(interruptions: Iterable[Interruption]) -> dict[Block, list[int]]:
    """The seconds of the interruptions that the customers of each block had."""
    lengths: dict[Block, list[int]] = defaultdict(list)
    for each in interruptions:
        lengths[each.block].append(each.seconds)
    return lengths


def momentary_events(parts: Iterable[tuple[int, int]]) -> list[int]:
    """The first seconds of a customer's momentary interruption events. A momentary interruption and those that begin within five
    minutes of its beginning are one; an event isn't counted where a sustained interruption begins within five minutes of its end.
    """
    events: list[tuple[int, int]] = []
    for begin, end in parts:
        if end - begin > LONGEST_MOMENTARY:
            while events and begin - events[-1][1] <= LONGEST_EVENT:
                events.pop()
        elif events and begin - events[-1][0] <= LONGEST_EVENT:
            events[-1] = events[-1][0], end
        else:
            events.append((begin, end))
    return [begin for begin, _ in events]


def further_counts(found: Checked, set_name: str, hours: Sequence[Fraction]) -> FurtherCounts:
    """The counts over the interruptions of a set, block by block of customers of equal service. An event counts in a set by its
    own first second, whatever follows it.
    """
    counts = FurtherCounts(single=dict.fromkeys(hours, 0), total=dict.fromkeys(hours, 0))
    parts: dict[Block, list[tuple[int, int]]] = defaultdict(list)
    for each in found.interruptions:
        parts[each.block].append((each.since, each.until))
    for block, had in parts.items():
        events = momentary_events(had)
        counts.events += block.customers * sum(set_name == "all" or not found.book.is_marked(begin) for begin in events)
    for block, lengths in lengths_of(found.counted(set_name)).items():
        sustained = [length for length in lengths if length > LONGEST_MOMENTARY]
        for n in range(min(MOST_CEMSMI, len(lengths))):
            counts.with_any[n] += block.customers
        for long in hours:
            counts.single[long] += block.customers * (max(sustained, default=0) >= long * HOUR)
            counts.total[long] += block.customers * (sum(sustained) >= long * HOUR)
    return counts


def hours_text(hours: Fraction) -> str:
    """Hours as they were asked for: `8`, `2.5`."""
    return str(hours.numerator) if hours.denominator == 1 else f"{float(hours):g}"


def read_hours(text: str) -> Fraction:
    """Hours above 0, with a fraction of up to three decimals."""
    if not re.fullmatch(r"[0-9]{1,4}(\.[0-9]{1,3})?", text) or not Fraction(text):
        raise ValueError(f"{text!r} is no number of hours")
    return Fraction(text)


def further_indices(rates: Rates, further: FurtherCounts) -> dict[str, Fraction | None]:
    """The indices by name; CTAIDI is in minutes."""
    counts, served, length = rates.counts, rates.served, rates.length
    indices = {
        "MAIFI": rates.maifi,
        "MAIFI_E": quotient(further.events * length, served),
        "CTAIDI": quotient(counts.sustained_seconds, 60 * counts.with_some[0]),
    }
    for kind, numbers in (("S", further.single), ("T", further.total)):
        for hours, customers in numbers.items():
            indices[f"CELID-{kind}-{hours_text(hours)}"] = quotient(customers * length, served)
    for n, customers in enumerate(further.with_any, 1):
        indices[f"CEMSMI-{n}"] = quotient(customers * length, served)
    return indices


MEANINGS = {
    "MAIFI": ("momentary interruptions per customer served, each counted by itself", "MI x P / S"),
    "MAIFI_E": ("momentary interruption events per customer served, without those right before a sustained interruption", "ME x P / S"),
    "CTAIDI": ("minutes per customer that had a sustained interruption", "CSI / (60 x CN)"),
    "ASIFI": ("sustained interruptions of a connected kVA", "kVA interrupted x P / kVA-seconds connected"),
    "ASIDI": ("minutes of sustained interruptions of a connected kVA", "kVA-seconds interrupted x P / (60 x kVA-seconds connected)"),
}  # fmt: skip


def meaning_of(index: str) -> tuple[str, str]:
    """The unit and the quotient of an index."""
    name, _, rest = index.partition("-")
    if name == "CEMSMI":
        unit = f"customers with {rest} or more interruptions of either kind, per customer served"
        return unit, f"CNM_{rest} x P / S"
    if name == "CELID":
        kind, _, hours = rest.partition("-")
        if kind == "S":
            unit = f"customers with a sustained interruption of {hours} hours or more, per customer served"
        else:
            unit = f"customers with {hours} hours or more of sustained interruptions in all, per customer served"
        return unit, f"CN{kind}_{hours} x P / S"
    return MEANINGS[index]


# Connected load.


@dataclass(frozen=True)
class Load:
    """Connected kVA of a section, from a second up to another one."""

    section: int
    since: int
    until: int
    kva: Fraction


@dataclass(frozen=True)
class Loads:
    """The connected loads of a book, the interruptions that they had, and what is to be said of the file that they come from."""

    loads: list[Load]
    interruptions: list[Interruption]
    about: str


def read_kva(path: str) -> tuple[str, dict[str, Fraction]]:
    """The kVA of a file by section or by customer, with which of the two its column is."""
    heads = heads_of(path)
    kind = next((name for name in KVA_KINDS if name in heads), None)
    if kind is None or "kva" not in heads:
        raise BookError(f"{path} has to have the column kva, and either section or customer")
    found: dict[str, Fraction] = {}
    for row in read_list(path, (kind, "kva")):
        key = row.filled(kind).upper()
        if key in found:
            raise row.refused(f"{kind} {key} comes twice")
        if not re.fullmatch(r"[0-9]{1,9}(\.[0-9]{1,6})?", row["kva"]):
            raise row.refused(f"kva {row['kva']!r} is no number")
        found[key] = Fraction(row["kva"])
    return kind, found


def loads_of(path: str, found: Checked, keys: Keys | None = None) -> Loads:
    """The connected loads of a book by a file; each section with customers, or each customer served, has to be in it. Customers are
    called by their keys where these are given."""
    kind, kva = read_kva(path)
    book, period = found.book, found.book.period
    if kind == "section":
        names = {book.sections[block.section].name for block in book.blocks}
        known = {section.name: section.node for section in book.sections.values()}
        loads = [Load(known[name], period.first, period.end, each) for name, each in kva.items() if name in known]
    else:
        served = found.database.execute(
            "SELECT id, section, max(since, :first), min(ifnull(until, :end), :end) FROM customer"
            " WHERE since < :end AND ifnull(until, :end) > max(since, :first) ORDER BY id",
            {"first": period.first, "end": period.end},
        ).fetchall()
        called = dict(keys.keys) if keys is not None else {}
        numbers = (number for number, in found.database.execute("SELECT id FROM customer"))
        known = {called.get(number, str(number)).upper(): number for number in numbers}
        services = [(called.get(number, str(number)).upper(), *rest) for number, *rest in served]
        names = {name for name, *_ in services}
        loads = [Load(section, since, until, kva[name]) for name, section, since, until in services if name in kva]
    missing = sorted(names - kva.keys(), key=lambda name: (len(name), name))
    if missing:
        raise BookError(f"{path} hasn't the {kind} {missing[0]}, and {len(missing)} of the book's in all")
    others = len(kva.keys() - known.keys())
    about = f"ASIFI and ASIDI are over the connected kVA of {len(loads)} {kind}s by {path}"
    return Loads(
        loads,
        interruptions_of_loads(found, loads),
        about + (f"; {others} of its rows are of no {kind} of this book." if others else "."),
    )


def interruptions_of_loads(found: Checked, loads: Iterable[Load]) -> list[Interruption]:
    """The interruptions of the book, and of sections with load in which no customer is in service all the time."""
    blocks = {(block.section, block.since, block.until) for block in found.book.blocks}
    others = {load.section for load in loads if (load.section, load.since, load.until) not in blocks}
    return [*found.interruptions, *whole_interruptions(found, others)]


def load_indices(book: Book, loads: Loads, unmarked: bool) -> dict[str, Fraction | None]:
    """ASIFI, and ASIDI in minutes, over the kVA connected: its average over the period."""
    counting = (
        each for each in loads.interruptions if each.is_sustained and not (unmarked and book.is_marked(each.since))
    )
    lengths = {(block.section, block.since, block.until): parts for block, parts in lengths_of(counting).items()}
    connected, interrupted, interrupted_seconds = Fraction(0), Fraction(0), Fraction(0)
    for load in loads.loads:
        sustained = lengths.get((load.section, load.since, load.until), [])
        connected += load.kva * (load.until - load.since)
        interrupted += load.kva * len(sustained)
        interrupted_seconds += load.kva * sum(sustained)
    length = book.period.length
    return {
        "ASIFI": interrupted * length / connected if connected else None,
        "ASIDI": interrupted_seconds * length / (60 * connected) if connected else None,
    }


def computed(
    found: Checked, hours: Sequence[Fraction], loads: Loads | None
) -> Mapping[str, dict[str, Fraction | None]]:
    """The further indices of a compared book, of both sets."""
    indices: dict[str, dict[str, Fraction | None]] = {}
    for name in SETS:
        indices[name] = further_indices(found.whole[name], further_counts(found, name, hours))
        if loads is not None:
            indices[name].update(load_indices(found.book, loads, name == "unmarked"))
    return indices
