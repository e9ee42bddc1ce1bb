"""Does it fit, and is the network whole: exports of other systems looked at before a book is made of them.

    python3 tools/check.py --gis gis.csv --customers customers.csv --oms oms.csv --causes causes.csv
                           --first DATE --days N --zone RULE [--meshed] [--json]
    python3 tools/check.py --gis gis.csv .. --book BOOK [--table FILE | --program PATH]
    python3 tools/check.py .. [--long HOURS] [--last BOOK] [--exported DATE] .. [--fail-above SHARE]

It takes the exports as `outagebook-from-oms` takes them, and writes no rows. Each number stands beside the book's limit; the
network is looked at with all devices in their normal positions, as of the first second and wherever a life begins or ends.
What nothing contradicts, but is implausible, is told with what it weighs (implausible/).
The status is 0 where all fits and nothing is wrong, 2 where something is, and 3 where nothing is wrong, but something implausible
has a share above that of `--fail-above`. docs/use/CHECKING.md says what each finding means.
"""

import argparse
import json
import sys
from collections import defaultdict
from collections.abc import Iterable, Iterator
from contextlib import ExitStack
from dataclasses import dataclass
from fractions import Fraction

from outage_tools.cli import Parser, run_job
from outage_tools.compare import open_book
from outage_tools.contents import (
    BOOK,
    Contents,
    Finding,
    Place,
    Topic,
    take_cause,
    take_customer,
    take_network,
    take_outage,
)
from outage_tools.errors import BookError
from outage_tools.implausible.draft import Drafting
from outage_tools.implausible.limits import add_limit_arguments, limits_of
from outage_tools.implausible.lines import LastBook, Look
from outage_tools.implausible.told import (
    Implausible,
    json_of,
    last_book_of,
    program_total_of,
    text_of,
    up_to,
)
from outage_tools.keys import beside, keys_for
from outage_tools.normal_state import SOURCE, During, Island, Loop, TestedNetwork, during, moments_of
from outage_tools.oms import causes, convert, customers, network, outages, told
from outage_tools.oms.complaints import CHANGED, Complaint, Complaints, Notes, lines_of
from outage_tools.oms.conversion import Conversion
from outage_tools.oms.convert import Run
from outage_tools.oms.files import Export, format_of
from outage_tools.oms.known import Known, Service, known_of
from outage_tools.oms.positions import OVERLAP
from outage_tools.rows import Period

WRONG = 2
ABOVE = 3  # something implausible has a greater share than --fail-above
MOST_NAMES = 8  # of one finding in a text
MOST_FINDINGS = 20  # of one topic in a text
MOST_ROWS = 3  # of the rows that have the same
MOST_ALIKE = 5  # of many rows that are refused for the same


# Does it fit.


@dataclass(frozen=True)
class Bound:
    """How many there are of something, and for how many a book has room."""

    what: str
    number: int
    limit: int

    @property
    def fits(self) -> bool:
        return self.number <= self.limit


def bounds_of(contents: Contents, period: Period, entries: int) -> list[Bound]:
    """What the exports and the book hold together, each beside its limit."""
    feeders = {node.feeder for node in contents.nodes.values() if node.feeder is not None}
    return [
        Bound("days of the period", len(period.days), 366),
        Bound("nodes, GRID among them", len(contents.nodes), 1_024),
        Bound("devices", len(contents.devices), 2_048),
        Bound("customers", len(contents.customers), 100_000),
        Bound("entries", entries, 50_000),
        Bound("causes (codes from 1 to 63)", len(contents.causes), 63),
        Bound("feeders (numbers from 1 to 255)", len(feeders), 255),
    ]


# Is it whole: what names something that isn't there.


def names_text(names: tuple[str, ...]) -> str:
    """Some names, and how many more there are."""
    rest = len(names) - MOST_NAMES
    return ", ".join(names[:MOST_NAMES]) + (f" and {rest} more" if rest > 0 else "")


def unknown_ends(contents: Contents) -> Iterator[Finding]:
    """Devices one end of which is nowhere."""
    for device in contents.devices.values():
        ends = [end for end in device.ends if end not in contents.nodes]
        if ends:
            place = contents.places.get(("device", device.name), BOOK)
            verb = "is no bus or section" if len(ends) == 1 else "are no buses or sections"
            text = f"{device.name} ({place}): {' and '.join(ends)} {verb}"
            yield Finding(Topic.NO_NODE, (device.name,), text, (place,))


def unknown_sections(contents: Contents) -> Iterator[Finding]:
    """Customers on what is no section, by what it is."""
    astray: dict[str, list[int]] = defaultdict(list)
    for customer, service in contents.customers.items():
        node = contents.nodes.get(service.section)
        if node is None or node.feeder is None:
            astray[service.section].append(customer)
    for section, listed in astray.items():
        what = "is a bus" if section in contents.nodes else "isn't there"
        noun = "customer" if len(listed) == 1 else "customers"
        places = tuple(contents.places.get(("customer", str(each)), BOOK) for each in listed)
        names = tuple(map(contents.customer_text, listed))
        yield Finding(Topic.NO_SECTION, names, f"{section} {what}: {noun} {names_text(names)}", places)


def unknown_words(contents: Contents) -> Iterator[Finding]:
    """Steps of a device or with a cause that isn't there, by its name."""
    devices: dict[str, list[Place]] = defaultdict(list)
    words: dict[str, list[Place]] = defaultdict(list)
    for each in contents.switched:
        if each.device not in contents.devices.keys() | contents.gone:
            devices[each.device].append(each.place)
        if each.cause not in contents.words:
            words[each.cause].append(each.place)
    for topic, found in ((Topic.NO_DEVICE, devices), (Topic.NO_CAUSE, words)):
        for name, places in found.items():
            listed = ", ".join(str(place) for place in places[:MOST_ROWS])
            rest = f" and {len(places) - MOST_ROWS} more rows" if len(places) > MOST_ROWS else ""
            yield Finding(topic, (name,), f"{name or 'none'}: {listed}{rest}", tuple(places))


@dataclass(frozen=True)
class Unserved:
    """The services of the customers of each section, to be counted where it isn't supplied."""

    period: Period
    services: dict[str, list[Service]]

    def counts(self, sections: Iterable[str], since: int, until: int) -> tuple[int, int]:
        """How many customers of some sections are in service in some seconds, and for how many customer-seconds of them."""
        services = (service for section in sections for service in self.services.get(section, ()))
        lengths = [
            min(until, until if each.until is None else each.until) - max(since, each.since) for each in services
        ]
        return sum(length > 0 for length in lengths), sum(length for length in lengths if length > 0)


def unserved_of(contents: Contents, period: Period) -> Unserved:
    services: dict[str, list[Service]] = defaultdict(list)
    for service in contents.customers.values():
        services[service.section].append(service)
    return Unserved(period, services)


def unserved_text(customers: int, seconds: int) -> str:
    if not customers:
        return ""
    return f"; {customers} {'customer' if customers == 1 else 'customers'}, {seconds} customer-seconds under cause 0"


def alone(contents: Contents) -> list[str]:
    """The nodes that no device joins."""
    joined = {end for device in contents.devices.values() for end in device.ends}
    return [name for name in contents.nodes if name not in joined]


def alone_findings(contents: Contents, unserved: Unserved) -> Iterator[Finding]:
    for name in alone(contents):
        node = contents.nodes[name]
        kind = "the source" if name == SOURCE else "bus" if node.feeder is None else "section"
        counts = unserved.counts((name,), unserved.period.first, unserved.period.end)
        text = f"{kind} {name} ({node.place}){unserved_text(*counts)}"
        yield Finding(Topic.ALONE, (name,), text, (), True, *counts)


# Is it whole: who is reached when all devices are in their normal positions.


def tested(contents: Contents) -> TestedNetwork:
    """The network that is looked at: nodes that some device joins, and devices both ends of which are there."""
    nodes = contents.nodes.keys() - alone(contents) | {SOURCE}
    devices = (device for device in contents.devices.values() if set(device.ends) <= contents.nodes.keys())
    return TestedNetwork(frozenset(nodes), tuple(devices))


def when_text(found: During[Island] | During[Loop], period: Period) -> str:
    """In which seconds something holds."""
    if (found.since, found.until) == (period.first, period.end):
        return "the whole period"
    texts = [period.zone.short_text(second) for second in (found.since, found.until)]
    if found.since == period.first:
        return f"up to {texts[1]}"
    return f"from {texts[0]} on" if found.until == period.end else f"from {texts[0]} up to {texts[1]}"


def island_findings(contents: Contents, network: TestedNetwork, unserved: Unserved) -> Iterator[Finding]:
    """What isn't reached. It is wrong where customers are in service there, or where none is known, or all the time, but for what ties
    would reach and nobody is behind, as a spare transformer that is open normally at both sides."""
    period = unserved.period
    for found in during(moments_of(network.devices, period.first, period.end), period.end, network.islands):
        names = tuple(sorted(found.found.nodes))
        counts = unserved.counts(names, found.since, found.until)
        is_whole = (found.since, found.until) == (period.first, period.end)
        text = f"{names_text(names)}: {when_text(found, period)}"
        if found.found.ties:
            text += f"; through {names_text(tuple(sorted(found.found.ties)))}"
        topic = Topic.TIES_ALONE if found.found.is_reached_by_ties else Topic.NOT_REACHED
        is_spare = found.found.is_reached_by_ties or not is_whole
        is_wrong = not is_spare or counts[0] > 0 or not contents.customers
        yield Finding(topic, names, text + unserved_text(*counts), (), is_wrong, *counts)


def loop_findings(contents: Contents, network: TestedNetwork, period: Period, is_meshed: bool) -> Iterator[Finding]:
    """What is closed to a loop. Where loops are meant they aren't wrong."""
    for found in during(moments_of(network.devices, period.first, period.end), period.end, network.loops):
        names = tuple(sorted(found.found.devices))
        text = f"{names_text(names)}: {when_text(found, period)}"
        between = tuple(joined for name in names if (joined := feeders_joined(contents, name)))
        if between:
            text += f"; between feeders: {names_text(between)}"
        yield Finding(Topic.LOOP, names, text, (), not is_meshed)


def between_findings(contents: Contents, network: TestedNetwork, looped: set[str]) -> Iterator[Finding]:
    """Where one feeder hangs on another one: it may be meant. Those of a loop are told with it."""
    for device in network.devices:
        if device.is_closed and device.name not in looped and feeders_joined(contents, device.name):
            place = contents.places.get(("device", device.name), BOOK)
            ends = ", ".join(f"{end} of feeder {contents.nodes[end].feeder}" for end in device.ends)
            yield Finding(Topic.BETWEEN, (device.name,), f"{device.name} ({place}): {ends}", (), False)


def feeders_joined(contents: Contents, device: str) -> str:
    """The two feeders that a device joins; empty where it joins none or one."""
    feeders = {contents.nodes[end].feeder for end in contents.devices[device].ends}
    listed = sorted(feeder for feeder in feeders if feeder is not None)
    return f"{device} ({listed[0]} and {listed[1]})" if len(listed) == 2 else ""


def findings_of(contents: Contents, period: Period, is_meshed: bool) -> list[Finding]:
    """What is wrong with the exports, or worth a look."""
    network, unserved = tested(contents), unserved_of(contents, period)
    loops = list(loop_findings(contents, network, period, is_meshed))
    looped = {name for loop in loops for name in loop.names}
    return [
        *contents.findings,
        *unknown_ends(contents),
        *unknown_sections(contents),
        *unknown_words(contents),
        *alone_findings(contents, unserved),
        *island_findings(contents, network, unserved),
        *loops,
        *between_findings(contents, network, looped),
    ]


# Would the rows be written.


def refusals(contents: Contents, findings: list[Finding], complaints: list[Complaint]) -> Iterator[Finding]:
    """Rows that the conversion refuses, where no finding tells of them: it looks at the order of switchings too. Those of a
    device one end of which is nowhere are told with the device."""
    places = {place for finding in findings for place in finding.places}
    wrong = {name for finding in findings if finding.topic is Topic.NO_NODE for name in finding.names}
    places |= {each.place for each in contents.switched if each.device in wrong}
    for complaint in complaints:
        place = Place(complaint.file, complaint.row)
        if place not in places:
            yield Finding(Topic.REFUSED, (), str(complaint), (place,))


def conversion_findings(run: Run, contents: Contents, findings: list[Finding]) -> Iterator[Finding]:
    """What the conversion refuses beside the findings, leaves out, changes and notices."""
    yield from refusals(contents, findings, run.conversion.complaints.found)
    yield from (Finding(Topic.NOTED, (), line, is_wrong=False) for line in told.lines_of_notes(run.files))


# Writing.


def bounds_text(bounds: list[Bound]) -> Iterator[str]:
    yield f"{'':<32}{'number':>10}{'limit':>10}"
    for each in bounds:
        yield f"{each.what:<32}{each.number:>10}{each.limit:>10}" + ("" if each.fits else "  doesn't fit")


def topic_text(topic: Topic, findings: list[Finding]) -> Iterator[str]:
    """The findings of a topic, the first ones of many."""
    count = len(findings)
    note = "" if any(finding.is_wrong for finding in findings) else ", not wrong by itself"
    yield f"{topic.value} ({count}{note}):"
    if topic is Topic.REFUSED and count > MOST_FINDINGS:
        yield from (f"  {line}" for line in lines_of([*map(refused_of, findings)], "--json prints", MOST_ALIKE))
        return
    for finding in findings[:MOST_FINDINGS]:
        yield f"  {finding.text}"
    if count > MOST_FINDINGS:
        yield f"  and {count - MOST_FINDINGS} more, which --json prints"


def refused_of(finding: Finding) -> Complaint:
    """The complaint about a row, of which a finding was made."""
    (place,) = finding.places
    return Complaint(place.file, place.row, finding.text.removeprefix(str(Complaint(place.file, place.row, ""))))


@dataclass(frozen=True)
class Looked:
    """What was found: bounds, findings, and what is implausible, which isn't looked at where there is no room."""

    bounds: list[Bound]
    findings: list[Finding]
    implausible: Implausible | None

    @property
    def fits(self) -> bool:
        return all(each.fits for each in self.bounds)

    @property
    def is_wrong(self) -> bool:
        return not self.fits or any(finding.is_wrong for finding in self.findings)


def write_text(looked: Looked, fail_above: Fraction | None = None) -> None:
    """Bounds, findings and what is implausible, and in the last line what they come to."""
    print("\n".join(bounds_text(looked.bounds)))
    for topic in Topic:
        listed = [finding for finding in looked.findings if finding.topic is topic]
        if listed:
            print("\n" + "\n".join(topic_text(topic, listed)))
    if looked.implausible is not None:
        print("\n" + "\n".join(text_of(looked.implausible, fail_above)))
    wrong = sum(finding.is_wrong for finding in looked.findings)
    fits = "it fits" if looked.fits else "it doesn't fit"
    print(f"\n{fits}, and {wrong or 'nothing'} {'things are' if wrong > 1 else 'thing is' if wrong else 'is'} wrong")


def write_json(looked: Looked, fail_above: Fraction | None = None) -> None:
    whole = {
        "bounds": [
            {"what": each.what, "number": each.number, "limit": each.limit, "fits": each.fits} for each in looked.bounds
        ],
        "findings": [
            {
                "topic": each.topic.value,
                "names": each.names,
                "text": each.text,
                "rows": [{"file": place.file, "row": place.row} for place in each.places if place.row],
                "wrong": each.is_wrong,
                "customers": each.customers,
                "customer_seconds": each.customer_seconds,
            }
            for each in looked.findings
        ],
        "implausible": None if looked.implausible is None else json_of(looked.implausible, fail_above),
    }
    json.dump(whole, sys.stdout, indent=1)
    print()


# The command.


def contents_of(args: argparse.Namespace, conversion: Conversion) -> Contents:
    """What the exports and the book hold."""
    contents = Contents(conversion)
    format = format_of(args)
    for path, columns, required, take in (
        (args.causes, causes.COLUMNS, causes.REQUIRED, take_cause),
        (args.gis, network.COLUMNS, network.REQUIRED, take_network),
        (args.customers, customers.COLUMNS, customers.REQUIRED, take_customer),
        (args.oms, outages.COLUMNS, outages.REQUIRED, take_outage),
    ):
        if path:
            contents.read(Export(path, columns, required, format, Complaints(), Notes("", path)), take)
    return contents


def entries_of(run: Run, known: Known) -> int:
    """The entries that there would be with those of the book, also where there is no room for them."""
    full = f"a book has at most {outages.MOST_ENTRIES} entries"
    beyond = sum(complaint.text.startswith(full) for complaint in run.conversion.complaints.found)
    written = sum(notes.commands.get("switch", 0) for notes in run.files)
    return len(known.book.entries if known.book else ()) + written + beyond


def implausible_in(
    args: argparse.Namespace, run: Run, contents: Contents, drafting: Drafting, last: LastBook | None
) -> Implausible:
    """What is implausible in the exports."""
    overlapping = (row for notes in run.files for row in notes.noted.get((CHANGED, OVERLAP), ()))
    told = frozenset(int(name) for kind, name in contents.places if kind == "customer")
    keys = run.conversion.keys
    if last is not None and not last.is_same:
        if (keys is None) != (last.keys is None) and args.customers:
            raise BookError(
                f"of the customers of {args.last} and of {args.customers} some have keys and the others none: --keys FILE"
            )
        last = last.by(keys) if keys is not None and last.keys is not None else last
    look = Look(
        drafting.draft(run.steps),
        limits_of(args),
        up_to(drafting.period, getattr(args, "exported", None)),
        frozenset(overlapping),
        last,
        told if args.customers else None,
        keys,
    )
    return Implausible(look, program_total_of(drafting.known))


def looked_at(args: argparse.Namespace, known: Known, last: LastBook | None = None) -> Looked:
    """The bounds, the findings topic by topic, and what is implausible. What has no room isn't told row by row, nor what hangs on it."""
    conversion = convert.conversion_of(args, known)
    assert conversion.period is not None  # the words tell it, or the book
    contents = contents_of(args, conversion)
    run, drafting = Run(args, convert.conversion_of(args, known), format_of(args)), Drafting(known, conversion.period)
    for row in run.commands():
        drafting.take(row)
    if run.meters is not None:
        contents.take_meters(run.meters)
    findings = findings_of(contents, conversion.period, args.meshed)
    bounds = bounds_of(contents, conversion.period, entries_of(run, known))
    implausible = None
    if all(bound.fits for bound in bounds):
        findings += conversion_findings(run, contents, findings)
        implausible = implausible_in(args, run, contents, drafting, last)
    topics = list(Topic)
    return Looked(bounds, sorted(findings, key=lambda finding: topics.index(finding.topic)), implausible)


def last_book(args: argparse.Namespace, known: Known) -> LastBook | None:
    """The book of the period before, or the one that the rows are for."""
    if not args.last:
        return last_book_of(known, is_same=True)
    table = None if args.book else args.table
    with open_book(args.last, table, args.program) as found:
        there = known_of(found)
    named = None if beside(args.last).exists() else args.keys
    keys = keys_for(named, args.last, there.customer_refs, bool(args.customers))
    return last_book_of(there, is_same=False, keys=keys)


def make_parser() -> Parser:
    parser = convert.make_parser()
    parser.description = "Looks whether exports of other systems fit into a book, and whether their network is whole."
    parser.add_argument("--first", metavar="DATE", help="the period's first day, if there is no book yet")
    parser.add_argument("--days", metavar="N", type=int, help="how many days it has")
    parser.add_argument("--overlaps", choices=["refuse", "join"], default="refuse", help="as from_oms takes it")
    parser.add_argument("--meshed", action="store_true", help="loops of closed devices are meant: they aren't wrong")
    add_limit_arguments(parser)
    parser.add_argument(
        "--json", dest="write", action="store_const", const=write_json, default=write_text, help="as JSON"
    )
    return parser


def main() -> int:
    parser = make_parser()
    args = parser.parse_args()
    convert.check_words(parser, args)
    if not args.book and not args.first:
        parser.error("the period isn't given: --first, --days and --zone, or --book")
    if args.days is not None and args.days < 1:
        parser.error("--days is a number from 1 on")
    status = 0

    def job() -> None:
        nonlocal status
        with ExitStack() as stack:
            known = Known()
            if args.book:
                known = known_of(stack.enter_context(open_book(args.book, args.table, args.program)))
            looked = looked_at(args, known, last_book(args, known))
        args.write(looked, args.fail_above)
        above = (
            looked.implausible is not None and args.fail_above is not None and looked.implausible.above(args.fail_above)
        )
        status = WRONG if looked.is_wrong else ABOVE if above else 0

    return run_job(job) or status
