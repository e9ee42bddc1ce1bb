"""Figures of a book, as a table to read, as CSV or as JSON.

    python3 tools/figures.py BOOK interruptions|days|months|feeders|causes|sections|switchings|lives|indices|customers
                             [--csv | --json] [--late] [--names FILE] [--table FILE | --program PATH]
    python3 tools/figures.py BOOK events [--ticket RULE] ..
    python3 tools/figures.py BOOK indices [--hours H ..] [--kva FILE] ..
    python3 tools/figures.py BOOK ranking [--earlier BOOK] ..
    python3 tools/figures.py BOOK groups --by FILE ..
    python3 tools/figures.py BOOK cause-groups --causes FILE ..

Before it answers, the book's postings and the program's annual table are compared with what is found here (compare.py).
Quotients are exact fractions, each with its three decimals in a column beside it. Moments are by the clock of the book's
zone, with their offset. docs/use/REPORTS.md and docs/use/INDICES.md say what each figure means.
"""

from argparse import Namespace
from collections.abc import Callable, Sequence
from fractions import Fraction

from outage_tools import indices as further
from outage_tools.causes import cause_groups, causes
from outage_tools.cli import Parser, add_table_arguments, run_job
from outage_tools.compare import Checked, open_book
from outage_tools.counts import SETS, decimal_text, fraction_text, index_decimals
from outage_tools.customers import customers
from outage_tools.days import days, months
from outage_tools.events import DEFAULT_RULE, events, read_rule
from outage_tools.feeders import feeders, sections
from outage_tools.forms import Figures, Value, write_csv, write_json, write_text
from outage_tools.keys import add_keys_argument, keys_shown
from outage_tools.lists import read_cause_groups, read_names, read_section_groups, with_names
from outage_tools.outages import interruptions
from outage_tools.ranking import ranking
from outage_tools.rates import both
from outage_tools.section_groups import groups
from outage_tools.work import lives, switchings

__all__ = ["FIGURES", "TERMS", "Figures", "Value", "indices", "main", "meaning_of"]
__all__ += ["causes", "customers", "days", "events", "feeders", "groups", "interruptions", "lives", "months"]
__all__ += ["ranking", "sections", "switchings"]
__all__ += ["write_csv", "write_json", "write_text"]

INDEX_MEANINGS = {
    "SAIFI": ("interruptions per customer served", "CI x P / S"),
    "SAIDI": ("minutes per customer served", "CSI x P / (60 x S)"),
    "CAIDI": ("minutes per sustained interruption", "CSI / (60 x CI)"),
    "CAIFI": ("interruptions per customer that had one", "CI / CN"),
    "ASAI": ("share of the demanded customer time that was served", "(S - CSI) / S"),
    "SUSTAINED": ("customers' interruptions of more than 300 seconds", "CI"),
    "MOMENTARY": ("customers' interruptions of at most 300 seconds, in no quotient of the annual table", "MI"),
}
TERMS = (
    "P are the seconds of the period, S the customer-seconds in service, S / P the customers served; CI customers'"
    " sustained interruptions, CSI their seconds; CN customers with one or more, CN_n with n or more."
)


def meaning_of(index: str) -> tuple[str, str]:
    """The unit and the definition of an index or a count."""
    if index.startswith("CEMI-"):
        n = index[len("CEMI-") :]
        return f"customers with {n} or more, per customer served", f"CN_{n} x P / S"
    return INDEX_MEANINGS[index]


def indices(found: Checked, hours: Sequence[Fraction] = further.HOURS, loads: further.Loads | None = None) -> Figures:
    """Both sets of indices and counts, with units and definitions: the program's, and further ones of the standard."""
    columns = {
        "index": "its name",
        "set": "all interruptions, or the unmarked ones, which don't begin on a marked day",
        "value": "an exact fraction in lowest terms, `undefined` where there is nothing to divide by, or a count",
        "decimal": "three decimals, five of ASAI, rounded half up",
        "unit": "its unit",
        "definition": "its quotient",
        "from": "program: it prints the index, in the annual table or by `outagebook indices`; computed here: from its interruptions",
    }
    rows: list[list[Value]] = []
    more = further.computed(found, hours, loads)
    for name in SETS:
        counts = found.counts[name]
        for index, value in found.whole[name].indices.items():
            decimals = decimal_text(value, index_decimals(index))
            rows.append([index, name, fraction_text(value), decimals, *meaning_of(index), "program"])
        rows.append(["SUSTAINED", name, counts.sustained, "", *meaning_of("SUSTAINED"), "program"])
        rows.append(["MOMENTARY", name, counts.momentary, "", *meaning_of("MOMENTARY"), "program"])
        for index, value in more[name].items():
            source = "program" if index in further.OF_PROGRAM else "computed here"
            rows.append([index, name, *both(value), *further.meaning_of(index), source])
    about = ["Those from the program are what it prints, figure by figure.", TERMS, further.TERMS]
    return Figures("indices", about + ([loads.about] if loads else []), columns, rows)


FIGURES: dict[str, Callable[[Checked], Figures]] = {
    "interruptions": interruptions,
    "events": events,
    "days": days,
    "months": months,
    "feeders": feeders,
    "ranking": ranking,
    "causes": causes,
    "sections": sections,
    "customers": customers,
    "switchings": switchings,
    "lives": lives,
    "indices": indices,
}


def indices_by(found: Checked, args: Namespace) -> Figures:
    """The indices with the hours and the connected kVA that the words of the command line give."""
    loads = None
    if args.kva:
        loads = further.loads_of(args.kva, found, keys_shown(args.keys, args.book, found.database))
    return indices(found, args.hours or further.HOURS, loads)


def ranking_by(found: Checked, args: Namespace) -> Figures:
    """The feeders by SAIDI, with their ranks in the book that a word of the command line names."""
    if args.earlier is None:
        return ranking(found)
    with open_book(args.earlier, None, args.program) as earlier:
        return ranking(found, earlier)


# Figures that words of the command line change, and those that can't be shown without a list.
WITH_WORDS: dict[str, Callable[[Checked, Namespace], Figures]] = {
    "ranking": ranking_by,
    "events": lambda found, args: events(found, args.ticket or DEFAULT_RULE),
    "indices": indices_by,
    "switchings": lambda found, args: switchings(found, args.late),
    "groups": lambda found, args: groups(found, read_section_groups(args.by, found.book)),
    "cause-groups": lambda found, args: cause_groups(found, read_cause_groups(args.causes, found.book)),
}

# The figure that each of these words goes with, and the word that each of these figures wants.
WORDS = {
    "late": "switchings",
    "ticket": "events",
    "earlier": "ranking",
    "by": "groups",
    "causes": "cause-groups",
    "hours": "indices",
    "kva": "indices",
}
WANTED = {"groups": "by", "cause-groups": "causes"}


def add_list_arguments(parser: Parser) -> None:
    """The words that name a user's lists and the rule of tickets."""
    parser.add_argument(
        "--names", metavar="FILE", help="a CSV of feeder, name and substation: names next to the feeders"
    )
    parser.add_argument("--causes", metavar="FILE", help="a CSV of cause (its name or code) and group")
    parser.add_argument(
        "--ticket",
        metavar="RULE",
        type=read_rule,
        help="of events: a regular expression that a whole reference fits, with a group (?P<ticket>..) and perhaps one"
        " (?P<step>..) (the references that from_oms writes)",
    )


def figures_of(found: Checked, args: Namespace) -> Figures:
    """The figures that the words of the command line ask for."""
    with_words = WITH_WORDS.get(args.figures)
    shown = with_words(found, args) if with_words else FIGURES[args.figures](found)
    return with_names(shown, read_names(args.names, found.book), found.book) if args.names else shown


def check_words(parser: Parser, args: Namespace) -> None:
    """Words that go with another figure, and lists that one can't do without."""
    for word, figure in WORDS.items():
        if getattr(args, word) and args.figures != figure:
            parser.error(f"--{word} goes with {figure}")
    wanted = WANTED.get(args.figures)
    if wanted and not getattr(args, wanted):
        parser.error(f"{args.figures} needs --{wanted} FILE")


def main() -> int:
    parser = Parser(description="Shows figures of a book, after they were compared with the program's.")
    parser.add_argument("book", help="the book's file")
    parser.add_argument("figures", choices=list(dict.fromkeys([*FIGURES, *WITH_WORDS])), help="which")
    form = parser.add_mutually_exclusive_group()
    form.add_argument("--csv", dest="write", action="store_const", const=write_csv, default=write_text, help="as CSV")
    form.add_argument("--json", dest="write", action="store_const", const=write_json, help="as JSON")
    parser.add_argument(
        "--late", action="store_true", help="of switchings: late entries, corrections, withdrawals alone"
    )
    add_list_arguments(parser)
    parser.add_argument("--by", metavar="FILE", help="of groups: a CSV of section and group")
    parser.add_argument("--earlier", metavar="BOOK", help="of ranking: the book of the year before, for its ranks")
    parser.add_argument("--hours", nargs="+", type=further.read_hours, metavar="H", help="of indices: those of CELID")
    parser.add_argument(
        "--kva", metavar="FILE", help="of indices: connected kVA by section or customer, for ASIFI, ASIDI"
    )
    add_keys_argument(parser, "with --kva by customer: the table of their keys")
    add_table_arguments(parser)
    args = parser.parse_args()
    check_words(parser, args)

    def job() -> None:
        with open_book(args.book, args.table, args.program) as found:
            args.write(figures_of(found, args))

    return run_job(job)
