"""A page of a book's period: indices, years, days, months, causes, feeders, worst interruptions, what late work moved.

    python3 tools/report.py BOOK [-o year.html] [--pdf year.pdf] [--name NAME] [--cover FILE] [--names FILE]
                            [--causes FILE] [--by FILE] [--events | --ticket RULE] [--customers] [--oms FILE]
                            [--earlier BOOK ..] [--picture days.svg] [--pictures FOLDER] [--date DATE]
                            [--table FILE | --program PATH]

One HTML file that needs no network and no script, and the same as a PDF. Its indices are the words of the program's annual
table; what is computed here says so, and was compared with the book's postings and that table first (compare.py).
"""

import argparse
from collections.abc import Iterator, Mapping
from dataclasses import dataclass
from html import escape
from pathlib import Path

from outage_tools import indices as further
from outage_tools.agree import Agreement, add_count_arguments, agreement_of, counts_of
from outage_tools.cli import Parser, add_page_arguments, add_table_arguments, run_job
from outage_tools.compare import Checked, figures_of_table, open_book
from outage_tools.counts import SETS
from outage_tools.errors import BookError
from outage_tools.events import DEFAULT_RULE, Rule
from outage_tools.figures import add_list_arguments
from outage_tools.lists import Groups, Names, read_cause_groups, read_names, read_section_groups
from outage_tools.report.agreement import agreement_part
from outage_tools.report.cover import Cover, Sources, cover_text, read_facts
from outage_tools.report.customers import customer_part
from outage_tools.report.earlier import Earlier, read_earlier
from outage_tools.report.exact import FurtherIndices, exact_part, group_counts_part
from outage_tools.report.feeders import feeder_part, own_picture
from outage_tools.report.head import heading, state_of
from outage_tools.report.major_days import major_days_part
from outage_tools.report.pdf import print_page
from outage_tools.report.pictures import (
    cause_group_part,
    cause_part,
    day_part,
    day_table_part,
    marked_days,
    month_part,
    own_pictures,
    picture,
)
from outage_tools.report.pieces import COMPUTED, PROVED, Part
from outage_tools.report.rankings import WORST, event_part, group_part, late_part, worst_part
from outage_tools.report.style import STYLE, paper_style
from outage_tools.report.summary import summary
from outage_tools.report.years import years_part
from outage_tools.versions import made_by

NAME = "Outage book"  # what a page's heading begins with where neither a word nor a cover says it
FOOT = f"""
<footer><p>{PROVED} are the words and amounts that the proved program printed and keeps: the indices of both sets, of months, feeders
and causes, and the customer-seconds by cause, by day and by command. {COMPUTED} is what the tool of this page adds up of the
interruptions that the program lists; before it wrote anything, their customer-seconds by cause and feeder and their counts
were equal to those of the program. Moments are by the clock of the book's zone.</p></footer>"""


@dataclass(frozen=True)
class Asked:
    """What a page shows beside what every page has: the heading's name, its date, a user's lists, further parts."""

    name: str = "Outage book"
    date: str = ""
    names: Names | None = None
    cause_groups: Groups | None = None
    section_groups: Groups | None = None
    rule: Rule | None = None
    has_customers: bool = False
    agreement: Agreement | None = None
    earlier: Earlier | None = None
    cover: Cover | None = None


def parts_of(found: Checked, asked: Asked) -> Iterator[Part]:
    """The parts of a page in their order, but the appendix."""
    names = asked.names or {}
    if asked.earlier is not None:
        yield years_part(asked.earlier.years)
    if asked.cause_groups is not None:
        yield cause_group_part(found, asked.cause_groups)
    if asked.section_groups is not None:
        yield group_part(found, asked.section_groups)
    yield month_part(found)
    yield day_part(found)
    if asked.earlier is not None:
        yield major_days_part(asked.earlier.years, marked=marked_days(found))
    elif found.book.marks:
        yield Part("major-days", "Major event days", COMPUTED, marked_days(found))
    yield from (cause_part(found), feeder_part(found, names, asked.earlier))
    if asked.rule is not None:
        yield event_part(found, asked.rule)
    if asked.has_customers:
        yield customer_part(found, names, WORST)
    if asked.agreement is not None:
        yield agreement_part(found, asked.agreement)
    yield from (worst_part(found, names), late_part(found))


def appendix(found: Checked, table_words: Mapping[str, str], indices: FurtherIndices, asked: Asked) -> Iterator[Part]:
    """What stands at the end: the exact figures, and the figures of the days."""
    yield exact_part(found, table_words, indices)
    if asked.section_groups is not None:
        yield group_counts_part(found, asked.section_groups)
    yield day_table_part(found)


def contents(parts: list[Part]) -> str:
    """Links to the parts."""
    links = "".join(f'<li><a href="#{part.name}">{escape(part.title)}</a></li>' for part in parts)
    return f'\n<nav aria-label="Contents"><ul>{links}</ul></nav>'


def page(found: Checked, asked: Asked = Asked()) -> str:
    """The whole page."""
    lines = figures_of_table(found.table)
    table_words = {which: value for which, value in lines.items() if which.split()[-1] in SETS}
    indices = further.computed(found, further.HOURS, None)
    state = state_of(found, asked.date)
    parts = [*parts_of(found, asked), *appendix(found, table_words, indices, asked)]
    title = f"{asked.name} {found.book.period.days[0]} to {found.book.period.days[-1]}"
    cover = cover_text(found, asked.cover, state, asked.earlier, asked.cause_groups) if asked.cover else ""
    body = [
        heading(found, asked.name, state),
        cover,
        contents(parts),
        summary(found, table_words, indices, asked.cause_groups, asked.earlier),
        *(part.text for part in parts),
        FOOT,
    ]
    style = f"{STYLE}{paper_style(title, state.text, state.date)}"
    return (
        '<!DOCTYPE html>\n<html lang="en"><head><meta charset="utf-8">'
        '<meta name="viewport" content="width=device-width, initial-scale=1">'
        f"<title>{escape(title)}</title><style>{style}</style></head>\n<body>{''.join(body)}\n</body></html>\n"
    )


def cover_of(args: argparse.Namespace) -> Cover | None:
    """The cover that the words of the command line ask for."""
    if args.cover is None:
        return None
    lists = tuple(Path(path).name for path in (args.causes, args.names, args.by, args.oms) if path)
    earlier = tuple(Path(path).name for path in args.earlier or ())
    sources = Sources(Path(args.book).name, made_by(args.table, args.program), lists, earlier)
    return Cover(read_facts(args.cover), sources)


def asked_for(found: Checked, args: argparse.Namespace) -> Asked:
    """What the words of the command line ask for, with the lists read."""
    book, cover = found.book, cover_of(args)
    return Asked(
        name=args.name or (cover.facts.get("utility", NAME) if cover else NAME),
        date=args.date,
        names=read_names(args.names, book) if args.names else None,
        cause_groups=read_cause_groups(args.causes, book) if args.causes else None,
        section_groups=read_section_groups(args.by, book) if args.by else None,
        rule=args.ticket or (DEFAULT_RULE if args.events else None),
        has_customers=args.customers,
        agreement=agreement_of(found, counts_of(args), args.prefix) if args.oms else None,
        earlier=read_earlier(args.book, found, args.earlier, args.program) if args.earlier else None,
        cover=cover,
    )


def pictures_of(found: Checked, names: Names) -> dict[str, str]:
    """The pictures of a page as files, by their names."""
    return {**own_pictures(found), "feeders": own_picture(found, names)}


def write_pictures(folder: str, pictures: Mapping[str, str]) -> None:
    try:
        Path(folder).mkdir(parents=True, exist_ok=True)
    except OSError as error:
        raise BookError(f"{folder}: {error.strerror}") from None
    for name, text in pictures.items():
        write(f"{folder}/{name}.svg", text)


def write(path: str, text: str) -> None:
    try:
        Path(path).write_text(text, encoding="utf-8")
    except OSError as error:
        raise BookError(f"{path}: {error.strerror}") from None


def parser_of_report() -> Parser:
    parser = Parser(description="Writes a page of a book's period, after its figures were compared with the program's.")
    parser.add_argument("book", help="the book's file")
    parser.add_argument("-o", "--output", metavar="FILE", help="the page to write, as HTML")
    parser.add_argument("--pdf", metavar="FILE", help="write the page as PDF (Debian's package chromium prints it)")
    parser.add_argument(
        "--picture", metavar="FILE", help="write the picture of the days too, as an SVG file of its own"
    )
    parser.add_argument(
        "--pictures",
        metavar="FOLDER",
        help="write the pictures of days, months, causes and feeders too, each as an SVG file of its own",
    )
    add_page_arguments(parser, NAME)
    parser.set_defaults(name=None)
    parser.add_argument(
        "--cover",
        metavar="FILE",
        help="lines `utility: ..`, number, address, responsible person, phone, prepared for, exports (or a CSV of name and"
        " value): a cover with them, the method, the sources and a line to sign",
    )
    add_list_arguments(parser)
    parser.add_argument("--by", metavar="FILE", help="a CSV of section and group: the indices of each group too")
    parser.add_argument("--events", action="store_true", help="the events with the most customer-minutes too")
    parser.add_argument("--customers", action="store_true", help="the worst served customers too")
    parser.add_argument(
        "--oms", metavar="FILE", help="the OMS's own counts by ticket: the tickets that differ most too"
    )
    parser.add_argument(
        "--earlier",
        metavar="BOOK",
        nargs="+",
        help="books of the years before, five of which are shown: those years beside this one, feeders' ranks of the last"
        " one, and the threshold of major event days",
    )
    add_count_arguments(parser.add_argument_group("how the OMS's counts are written"))
    add_table_arguments(parser)
    return parser


def main() -> int:
    parser = parser_of_report()
    args = parser.parse_args()
    if not args.output and not args.pdf:
        parser.error("-o FILE or --pdf FILE says what is written")

    def job() -> None:
        with open_book(args.book, args.table, args.program) as found:
            asked = asked_for(found, args)
            text = page(found, asked)
            days = picture(found) if args.picture else ""
            pictures = pictures_of(found, asked.names or {}) if args.pictures else {}
        if args.pdf:
            print_page(text, args.pdf)
        if args.output:
            write(args.output, text)
        if args.picture:
            write(args.picture, days)
        if args.pictures:
            write_pictures(args.pictures, pictures)

    return run_job(job)
