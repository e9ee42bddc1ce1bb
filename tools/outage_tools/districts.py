"""A utility of any size as districts, each with a book of its own: cut, checked, and looked at.

    outagebook-districts cut GIS [CUSTOMERS] [--oms OMS] -o FOLDER [--room N] [--as districts.csv]
                             [--delimiter D] [--encoding E]
    outagebook-districts check TIES BOOK.. [--processes N | --cluster ADDRESS] [--table FILE .. | --program PATH]
    outagebook-districts desks DESKS [--compared FILE] [--wait SECONDS]
    outagebook-districts compare DESKS [--compared FILE] [--processes N | --cluster ADDRESS] [--program PATH]

`cut` makes of a utility's exports those of each district: what normally closed devices join stays together, and these
parts are gathered, those with most ties between them first, while a book holds them with some room. A tie between two
districts is in both books a device from GRID. `check` tells from the books the seconds at which such a tie was closed
while its ends were without supply, and what that cost, exactly. `desks` asks each district's desk whether it is up and how
many commands it has; `compare` compares each book with its program's table, and keeps what it found for `desks`.
"""

import sys
from collections.abc import Callable
from typing import Any

from outage_tools.cli import Parser, run_job
from outage_tools.district_check import check
from outage_tools.district_cut import ROOM, cut
from outage_tools.district_desks import compare_desks, tell_desks
from outage_tools.oms.decoding import ENCODINGS
from outage_tools.oms.files import DELIMITERS, add_column_argument
from outage_tools.parallel import add_spread_arguments


def arguments() -> tuple[Parser, Any]:
    parser = Parser(description="Cuts a utility into districts, checks the cut, and looks at the districts' desks.")
    jobs = parser.add_subparsers(metavar="JOB", required=True, parser_class=Parser)

    def job(name: str, text: str) -> Parser:
        one: Parser = jobs.add_parser(name, help=text, description=text)
        one.set_defaults(job=name)
        return one

    cutting = job("cut", "makes the exports of each district of those of a utility")
    cutting.add_argument("gis", metavar="GIS", help="buses, sections and devices")
    cutting.add_argument("customers", metavar="CUSTOMERS", nargs="?", help="customers and their services")
    cutting.add_argument("--oms", metavar="OMS", help="outages and restoration steps")
    cutting.add_argument("-o", "--output", metavar="FOLDER", required=True, help="where a folder for each is made")
    cutting.add_argument(
        "--room", type=int, default=ROOM, metavar="N", help=f"per cent of a book to leave free ({ROOM})"
    )
    cutting.add_argument("--as", dest="earlier", metavar="FILE", help="districts.csv of an earlier cut, which stays")
    cutting.add_argument(
        "--delimiter", choices=DELIMITERS, help="the character between fields (found by the column names)"
    )
    cutting.add_argument(
        "--encoding", choices=ENCODINGS, help="of files without a mark of it at their beginning (utf-8)"
    )
    add_column_argument(cutting)
    checking = job("check", "prints what the ties cost that were cut")
    checking.add_argument("ties", metavar="TIES", help="ties.csv of the cut")
    checking.add_argument("books", nargs="+", metavar="BOOK", help="the books' files; a file's name is its district's")
    checking.add_argument("--table", action="append", metavar="FILE", default=[], help="the books' annual tables")
    checking.add_argument("--program", metavar="PATH", default="outagebook", help="what prints the tables")
    add_spread_arguments(checking)
    asking = job("desks", "asks each desk whether it is up, and how many commands it has")
    asking.add_argument("--wait", type=float, default=10, metavar="SECONDS", help="how long an answer may take (10)")
    comparing = job("compare", "compares each desk's book with its program's table")
    comparing.add_argument("--program", metavar="PATH", default="outagebook", help="what prints the tables")
    add_spread_arguments(comparing)
    for one in (asking, comparing):
        one.add_argument("desks", metavar="DESKS", help="the desks: a CSV of district, url and book")
        one.add_argument("--compared", metavar="FILE", help="what was compared last (compared.csv next to DESKS)")
    return parser, parser.parse_args()


def main() -> int:
    parser, args = arguments()
    if args.job == "cut" and not 0 <= args.room <= 90:
        parser.error("--room is 0 to 90")
    jobs: dict[str, Callable[[], None]] = {
        "cut": lambda: cut(args),
        "check": lambda: check(parser, args),
        "desks": lambda: tell_desks(args),
        "compare": lambda: compare_desks(args),
    }
    return run_job(jobs[args.job])


if __name__ == "__main__":
    sys.exit(main())
