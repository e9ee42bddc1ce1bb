"""A warehouse in PostgreSQL: compared books copied for reading, with views of exact indices over all of them.

    outagebook-warehouse create [--reader ROLE] [--dsn DSN]
    outagebook-warehouse load BOOK.. [--processes N | --cluster ADDRESS] [--table FILE .. | --program PATH] [--dsn DSN]
    outagebook-warehouse compare BOOK.. | list | drop DISTRICT --first DAY [--dsn DSN]

A warehouse is never a source: each book is compared with its program's table, written in one transaction, and what the
views say of it is compared with that table before the transaction ends. A book whose commands are those that the
warehouse has is left as it is. DSN are libpq's words (host, dbname, user); without them its environment (PGHOST and
so on) counts.
"""

import hashlib
import sqlite3
import sys
from collections import defaultdict
from collections.abc import Callable, Iterable, Iterator, Sequence
from contextlib import closing
from dataclasses import dataclass
from functools import partial
from pathlib import Path
from typing import TYPE_CHECKING, Any, TypeAlias

from outage_tools.cli import Parser, run_job
from outage_tools.compare import Checked, figures_of_table, open_book
from outage_tools.copies import copy_of
from outage_tools.counts import SETS
from outage_tools.days import unmarked_seconds
from outage_tools.errors import BookError, Differs, lacks
from outage_tools.interruptions import joined
from outage_tools.parallel import add_spread_arguments, over_books
from outage_tools.rows import CAUSE, DAY, FEEDER, Book
from outage_tools.sums import PeriodKey, name_of, tables_given

if TYPE_CHECKING:
    import psycopg

VERSION = 2
TABLES = Path(__file__).with_name("warehouse.sql")

Connection: TypeAlias = "psycopg.Connection[tuple[Any, ...]]"
Rows = Iterable[tuple[object, ...]]
Steps = dict[int, int]  # by how many the customers in service change at a second


def connected(dsn: str) -> Connection:
    """A connection to the warehouse's database."""
    try:
        import psycopg
    except ImportError:
        raise lacks("PostgreSQL is read", "python3-psycopg") from None
    try:
        return psycopg.connect(dsn)
    except psycopg.Error as error:
        raise BookError(f"PostgreSQL can't be reached: {str(error).strip()}") from None


def in_database(dsn: str, work: Callable[[Connection], None]) -> None:
    """Some work in one transaction: whole, or not at all."""
    with connected(dsn) as connection:
        import psycopg

        try:
            work(connection)
            connection.commit()
        except psycopg.Error as error:
            raise BookError(f"PostgreSQL: {str(error).strip()}") from None


def check_version(connection: Connection) -> None:
    """There is a warehouse of this version of its tables."""
    (found,) = connection.execute("SELECT to_regclass('outagebook.version')::text").fetchone() or (None,)
    if found is None:
        raise BookError("there is no warehouse in this database: outagebook-warehouse create makes one")
    versions = [version for version, in connection.execute("SELECT version FROM outagebook.version")]
    if versions != [VERSION]:
        told = ", ".join(map(str, versions)) or "none"
        raise BookError(
            f"the warehouse's tables are of version {told}, not {VERSION}: drop the schema outagebook, create it, and load"
            " all books again"
        )


# What a book has in the warehouse.


@dataclass(frozen=True)
class BookKey:
    """The period and the district of a book, and what tells whether its commands are the same."""

    period: PeriodKey
    district: str
    commands: int
    digest: str


def key_of(path: str) -> BookKey:
    """The key of a book in a file, read from a copy of it."""
    with copy_of(Path(path).resolve()) as copy:
        with closing(sqlite3.connect(f"{copy.as_uri()}?mode=ro", uri=True)) as database:
            try:
                return key_in(database, name_of(path))
            except sqlite3.Error as error:
                raise BookError(f"{path} is no book: {error}") from None


def key_in(database: sqlite3.Connection, district: str) -> BookKey:
    from datetime import date

    day0, days, zone = database.execute("SELECT day0, days, zone FROM meta").fetchone()
    digest, count = hashlib.sha256(), 0
    for ref, body in database.execute("SELECT ref, body FROM cmd ORDER BY id"):
        digest.update(f"{ref} {body}\n".encode())
        count += 1
    return BookKey(PeriodKey(date.fromisoformat(day0), days, zone), district, count, digest.hexdigest())


def add_step(steps: Steps, since: int, until: int, customers: int) -> None:
    steps[since] += customers
    steps[until] -= customers


def served_between(steps: Steps, bounds: Sequence[int]) -> list[int]:
    """The customer-seconds in service between each two bounds."""
    moments = sorted(steps)
    served, customers, place = [], 0, 0
    for since, until in zip(bounds, bounds[1:]):
        seconds, last = 0, since
        while place < len(moments) and moments[place] < until:
            moment = max(moments[place], since)
            seconds += customers * (moment - last)
            customers += steps[moments[place]]
            last, place = moment, place + 1
        served.append(seconds + customers * (until - last))
    return served


def month_bounds(book: Book) -> dict[str, tuple[int, int]]:
    """The seconds of each month's part of the period, by its first day."""
    bounds: dict[str, tuple[int, int]] = {}
    for number, day in enumerate(book.period.days):
        month = day.replace(day=1).isoformat()
        bounds[month] = bounds.get(month, (book.period.bounds[number], 0))[0], book.period.bounds[number + 1]
    return bounds


def counts_rows(found: Checked) -> Rows:
    for name in SETS:
        counts, seconds = found.counts[name], sum(each.customer_seconds for each in found.counted(name))
        yield name, counts.sustained, counts.sustained_seconds, counts.momentary, seconds, list(counts.with_some)


def day_rows(found: Checked) -> Rows:
    book, period = found.book, found.book.period
    steps: Steps = defaultdict(int)
    for block in book.blocks:
        add_step(steps, block.since, block.until, block.customers)
    unmarked = unmarked_seconds(found)
    for number, served in enumerate(served_between(steps, period.bounds)):
        seconds = period.bounds[number + 1] - period.bounds[number]
        amounts = book.postings[DAY, number], unmarked[number]
        yield period.days[number], seconds, *amounts, served, book.marks.get(number)


def served_day_rows(book: Book) -> Rows:
    by_feeder: dict[int, Steps] = {each.feeder: defaultdict(int) for each in book.sections.values()}
    for block in book.blocks:
        add_step(by_feeder[book.sections[block.section].feeder], block.since, block.until, block.customers)
    for feeder, steps in sorted(by_feeder.items()):
        for day, served in zip(book.period.days, served_between(steps, book.period.bounds)):
            yield feeder, day, served


def served_month_rows(book: Book) -> Rows:
    by_section: dict[int, Steps] = {section: defaultdict(int) for section in book.sections}
    for block in book.blocks:
        add_step(by_section[block.section], block.since, block.until, block.customers)
    months = month_bounds(book)
    bounds = [book.period.first, *(until for _, until in months.values())]
    for section, steps in by_section.items():
        for month, served in zip(months, served_between(steps, bounds)):
            yield section, month, served


def interruption_rows(found: Checked) -> Rows:
    book = found.book
    for number, each in enumerate(joined(found.interruptions), 1):
        cutter = each.cutter
        yield (
            number,
            each.section,
            each.cause,
            book.devices[cutter.device].name if cutter else None,
            each.since,
            each.until,
            book.period.days[book.period.day_of(each.since)],
            each.customers,
            book.is_marked(each.since),
        )


def rows_of(found: Checked) -> Iterator[tuple[str, Rows]]:
    """The rows of each table behind the period and the district, with the names of their columns."""
    book = found.book
    yield (
        'counts (period_id, district, "set", sustained, sustained_seconds, momentary, customer_seconds, with_some)',
        counts_rows(found),
    )
    yield (
        "cause (period_id, district, code, name, customer_seconds)",
        ((code, name, book.postings[CAUSE, code]) for code, name in book.causes.items()),
    )
    yield (
        "feeder (period_id, district, feeder, customer_seconds)",
        ((feeder, book.postings[FEEDER, feeder]) for feeder in sorted({s.feeder for s in book.sections.values()})),
    )
    yield (
        "section (period_id, district, section, name, feeder)",
        ((each.node, each.name, each.feeder) for each in book.sections.values()),
    )
    yield (
        "day (period_id, district, day, seconds, customer_seconds, unmarked_seconds, served_seconds, engineer)",
        day_rows(found),
    )
    yield "served_day (period_id, district, feeder, day, served_seconds)", served_day_rows(book)
    yield "served_month (period_id, district, section, month, served_seconds)", served_month_rows(book)
    yield (
        "interruption (period_id, district, number, section, cause, device, since, until, day, customers, marked)",
        interruption_rows(found),
    )


# Loading.


def period_id_of(dsn: str, period: PeriodKey, seconds: int) -> int:
    """The number of a period; one that is new gets it in a transaction of its own, so that loads needn't wait for it."""
    numbers: list[int] = []

    def work(connection: Connection) -> None:
        check_version(connection)
        words = (period.first, period.days, period.zone, seconds)
        connection.execute(
            "INSERT INTO outagebook.period (first_day, days, zone, seconds) VALUES (%s, %s, %s, %s)"
            " ON CONFLICT DO NOTHING",
            words,
        )
        found = connection.execute(
            "SELECT period_id FROM outagebook.period WHERE (first_day, days, zone, seconds) = (%s, %s, %s, %s)", words
        ).fetchone()
        if found is None:
            raise BookError(f"the warehouse has the period {period} with another length than {seconds} seconds")
        numbers.append(found[0])

    in_database(dsn, work)
    return numbers[0]


def is_loaded(connection: Connection, key: BookKey) -> bool:
    """The warehouse has the book with these commands."""
    found = connection.execute(
        "SELECT b.commands, b.digest FROM outagebook.book AS b JOIN outagebook.period AS p USING (period_id)"
        " WHERE (p.first_day, p.days, p.zone, b.district) = (%s, %s, %s, %s)",
        (key.period.first, key.period.days, key.period.zone, key.district),
    ).fetchone()
    return found == (key.commands, key.digest)


def lock_book(connection: Connection, key: BookKey) -> None:
    """Waits for other loads of the same book, until the transaction ends."""
    connection.execute(
        "SELECT pg_advisory_xact_lock(hashtextextended(%s, 0))", (f"outagebook {key.period} {key.district}",)
    )


def write_book(connection: Connection, period_id: int, key: BookKey, found: Checked) -> None:
    """All rows of a book, in place of those that the warehouse had."""
    connection.execute("DELETE FROM outagebook.book WHERE (period_id, district) = (%s, %s)", (period_id, key.district))
    total = sum(found.book.postings[CAUSE, code] for code in found.book.causes)
    connection.execute(
        "INSERT INTO outagebook.book (period_id, district, commands, digest, served_seconds, customer_seconds)"
        " VALUES (%s, %s, %s, %s, %s, %s)",
        (period_id, key.district, key.commands, key.digest, found.whole["all"].served, total),
    )
    with connection.cursor() as cursor:
        for table, rows in rows_of(found):
            with cursor.copy(f"COPY outagebook.{table} FROM STDIN".encode()) as copy:
                for row in rows:
                    copy.write_row((period_id, key.district, *row))


def load_book(path: str, table: str | None, program: str, dsn: str) -> str:
    """Loads a book where the warehouse hasn't its commands: what was done, in words."""
    key = key_of(path)
    with connected(dsn) as connection:
        check_version(connection)
        if is_loaded(connection, key):
            return f"{key.district}: unchanged, {key.commands} commands"
    with open_book(path, table, program) as found:
        key = key_in(found.database, key.district)
        period_id = period_id_of(dsn, key.period, found.book.period.length)
        said: list[str] = []

        def work(connection: Connection) -> None:
            lock_book(connection, key)
            if is_loaded(connection, key):
                said.append(f"{key.district}: unchanged, {key.commands} commands")
                return
            write_book(connection, period_id, key, found)
            compare_views(connection, key, found)
            said.append(
                f"{key.district}: loaded, {key.commands} commands, {sum(1 for _ in joined(found.interruptions))} interruptions"
            )

        in_database(dsn, work)
    return said[0]


# Comparing.


INDEX_COLUMNS = {"SAIFI": "saifi", "SAIDI": "saidi", "CAIDI": "caidi", "CAIFI": "caifi", "ASAI": "asai"}


def said_by_views(connection: Connection, key: BookKey) -> dict[str, str]:
    """What the views say of a book, by the lines of its annual table."""
    words = (key.period.first, key.period.days, key.period.zone, key.district)
    figures: dict[str, str] = {}
    rows = connection.execute(
        'SELECT "set", sustained, momentary, saifi, saifi_3, saidi, saidi_3, caidi, caidi_3, caifi, caifi_3, asai, asai_3,'
        " cemi, cemi_3 FROM outagebook.district WHERE (first_day, days, zone, district) = (%s, %s, %s, %s)",
        words,
    ).fetchall()
    for name, sustained, momentary, *pairs, cemi, cemi_3 in rows:
        values = dict(zip(INDEX_COLUMNS, zip(pairs[::2], pairs[1::2])))
        values |= {f"CEMI-{n}": pair for n, pair in enumerate(zip(cemi, cemi_3), 1)}
        figures |= {f"{index} {name}": index_text(*pair) for index, pair in values.items()}
        figures |= {f"SUSTAINED {name}": str(sustained), f"MOMENTARY {name}": str(momentary)}
    return figures


def index_text(fraction: str, decimals: object) -> str:
    """An index as the annual table has it."""
    return fraction if decimals is None else f"{fraction} {decimals}"


def sums_of_rows(connection: Connection, key: BookKey) -> dict[str, str]:
    """Sums of a book's rows by other ways than its counts."""
    rows = connection.execute(
        """
        WITH b AS (
            SELECT b.* FROM outagebook.book AS b JOIN outagebook.period AS p USING (period_id)
            WHERE (p.first_day, p.days, p.zone, b.district) = (%s, %s, %s, %s)
        ), i AS (SELECT i.* FROM outagebook.interruption AS i JOIN b USING (period_id, district))
        SELECT 'W of interruptions', coalesce(sum(customers * seconds), 0) FROM i
        UNION ALL SELECT 'W of causes', coalesce(sum(c.customer_seconds), 0)
            FROM outagebook.cause AS c JOIN b USING (period_id, district)
        UNION ALL SELECT 'W of feeders', coalesce(sum(f.customer_seconds), 0)
            FROM outagebook.feeder AS f JOIN b USING (period_id, district)
        UNION ALL SELECT 'W of days', coalesce(sum(d.customer_seconds), 0)
            FROM outagebook.day AS d JOIN b USING (period_id, district)
        UNION ALL SELECT 'W of ' || c."set", c.customer_seconds
            FROM outagebook.counts AS c JOIN b USING (period_id, district)
        UNION ALL SELECT 'W of unmarked interruptions', coalesce(sum(customers * seconds) FILTER (WHERE NOT marked), 0) FROM i
        UNION ALL SELECT 'W of unmarked days', coalesce(sum(d.unmarked_seconds), 0)
            FROM outagebook.day AS d JOIN b USING (period_id, district)
        UNION ALL SELECT 'S of days', coalesce(sum(d.served_seconds), 0)
            FROM outagebook.day AS d JOIN b USING (period_id, district)
        UNION ALL SELECT 'S of feeders', coalesce(sum(d.served_seconds), 0)
            FROM outagebook.served_day AS d JOIN b USING (period_id, district)
        UNION ALL SELECT 'S of sections', coalesce(sum(m.served_seconds), 0)
            FROM outagebook.served_month AS m JOIN b USING (period_id, district)
        UNION ALL SELECT 'CI of interruptions', coalesce(sum(customers) FILTER (WHERE sustained), 0) FROM i
        UNION ALL SELECT 'CSI of interruptions', coalesce(sum(customers * seconds) FILTER (WHERE sustained), 0) FROM i
        UNION ALL SELECT 'MI of interruptions', coalesce(sum(customers) FILTER (WHERE NOT sustained), 0) FROM i
        """,
        (key.period.first, key.period.days, key.period.zone, key.district),
    ).fetchall()
    return {which: str(value) for which, value in rows}


def compare_views(connection: Connection, key: BookKey, found: Checked) -> None:
    """What the views and the rows say of a book is what its program's table says."""
    table = {which: text for which, text in figures_of_table(found.table).items() if which.split()[-1] in SETS}
    total = sum(found.book.postings[CAUSE, code] for code in found.book.causes)
    counts = found.counts["all"]
    unmarked = sum(each.customer_seconds for each in found.counted("unmarked"))
    wanted = {f"W of {part}": str(total) for part in ("interruptions", "causes", "feeders", "days", "all")}
    wanted |= {f"W of {part}": str(unmarked) for part in ("unmarked", "unmarked interruptions", "unmarked days")}
    wanted |= {f"S of {part}": str(found.whole["all"].served) for part in ("days", "feeders", "sections")}
    wanted |= {
        "CI of interruptions": str(counts.sustained),
        "CSI of interruptions": str(counts.sustained_seconds),
        "MI of interruptions": str(counts.momentary),
    }
    for said, program in ((said_by_views(connection, key), table), (sums_of_rows(connection, key), wanted)):
        for which in {**said, **program}:
            if said.get(which) != program.get(which):
                raise Differs(f"{which} in the warehouse", said.get(which, "nothing"), program.get(which, "nothing"))


def compare_book(path: str, table: str | None, program: str, dsn: str) -> str:
    """Compares a book with what the warehouse has of it, without loading: in words."""
    with open_book(path, table, program) as found, connected(dsn) as connection:
        check_version(connection)
        key = key_in(found.database, name_of(path))
        if not is_loaded(connection, key):
            raise BookError(f"the warehouse hasn't the {key.commands} commands of {key.district}: load it")
        compare_views(connection, key, found)
    return f"{key.district}: equal, {key.commands} commands"


# The other jobs.


def create(dsn: str, reader: str | None) -> None:
    """Makes the tables and views, and lets a role read them."""

    def work(connection: Connection) -> None:
        from psycopg import sql

        connection.execute(TABLES.read_bytes())
        if reader is None:
            return
        role = sql.Identifier(reader)
        known = connection.execute("SELECT 1 FROM pg_roles WHERE rolname = %s", (reader,)).fetchone()
        if known is None:
            connection.execute(sql.SQL("CREATE ROLE {} NOLOGIN").format(role))
        connection.execute(sql.SQL("GRANT USAGE ON SCHEMA outagebook TO {}").format(role))
        connection.execute(sql.SQL("GRANT SELECT ON ALL TABLES IN SCHEMA outagebook TO {}").format(role))

    in_database(dsn, work)
    print("created" if reader is None else f"created, {reader} reads")


def list_books(dsn: str) -> None:
    """A line for each book."""

    def work(connection: Connection) -> None:
        check_version(connection)
        rows = connection.execute(
            "SELECT p.first_day, p.days, p.zone, b.district, b.commands FROM outagebook.book AS b"
            " JOIN outagebook.period AS p USING (period_id) ORDER BY p.first_day, p.days, p.zone, b.district"
        ).fetchall()
        for first, days, zone, district, commands in rows:
            print(f"{first} days {days} zone {zone} {district} {commands} commands")

    in_database(dsn, work)


def drop(dsn: str, district: str, first: str) -> None:
    """Takes the books of a district that begin with a day out of the warehouse."""

    def work(connection: Connection) -> None:
        check_version(connection)
        dropped = connection.execute(
            "DELETE FROM outagebook.book USING outagebook.period AS p"
            " WHERE book.period_id = p.period_id AND p.first_day = %s AND district = %s",
            (first, district),
        ).rowcount
        if not dropped:
            raise BookError(f"the warehouse has no book of {district} from {first}")

    in_database(dsn, work)
    print(f"dropped {district} from {first}")


def each_book(work: Callable[..., str], parser: Parser, args: Any) -> None:
    """Loads or compares books, side by side; what was done to each is printed in their order."""
    tables = tables_given(parser, args.books, args.table)
    work_there = partial(work, dsn=args.dsn)
    for line in over_books(work_there, args.books, tables, args.program, args.processes, args.cluster):
        print(line)


def arguments() -> tuple[Parser, Any]:
    parser = Parser(description="Copies compared books into PostgreSQL, for reading.")
    jobs = parser.add_subparsers(metavar="JOB", required=True, parser_class=Parser)

    def job(name: str, text: str) -> Parser:
        one: Parser = jobs.add_parser(name, help=text, description=text)
        one.add_argument("--dsn", default="", help="where the database is, in libpq's form")
        one.set_defaults(job=name)
        return one

    job("create", "makes the tables and views").add_argument("--reader", metavar="ROLE", help="a role that only reads")
    for name, text in (("load", "loads books that changed"), ("compare", "compares books with the warehouse")):
        one = job(name, text)
        one.add_argument("books", nargs="+", metavar="BOOK", help="the books' files; a file's name is its district's")
        add_spread_arguments(one)
        one.add_argument("--table", action="append", metavar="FILE", default=[], help="the books' annual tables")
        one.add_argument("--program", metavar="PATH", default="outagebook", help="what prints the tables")
    job("list", "lists the books")
    dropping = job("drop", "takes a district's book out")
    dropping.add_argument("district", help="the district")
    dropping.add_argument("--first", required=True, metavar="DAY", help="the first day of the book's period")
    return parser, parser.parse_args()


def main() -> int:
    parser, args = arguments()
    jobs: dict[str, Callable[[], None]] = {
        "create": lambda: create(args.dsn, args.reader),
        "load": lambda: each_book(load_book, parser, args),
        "compare": lambda: each_book(compare_book, parser, args),
        "list": lambda: list_books(args.dsn),
        "drop": lambda: drop(args.dsn, args.district, args.first),
    }
    return run_job(jobs[args.job])


if __name__ == "__main__":
    sys.exit(main())
