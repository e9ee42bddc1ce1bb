"""The warehouse in a real PostgreSQL: what its views say is what the tools say; loads that are cut off, or meet."""

import os
import signal
import subprocess
import sys
import time
import unittest
from collections import defaultdict
from contextlib import ExitStack
from datetime import date
from fractions import Fraction
from pathlib import Path
from typing import Any


from outage_tools import figures
from outage_tools.counts import SETS, decimal_text, fraction_text, quotient
from outage_tools.sums import PeriodKey, Sums, add_up, district_of
from tests import many_books, own_postgres
from tests.many_books import books_of, district_rows, opened, parts_of, run, table_of, with_tables
from tests.support import TOOLS

SEEDS = range(1, 13)  # whose parts are loaded; other seeds have the same periods, so districts add up
server = ExitStack()
environment: dict[str, str] = {}


def setUpModule() -> None:
    reason = own_postgres.missing()
    if reason is not None:
        raise unittest.SkipTest(reason)
    environment.update(server.enter_context(own_postgres.server()))


def tearDownModule() -> None:
    server.close()


def database(name: str) -> dict[str, str]:
    """A new database of the server."""
    execute(environment, f"CREATE DATABASE {name}", autocommit=True)
    return {**environment, "PGDATABASE": name}


def connect(where: dict[str, str], autocommit: bool = False) -> Any:
    import psycopg

    return psycopg.connect(
        host=where["PGHOST"], user=where["PGUSER"], dbname=where["PGDATABASE"], autocommit=autocommit
    )


def execute(where: dict[str, str], statement: str, autocommit: bool = False) -> list[tuple[Any, ...]]:
    """The rows of a statement in a connection of its own."""
    with connect(where, autocommit) as connection:
        cursor = connection.execute(statement)
        return list(cursor) if cursor.description else []


def rows_by_name(where: dict[str, str], statement: str) -> list[dict[str, Any]]:
    with connect(where) as connection:
        cursor = connection.execute(statement)
        names = [column.name for column in cursor.description]
        return [dict(zip(names, row)) for row in cursor]


def warehouse(where: dict[str, str], *words: object) -> "subprocess.CompletedProcess[str]":
    return run("warehouse", *words, **where)


class Views(unittest.TestCase):
    """What every view says is what the tools say of the same books."""

    where: dict[str, str] = {}
    books: list[Path] = []

    @classmethod
    def setUpClass(cls) -> None:
        cls.where = database("views")
        books = [book for seed in SEEDS for book in parts_of(many_books.cut_networks(), seed)]
        cls.books = books
        done = [warehouse(cls.where, "create"), warehouse(cls.where, "load", *with_tables(books))]
        if [each.returncode for each in done] != [0, 0]:
            raise AssertionError(done)

    def view(self, name: str, **conditions: object) -> list[dict[str, Any]]:
        """The rows of a view, with words that a fraction and its decimals make together."""
        where = " AND ".join([f"{column} = '{value}'" for column, value in conditions.items()] or ["true"])
        return rows_by_name(self.where, f"SELECT * FROM outagebook.{name} WHERE {where}")

    def by_period(self) -> dict[PeriodKey, Sums]:
        found: dict[PeriodKey, list[Any]] = defaultdict(list)
        for book in self.books:
            district = district_of(str(book), opened(book))
            found[district.period].append(district)
        return {period: add_up(districts, own_numbers=True) for period, districts in found.items()}

    def assert_indices(self, row: dict[str, Any], shown: dict[str, Any]) -> None:
        """SAIFI, SAIDI and CAIDI with their decimals, and the counts, are those of a row of figures."""
        for name in ("sustained", "momentary", "saifi", "saifi_3", "saidi", "saidi_3", "caidi", "caidi_3"):
            value = "" if row[name] is None else str(row[name])
            self.assertEqual(value, str(shown[name]), (name, row, shown))
        self.assertEqual(row["sustained_seconds"], shown["sustained_customer_seconds"])

    def shown(self, book: Path, name: str) -> list[dict[str, Any]]:
        found = figures.FIGURES[name](opened(book))
        return [dict(zip(found.columns, row)) for row in found.rows]

    def book_of(self, district: str) -> Path:
        return next(book for book in self.books if book.stem == district)

    def seconds_of(self, sums: Sums, name: str, since: int = 0, cause: str | None = None) -> int:
        """The customer-seconds of a set's interruptions that lie in the days from `since` on, of one cause or of all."""
        total = 0
        for each in sums.districts:
            found = opened(self.book_of(each.name))
            begin = found.book.period.bounds[since]
            for one in found.counted(name):
                if cause in (None, found.book.causes[one.cause]):
                    total += one.customers * max(0, one.until - max(one.since, begin))
        return total

    def test_districts_and_company(self) -> None:
        districts = 0
        for period, sums in self.by_period().items():
            when = {"first_day": period.first, "days": period.days, "zone": period.zone}
            wholes = [(self.view("company", **when, set=name), sums, name) for name in ("all", "unmarked")]
            for each in sums.districts:
                districts += 1
                one = add_up([each])
                wholes += [
                    (self.view("district", **when, district=each.name, set=name), one, name) for name in one.counts
                ]
            for rows, expected, name in wholes:
                (row,) = rows
                for index, value in expected.indices(name).items():
                    here = row["cemi"][int(index[5:]) - 1] if index.startswith("CEMI") else row[index.lower()]
                    self.assertEqual(here, fraction_text(value), (index, row))
                self.assertEqual(row["customer_seconds"], self.seconds_of(expected, name))
                self.assertEqual(row["sustained"], expected.counts[name].sustained)
                self.assertEqual(row["momentary"], expected.counts[name].momentary)
        self.assertEqual(districts, len(self.books))

    def test_feeders_sections_and_months(self) -> None:
        seen = 0
        for book in self.books:
            for view, figure, key in (
                ("feeders", "feeders", "feeder"),
                ("sections", "sections", "section"),
                ("district_months", "months", "month"),
            ):
                rows = {(str(row[key])[:7], row["set"]) if key == "month" else (str(row[key]), row["set"]): row
                        for row in self.view(view, district=book.stem)}  # fmt: skip
                for shown in self.shown(book, figure):
                    row = rows.pop((str(shown[key]), str(shown["set"])))
                    self.assert_indices(row, shown)
                    self.assertEqual(row["customers_served"], shown["customers_served"])
                    self.assertEqual(row["customer_seconds"], shown["customer_seconds"], (view, row))
                    seen += 1
                self.assertEqual(rows, {})
        self.assertGreater(seen, 100)

    def test_causes_months_days_and_ranges_of_all_districts(self) -> None:
        for period, sums in self.by_period().items():
            when = {"first_day": period.first, "days": period.days, "zone": period.zone}
            for name in SETS:
                causes = {row["cause"]: row for row in self.view("causes", **when, set=name)}
                expected = {cause.name: self.seconds_of(sums, name, cause=cause.name) for cause in sums.causes}
                self.assertEqual({cause: row["customer_seconds"] for cause, row in causes.items()}, expected)
                if sums.served_seconds:
                    for index in ("SAIFI", "SAIDI"):
                        value = sum(Fraction(row[index.lower()]) for row in causes.values())
                        self.assertEqual(value, sums.indices(name)[index])
            causes = {row["cause"]: row for row in self.view("causes", **when, set="all")}
            amounts = {cause.name: cause.amount for cause in sums.causes}
            self.assertEqual(amounts, {name: row["customer_seconds"] for name, row in causes.items()})
            self.assert_months(period, sums)
            days = {row["day"]: row for row in self.view("days", **when)}
            for number, (amount, daily) in enumerate(zip(sums.days, sums.daily_saidi())):
                row = days.pop(period.day(number))
                self.assertEqual((row["customer_seconds"], row["daily_saidi"]), (amount, fraction_text(daily)))
                self.assertEqual(tuple(row["marked_in"]), tuple(sorted(sums.marked_in.get(number, ()))))
            self.assertEqual(days, {})
            for name in ("all", "unmarked"):
                whole = self.between(period, period.first, period.last, name)
                self.assertEqual(whole["saidi"], fraction_text(sums.indices(name)["SAIDI"]))
                self.assertEqual(whole["saifi"], fraction_text(sums.indices(name)["SAIFI"]))
            self.assert_ranges(period, sums)

    def between(self, period: PeriodKey, since: date, until: date, name: str) -> dict[str, Any]:
        rows = rows_by_name(self.where, f"SELECT * FROM outagebook.between('{since}', '{until}')")
        key = period.first, period.days, period.zone, since, until, name
        names = ("first_day", "days", "zone", "since", "until", "set")
        (row,) = [each for each in rows if tuple(each[name] for name in names) == key]
        return row

    def assert_months(self, period: PeriodKey, sums: Sums) -> None:
        """The months of all districts are those that the tools have of each, added up."""
        shown = [row for each in sums.districts for row in self.shown(self.book_of(each.name), "months")]
        when = {"first_day": period.first, "days": period.days, "zone": period.zone}
        for row in self.view("months", **when):
            parts = [one for one in shown if (one["month"], one["set"]) == (f"{row['month']:%Y-%m}", row["set"])]
            self.assertEqual(row["districts"], len(parts))
            added = {"customer_seconds": "customer_seconds", "sustained": "sustained", "momentary": "momentary"}
            added["sustained_seconds"] = "sustained_customer_seconds"
            for here, there in added.items():
                self.assertEqual(row[here], sum(one[there] for one in parts), here)
            served = sum((Fraction(one["customers_served"]) for one in parts), Fraction(0))
            self.assertEqual(row["customers_served"], fraction_text(served))
            saidi = Fraction(int(row["sustained_seconds"])) / 60 / served if served else None
            self.assertEqual(row["saidi"], fraction_text(saidi))

    def assert_ranges(self, period: PeriodKey, sums: Sums) -> None:
        """A part of the days, against a plain count over the books' interruptions and services."""
        books = [opened(self.book_of(each.name)) for each in sums.districts]
        for first in range(period.days):
            bounds = books[0].book.period
            begin, end = bounds.bounds[first], bounds.end
            length = end - begin
            served = sum(block.seconds(begin, end) for found in books for block in found.book.blocks)
            for name in SETS:
                of_set = [each for found in books for each in found.counted(name) if each.since >= begin]
                sustained = [each for each in of_set if each.is_sustained]
                seconds = sum(each.customer_seconds for each in sustained)
                row = self.between(period, period.day(first), period.last, name)
                self.assertEqual(row["customer_seconds"], self.seconds_of(sums, name, first))
                self.assertEqual((row["seconds"], row["districts"]), (length, len(books)))
                self.assertEqual(row["sustained"], sum(each.customers for each in sustained))
                self.assertEqual(row["momentary"], sum(each.customers for each in of_set if not each.is_sustained))
                self.assertEqual(row["saidi"], fraction_text(quotient(seconds * length, 60 * served)))
                self.assertEqual(row["customers_served"], fraction_text(quotient(served, length)))

    def test_compare_says_equal(self) -> None:
        done = warehouse(self.where, "compare", *with_tables(self.books[:2]))
        self.assertEqual((done.returncode, done.stderr), (0, ""))
        self.assertEqual(done.stdout.count(": equal, "), 2)


MARK = "mark,M1,2025-03-31,ENG,,,,"


class OverAMonthsEnd(unittest.TestCase):
    """Two hours before a month's end to an hour behind it, in two districts, one of which marks the day: the seconds of the
    unmarked set lie in both months, those of one district alone, in views as in the tools."""

    def rows(self, prefix: str, customer: int) -> list[str]:
        rows = [row for row in district_rows(prefix, customer) if not row.startswith("switch")]
        rows.append(f"switch,E1,{prefix}-B1,open,2025-03-31T22:00:00+02:00,3,CREW,")
        return [*rows, f"switch,E2,{prefix}-B1,close,2025-04-01T01:00:00+02:00,3,CREW,"]

    def test_by_hand_and_as_the_tools(self) -> None:
        where = database("months_end")
        books = books_of("months-end", {"north": self.rows("N", 1), "south": [*self.rows("S", 11), MARK]})
        warehouse(where, "create")
        self.assertEqual(warehouse(where, "load", *with_tables(books.values())).stderr, "")
        query = 'SELECT {}, "set", customer_seconds, sustained FROM outagebook.{} ORDER BY 1, 2'
        march, april = date(2025, 3, 1), date(2025, 4, 1)
        self.assertEqual(
            execute(where, query.format("month", "months")),
            [(march, "all", 43_200, 6), (march, "unmarked", 21_600, 3), (april, "all", 21_600, 0)]
            + [(april, "unmarked", 10_800, 0)],
        )
        whole = [("all", 64_800, 6), ("unmarked", 32_400, 3)]
        self.assertEqual(execute(where, query.format(1, "company")), [(1, *row) for row in whole])
        self.assertEqual(
            execute(where, query.format("district", "district")),
            [("north", "all", 32_400, 3), ("north", "unmarked", 32_400, 3)]
            + [("south", "all", 32_400, 3), ("south", "unmarked", 0, 0)],
        )
        april_alone = query.format(1, "between('2025-04-01', '2025-04-06')")
        self.assertEqual(execute(where, april_alone), [(1, "all", 21_600, 0), (1, "unmarked", 10_800, 0)])
        self.assertEqual(execute(where, query.format("cause", "causes"))[:2], [("STORM", *row) for row in whole])
        for name, book in books.items():
            shown = figures.months(opened(book))
            by_tool = [(row[0], row[1], row[2]) for row in shown.rows]
            here = execute(where, 'SELECT month, "set", customer_seconds FROM outagebook.district_months'
                           f" WHERE district = '{name}' ORDER BY 1, 2")  # fmt: skip
            self.assertEqual([(f"{month:%Y-%m}", each, seconds) for month, each, seconds in here], by_tool)


class Fractions(unittest.TestCase):
    def test_fractions_are_in_lowest_terms_and_exact(self) -> None:
        where = database("fractions")
        warehouse(where, "create")
        cases = [
            (0, 0),
            (0, 7),
            (6, 4),
            (10**30, 3 * 10**29),
            (2**70, 2**68 * 3),
            (1, 2_000),
            (1, 2_001),
            (7, 1),
        ]
        for numerator, denominator in cases:
            ((fraction, decimals),) = execute(
                where,
                f"SELECT outagebook.fraction({numerator}, {denominator}), outagebook.decimals({numerator}, {denominator})",
            )
            value = quotient(numerator, denominator)
            self.assertEqual(fraction, fraction_text(value))
            self.assertEqual("" if decimals is None else str(decimals), decimal_text(value))


class Loading(unittest.TestCase):
    """Loads of a book that changes, that is cut off, that meets another."""

    books: dict[str, Path] = {}
    later = Path()
    where: dict[str, str] = {}

    @classmethod
    def setUpClass(cls) -> None:
        north = district_rows("N", 1)
        cls.books = books_of("loaded-first", {"north": north, "south": district_rows("S", 11)})
        more = [*north, "mark,M1,2025-03-25,ENG,,,,", "connect,K4,4,N-S1,0,,,"]
        cls.later = books_of("loaded-later", {"north": more})["north"]

    def setUp(self) -> None:
        self.where = database(f"loading_{self._testMethodName}")
        self.assertEqual(warehouse(self.where, "create").stdout, "created\n")

    def load(self, *books: Path) -> str:
        done = warehouse(self.where, "load", *with_tables(books))
        self.assertEqual((done.returncode, done.stderr), (0, ""))
        return done.stdout

    def sizes(self) -> dict[str, int]:
        """How many rows each table has."""
        names = ["book", "counts", "cause", "feeder", "section", "day", "served_day", "served_month", "interruption"]
        return {name: execute(self.where, f"SELECT count(*) FROM outagebook.{name}")[0][0] for name in names}

    def test_loaded_unchanged_anew_and_dropped(self) -> None:
        self.assertEqual(self.load(self.books["north"]), "north: loaded, 14 commands, 3 interruptions\n")
        sizes = self.sizes()
        loaded = execute(self.where, "SELECT loaded FROM outagebook.book")
        self.assertEqual(self.load(self.books["north"]), "north: unchanged, 14 commands\n")
        self.assertEqual(execute(self.where, "SELECT loaded FROM outagebook.book"), loaded)
        self.assertEqual(self.load(self.later), "north: loaded, 16 commands, 3 interruptions\n")
        self.assertEqual(self.sizes(), sizes)
        self.assertEqual(
            execute(self.where, 'SELECT "set", sustained FROM outagebook.company ORDER BY 1'),
            [("all", 4), ("unmarked", 0)],
        )
        behind = warehouse(self.where, "compare", *with_tables([self.books["north"]]))
        self.assertEqual(behind.returncode, 1)
        self.assertIn("load it", behind.stderr)
        self.load(self.books["south"])
        listed = warehouse(self.where, "list").stdout.splitlines()
        self.assertEqual(
            [line.split()[5:] for line in listed], [["north", "16", "commands"], ["south", "14", "commands"]]
        )
        self.assertEqual(warehouse(self.where, "drop", "north", "--first", "2025-03-24").returncode, 0)
        self.assertEqual(self.sizes(), sizes)
        again = warehouse(self.where, "drop", "north", "--first", "2025-03-24")
        self.assertEqual(again.returncode, 1)
        self.assertIn("no book of north", again.stderr)

    def test_other_commands_of_equal_number_are_loaded_anew(self) -> None:
        self.load(self.books["north"])
        rows = [row.replace("STORM", "WIND") for row in district_rows("N", 1)]
        other = books_of("loaded-other", {"north": rows})["north"]
        self.assertIn("loaded, 14 commands", self.load(other))
        self.assertEqual(execute(self.where, "SELECT name FROM outagebook.cause WHERE code = 3"), [("WIND",)])

    def test_a_table_that_differs_loads_nothing(self) -> None:
        wrong = many_books.folder() / "warehouse-wrong.txt"
        wrong.write_text(
            table_of(self.books["north"]).read_text().replace("SUSTAINED all      3", "SUSTAINED all      4")
        )
        done = warehouse(self.where, "load", self.books["north"], "--table", wrong)
        self.assertEqual((done.returncode, done.stdout), (2, ""))
        self.assertEqual(self.sizes()["book"], 0)

    def test_a_view_that_differs_undoes_the_load(self) -> None:
        """A warehouse whose rows are changed on their way in: the comparison sees it, and nothing stays."""
        execute(
            self.where,
            "CREATE FUNCTION spoil() RETURNS trigger LANGUAGE plpgsql AS"
            " $$ BEGIN NEW.customers := NEW.customers + 1; RETURN NEW; END $$;"
            " CREATE TRIGGER spoil BEFORE INSERT ON outagebook.interruption FOR EACH ROW EXECUTE FUNCTION spoil()",
        )
        done = warehouse(self.where, "load", *with_tables([self.books["north"]]))
        self.assertEqual((done.returncode, done.stdout), (2, ""))
        self.assertIn("of interruptions in the warehouse", done.stderr)
        self.assertEqual(set(self.sizes().values()), {0})

    def begin(self, *books: Path) -> "subprocess.Popen[str]":
        """A load that goes on beside the test."""
        command = [sys.executable, str(TOOLS / "warehouse.py"), "load", *with_tables(books), "--processes", "1"]
        return subprocess.Popen(
            command,
            stdout=subprocess.PIPE,
            stderr=subprocess.PIPE,
            text=True,
            env={**os.environ, **self.where},
        )

    def wait_until_blocked(self, count: int = 1) -> None:
        """Waits until so many sessions wait for a lock."""
        end = time.monotonic() + 60
        while time.monotonic() < end:
            rows = execute(self.where, "SELECT count(*) FROM pg_stat_activity WHERE wait_event_type = 'Lock'"
                           " AND datname = current_database()")  # fmt: skip
            if rows[0][0] >= count:
                return
            time.sleep(0.05)
        self.fail("no load waits")

    def test_a_load_that_is_killed_leaves_nothing_half_there(self) -> None:
        for is_first in (True, False):
            before = self.sizes()
            with connect(self.where) as holder:
                holder.execute(
                    "LOCK TABLE outagebook.served_month IN ACCESS EXCLUSIVE MODE"
                )  # the load gets as far as this
                child = self.begin(self.books["north"] if is_first else self.later)
                self.wait_until_blocked()
                child.send_signal(signal.SIGKILL)
                child.communicate()
                holder.rollback()
            self.wait_for_end()
            self.assertEqual(self.sizes(), before)
            self.load(self.books["north"])
        self.assertEqual(execute(self.where, "SELECT commands FROM outagebook.book"), [(14,)])

    def wait_for_end(self) -> None:
        """Waits until the sessions of others have ended."""
        end = time.monotonic() + 60
        others = "SELECT count(*) FROM pg_stat_activity WHERE datname = current_database() AND pid <> pg_backend_pid()"
        while execute(self.where, others)[0][0]:
            self.assertLess(time.monotonic(), end)
            time.sleep(0.05)

    def test_two_loads_of_one_book_at_once(self) -> None:
        with connect(self.where) as holder:
            holder.execute("LOCK TABLE outagebook.served_month IN ACCESS EXCLUSIVE MODE")
            children = [self.begin(self.books["north"]), self.begin(self.books["north"])]
            self.wait_until_blocked(2)
            holder.rollback()
        said = sorted(child.communicate()[0] for child in children)
        self.assertEqual(said, ["north: loaded, 14 commands, 3 interruptions\n", "north: unchanged, 14 commands\n"])
        self.assertEqual(self.sizes()["interruption"], 3)

    def test_two_books_at_once(self) -> None:
        children = [self.begin(self.books["north"]), self.begin(self.books["south"])]
        for child in children:
            self.assertIn("loaded", child.communicate()[0])
        self.assertEqual(execute(self.where, "SELECT count(*) FROM outagebook.period"), [(1,)])
        self.assertEqual(self.sizes()["book"], 2)


class Partitions(unittest.TestCase):
    def test_a_warehouse_whose_interruptions_are_partitioned_by_period(self) -> None:
        """The tables of docs/operate/WAREHOUSE.md, "Growing": views and loads don't notice."""
        where = database("partitions")
        text = (TOOLS / "outage_tools" / "warehouse.sql").read_text()
        head, mark, rest = text.partition("CREATE TABLE outagebook.interruption (")
        body, _, tail = rest.partition("\n);\n")
        parted = f"{head}{mark}{body}\n) PARTITION BY LIST (period_id);\n"
        parted += "CREATE TABLE outagebook.interruption_1 PARTITION OF outagebook.interruption FOR VALUES IN (1);\n"
        execute(where, parted + tail)
        book = books_of("partitioned", {"north": district_rows("N", 1)})["north"]
        self.assertEqual(warehouse(where, "load", *with_tables([book])).stderr, "")
        self.assertEqual(execute(where, "SELECT count(*) FROM outagebook.interruption_1"), [(3,)])
        self.assertEqual(warehouse(where, "compare", *with_tables([book])).returncode, 0)
        self.assertEqual(warehouse(where, "drop", "north", "--first", "2025-03-24").returncode, 0)
        self.assertEqual(execute(where, "SELECT count(*) FROM outagebook.interruption"), [(0,)])


class Roles(unittest.TestCase):
    def test_a_reader_only_reads(self) -> None:
        import psycopg

        where = database("roles")
        done = warehouse(where, "create", "--reader", "clerk")
        self.assertEqual(done.stdout, "created, clerk reads\n")
        with connect(where) as connection:
            connection.execute("SET ROLE clerk")
            connection.execute("SELECT * FROM outagebook.company")
            connection.execute("SELECT * FROM outagebook.between('2025-01-01', '2025-12-31')")
            for statement in (
                "DELETE FROM outagebook.book",
                "INSERT INTO outagebook.version VALUES (2)",
                "CREATE TABLE outagebook.x ()",
            ):
                with self.assertRaises(psycopg.errors.InsufficientPrivilege), connection.transaction():
                    connection.execute(statement)

    def test_no_warehouse_another_version_or_no_server(self) -> None:
        where = database("none")
        done = warehouse(where, "list")
        self.assertEqual(done.returncode, 1)
        self.assertIn("there is no warehouse", done.stderr)
        warehouse(where, "create")
        self.assertEqual(warehouse(where, "create").returncode, 1)
        execute(where, "UPDATE outagebook.version SET version = 9", autocommit=True)
        self.assertIn("the warehouse's tables are of version 9, not 2: ", warehouse(where, "list").stderr)
        done = warehouse({**where, "PGHOST": "/nowhere"}, "list")
        self.assertEqual(done.returncode, 1)
        self.assertIn("can't be reached", done.stderr)


if __name__ == "__main__":
    unittest.main()
