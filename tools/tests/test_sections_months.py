"""A year of monthly exports of a network that changes: each goes into the book by one command, and the figures are those of the raw
edges of each second, customer by customer."""

import hashlib
import os
import re
import shutil
import unittest
from collections.abc import Mapping
from fractions import Fraction
from functools import lru_cache
from pathlib import Path

from outage_tools.compare import Checked, figures_of_table, open_book
from outage_tools.counts import Counts
from tests import exports, support
from tests.counted_months import Count, Figures, causes_text, count_of, services_of
from tests.made_grid import DAY, FIRST, PERIOD, moment
from tests.made_months import CAUSES, MONTHS, Year, made_year, meter_of
from tests.network_runs import Cut, rows_of, run
from tests.test_sections_changed import kept, rows_by
from tests.test_sections_made import WORDS, by_customer

PROGRAM = str(support.PROGRAM) if support.has_program() else "outagebook"
SIZE_BY_KEYS = (2, 2, 3, 6, 4)
SIZE = (1, 2, 3, 20, 12) if support.has_program() else (1, 2, 3, 6, 4)
SPANS = 32 if os.environ.get("OUTAGEBOOK_LONG") else 1  # of each line: with 32 there are 20,000 edges


@lru_cache(maxsize=None)
def made() -> Year:
    return made_year(*SIZE, SPANS)


def texts_of(year: Year, month: int, has_keys: bool = False) -> dict[str, list[str]]:
    """The exports of a month's end; of month 0, the network of the year's first second."""
    return {
        "edges": list(year.edge_lines(month)),
        "customers": list(year.keyed_lines(month) if has_keys else year.customer_lines(month)),
        "oms": list(year.oms_lines(month)),
    }


def words_of(year: Year, texts: Mapping[str, list[str]]) -> list[object]:
    files = [
        word
        for name, lines in texts.items()
        for word in (f"--{name}", support.written(f"months-{name}.csv", "".join(f"{line}\n" for line in lines)))
    ]
    return [*files, *(word for source in year.grid.sources for word in ("--source", source)), *WORDS]


class Monthly:
    """A book, and the folders of the runs that went in."""

    def __init__(self, name: str, year: Year, has_keys: bool = False) -> None:
        self.name, self.year, self.has_keys = name, year, has_keys
        self.book = support.folder() / f"{name}.db"
        self.causes = support.written("months-causes.csv", causes_text())

    def begin(self) -> None:
        """A book of the network as it was when the year began."""
        for old in support.folder().glob(f"{self.name}.*"):
            old.unlink()
        first = {name: lines for name, lines in texts_of(self.year, 0, self.has_keys).items() if name != "oms"}
        folder = kept(f"{self.name}-0", run(*words_of(self.year, first)))
        period = ("--first", PERIOD[0], "--days", PERIOD[1], "--zone", PERIOD[2])
        keys = ("--keys", self.book.with_suffix(".keys.csv")) if self.has_keys else ()
        rows = rows_by(folder, *period, *keys)
        if rows.status:
            raise AssertionError(rows.err)
        exports.program_at(PROGRAM, "init", "--book", self.book, *period)
        text = support.written(f"{self.name}-rows.csv", rows.out)
        exports.program_at(PROGRAM, "import", "--book", self.book, text)

    def files(self) -> list[Path]:
        return sorted(path for path in support.folder().glob(f"{self.name}.*") if not path.name.endswith("-shm"))

    def copy(self, name: str) -> "Monthly":
        """The same book once more, with the same folders."""
        for old in support.folder().glob(f"{name}.*"):
            old.unlink()
        for file in self.files():
            shutil.copyfile(file, file.with_name(file.name.replace(self.name, name)))
        return Monthly(name, self.year)

    def folder(self, month: int) -> Path:
        return support.folder() / f"{YEARS[self.has_keys]}-{month}"

    def run(self, month: int, texts: Mapping[str, list[str]] | None = None, earlier: int | None = None) -> Cut:
        """The one command with which a month's exports go in."""
        folder, at = self.folder(month - 1 if earlier is None else earlier), moment(self.year.exports[month].at)
        words = ["--as", folder, "--book", self.book, "--at", at, "--import", "--causes", self.causes]
        exported = words_of(self.year, texts or texts_of(self.year, month, self.has_keys))
        return run(*exported, *words, "--program", PROGRAM, to=f"{self.name}-{month}")

    def sum(self) -> str:
        """Of all that the book's files hold."""
        return hashlib.sha256(b"".join(file.name.encode() + file.read_bytes() for file in self.files())).hexdigest()


YEARS = ("months", "months-by-key")


@lru_cache(maxsize=None)
def whole_year() -> dict[int, Monthly]:
    """The book before each month's export, and before the thirteenth that of the whole year."""
    monthly = Monthly(YEARS[0], made())
    monthly.begin()
    found = {}
    for month in MONTHS:
        found[month] = monthly.copy(f"before-{month}")
        done = monthly.run(month)
        if done.status or not done.out.splitlines()[-1].endswith(" again 0"):
            raise AssertionError(f"month {month}: {done.out}{done.err}")
    return found | {13: monthly}


class Refused(unittest.TestCase):
    """What can't go in is told by its row, and leaves the book as it was."""

    def refused(self, before: int, month: int, **changes: object) -> list[str]:
        """What is told of an export that doesn't go into the book before a month."""
        book = whole_year()[before].copy("refused")
        if changes.pop("without_ledger", False):
            book.book.with_suffix(".exports.csv").unlink()
        sum_before = book.sum()
        done = book.run(month, **changes)  # type: ignore[arg-type]
        self.assertEqual((done.status, done.out, done.files), (1, "", {}), done.err)
        self.assertEqual(book.sum(), sum_before)
        return [line.replace(f"{support.folder()}/", "") for line in done.err.removeprefix("error: ").splitlines()]

    def test_an_earlier_month(self) -> None:
        """By the list beside the book; without it by the devices that began later."""
        at = [f"{moment(export.at).replace(' ', 'T')}+00:00" for export in made().exports]
        text = f"refused.exports.csv: row 7: the export of {at[7]} went in, and --at lies before it"
        self.assertEqual(self.refused(8, 6), [text])
        self.assertEqual(self.refused(8, 6, earlier=7), [text])
        said = self.refused(6, 4, earlier=5, without_ledger=True)
        self.assertEqual(said[0], "nothing was written:")
        for line in said[1:]:
            self.assertRegex(
                line,
                f"^months-edges.csv: row [0-9]+: [A-Z0-9-]+ begins in the book at {re.escape(at[5])}, after --at: exports go in"
                " by the order of their moments$",
            )

    def test_the_folder_of_another_month(self) -> None:
        text = (
            "refused.exports.csv: row 7: the last export that went in is that of months-7, and --as months-5 is another"
        )
        self.assertEqual(self.refused(8, 8, earlier=5), [text])

    def test_the_same_month_again(self) -> None:
        """Nothing is new, or it is told which device the folder before doesn't know."""
        for month, earlier in ((5, 5), (7, 7), (7, 6)):
            done = whole_year()[month + 1].copy("again").run(month, earlier=earlier)
            self.assertEqual((done.status, done.out.splitlines()[-1]), (0, "added 0 again 0"), done.err)
        said = self.refused(6, 5)
        self.assertGreater(len(said), 1)
        for line in said[1:]:
            self.assertRegex(
                line,
                "^months-edges.csv: row [0-9]+: the book has [A-Z0-9-]+-2, which the folder of --as doesn't know: did this"
                " export go in already[?] Else name the folder of the last one that did$",
            )

    def planted(self, name: str, row: int, old: str, new: str) -> list[str]:
        """What is told of July's export with one mistake."""
        texts = texts_of(made(), 7)
        self.assertIn(old, texts[name][row])
        texts[name][row] = texts[name][row].replace(old, new)
        said = self.refused(7, 7, texts=texts)
        self.assertEqual(said[0], "nothing was written:")
        return said[1:]

    def test_a_mistake(self) -> None:
        texts = texts_of(made(), 7)
        fuse = next(row for row, line in enumerate(texts["edges"]) if ";fuse;" in line and ";1;" in line)
        text = f"months-edges.csv: row {fuse}: a fuse without a normal position"
        self.assertEqual(self.planted("edges", fuse, ";1;", ";;"), [text])
        transformers = [line.split(";")[0] for line in texts["edges"] if ";transformer;" in line]
        customer = texts["customers"][1].split(";")
        other = next(each for each in reversed(transformers) if any(f";{each};" in line for line in texts["customers"]))
        (said,) = self.planted("customers", 1, customer[1], other)
        self.assertTrue(said.startswith(f"months-customers.csv: row 1: customer {customer[0]} is on S-"), said)
        self.assertTrue(said.endswith("end its service, and give the one that goes on another number"), said)

    def test_a_mistake_in_the_tickets(self) -> None:
        """The row is that of the user's file, though it is found in what the cut has made of it."""
        lines = texts_of(made(), 7)["oms"]
        row = next(row for row, line in enumerate(lines) if row and line.split(";")[1] == "1" and line.split(";")[4])
        out, restored, cause = lines[row].split(";")[3:6]
        (said,) = self.planted("oms", row, f"{out};{restored}", f"{restored};{out}")
        self.assertRegex(said, f"^months-oms.csv: row {row}: .* lies before out ")
        (said,) = self.planted("oms", row, f";{cause};", ";METEOR;")
        self.assertRegex(said, f"^months-oms.csv: row {row}: .*METEOR")


class Months(unittest.TestCase):
    """The whole year."""

    maxDiff = None

    def same(self, here: Figures, there: Counts, which: object) -> None:
        counts = (here.sustained, here.sustained_seconds, here.momentary)
        self.assertEqual((there.sustained, there.sustained_seconds, there.momentary), counts, which)

    def test_a_year(self) -> None:
        """The register has a row for each service."""
        year = made()
        self.check(whole_year()[13], count_of(year), {each.number: each.number for each in services_of(year).values()})

    def test_a_year_by_keys(self) -> None:
        """The register has a row for each customer, with what supplies it now, and its meter, which tickets may name."""
        year = made_year(*SIZE_BY_KEYS, has_meters=True)
        monthly = Monthly(YEARS[1], year, True)
        monthly.begin()
        for month in MONTHS:
            done = monthly.run(month)
            self.assertEqual(done.status, 0, done.err)
        numbers: dict[str, list[int]] = {}
        for number, key in rows_of(monthly.book.with_suffix(".keys.csv")):
            numbers.setdefault(key, []).append(int(number))
        meters = {each.device for each in year.steps if each.device.startswith("MT/")}
        behind = {each.key for each in services_of(year).values() if meter_of(each) in meters}
        for key in behind:
            numbers[key].pop(0)  # it has no second in the year
        services = sorted(services_of(year).values(), key=lambda each: each.since)
        self.check(monthly, count_of(year), {each.number: numbers[each.key].pop(0) for each in services})
        self.assertEqual({*map(len, numbers.values())}, {0})
        self.assertGreater(len(behind), 10)

    def check(self, monthly: Monthly, count: Count, number_of: Mapping[int, int]) -> None:
        """Each customer's interruptions, each line of the annual table, and the counts of each feeder, cause, month and day."""
        feeders = {name: int(number) for number, name in rows_of(monthly.folder(12) / "feeders.csv")}
        by_feeder = {feeders[monthly.year.last_name(circuit)]: each for circuit, each in count.circuits.items()}
        with open_book(str(monthly.book), program=PROGRAM) as found:
            had = by_customer(found)
            for number, listed in count.customers.items():
                self.assertEqual(had.pop(number_of[number]), [(since, until) for since, until, _ in listed], number)
            self.assertEqual([each for each in had.values() if each], [])
            self.check_table(figures_of_table(found.table), count, by_feeder)
            causes = {CAUSES.get(code, "UNASSIGNED"): each for code, each in count.causes.items()}
            self.check_groups(found, "cause", causes)
            self.check_groups(found, "month", {f"2025-{month:02d}": each for month, each in count.months.items()})
            self.check_groups(found, "day", {day_text(day): each for day, each in count.days.items()})
            self.check_groups(found, "feeder", {str(number): each for number, each in by_feeder.items()})
            for key, rates in found.selected("feeder")["all"].items():
                each = by_feeder[int(key)]
                self.assertEqual((rates.counts.with_some, rates.served), (each.with_some, each.served))

    def check_groups(self, found: Checked, by: str, groups: dict[str, Figures]) -> None:
        """The program's counts of each cause, month or day."""
        for key, rates in found.selected(by)["all"].items():
            self.same(groups.get(key, Figures()), rates.counts, key)
        self.assertEqual(groups.keys() - found.selected(by)["all"].keys(), set())

    def check_table(self, table: dict[str, str], count: Count, by_feeder: dict[int, Figures]) -> None:
        """Each line of the annual table; no day is marked."""
        whole = count.whole
        here = {"P, S and W": f"{365 * DAY} {whole.served} {whole.seconds}"}
        for code, name in {0: "UNASSIGNED", **CAUSES}.items():
            here[f"cause {code} {name}"] = str(count.causes[code].seconds if code in count.causes else 0)
        here |= {f"feeder {number}": str(each.seconds) for number, each in by_feeder.items()}
        here |= {f"day {day_text(day)}": str(seconds) for day, seconds in count.seconds_of_day.items()}
        for name in ("all", "unmarked"):
            here |= {
                f"{kind} {name}": str(each)
                for kind, each in (("SUSTAINED", whole.sustained), ("MOMENTARY", whole.momentary))
            }
            for index, value in whole.indices().items():
                self.assertEqual(Fraction(table[f"{index} {name}"].split()[0]), value, index)
                del table[f"{index} {name}"]
        del table["the heading"]
        self.assertEqual(table, here)


def day_text(day: int) -> str:
    return moment(FIRST + day * DAY)[:10]


if __name__ == "__main__":
    unittest.main()
