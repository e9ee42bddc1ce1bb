"""What is implausible in exports: twenty-three mistakes planted in a made year, each option, statuses, and the estimates against books."""

import contextlib
import io
import json
import os
import re
import sys
import unittest
from collections.abc import Iterable, Iterator
from fractions import Fraction
from functools import lru_cache
from pathlib import Path
from typing import Any
from unittest import mock

from outage_tools import check
from outage_tools.feeding import Feeding
from outage_tools.implausible.limits import OPTIONS, share
from outage_tools.supply import Supply
from tests import made_utility, program_books, support
from tests.exports import Done, book_words
from tests.made_exports import Year
from tests.made_utility import DAYS, EASTERN, FIRST, MISTAKES, Customer, Row, Utility, with_mistake
from tests.support import Made, written
from tests.test_check import WORDS, Exports

YEAR = ("--first", "2025-01-01", "--days", DAYS, "--zone", EASTERN, "--overlaps", "join")
PAGE = support.ROOT / "docs/use/CHECKING.md"
SILENT = {"one phase of three", "ten outages on the neighbouring fuse"}  # the page says why
LAST_ALONE = {"register cut off after five sixths", "fuse on the wrong trunk section"}  # told by a last book alone
BETWEEN = "devices on no loop that are closed normally between two feeders"
NOTED = "left out, changed or noticed when rows are written"
TOLD = {  # by which line, and with which share at least; or by which finding, which has none
    "ten On times a month late": ("long", "60%"),
    "one lost On": ("long", "60%"),
    "tie steps not exported": ("ties-unused", "20%"),
    "SCADA times in UTC without Z": ("before-first", "50%"),
    "export cut off after 400 rows": ("quiet", "25%"),
    "second ticket with a bad end, joined": ("long", "34%"),
    "Eastern rows without summer time": ("zone", "19%"),
    "open point of today's GIS": ("devices", "1.5%"),
    "last opening of a tie lost": ("tie-closed", "0.5%"),
    "register cut off after five sixths": ("customers", "18%"),
    "call-backs closed late as second tickets": ("touching", "0.5%"),
    "fifteen rows a year early": (NOTED, ""),
    "Central rows without zone": ("before-first", "17%"),
    "services end where meters were exchanged": ("services-end", "2.9%"),
    "services begin where tenants moved in": ("services-begin", "12%"),
    "register of today's customers alone": ("none-ends", "0.4%"),
    "fuse on the wrong trunk section": ("devices", "0.5%"),
    "customers on other transformers": ("empty", "8%"),
    "all times cut to the minute": ("no-length", "55%"),
    "reclosings with On as Off": ("no-length", "90%"),
    "wrong circuit on a fifth of a feeder": (BETWEEN, ""),
}
AS_LARGE = {  # the line weighs what the mistake changes, not rows that have it
    "ten On times a month late",
    "one lost On",
    "tie steps not exported",
    "export cut off after 400 rows",
    "second ticket with a bad end, joined",
    "open point of today's GIS",
    "last opening of a tie lost",
    "fuse on the wrong trunk section",
    "register cut off after five sixths",
    "call-backs closed late as second tickets",
    "services end where meters were exchanged",
    "services begin where tenants moved in",
}


@lru_cache(maxsize=None)
def utility() -> Utility:
    return made_utility.made_utility()


def files_of(made: Utility) -> list[object]:
    words: list[object] = []
    for name, text in made.exports().items():
        words += [f"--{name}", written(f"implausible-{name}.csv", text)]
    return words


@lru_cache(maxsize=None)
def year_before() -> Made:
    """The book of the year before: the network and the customers."""
    words = [word for word in files_of(utility()) if word != "--oms" and "-oms" not in str(word)]
    rows = support.run_tool("from_oms", *words, "--first", "2024-01-01", "--days", 366, "--zone", EASTERN)
    (made,) = support.made_of(
        "year-before", [(written("year-before.csv", rows.stdout), ("2024-01-01", "366", EASTERN))]
    )
    return made


def run_check(words: Iterable[object]) -> Done:
    """A run of the tool in this process."""
    out, err = io.StringIO(), io.StringIO()
    with mock.patch.object(sys, "argv", ["check.py", *map(str, words)]):
        with contextlib.redirect_stdout(out), contextlib.redirect_stderr(err):
            try:
                status = check.main()
            except SystemExit as end:
                status = end.code if isinstance(end.code, int) else 1
    return Done(status, out.getvalue(), err.getvalue())


def checked(words: Iterable[object], status: int = 0) -> dict[str, Any]:
    done = run_check([*words, "--json"])
    if done.status != status:
        raise AssertionError(f"status {done.status}: {done.out[-2000:]}{done.err}")
    whole: dict[str, Any] = json.loads(done.out)
    return whole


def lines_of(whole: dict[str, Any]) -> dict[str, dict[str, Any]]:
    return {line["kind"]: line for line in whole["implausible"]["lines"]}


@lru_cache(maxsize=None)
def looked_at(mistake: str, *words: object) -> dict[str, Any]:
    """What is found in the exports with a mistake, or without one."""
    made = with_mistake(utility(), mistake) if mistake else utility()
    return checked([*files_of(made), *YEAR, *words])


def with_last(mistake: str) -> dict[str, Any]:
    made = year_before()
    return looked_at(mistake, "--last", made.book, "--table", made.table)


def told_by(mistake: str) -> tuple[str, str]:
    """The line that tells a mistake in the text of the check, and its share."""
    if mistake in SILENT:
        return "nothing", ""
    whole = with_last(mistake)
    by, least = TOLD[mistake]
    if not least:
        text = next(finding["text"] for finding in whole["findings"] if finding["topic"] == by)
        return (by if by != NOTED else re.split(": (?=[0-9])", text.partition(": ")[2])[0]), ""
    line = lines_of(whole)[by]
    return re.split(r" \(|: |, ", line["text"])[0], f"{100 * line['share']:.1f}%"


def rows_of_table() -> Iterator[str]:
    """The rows of the page's table."""
    for mistake in MISTAKES:
        line, share_text = told_by(mistake)
        yield f"| {mistake} | {line}{' (with `--last` alone)' if mistake in LAST_ALONE else ''} | {share_text} |"


class Mistakes(unittest.TestCase):
    """Each one alone, in exports that have no other."""

    def test_without_a_mistake_nothing_is_told(self) -> None:
        whole = with_last("")
        self.assertEqual((whole["findings"], whole["implausible"]["lines"]), ([], []))
        self.assertEqual(len(whole["implausible"]["rows"]), 10)

    def test_each_is_told_with_what_it_weighs(self) -> None:
        self.assertEqual(len(MISTAKES), 23)
        for mistake in MISTAKES.keys() - SILENT:
            with self.subTest(mistake):
                whole = with_last(mistake)
                by, least = TOLD[mistake]
                if not least:
                    self.assertIn(by, [finding["topic"] for finding in whole["findings"]])
                    continue
                line = lines_of(whole)[by]
                self.assertGreaterEqual(Fraction(line["share"]), share(least))
                if mistake in AS_LARGE:
                    changed = abs(whole["implausible"]["customer_seconds"] - self.without_mistake())
                    self.assertLess(changed / 2, line["customer_seconds"])
                    self.assertLess(line["customer_seconds"], 2 * changed)

    def without_mistake(self) -> int:
        total: int = with_last("")["implausible"]["customer_seconds"]
        return total

    def test_no_interruption_is_momentary(self) -> None:
        lost = with_last("")["implausible"]["momentary"]
        self.assertEqual(lines_of(with_last("reclosings with On as Off"))["no-length"]["momentary"], lost)

    def test_what_goes_without_a_word(self) -> None:
        self.assertLessEqual(len(SILENT), 3)
        for mistake in SILENT:
            whole = with_last(mistake)
            self.assertEqual((whole["findings"], whole["implausible"]["lines"]), ([], []), mistake)

    def test_what_only_a_last_book_tells(self) -> None:
        for mistake in MISTAKES.keys() - SILENT:
            whole = looked_at(mistake)
            is_silent = not whole["findings"] and not whole["implausible"]["lines"]
            self.assertEqual(is_silent, mistake in LAST_ALONE, mistake)

    def test_the_table_of_the_page(self) -> None:
        """The page has a row for each mistake, with the line that tells it and its share."""
        table = [line for line in PAGE.read_text(encoding="utf-8").splitlines() if line.startswith("| ")]
        for row in rows_of_table():
            self.assertIn(row, table)

    def test_the_greatest_first(self) -> None:
        lines = with_last("SCADA times in UTC without Z")["implausible"]["lines"]
        self.assertEqual([line["kind"] for line in lines], ["before-first", "apart", "nobody"])
        rows = with_last("one lost On")["implausible"]["rows"]
        self.assertEqual((rows[0]["ticket"], rows[0]["row"]), ("T-2", 2))


@support.needs_program
class WithCounts(unittest.TestCase):
    """What goes without a word there, and what is told with the last book alone, differs from the OMS's counts."""

    def test_the_counts_differ(self) -> None:
        for mistake in ["", *sorted(SILENT), "fuse on the wrong trunk section", "customers on other transformers"]:
            with self.subTest(mistake):
                made = with_mistake(utility(), mistake) if mistake else utility()
                counts = written("implausible-counts.csv", "".join(f"{line}\n" for line in made.oms_counts()))
                rows = support.run_tool("from_oms", *files_of(made), *YEAR).stdout
                text = written("implausible-rows.csv", rows)
                book = program_books.new_book("implausible", ("2025-01-01", str(DAYS), EASTERN), text)
                done = support.run_tool(
                    "agree", *book_words(book)[1:2], counts, *book_words(book)[2:], "--fail-above", "0%"
                )
                self.assertEqual(done.returncode, 3 if mistake else 0, done.stdout + done.stderr)


def changed(**more: object) -> Utility:
    made = with_mistake(utility(), "one phase of three")  # whose exports are those without a mistake
    for name, value in more.items():
        setattr(made, name, value)
    return made


class Thresholds(unittest.TestCase):
    """Each option says from where on something is told."""

    def test_each_option(self) -> None:
        cases = {
            "--long": ("one lost On", "long", "9000"),
            "--no-length": ("reclosings with On as Off", "no-length", "500"),
            "--apart": ("SCADA times in UTC without Z", "apart", "9"),
            "--nobody": ("last opening of a tie lost", "nobody", "50"),
            "--tie-closed": ("last opening of a tie lost", "tie-closed", "9000"),
            "--quiet": ("export cut off after 400 rows", "quiet", "90"),
            "--empty": ("customers on other transformers", "empty", "20%"),
            "--services": ("services end where meters were exchanged", "services-end", "10%"),
            "--whole-minutes": ("all times cut to the minute", "whole-minutes", "101%"),
        }
        for option, (mistake, kind, value) in cases.items():
            with self.subTest(option):
                self.assertIn(kind, lines_of(looked_at(mistake)))
                self.assertNotIn(kind, lines_of(looked_at(mistake, option, value)))
        self.assertEqual(len(looked_at("", "--rows", "3")["implausible"]["rows"]), 3)
        others = {"--rows", "--touching", "--low-month", "--grown"}
        self.assertEqual({f"--{name}" for name, *_ in OPTIONS}, cases.keys() | others)

    def test_the_last_book(self) -> None:
        made = year_before()
        words = ("--last", made.book, "--table", made.table)
        mistake = "register cut off after five sixths"
        self.assertEqual(lines_of(looked_at(mistake)), {})
        self.assertEqual(lines_of(looked_at(mistake, *words)).keys(), {"customers", "not-told"})
        self.assertEqual(lines_of(looked_at(mistake, *words, "--grown", "30%")).keys(), {"not-told"})
        self.assertEqual(
            lines_of(looked_at("customers on other transformers", *words)).keys(), {"empty", "moved", "nobody"}
        )

    def test_a_gap_between_two_tickets(self) -> None:
        row = made_utility.single(utility(), "TR", 1)[0]
        assert row.restored is not None
        after = Row("T-AFTER", 1, row.device, row.restored + 90, row.restored + 9_000, row.zone)
        words = [*files_of(changed(rows=[*utility().rows, after])), *YEAR]
        self.assertEqual(lines_of(checked(words)), {})
        self.assertEqual(lines_of(checked([*words, "--touching", "2"])).keys(), {"touching"})

    def test_a_month_far_below_the_others(self) -> None:
        may = range(FIRST + 121 * 86_400, FIRST + 150 * 86_400)
        rows = [row for row in utility().rows if (row.out or 0) not in may or row.ticket.endswith("7")]
        words = [*files_of(changed(rows=rows)), *YEAR]
        line = lines_of(checked(words))["low-month"]
        self.assertIn("2025-05", line["text"])
        self.assertGreater(line["share"], 0.05)
        self.assertEqual(lines_of(checked([*words, "--low-month", "1%"])), {})

    def test_a_year_that_is_not_over(self) -> None:
        """Nothing can be missed behind the day of the exports, and what isn't over has lasted up to it."""
        mistake = "export cut off after 400 rows"
        self.assertEqual(lines_of(looked_at(mistake, "--exported", "2025-10-12")), {})
        row = utility().rows[399]
        assert row.out is not None
        open_still = [*utility().rows[:399], Row(row.ticket, 1, row.device, row.out, None, row.zone)]
        days = [made_utility.local(row.out + day * 86_400, EASTERN)[:10] for day in (0, 5)]
        words = [*files_of(changed(rows=open_still)), *YEAR, "--exported"]
        self.assertEqual(lines_of(checked([*words, days[0]])), {})
        self.assertEqual(lines_of(checked([*words, days[1]])).keys(), {"long"})

    def test_devices_with_rows_of_two_zones(self) -> None:
        rows = [row for row in utility().rows if row.zone == EASTERN and not row.is_scada]
        devices = [row.device for row in rows]
        row = next(row for row in rows if devices.count(row.device) > 1)
        made = changed()
        made.rows[made.rows.index(row)].zone = made_utility.CENTRAL
        self.assertIn("zones", lines_of(checked([*files_of(made), *YEAR])))


class Statuses(unittest.TestCase):
    """What a job that runs each night can tell."""

    def status(self, made: Utility, *words: object) -> int:
        return run_check([*files_of(made), *YEAR, *words]).status

    def test_fail_above(self) -> None:
        made = with_mistake(utility(), "call-backs closed late as second tickets")  # 0.59 %
        self.assertEqual(self.status(made), 0)
        self.assertEqual(self.status(made, "--fail-above", "1%"), 0)
        self.assertEqual(self.status(made, "--fail-above", "0.5%"), 3)
        self.assertEqual(self.status(utility(), "--fail-above", "0%"), 0)
        made.devices["TR-1-1-1"].b = "NOWHERE"
        self.assertEqual(self.status(made, "--fail-above", "0.5%"), 2)

    def test_momentary_interruptions_have_a_share_of_their_own(self) -> None:
        made = with_mistake(utility(), "reclosings with On as Off")
        self.assertEqual(self.status(made, "--fail-above", "90%"), 3)
        made = changed()
        for row in made.rows:  # from minute to minute, which all rows have alike
            row.out, row.restored = (None if each is None else each // 60 * 60 for each in (row.out, row.restored))
            if row.out == row.restored and row.restored is not None:
                row.restored += 60
        self.assertEqual(self.status(made, "--fail-above", "0%"), 0)

    def test_wrong_words(self) -> None:
        for words in (["--fail-above", "1"], ["--long", "-1"], ["--exported", "1.2.2025"], ["--services", "x%"]):
            self.assertEqual(self.status(utility(), *words), 64, words)

    def test_the_text(self) -> None:
        made = with_mistake(utility(), "one lost On")
        done = run_check([*files_of(made), *YEAR, "--fail-above", "5%"])
        self.assertEqual(done.status, 3, done.err)
        self.assertRegex(
            done.out,
            r"\nimplausible, not wrong by itself \(1\): estimates by the rows alone, not by the program: of [0-9]+"
            r" customer-minutes, SAIDI [0-9.]+ minutes\n +customer-minutes +share\n +[0-9]+ +60.4%  steps over 24 h \(1\): T-2 ",
        )
        self.assertIn("\nimplausible with a share above 5.000%: 1\n", done.out)
        self.assertTrue(done.out.endswith("\nit fits, and nothing is wrong\n"))


class BesideOthers(unittest.TestCase):
    """Steps that cut nobody off, what isn't wrong, and words that aren't worth a note."""

    def text_of(self, exports: Exports, kind: str) -> str:
        line = lines_of(checked([*exports.files(), *WORDS]))[kind]
        return str(line["text"]).partition(": ")[2]

    def test_steps_that_cut_nobody_off(self) -> None:
        gis = ["section,QUAY,8", "device,SW-82,,DEPOT,QUAY,closed"]
        empty = Exports(gis=gis, oms=["T-1,1,SW-82,2025-10-24 09:00:00,,2025-10-24 09:30:00,,WIND"])
        self.assertEqual(self.text_of(empty, "nobody"), "nobody behind 1: T-1 step 1 SW-82 (row 8)")
        twice = Exports(oms=["T-1,1,SW-71,2025-10-30 18:00:00,,2025-10-30 18:30:00,,WIND"])
        self.assertEqual(self.text_of(twice, "nobody"), "out already by another ticket 1: T-1 step 1 SW-71 (row 8)")
        row = "T-1,1,SW-71,2025-10-22 09:00:00,,2025-10-22 09:30:00,,WIND"
        tie = "T-1,2,TIE-78,2025-10-22 10:00:00,,2025-10-22 08:55:00,,WIND"
        other = self.text_of(Exports(oms=[row, tie]), "nobody")
        self.assertEqual(other, "supplied another way 1: T-1 step 1 SW-71 (row 8)")

    def test_an_outage_in_two_rows(self) -> None:
        """Its opening and its closing are told one by one: it is over, and so is a tie's stay."""
        rows = ["T-1,1,SW-81,2025-10-22 09:00:00,,,,WIND", "T-1,2,SW-81,,,2025-10-22 15:00:00,,WIND"]
        rows += ["T-1,3,TIE-78,,,2025-10-22 09:10:00,,WIND", "T-1,4,TIE-78,2025-10-22 15:10:00,,,,WIND"]
        lines = lines_of(checked([*Exports(oms=rows).files(), *WORDS]))
        self.assertEqual(lines.keys(), {"long"})
        self.assertTrue(lines["long"]["text"].startswith("steps over 24 h (1): T-2045 "))

    def test_a_spare_that_is_open_at_both_sides(self) -> None:
        gis = ["bus,SPARE", "device,SP-1,,GRID,SPARE,open", "device,SP-2,,SPARE,NORTH-BUS,open"]
        whole = checked([*Exports(gis=gis).files(), *WORDS])
        topic = "reached through ties alone"
        found = [(each["topic"], each["wrong"]) for each in whole["findings"] if each["topic"] != NOTED]
        self.assertEqual(found, [(topic, False)])
        gis[0] = "section,SPARE,9"
        checked([*Exports(gis=gis, customers=["6001,SPARE,2020-01-01"]).files(), *WORDS], status=2)
        checked([*Exports(gis=gis).files()[:2], *WORDS], status=2)  # nobody knows whether somebody is there

    def test_ordinary_statuses(self) -> None:
        exports = Exports().change(
            "oms", ("T-2042", "T-2042,1,SW-81,2025-10-23 13:00:00,,2025-10-23 13:04:30,,PLANNED WORK,CREW-B,,Closed")
        )
        exports.change(
            "oms", ("T-2043", "T-2043,1,CB-8,2025-10-26 02:30:00,A,2025-10-26 02:10:00,B,WIND,CREW-A,,Erledigt")
        )
        whole = checked([*exports.files(), *WORDS])
        noted = [each["text"] for each in whole["findings"] if "status" in each["text"]]
        self.assertEqual(len(noted), 1)
        self.assertIn("rows with the status 'Erledigt', which are taken as others", noted[0])
        whole = checked([*exports.files(), *WORDS, "--ordinary", "erledigt"])
        self.assertFalse([each for each in whole["findings"] if "status" in each["text"]])


class Feeds(unittest.TestCase):
    def test_what_is_behind_each_device(self) -> None:
        """It is what loses supply when the device alone is opened."""
        book = support.opened(year_before()).book
        supply, feeding = Supply(book), Feeding(book)
        before = supply.supplied
        for device in book.devices:
            was_closed = supply.set_position(device, False)
            lost = (before - supply.supplied) & book.sections.keys()
            self.assertEqual(feeding.behind(device.number, book.period.first), lost, device.name)
            if was_closed:
                supply.set_position(device, True)


class Estimates(unittest.TestCase):
    """The customer-seconds of the rows are those of the book that they make, as the model counts them."""

    def setUp(self) -> None:
        zone = os.environ.get("TZ")
        self.addCleanup(lambda: os.environ.update(TZ=zone) if zone is not None else os.environ.pop("TZ", None))

    def files(self, year: Year) -> list[object]:
        words: list[object] = ["--date-format", "%d.%m.%Y %H:%M:%S"]
        for name, text in year.exports().items():
            words += [f"--{name}", written(f"estimates-{name}.csv", text)]
        return words

    def total_by_hand(self, year: Year, name: str) -> int:
        period = (year.first_day.isoformat(), str(year.days), year.zone)
        (made,) = support.made_of(name, [(written(f"{name}.csv", year.rows_by_hand()), period)])
        return int(made.table.read_text().splitlines()[1].split()[-1])

    def test_of_made_years(self) -> None:
        for seed in range(4):
            year = Year(seed)
            period = ["--first", year.first_day.isoformat(), "--days", year.days, "--zone", year.zone]
            files = self.files(year)
            with self.subTest(seed):
                whole = checked([*files, *period, "--meshed"], self.status_of(files, *period))
                total = self.total_by_hand(year, f"by-hand-{seed}")
                self.assertEqual(whole["implausible"]["customer_seconds"], total)
                rows = support.run_tool("from_oms", *files, *period).stdout
                text = written(f"first-{seed}.csv", rows)
                (made,) = support.made_of(f"first-{seed}", [(text, (str(period[1]), str(period[3]), year.zone))])
                year.change()
                book = ["--book", made.book, "--table", made.table]
                files = self.files(year)
                whole = checked([*files, *book, "--meshed"], self.status_of(files, *book))
                self.assertEqual(whole["implausible"]["book_customer_seconds"], total)
                total = self.total_by_hand(year, f"by-hand-later-{seed}")
                self.assertEqual(whole["implausible"]["customer_seconds"], total)

    def status_of(self, files: list[object], *words: object) -> int:
        """A made network may have sections that are cut off for a while, which is wrong by itself."""
        return run_check([*files, *words, "--meshed"]).status

    def test_customers_of_the_book_that_no_row_has(self) -> None:
        rows = support.run_tool("from_oms", *Exports().files(), *WORDS).stdout
        period = ("2025-10-20", "14", WORDS[-1])
        (made,) = support.made_of("not-told", [(written("not-told.csv", rows), period)])
        exports = Exports()
        exports.rows["customers"] = exports.rows["customers"][2:]
        done = checked([*exports.files(), "--book", made.book, "--table", made.table])
        self.assertEqual(lines_of(done).keys(), {"long", "customers", "not-told"})
        line = lines_of(done)["not-told"]
        self.assertIn("(2 of 12)", line["text"])
        self.assertIn(
            "the book has 38106 customer-minutes, by the program; with these rows, ", done["implausible"]["about"]
        )


if __name__ == "__main__":
    unittest.main()
