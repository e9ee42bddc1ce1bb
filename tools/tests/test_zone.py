"""Offsets and midnights against the C library's clock, and against changes of clocks and days known from outside."""

import os
import random
import time
import unittest
from collections.abc import Iterator
from contextlib import contextmanager
from datetime import date, datetime

from outage_tools.zone import Zone
from tests import support

DAY = 86_400
RULES = [
    "UTC0",
    "CET-1CEST,M3.5.0,M10.5.0/3",
    "EST5EDT,M3.2.0,M11.1.0",
    "<-04>4<-03>,M9.1.6/24,M4.1.6/24",
    "XXX-1YYY,M3.5.0,M10.5.0/0:30",
    "IST-1GMT0,M10.5.0,M3.5.0/1",
    "AEST-10AEDT,M10.1.0,M4.1.0/3",
    "<-03>3<-02>,M3.5.0/-2,M10.5.0/-1",
    "EET-2EEST,M3.4.4/50,M10.4.4/50",
    "<+12>-12<+13>,M11.2.0,M1.2.3/99",
    "XXX3YYY2:30,M2.1.0/-99,M12.3.6/99:59:59",
]

# The changes of 2024 as the zones of IANA's database have them (Berlin, New York, Santiago, Dublin, Sydney, Nuuk, Lord Howe,
# Tehran): the second, and the offsets before it and from it on.
CHANGES = {
    "CET-1CEST,M3.5.0,M10.5.0/3": [(1_711_846_800, 3_600, 7_200), (1_729_990_800, 7_200, 3_600)],
    "EST5EDT,M3.2.0,M11.1.0": [(1_710_054_000, -18_000, -14_400), (1_730_613_600, -14_400, -18_000)],
    "<-04>4<-03>,M9.1.6/24,M4.1.6/24": [(1_712_458_800, -10_800, -14_400), (1_725_768_000, -14_400, -10_800)],
    "IST-1GMT0,M10.5.0,M3.5.0/1": [(1_711_846_800, 0, 3_600), (1_729_990_800, 3_600, 0)],
    "AEST-10AEDT,M10.1.0,M4.1.0/3": [(1_712_419_200, 39_600, 36_000), (1_728_144_000, 36_000, 39_600)],
    "<-02>2<-01>,M3.5.0/-1,M10.5.0/0": [(1_711_846_800, -7_200, -3_600), (1_729_990_800, -3_600, -7_200)],
    "<+1030>-10:30<+11>-11,M10.1.0,M4.1.0": [(1_712_415_600, 39_600, 37_800), (1_728_142_200, 37_800, 39_600)],
    "<+0330>-3:30": [],
}


def changes_of(zone: Zone, first: int, end: int) -> Iterator[tuple[int, int, int]]:
    """The seconds at which the clock is changed, with the offsets before and after."""
    for day in range(first, end, DAY):
        low, high = day, day + DAY
        before, after = zone.offset_at(low), zone.offset_at(high)
        while before != after and high - low > 1:
            middle = (low + high) // 2
            low, high = (middle, high) if zone.offset_at(middle) == before else (low, middle)
        if before != after:
            yield high, before, after


@contextmanager
def clock_of_the_c_library() -> Iterator[None]:
    """The environment's zone may be set, and is afterwards what it was."""
    was = os.environ.get("TZ")
    try:
        yield
    finally:
        os.environ.pop("TZ", None)
        if was is not None:
            os.environ["TZ"] = was
        time.tzset()


class Offsets(unittest.TestCase):
    def test_they_are_those_of_the_c_library(self) -> None:
        rng = random.Random(1)
        with clock_of_the_c_library():
            for rule in RULES:
                os.environ["TZ"] = rule
                time.tzset()
                zone = Zone(rule)
                for year in range(1975, 2080, 7):
                    first = zone.midnight(date(year, 1, 1))
                    changes = list(changes_of(zone, first, first + 365 * DAY))
                    self.assertEqual(len(changes), 2 if "," in rule else 0, (rule, year))
                    near = [second + step for second, _, _ in changes for step in (-1, 0, 1)]
                    for second in near + [rng.randrange(first, first + 365 * DAY) for _ in range(50)]:
                        self.assertEqual(zone.offset_at(second), time.localtime(second).tm_gmtoff, (rule, second))

    def test_they_change_when_the_clocks_of_cities_do(self) -> None:
        first = 1_704_067_200  # of 2024
        for rule, changes in CHANGES.items():
            with self.subTest(rule):
                self.assertEqual(list(changes_of(Zone(rule), first, first + 366 * DAY)), changes)


class Midnights(unittest.TestCase):
    def test_days_of_23_and_25_hours(self) -> None:
        zone = Zone("EST5EDT,M3.2.0,M11.1.0")
        self.assertEqual(zone.midnight(date(2024, 3, 10)), 1_710_046_800)
        self.assertEqual(zone.midnight(date(2024, 3, 11)) - zone.midnight(date(2024, 3, 10)), 82_800)
        self.assertEqual(zone.midnight(date(2024, 11, 4)) - zone.midnight(date(2024, 11, 3)), 90_000)

    def test_in_a_gap_and_in_a_fold(self) -> None:
        chile = Zone("<-04>4<-03>,M9.1.6/24,M4.1.6/24")
        # The clock goes from 24:00 of 7 September 2024 to 01:00: the offset before the gap counts.
        self.assertEqual(chile.midnight(date(2024, 9, 8)), 1_725_768_000)
        # And from 24:00 of 6 April 2024 back to 23:00: midnight of the 7th comes once, after the fold.
        self.assertEqual(chile.midnight(date(2024, 4, 7)), 1_712_462_400)
        # From 00:30 back to 23:30: midnight of 27 October 2024 comes twice, and the earlier one counts.
        zone = Zone("XXX-1YYY,M3.5.0,M10.5.0/0:30")
        self.assertEqual(zone.midnight(date(2024, 10, 27)), 1_729_980_000)
        self.assertEqual(zone.instants(datetime(2024, 10, 27)), [1_729_980_000, 1_729_983_600])


class Moments(unittest.TestCase):
    def test_an_hour_that_comes_twice_and_one_that_is_left_out(self) -> None:
        zone = Zone("CET-1CEST,M3.5.0,M10.5.0/3")
        twice = zone.instants(datetime(2025, 10, 26, 2, 30))
        self.assertEqual([second - zone.midnight(date(2025, 10, 26)) for second in twice], [9_000, 12_600])
        self.assertEqual(zone.instants(datetime(2025, 3, 30, 2, 30)), [])
        self.assertEqual(zone.instants(datetime(2025, 3, 30, 3, 30)), [1_743_298_200])

    def test_texts(self) -> None:
        zone = Zone("CET-1CEST,M3.5.0,M10.5.0/3")
        self.assertEqual(zone.text_of(1_743_081_730), "2025-03-27T14:22:10+01:00")
        self.assertEqual(zone.short_text(1_743_298_200), "2025-03-30 03:30:00")
        self.assertEqual([zone.text_of(second)[19:] for second in (1_761_438_600, 1_761_442_200)], ["+02:00", "+01:00"])


class Rules(unittest.TestCase):
    """What is no rule is told in words, also by the tools."""

    BAD = {
        "": "1 to 64 ASCII",
        "CET-1CEST,M3.5.0,M10.5.0/0000000000000000000000000000000000000003": "1 to 64 ASCII",
        "ČET-1": "1 to 64 ASCII",
        "UTC": "no POSIX rule",
        "CET": "no POSIX rule",
        "Europe/Berlin": "no POSIX rule",
        "CET-1CEST": "no POSIX rule",
        "CET-1CEST,M3.5.0": "no POSIX rule",
        "CET-1CEST,M3.6.0,M10.5.0": "no POSIX rule",
        "CET-1CEST,M13.5.0,M10.5.0/3": "no POSIX rule",
        "CET-1CEST,M0.5.0,M10.5.0/3": "no POSIX rule",
        "CE-1": "no POSIX rule",
        "<AB>-1": "no POSIX rule",
        "ABCDEFGHIJKLMNOP-1": "no POSIX rule",
        "XXX3:60": "no POSIX rule",
        "XXX25": "no POSIX rule",
        "XXX-23:30YYY,M3.5.0,M10.5.0": "no POSIX rule",
        "XXX3\n": "no POSIX rule",
        "XXX3YYY,J60/2,J300/2": "a day of the year",
        "XXX3YYY2:30,59/2,299/2": "a day of the year",
        "XXX3YYY,M3.2.0/100,M10.2.0": "more than 99 hours",
        "XXX3YYY,M1.1.0,M7.2.0": "about New Year",
        "XXX3YYY,M3.2.0,M12.5.0": "about New Year",
    }

    def test_what_is_none(self) -> None:
        for rule, reason in self.BAD.items():
            with self.subTest(rule), self.assertRaisesRegex(ValueError, reason):
                Zone(rule)

    def test_abbreviations_of_3_to_15_letters(self) -> None:
        for rule in ["ABC3", "ABCDEFGHIJKLMNO3", "<+03>-3", "<ABCDEFGHIJKLMNO>3"]:
            self.assertEqual(abs(Zone(rule).offset_at(0)), 10_800)

    def test_a_tool_says_what_is_wrong(self) -> None:
        exports = ["--causes", support.EXPORTS / "causes.csv", "--oms"]
        outages = (support.EXPORTS / "oms.csv").read_text()
        for rule in ["CET", "CET-1CEST,M13.5.0,M10.5.0/3"]:
            done = support.run_tool("from_oms", *exports, support.EXPORTS / "oms.csv", "--zone", rule)
            self.assertEqual((done.returncode, done.stdout), (64, ""))
            self.assertIn(f"{rule!r} is no POSIX rule of a zone", done.stderr)
            self.assertNotIn("Traceback", done.stderr)
            header, first, *_ = outages.splitlines()
            cells = dict(zip(header.split(","), first.split(","))) | {"zone": f'"{rule}"'}
            path = support.written("zones.csv", f"{header}\n{','.join(cells.values())}\n")
            done = support.run_tool("from_oms", *exports, path)
            self.assertEqual((done.returncode, done.stdout), (1, ""))
            self.assertIn(f"zones.csv: row 1: {rule!r} is no POSIX rule of a zone", done.stderr)
            self.assertNotIn("Traceback", done.stderr)
