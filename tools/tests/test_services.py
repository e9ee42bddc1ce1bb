"""Tickets of a single service in a running book: a section and a device for the meter, and the customer behind it."""

import unittest
from datetime import datetime, timezone
from pathlib import Path
from random import Random

from outage_tools.counts import Counts, fraction_text, indices_of
from outage_tools.keys import fingerprint, read_keys
from outage_tools.oms.known import Service
from outage_tools.oms.services import Own, parts_of
from tests import exports, support
from tests.test_keys import PERIOD, WithBook, key_of, register

SEEDS = 12
FIRST, LENGTH = 1_760_911_200, 14 * 86_400 + 3_600  # of the samples' period, which has the hour that comes twice
Span = tuple[int, int]


def with_meters(text: str) -> str:
    """A register with a meter for each key: M, and the last four digits."""
    head, *rows = text.splitlines()
    return "".join(f"{line}\n" for line in [f"{head},meter", *(f"{row},M{row.split(',')[0][-4:]}" for row in rows)])


def oms(*rows: str) -> str:
    return exports.sample("oms") + "".join(f"{row}\n" for row in rows)


LONG = "T-3001,1,M5002,2025-10-24 09:00,,2025-10-24 11:00,,WIND,CREW-A,,"
SHORT = "T-3002,1,M5002,2025-10-29 09:00,,2025-10-29 09:02,,WIND,CREW-A,,"


class ByHand(WithBook):
    """The sample, then an export with two tickets of one meter."""

    def setUp(self) -> None:
        super().setUp()
        self.people = with_meters(register())
        self.text = self.first(self.people).out

    def add(self, rows: str) -> None:
        self.text += rows.removeprefix(exports.HEADER)

    def test_the_rows(self) -> None:
        """The customer's outage on OAK-STREET on the 21st goes with it, since it goes on from the period's first second."""
        done = self.later(self.people, oms=oms(LONG, SHORT))
        self.assertEqual(done.status, 0, done.err)
        self.assertEqual(
            done.out.splitlines()[1:7],
            [
                "section,GIS-SECTION-S-M5002,S-M5002,7,,,,",
                "device,GIS-DEVICE-M5002,M5002,OAK-STREET,S-M5002,closed,,",
                "revise,CIS-2-1316037600-1760911200,2,2011-09-15T00:00:00+02:00,2025-10-20T00:00:00+02:00,,,",
                f"connect,CIS-14-{fingerprint(key_of(5002))},14,S-M5002,2025-10-20T00:00:00+02:00,,,",
                "switch,OMS-T-3001-1-C,M5002,close,2025-10-24T11:00:00+02:00,2,CREW-A,".replace(",2,", ",1,"),
                "switch,OMS-T-3002-1-C,M5002,close,2025-10-29T09:02:00+01:00,1,CREW-A,",
            ],
        )
        self.assertIn(
            "customers who end in the book, and go on behind their meters under further numbers: 1 (row 2)", done.err
        )
        self.assertIn(
            "outages of a single service, which get a section and a device of their own: 2 (rows 8-9)", done.err
        )
        self.assertEqual(read_keys(self.table).numbers[key_of(5002)], [2, 14])
        self.add(done.out)
        self.assertEqual(self.later(self.people, oms=oms(LONG, SHORT)).out, exports.HEADER)

    def table_of(self, text: str) -> str:
        return Path(str(self.book(text, "other")[3])).read_text()

    def test_the_table_is_that_of_a_device_made_before(self) -> None:
        """A book in which the customer was behind its meter from the start, as it had to be done by hand."""
        done = self.later(self.people, oms=oms(LONG, SHORT))
        self.add(done.out)
        gis = exports.sample("gis") + "section,S-M5002,7,,,\ndevice,M5002,,OAK-STREET,S-M5002,closed\n"
        people = register().replace(f"{key_of(5002)},OAK-STREET", f"{key_of(5002)},S-M5002")
        other = self.run_with(
            people, *exports.PERIOD, "--keys", self.folder / "other.csv", gis=gis, oms=oms(LONG, SHORT)
        )
        self.assertEqual(self.table_of(self.text), self.table_of(other.out))

    def test_the_service_goes_on_changing(self) -> None:
        self.add(self.later(self.people, oms=oms(LONG)).out)
        ended = self.people.replace(
            f"{key_of(5002)},OAK-STREET,2011-09-15,,", f"{key_of(5002)},OAK-STREET,2011-09-15,2025-10-30,"
        )
        done = self.later(ended, oms=oms(LONG))
        row = "revise,CIS-14-1760911200-1761778800,14,2025-10-20T00:00:00+02:00,2025-10-30T00:00:00+01:00,,,"
        self.assertEqual(done.out.splitlines()[1:], [row])
        self.add(done.out)
        self.assertEqual(self.later(ended, oms=oms(LONG)).out, exports.HEADER)

    def test_a_service_that_began_in_the_period(self) -> None:
        """Its first number gets the second before the period, so that no second is counted twice, and none is lost."""
        ticket = LONG.replace("M5002", "M5004")
        done = self.later(self.people, oms=oms(ticket))
        rows = [row for row in done.out.splitlines() if row.startswith(("revise", "connect"))]
        self.assertEqual(
            [row.split(",", 2)[2] for row in rows],
            [
                "4,2025-10-19T23:59:59+02:00,2025-10-20T00:00:00+02:00,,,",
                "14,S-M5004,2025-10-22T12:00:00+02:00,,,",
            ],
        )
        self.add(done.out)
        self.assertEqual(self.later(self.people, oms=oms(ticket)).out, exports.HEADER)

    def test_several_customers_of_one_meter(self) -> None:
        people = self.people.replace("M5001", "M5002")
        done = self.later(people, oms=oms(LONG))
        self.assertEqual(
            [row.split(",")[0] for row in done.out.splitlines()[1:7]],
            ["section", "device", "revise", "connect"] + ["revise", "connect"],
        )
        self.assertEqual(done.out.count(",S-M5002,2025-10-20T00:00:00+02:00,"), 2)

    def test_a_new_customer_is_behind_its_meter_at_once(self) -> None:
        people = self.people + "NEW,OAK-STREET,2025-10-21,,M9999\n"
        done = self.later(people, oms=oms(LONG.replace("M5002", "M9999")))
        rows = [row for row in done.out.splitlines() if row.startswith(("revise", "connect"))]
        self.assertEqual(rows, [f"connect,CIS-14-{fingerprint('NEW')},14,S-M9999,2025-10-21T00:00:00+02:00,,,"])
        self.add(done.out)
        self.assertEqual(self.later(people, oms=oms(LONG.replace("M5002", "M9999"))).out, exports.HEADER)

    def test_tickets_that_make_nothing(self) -> None:
        """One that was cancelled, one of another year, one that names no meter of the register."""
        later = LONG.replace("2025-10-24", "2025-12-24")
        for row in (f"{LONG}cancelled", later):
            done = self.later(self.people, oms=oms(row))
            self.assertNotIn("S-M5002", done.out, done.err)
        done = self.later(self.people, oms=oms(LONG.replace("M5002", "M7777")))
        self.assertIn("row 8: no row of the network, nor the book, has a device M7777", done.complaints[0])

    def test_without_a_table(self) -> None:
        """Numbers of the register's own can't go on under others; a new book has its customers behind their meters at once."""
        people = with_meters(exports.sample("customers"))
        done = self.run_with(people, *exports.PERIOD, oms=oms(LONG))
        self.assertIn("connect,CIS-5002,5002,S-M5002,2011-09-15T00:00:00+02:00,,,\n", done.out)
        self.text = self.run_with(people, *exports.PERIOD).out
        self.table.unlink()
        done = self.later(people, oms=oms(LONG))
        self.assertIn(
            "row 2: customer 5002 is on OAK-STREET in the book, and a ticket names its meter", done.complaints[0]
        )

    def test_a_device_of_that_name(self) -> None:
        people = self.people.replace("M5002", "SW-81")
        done = self.later(people)
        said = "is a device of the network too, and doesn't lie behind OAK-STREET: give one of them another name"
        self.assertRegex(done.err, f"customers.csv: row 2: the meter SW-81, which .*oms.csv row 4 names, {said}")

    def test_the_limits_of_a_book(self) -> None:
        """Two sections are left: the third meter is refused by its row."""
        more = "".join(f"section,GIS-SECTION-N{n},N{n},9,,,,\n" for n in range(1_016))
        self.text += more
        rows = [LONG.replace("T-3001", f"T-30{n}").replace("M5002", f"M50{n}") for n in ("01", "02", "03")]
        done = self.later(self.people, oms=oms(*rows))
        said = "gets no section: a book has at most 1024 nodes, GRID among them"
        self.assertRegex(done.err, f"customers.csv: row 3: the meter M5003, which .*oms.csv row 10 names, {said}")
        self.assertEqual((done.out, len(read_keys(self.table).keys)), ("", 13))

    def test_the_check_takes_them(self) -> None:
        files = exports.arguments_of(self.folder / "in", {"customers": self.people, "oms": oms(LONG, SHORT)})
        done = support.run_tool("check", *files, *self.book(self.text))
        self.assertEqual(done.returncode, 0, done.stdout + done.stderr)
        self.assertIn("it fits, and nothing is wrong", done.stdout)
        self.add(self.later(self.people, oms=oms(LONG, SHORT)).out)
        files = exports.arguments_of(self.folder / "in", {"customers": self.people, "oms": oms(LONG, SHORT)})
        done = support.run_tool("check", *files, *self.book(self.text))
        self.assertEqual(done.returncode, 0, done.stdout + done.stderr)

    def test_the_next_year(self) -> None:
        """Its book has the customer behind its meter alone, and the register goes on as it is."""
        self.add(self.later(self.people, oms=oms(LONG, SHORT)).out)
        words = self.book(self.text)
        done = support.run_tool("next_year", words[1], "2025-11-03T00:00:00+01:00", *words[2:])
        self.assertIn(f"connect,CIS-14-{fingerprint(key_of(5002))},14,S-M5002,1760911200,,,", done.stdout)
        made = support.made_of(
            "services-next", [(support.written("services-next.csv", done.stdout), ("2025-11-03", "14", exports.ZONE))]
        )
        later = self.run_with(
            self.people, "--book", made[0].book, "--table", made[0].table, "--keys", self.table, oms=oms(LONG, SHORT)
        )
        self.assertEqual((later.status, later.out), (0, exports.HEADER), later.err)


class Parts(unittest.TestCase):
    def test_by_hand(self) -> None:
        """Around a period that begins at 1,000: before, over its beginning, within, with and without an end."""
        own = Own("A", "B")
        for service, old, new in (
            ((0, None), (0, 1_000), (1_000, None)),
            ((0, 2_000), (0, 1_000), (1_000, 2_000)),
            ((0, 500), (0, 500), (999, 1_000)),
            ((0, 1_000), (0, 1_000), (999, 1_000)),
            ((1_000, None), (999, 1_000), (1_000, None)),
            ((1_500, 1_600), (999, 1_000), (1_500, 1_600)),
        ):
            self.assertEqual(parts_of(Service("A", *service), own, 1_000), (Service("A", *old), Service("B", *new)))


# Customer by customer.


def joined(spans: list[Span]) -> list[Span]:
    """The longest intervals of those that touch or overlap."""
    found: list[Span] = []
    for since, until in sorted(spans):
        if found and since <= found[-1][1]:
            found[-1] = found[-1][0], max(found[-1][1], until)
        else:
            found.append((since, until))
    return found


def clock(second: int) -> str:
    return f"{datetime.fromtimestamp(second, timezone.utc):%Y-%m-%dT%H:%M:%SZ}"


class Town:
    """A made register, outages of two breakers in a row, and tickets of meters: each device is out in intervals of its own."""

    def __init__(self, seed: int) -> None:
        rng = Random(seed)
        self.people: dict[str, tuple[str, int, int | None]] = {}
        for number in range(12):
            since: int = rng.choice([0, 0, FIRST - 5_000, FIRST + rng.randint(0, LENGTH // 2)])
            until: int | None = rng.choice([None, None, FIRST + rng.randint(LENGTH // 2 + 1, LENGTH)])
            self.people[f"KEY-{number:04}"] = (rng.choice(["OAK", "ELM"]), since, until)
        self.outages = {device: self.spans(rng, 6) for device in ("CB", "SW")}
        meters = rng.sample(sorted(self.people), 5)
        self.outages |= {f"M{key[-4:]}": self.spans(rng, rng.randint(1, 4)) for key in meters}

    def spans(self, rng: Random, count: int) -> list[Span]:
        cuts = sorted(rng.sample(range(FIRST, FIRST + LENGTH), 2 * count))
        lengths = [rng.choice([LENGTH, rng.randint(1, 700)]) for _ in range(count)]
        return [(a, min(b, a + length)) for a, b, length in zip(cuts[::2], cuts[1::2], lengths)]

    def files(self, devices: set[str]) -> dict[str, str]:
        """The exports, with tickets of some devices."""
        tickets = ["ticket,step,device,out,restored,cause,crew"]
        for device in sorted(devices):
            for number, (since, until) in enumerate(self.outages[device], 1):
                tickets.append(f"{device}-{number},1,{device},{clock(since)},{clock(until)},WIND,CREW")
        people = ["customer,section,since,until,meter"]
        for key, (section, since, end) in self.people.items():
            left = "" if end is None else clock(end)
            people.append(f"{key},{section},{clock(since)},{left},M{key[-4:]}")
        gis = "type,name,feeder,from,to,normal\nsection,OAK,7,,,\nsection,ELM,7,,,\n"
        gis += "device,CB,,GRID,OAK,closed\ndevice,SW,,OAK,ELM,closed\n"
        return {
            "causes": "code,name\n1,WIND\n",
            "gis": gis,
            "customers": "".join(f"{row}\n" for row in people),
            "oms": "".join(f"{row}\n" for row in tickets),
        }

    def lengths(self) -> dict[str, list[int]]:
        """The seconds of each interruption of each customer, found customer by customer."""
        found = {}
        for key, (section, since, last) in self.people.items():
            devices = ["CB", f"M{key[-4:]}", *(["SW"] if section == "ELM" else [])]
            spans = joined([span for device in devices for span in self.outages.get(device, [])])
            end = FIRST + LENGTH if last is None else last
            parts = [(max(a, since), min(b, end)) for a, b in spans]
            found[key] = [b - a for a, b in parts if a < b]
        return found

    def served(self) -> int:
        ends = (
            (max(since, FIRST), FIRST + LENGTH if until is None else until) for _, since, until in self.people.values()
        )
        return sum(max(0, until - since) for since, until in ends)


class CustomerByCustomer(WithBook):
    """Made weeks: the book after each export is a count customer by customer."""

    def figures(self, words: list[object]) -> dict[str, str]:
        lines = Path(str(words[3])).read_text().splitlines()
        return {" ".join(line.split()[:2]): line.split()[2] for line in lines if " all " in line}

    def wanted(self, town: Town) -> dict[str, str]:
        lengths = town.lengths()
        sustained = {key: [each for each in listed if each > 300] for key, listed in lengths.items()}
        counts = Counts(
            sum(len(listed) for listed in sustained.values()),
            sum(sum(listed) for listed in sustained.values()),
            sum(each <= 300 for listed in lengths.values() for each in listed),
            [sum(len(listed) >= n for listed in sustained.values()) for n in range(1, 11)],
        )
        found = {
            f"{name} all": fraction_text(value) for name, value in indices_of(counts, town.served(), LENGTH).items()
        }
        return found | {"SUSTAINED all": str(counts.sustained), "MOMENTARY all": str(counts.momentary)}

    def test_made_weeks(self) -> None:
        """The first export has the breakers' outages, the second those of some meters, the third all."""
        for seed in range(SEEDS):
            town = Town(seed)
            meters = sorted(device for device in town.outages if device.startswith("M"))
            self.table.unlink(missing_ok=True)
            self.text = ""
            for devices in ({"CB", "SW"}, {"CB", "SW", *meters[:2]}, set(town.outages)):
                words = self.book(self.text) if self.text else [*exports.PERIOD, "--keys", self.table]
                done = exports.run(*exports.arguments_of(self.folder / "in", town.files(devices)), *words)
                self.assertEqual(done.status, 0, (seed, done.err))
                self.text = self.text + done.out.removeprefix(exports.HEADER) if self.text else done.out
            words = self.book(self.text)
            self.assertEqual(self.figures(words), self.wanted(town), seed)
            again = exports.run(*exports.arguments_of(self.folder / "in", town.files(set(town.outages))), *words)
            self.assertEqual(again.out, exports.HEADER, seed)


if __name__ == "__main__":
    unittest.main()
