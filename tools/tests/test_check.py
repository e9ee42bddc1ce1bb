"""Exports looked at before a book is made: each finding by itself, random networks by brute force, and the program's own answers."""

import json
import random
import unittest
from collections.abc import Iterable, Iterator
from datetime import datetime, timedelta
from pathlib import Path

from outage_tools.normal_state import SOURCE, TestedDevice, TestedNetwork, during
from outage_tools.trial import parted
from tests import program_books, support
from tests.program_books import run_program
from tests.support import EXPORTS, written

ZONE = "CET-1CEST,M3.5.0,M10.5.0/3"
PERIOD = ("2025-10-20", "14", ZONE)
WORDS = ("--first", PERIOD[0], "--days", PERIOD[1], "--zone", ZONE)
HEADS = {
    "gis": "type,name,feeder,from,to,normal,since,until",
    "customers": "customer,section,since,until",
    "oms": "ticket,step,device,out,out_hour,restored,restored_hour,cause,crew,zone,status",
    "causes": "code,name,oms",
}
NOTICED = ": noticed: "
SECONDS = 14 * 86_400 + 3_600  # of the period, in which the clocks go back


def sample(export: str) -> list[str]:
    """The rows of a sample export, without its header."""
    return (EXPORTS / f"{export}.csv").read_text().splitlines()[1:]


def changed(rows: Iterable[str], change: tuple[str, str]) -> Iterator[str]:
    """The rows with one that begins in some way being another one."""
    old, new = change
    listed = list(rows)
    if sum(row.startswith(old) for row in listed) != 1:
        raise AssertionError(f"{old} begins no row, or several")
    return (new if row.startswith(old) else row for row in listed)


def text_of(export: str, rows: Iterable[str]) -> str:
    """The text of an export: its rows with all columns."""
    columns = HEADS[export].count(",")
    return "".join(f"{row}{',' * (columns - row.count(','))}\n" for row in (HEADS[export], *rows))


class Exports:
    """The sample exports, with rows that are added or changed, in files."""

    def __init__(self, **more: list[str]):
        self.rows = {export: [*sample(export), *more.get(export, ())] for export in HEADS}

    def change(self, export: str, *changes: tuple[str, str]) -> "Exports":
        for each in changes:
            self.rows[export] = list(changed(self.rows[export], each))
        return self

    def files(self) -> list[object]:
        """The words that name the files."""
        words: list[object] = []
        for export, rows in self.rows.items():
            words += [f"--{export}", written(f"checked-{export}.csv", text_of(export, rows))]
        return words


class Found(unittest.TestCase):
    """What is wrong with the sample once it is changed, each by itself."""

    def checked(self, exports: Exports, *words: object, status: int = 2) -> list[tuple[str, str, bool]]:
        """The findings: topic, words and whether it is wrong; without what is only noticed, as the sample's step that isn't over."""
        done = support.run_tool("check", *exports.files(), *(words or WORDS), "--json")
        self.assertEqual(done.returncode, status, done.stdout + done.stderr)
        findings = json.loads(done.stdout)["findings"]
        folder = f"{support.folder()}/checked-"
        told = [(each["topic"], each["text"].replace(folder, ""), each["wrong"]) for each in findings]
        return [each for each in told if NOTICED not in each[1]]

    def wrong(self, exports: Exports, topic: str, text: str, *words: object) -> None:
        self.assertEqual(self.checked(exports, *words), [(topic, text, True)])

    def test_the_sample(self) -> None:
        self.assertEqual(self.checked(Exports(), status=0), [])
        done = support.run_tool("check", *Exports().files(), *WORDS)
        self.assertIn("\nnodes, GRID among them                   6      1024\n", done.stdout)
        self.assertIn("\nentries                                 11     50000\n", done.stdout)
        self.assertIn("oms.csv: noticed: steps that aren't over: 1 (row 7)\n", done.stdout)
        self.assertTrue(done.stdout.endswith("\nit fits, and nothing is wrong\n"))

    def test_a_section_on_the_device_of_another_feeder(self) -> None:
        """It is supplied, and no loop shows it."""
        exports = Exports().change("gis", ("device,SW-81,,WHARF,", "device,SW-81,,ELM-STREET,DEPOT,closed"))
        topic = "devices on no loop that are closed normally between two feeders"
        text = "SW-81 (gis.csv row 10): ELM-STREET of feeder 7, DEPOT of feeder 8"
        self.assertEqual(self.checked(exports, status=0), [(topic, text, False)])

    def test_rows_that_cannot_be_read(self) -> None:
        exports = Exports(
            gis=["section,QUAY,256"], customers=["0,DEPOT,2020-01-01", "6001,DEPOT,2020-01-02,2020-01-02"]
        )
        found = self.checked(exports)
        self.assertEqual(
            found,
            [
                ("rows that can't be taken", "gis.csv: row 12: the feeder '256' isn't a number from 1 to 255", True),
                (
                    "rows that can't be taken",
                    "customers.csv: row 14: the customer '0' isn't a number from 1 to 4294967295",
                    True,
                ),
                (
                    "rows that can't be taken",
                    "customers.csv: row 15: until '2020-01-02' isn't after since '2020-01-02'",
                    True,
                ),
            ],
        )

    def test_names_told_twice(self) -> None:
        twice = "told twice"
        self.wrong(Exports(gis=["bus,depot"]), twice, "node DEPOT: gis.csv row 5 and gis.csv row 12")
        self.wrong(Exports(gis=["bus,GRID"]), twice, "node GRID: from the start and gis.csv row 12")
        device = "device,SW-81,,WHARF,DEPOT,closed"
        self.wrong(Exports(gis=[device]), twice, "device SW-81: gis.csv row 10 and gis.csv row 12")
        customer = "customer 5001: customers.csv row 1 and customers.csv row 14"
        self.wrong(Exports(customers=["5001,DEPOT,2020-01-01"]), twice, customer)
        row = "T-2042,1,SW-81,2025-10-24 13:00:00,,2025-10-24 13:04:30,,WIND,,,"
        self.wrong(Exports(oms=[row]), twice, "ticket and step T-2042 1: oms.csv row 4 and oms.csv row 8")
        cause = "cause 2 FIRE, causes.csv row 5: code 2 is TREE, and FIRE has no code before"
        self.wrong(Exports(causes=["2,FIRE,FIRE"]), twice, cause)

    def test_several_words_of_a_cause(self) -> None:
        self.assertEqual(self.checked(Exports(causes=["2,TREE,BRANCH", "2,TREE,TREES"]), status=0), [])

    def test_ends_and_sections_that_are_nowhere(self) -> None:
        device = Exports(gis=["device,SW-9,,DEPOT,MARKET,open"])
        self.wrong(
            device,
            "devices with an end that is no bus or section",
            "SW-9 (gis.csv row 12): MARKET is no bus or section",
        )
        both = Exports(gis=["device,SW-9,,HARBOUR,MARKET,open"])
        text = "SW-9 (gis.csv row 12): HARBOUR and MARKET are no buses or sections"
        self.wrong(both, "devices with an end that is no bus or section", text)
        astray = "customers on no section"
        self.wrong(Exports(customers=["6001,MARKET,2020-01-01"]), astray, "MARKET isn't there: customer 6001")
        self.wrong(Exports(customers=["6001,NORTH-BUS,2020-01-01"]), astray, "NORTH-BUS is a bus: customer 6001")

    def test_switchings_of_what_is_nowhere(self) -> None:
        exports = Exports().change("oms", ("T-2042", "T-2042,1,SW-88,2025-10-23 13:00:00,,,,PLANNED WORK,,,"))
        self.wrong(exports, "switchings of a device that no row has", "SW-88: oms.csv row 4")
        exports = Exports().change("oms", ("T-2042", "T-2042,1,SW-81,2025-10-23 13:00:00,,,,PLANED,,,"))
        self.wrong(exports, "switchings with a cause that no row has", "PLANED: oms.csv row 4")

    def test_what_the_conversion_leaves_out_and_refuses(self) -> None:
        """What lies outside of the period is told, and no fault by itself; steps of a device that overlap are one."""
        row = "T-1,1,CB-7,2025-10-19 22:00:00,,2025-10-19 23:00:00,,WIND"
        found = self.checked(Exports(oms=[row]), status=0)
        text = "oms.csv: left out: steps before the period: 1 (row 8)"
        self.assertEqual(found, [("left out, changed or noticed when rows are written", text, False)])
        row = "T-1,1,SW-81,2025-10-23 13:03:00,,2025-10-23 14:00:00,,WIND"
        ((topic, text, is_wrong),) = self.checked(Exports(oms=[row]))
        self.assertEqual((topic, is_wrong), ("rows that can't be taken", True))
        self.assertIn("oms.csv: row 8: ticket T-1 step 1 opens SW-81", text)
        self.checked(Exports(oms=[row]), *WORDS, "--overlaps", "join", status=0)

    def test_a_section_that_no_device_joins(self) -> None:
        exports = Exports(gis=["section,QUAY,9"], customers=["6001,QUAY,2025-10-21 00:00,2025-10-22 00:00"])
        text = "section QUAY (gis.csv row 12); 1 customer, 86400 customer-seconds under cause 0"
        self.wrong(exports, "buses and sections that no device joins", text)

    def test_sections_that_are_not_reached(self) -> None:
        exports = Exports(gis=["section,QUAY,9", "section,PIER,9", "device,SW-9,,QUAY,PIER,closed"])
        self.wrong(exports, "not reached, with or without ties", "PIER, QUAY: the whole period")

    def test_what_is_reached_through_ties_alone(self) -> None:
        exports = Exports().change("gis", ("device,SW-71", "device,SW-71,,OAK-STREET,ELM-STREET,open"))
        exports.change("oms", ("T-2041,2", "T-2041,2,SW-71,2025-10-21 10:10:00,,2025-10-21 08:40:00,,TREE DOWN"))
        # 5005 to 5007 the whole time, and 5013 from the 27th on.
        seconds = 3 * SECONDS + 7 * 86_400
        text = f"ELM-STREET: the whole period; through SW-71, TIE-78; 4 customers, {seconds} customer-seconds under cause 0"
        self.wrong(exports, "reached through ties alone", text)

    def test_a_device_that_joins_later(self) -> None:
        """Up to then its section isn't reached: wrong where customers are in service by then, else only told."""
        later = "device,SW-81,,WHARF,DEPOT,closed,2025-10-25,"
        exports = Exports().change(
            "gis", ("device,SW-81", later), ("device,TIE-78", "device,TIE-78,,ELM-STREET,WHARF,open")
        )
        text = f"DEPOT: up to 2025-10-25 00:00:00; 2 customers, {2 * 5 * 86_400} customer-seconds under cause 0"
        self.wrong(exports, "not reached, with or without ties", text)
        exports.change("customers", ("5011", "5011,DEPOT,2025-10-25,"), ("5012", "5012,DEPOT,2025-10-26,"))
        found = self.checked(exports, status=0)
        self.assertEqual(found, [("not reached, with or without ties", "DEPOT: up to 2025-10-25 00:00:00", False)])

    def test_a_device_that_leaves(self) -> None:
        leaves = "device,CB-8,,NORTH-BUS,WHARF,closed,,2025-10-30"
        found = self.checked(Exports().change("gis", ("device,CB-8", leaves)))
        seconds = 4 * 4 * 86_400
        text = f"DEPOT, WHARF: from 2025-10-30 00:00:00 on; through TIE-78; 4 customers, {seconds} customer-seconds under cause 0"
        self.assertEqual(found, [("reached through ties alone", text, True)])

    def test_a_tie_that_is_normally_closed(self) -> None:
        exports = Exports().change("gis", ("device,TIE-78", "device,TIE-78,,ELM-STREET,DEPOT,closed"))
        exports.change("oms", ("T-2041,3", "T-2041,3,TIE-78,2025-10-21 08:15:00,,2025-10-21 08:45:00,,TREE DOWN"))
        text = "CB-7, CB-8, SW-71, SW-81, TIE-78: the whole period; between feeders: TIE-78 (7 and 8)"
        self.wrong(exports, "loops of devices that are closed normally", text)
        self.assertEqual(
            self.checked(exports, *WORDS, "--meshed", status=0),
            [("loops of devices that are closed normally", text, False)],
        )

    def test_two_devices_side_by_side(self) -> None:
        exports = Exports(gis=["device,INC-S,,GRID,NORTH-BUS,closed,2025-10-22 12:00,2025-10-24"])
        text = "INC-N, INC-S: from 2025-10-22 12:00:00 up to 2025-10-24 00:00:00"
        self.wrong(exports, "loops of devices that are closed normally", text)

    def test_without_a_network(self) -> None:
        """Outages are looked at beside a network, as where rows are written."""
        done = support.run_tool("check", *Exports().files()[2:], *WORDS)
        self.assertEqual((done.returncode, done.stdout), (1, ""))
        self.assertIn("give --gis or --book", done.stderr)

    def test_wrong_words(self) -> None:
        files = Exports().files()
        listed: list[list[object]] = [
            [],
            [*files],
            [*files, "--first", "2025-10-20"],
            [*files, *WORDS[:4]],
            [*files, *WORDS, "--days", "0"],
        ]
        for words in listed:
            self.assertEqual(support.run_tool("check", *words).returncode, 64, words)
        done = support.run_tool("check", "--gis", "/nowhere.csv", *WORDS)
        self.assertEqual((done.returncode, done.stdout), (1, ""))
        done = support.run_tool("check", *files, "--first", "2025-13-20", *WORDS[2:])
        self.assertEqual((done.returncode, done.stdout), (1, ""))


@support.needs_program
class WithABook(unittest.TestCase):
    """Exports beside a book that has a part of them already."""

    def setUp(self) -> None:
        rows = support.run_tool("from_oms", *Exports().files(), *WORDS).stdout
        self.book = program_books.new_book("checked", PERIOD, written("checked-rows.csv", rows))

    def checked(self, exports: Exports, status: int = 2) -> dict[str, list[dict[str, object]]]:
        words = ("--book", self.book, "--program", support.PROGRAM, "--json")
        done = support.run_tool("check", *exports.files(), *words)
        self.assertEqual(done.returncode, status, done.stdout + done.stderr)
        whole: dict[str, list[dict[str, object]]] = json.loads(done.stdout)
        whole["findings"] = [each for each in whole["findings"] if NOTICED not in str(each["text"])]
        return whole

    def test_what_is_there_counts_once(self) -> None:
        row = "T-2050,1,CB-8,2025-10-31 08:00:00,,2025-10-31 09:00:00,,WIND"
        exports = Exports(gis=["section,QUAY,8", "device,SW-82,,DEPOT,QUAY,closed"], oms=[row])
        whole = self.checked(exports, status=0)
        self.assertEqual(whole["findings"], [])
        self.assertEqual([each["number"] for each in whole["bounds"]], [14, 7, 7, 13, 13, 4, 2])

    def test_what_the_book_has_otherwise(self) -> None:
        exports = Exports().change(
            "gis",
            ("device,SW-81", "device,SW-81,,NORTH-BUS,DEPOT,closed"),
            ("section,WHARF", "section,WHARF,7"),
        )
        exports.change("customers", ("5012", "5012,WHARF,2019-06-01,"))
        folder = f"{support.folder()}/checked-"
        found = [str(each["text"]).replace(folder, "") for each in self.checked(exports)["findings"]]
        self.assertEqual(
            found,
            [
                "node WHARF: a section of feeder 7 in gis.csv row 4, a section of feeder 8 in the book",
                "device SW-81: DEPOT to NORTH-BUS, normally closed in gis.csv row 10, DEPOT to WHARF, normally closed in the book",
                "customer 5012: on WHARF in customers.csv row 12, on DEPOT in the book",
            ],
        )

    def test_another_life(self) -> None:
        exports = Exports().change("gis", ("device,CB-8", "device,CB-8,,NORTH-BUS,WHARF,closed,,2025-10-30"))
        (found,) = self.checked(exports)["findings"]
        self.assertEqual((found["topic"], found["customers"]), ("reached through ties alone", 4))


@support.needs_program
class AsTheProgramSays(unittest.TestCase):
    """Where the tool says that exports fit the program takes them, and the seconds under cause 0 are its own."""

    def rows(self, nodes: int, devices: int) -> list[str]:
        """A bus and sections in rows of up to forty behind it, with further devices between the bus and the first ones."""
        rows = ["bus,B", *(f"section,S{number},1" for number in range(nodes - 2))]
        rows.append("device,IN,,GRID,B,closed")
        for number in range(nodes - 2):
            rows.append(f"device,D{number},,{f'S{number - 1}' if number % 40 else 'B'},S{number},closed")
        rows += [f"device,E{number},,B,S{number % 900},open" for number in range(devices - nodes + 1)]
        return rows

    def test_nodes_and_devices_at_the_limit(self) -> None:
        for nodes, devices, status, refusal in [
            (1_024, 2_048, 0, ""),
            (1_025, 2_048, 2, "refused 12 Full 1024"),
            (1_024, 2_049, 2, "refused 12 Full 2048"),
        ]:
            with self.subTest(nodes=nodes, devices=devices):
                gis = written("limit.csv", text_of("gis", self.rows(nodes, devices)))
                done = support.run_tool("check", "--gis", gis, *WORDS)
                self.assertEqual((done.returncode, done.stderr), (status, ""), done.stdout)
                self.assertIn(
                    "it fits, and nothing is" if status == 0 else "it doesn't fit, and nothing is", done.stdout
                )
                rows = written("limit-rows.csv", program_books.text_of(commands(self.rows(nodes, devices))))
                book = program_books.new_book("limit", PERIOD)
                done = run_program("import", "--book", book, rows)
                self.assertEqual((done.returncode, done.stderr.partition(" row")[0]), (status, refusal))

    def test_the_other_limits(self) -> None:
        """All 63 causes, and one customer, one entry and one day more than there is room for."""
        customers = [f"{number},DEPOT,2000-01-01" for number in range(10_001, 10_001 + 100_001 - 13)]
        oms = [f"X-{number},1,SW-81,{clock(2 * number)},,{clock(2 * number + 1)},,WIND" for number in range(25_000 - 5)]
        causes = [f"{code},CAUSE-{code}" for code in range(5, 64)]
        exports = Exports(customers=customers, oms=oms, causes=causes)
        words = ("--first", "2025-10-20", "--days", "367", "--zone", ZONE, "--json")
        done = support.run_tool("check", *exports.files(), *words)
        self.assertEqual((done.returncode, done.stderr), (2, ""))
        whole = json.loads(done.stdout)
        self.assertEqual(whole["findings"], [])
        passed = {each["what"]: each["number"] for each in whole["bounds"] if not each["fits"]}
        self.assertEqual(passed, {"days of the period": 367, "customers": 100_001, "entries": 50_001})

    def test_seconds_under_cause_0(self) -> None:
        """Of random networks with lives the findings' customer-seconds are all that the program counts without an outage."""
        for seed in range(6):
            draw = random.Random(seed)
            gis = [
                *(f"bus,B{number}" for number in range(2)),
                *(f"section,S{number},{1 + number % 3}" for number in range(7)),
            ]
            nodes = ["GRID", "B0", "B1", *(f"S{number}" for number in range(7))]
            for number in range(9):
                a, b = draw.sample(nodes, 2)
                gis.append(f"device,D{number},,{a},{b},{draw.choice(['open', 'closed', 'closed'])},{life(draw)}")
            customers = [f"{number},S{draw.randrange(7)},{life(draw, '1999-01-01')}" for number in range(1, 15)]
            exports = Exports()
            exports.rows = {"gis": gis, "customers": customers}
            with self.subTest(seed):
                done = support.run_tool("check", *exports.files(), *WORDS, "--json")
                found = sum(each["customer_seconds"] for each in json.loads(done.stdout)["findings"])
                rows = written("seconds.csv", support.run_tool("from_oms", *exports.files(), "--zone", ZONE).stdout)
                table = program_books.table_of(program_books.new_book("seconds", PERIOD, rows))
                self.assertEqual(str(found), parted(table)["cause 0 UNASSIGNED"])


def clock(seconds: int) -> str:
    """A time of a day without a change of clocks."""
    return str(datetime(2025, 10, 22) + timedelta(seconds=seconds))


def commands(rows: Iterable[str]) -> Iterator[str]:
    """The commands of the rows of a network."""
    for number, row in enumerate(rows):
        kind, name, *rest = row.split(",")
        yield f"{kind},REF-{number},{name},{','.join(field for field in rest if field)}".rstrip(",")


def life(draw: random.Random, since: str = "") -> str:
    """The two columns of a life that begins and ends within the period or about it, or is whole."""
    days = sorted(draw.sample(range(1, 28), 2))
    begins = f"2025-10-{days[0]:02} 06:00" if draw.random() < 0.4 else since
    return f"{begins},{f'2025-10-{days[1]:02} 18:00:30' if draw.random() < 0.4 else ''}"


class BruteForce(unittest.TestCase):
    """Random networks second by second: who is reached, and which devices lie on a loop."""

    def test_islands_and_loops(self) -> None:
        for seed in range(300):
            draw = random.Random(seed)
            nodes = [SOURCE, *(f"N{number}" for number in range(draw.randrange(2, 8)))]
            devices = tuple(
                TestedDevice(
                    f"D{number}",
                    tuple(draw.sample(nodes, 2)),  # type: ignore[arg-type]
                    draw.random() < 0.7,
                    draw.choice([0, 0, 3, 6]),
                    draw.choice([None, None, 7, 9]),
                )
                for number in range(draw.randrange(1, 11))
            )
            network = TestedNetwork(frozenset(nodes), devices)
            for second in (0, 3, 7):
                with self.subTest(seed=seed, second=second):
                    self.compare(network, second)

    def compare(self, network: TestedNetwork, second: int) -> None:
        alive = [device for device in network.devices if device.is_alive(second)]
        closed = [device for device in alive if device.is_closed]
        islands = list(network.islands(second))
        left = {node for node in network.nodes if not joined(closed, SOURCE, node)}
        self.assertEqual(sorted(node for island in islands for node in island.nodes), sorted(left))
        for island in islands:
            node = min(island.nodes)
            self.assertEqual(island.nodes, {each for each in network.nodes if joined(closed, node, each)})
            self.assertEqual(island.is_reached_by_ties, joined(alive, SOURCE, node))
        loops = list(network.loops(second))
        listed = [name for loop in loops for name in loop.devices]
        on_loops = {each.name for each in closed if joined([d for d in closed if d is not each], *each.ends)}
        self.assertEqual(sorted(listed), sorted(on_loops), "each device that lies on a loop, in one loop")

    def test_two_loops_that_share_a_node_are_two(self) -> None:
        ends = [("A", "B"), ("B", "C"), ("C", "A"), ("C", "D"), ("D", "E"), ("E", "C"), ("E", "F")]
        devices = tuple(TestedDevice("".join(pair), pair, True) for pair in ends)
        loops = {loop.devices for loop in TestedNetwork(frozenset("ABCDEF"), devices).loops(0)}
        self.assertEqual(loops, {frozenset(["AB", "BC", "CA"]), frozenset(["CD", "DE", "EC"])})

    def test_how_long_something_is_found(self) -> None:
        looks = {1: "ab", 5: "b", 7: "bc", 9: "a"}
        found = during(list(looks), 12, looks.__getitem__)
        self.assertEqual(
            [(each.found, each.since, each.until) for each in found],
            [("a", 1, 5), ("b", 1, 9), ("c", 7, 9), ("a", 9, 12)],
        )


def joined(devices: Iterable[TestedDevice], one: str, other: str) -> bool:
    """A walk over some devices leads from one node to another."""
    reached, before = {one}, set[str]()
    while reached != before:
        before = set(reached)
        for device in devices:
            if before & set(device.ends):
                reached |= set(device.ends)
    return other in reached


if __name__ == "__main__":
    unittest.main()
