"""A network that changed, against the book of the one before: rows that the book takes, and what no row says."""

import shutil
import unittest
from dataclasses import dataclass
from fractions import Fraction
from pathlib import Path

from outage_tools.compare import open_book
from tests import exports, support
from tests.made_grid import DAY, FIRST, made_grid
from tests.network_runs import CUSTOMERS, EDGES, OMS_HEAD, Cut, changed, run, written
from tests.test_sections_made import WORDS, by_customer

PERIOD = ("2025-01-01", "365", "UTC0")
AT = "2025-06-01 00:00:00"
HEAD = "kind,ref,f1,f2,f3,f4,f5,f6"


@dataclass(frozen=True)
class Before:
    """A book, its table, its text, and the folder of the run of which it was made."""

    folder: Path
    book: Path
    table: Path
    text: str

    @property
    def words(self) -> list[object]:
        return ["--as", self.folder, "--book", self.book, "--table", self.table]


def book_of(name: str, text: str) -> tuple[Path, Path]:
    """A book of a text, by the model."""
    path = support.written(f"{name}.csv", text)
    listed = support.written(f"{name}.list", f"{path} {' '.join(PERIOD)}\n")
    folder = support.folder() / f"{name}-book"
    shutil.rmtree(folder, ignore_errors=True)
    made = support.made(folder, "--list", str(listed))[0]
    return made.book, made.table


def rows_by(folder: Path, *words: object) -> exports.Done:
    """The rows of commands of a run's files."""
    causes = support.written("changed-causes.csv", "code,name\n1,WIND\n")
    files = [
        word
        for name in ("gis", "customers", "oms")
        if (folder / f"{name}.csv").exists()
        for word in (f"--{name}", folder / f"{name}.csv")
    ]
    return exports.run("--causes", causes, *files, *words)


def kept(name: str, found: Cut) -> Path:
    """The files of a run, where the next one doesn't write over them."""
    if found.status:
        raise AssertionError(found.err)
    folder = support.folder() / name
    shutil.rmtree(folder, ignore_errors=True)
    return Path(shutil.copytree(support.folder() / "cut", folder))


def before(name: str, *words: object) -> Before:
    folder = kept(f"{name}-first", run(*words))
    done = rows_by(folder, "--first", PERIOD[0], "--days", PERIOD[1], "--zone", PERIOD[2])
    if done.status:
        raise AssertionError(done.err)
    return Before(folder, *book_of(name, done.out), done.out)


def words_of(edges: str = EDGES, customers: str = CUSTOMERS, oms: tuple[str, ...] = ()) -> list[object]:
    text = "".join(f"{row}\n" for row in (OMS_HEAD, *oms))
    return [
        *("--edges", written("edges", edges), "--source", "N0", "--customers", written("customers", customers)),
        *("--oms", written("oms", text)),
    ]


class ByHand(unittest.TestCase):
    """Changes of the small network, one at a time."""

    first: Before

    @classmethod
    def setUpClass(cls) -> None:
        cls.first = before("by-hand", *words_of())

    def later(self, *changes: tuple[str, str], customers: str = CUSTOMERS, oms: tuple[str, ...] = ()) -> Cut:
        return run(*words_of(changed(*changes), customers, oms), *self.first.words, "--at", AT)

    def said(self, found: Cut) -> list[str]:
        """What was told of the book."""
        mark = f"{self.first.book}: ".replace(f"{support.folder()}/", "")
        return [line.removeprefix(mark) for line in found.said if line.startswith(mark)]

    def rows(self, found: Cut) -> list[str]:
        """The rows of commands that the book takes: it takes them all."""
        self.assertEqual(found.status, 0, found.err)
        done = rows_by(support.folder() / "cut", "--book", self.first.book, "--table", self.first.table)
        self.assertEqual(done.status, 0, done.err)
        rows = done.out.splitlines()[1:]
        book_of("by-hand-later", self.first.text + "".join(f"{row}\n" for row in rows))
        return [row.replace("T00:00:00+00:00", "").rstrip(",") for row in rows]

    def test_nothing(self) -> None:
        found = self.later()
        self.assertEqual((self.said(found), self.rows(found)), ([], []))

    FUSE = ("LN/3,line,N13,N14,,7", "LN/3,line,N13,N99,,7\nFU 900,fuse,N99,N14,closed,7")

    def test_a_new_fuse_in_a_lateral(self) -> None:
        """The transformer behind it begins anew under a further name; its section and its customers stay."""
        found = self.later(self.FUSE)
        self.assertEqual(
            self.said(found),
            [
                "FU 900: FU-900 begins: S-FU-34 to S-FU-900, normally closed",
                "XF1: XF1 ends, and goes on as XF1-2: S-FU-900 to S-XF1, normally closed",
            ],
        )
        self.assertEqual(
            self.rows(found),
            [
                "section,GIS-SECTION-S-FU-900,S-FU-900,7",
                "device,GIS-DEVICE-FU-900,FU-900,S-FU-34,S-FU-900,closed,2025-06-01",
                "life,GIS-LIFE-XF1,XF1,,2025-06-01",
                "device,GIS-DEVICE-XF1-2,XF1-2,S-FU-900,S-XF1,closed,2025-06-01",
            ],
        )
        self.assertEqual(
            [row for row in found.files["names.csv"] if row[0] == "XF1"],
            [["XF1", "transformer", "device", name] for name in ("XF1", "XF1-2")],
        )

    def test_a_moved_open_point(self) -> None:
        """Sections keep their names though other devices feed them, and their home feeder."""
        found = self.later(
            ("FU 34,fuse,N13,N11,closed", "FU 34,fuse,N13,N11,open"),
            ("SW-9,switch,N12,N22,open,7", "SW-9,switch,N14,N22,closed,7"),
        )
        self.assertEqual(
            self.said(found),
            [
                "S-FU-34 hangs on feeder 8 now, and stays under feeder 7 in the book",
                "S-XF1 hangs on feeder 8 now, and stays under feeder 7 in the book",
                "FU 34: FU-34 ends, and goes on as FU-34-2: S-FU-34 to S-CB-7, normally open",
                "SW-9: SW-9 ends, and goes on as SW-9-2: S-CB-8 to S-FU-34, normally closed",
            ],
        )
        self.assertEqual(
            self.rows(found),
            [
                "life,GIS-LIFE-FU-34,FU-34,,2025-06-01",
                "device,GIS-DEVICE-FU-34-2,FU-34-2,S-FU-34,S-CB-7,open,2025-06-01",
                "life,GIS-LIFE-SW-9,SW-9,,2025-06-01",
                "device,GIS-DEVICE-SW-9-2,SW-9-2,S-CB-8,S-FU-34,closed,2025-06-01",
            ],
        )

    def test_what_is_gone(self) -> None:
        found = self.later(
            ("SW-9,switch,N12,N22,open,7\n", ""),
            ("XF3,transformer,N22,N23,,8\n", ""),
            customers=changed(("4,XF3,2020-01-01,\n", ""), text=CUSTOMERS),
        )
        self.assertEqual(
            self.said(found),
            [
                "S-XF3 isn't in the export any more; customers of the book there, without supply: 1",
                "the device SW-9 isn't in the export any more, and ends",
                "the device XF3 isn't in the export any more, and ends",
            ],
        )
        self.assertEqual(self.rows(found), ["life,GIS-LIFE-SW-9,SW-9,,2025-06-01", "life,GIS-LIFE-XF3,XF3,,2025-06-01"])

    def test_tickets_of_what_is_gone(self) -> None:
        """They have the name that it had, also in the export after the next."""
        row = "1,fu 34,2025-05-01 01:00,2025-05-01 02:00,WIND"
        changes = ("FU 34,fuse,N13,N11,closed,7", "LN/3b,line,N13,N11,,7")
        found = self.later(changes, oms=(row,))
        self.assertEqual(found.files["oms.csv"][0][1], "FU-34")
        self.assertIn(["FU 34", "gone", "device", "FU-34"], found.files["names.csv"])
        reason = "rows that name a device of the earlier run, which the export hasn't any more: 1 (row 1)"
        self.assertIn(f"network-oms.csv: noticed: {reason}", found.said)
        folder = kept("by-hand-gone", found)
        words = [*words_of(changed(changes), oms=(row,)), "--as", folder, *self.first.words[2:], "--at", AT]
        self.assertEqual(run(*words).files["oms.csv"][0][1], "FU-34")

    def test_a_coarse_network(self) -> None:
        """Devices that the book has stay, also where this export's tickets don't name them."""
        ticket = "1,FU 34,2025-05-01 01:00,2025-05-01 02:00,WIND"
        words = [each if each != "--oms" else "--only-opened" for each in words_of(oms=(ticket,))]
        first = before("coarse", *words)
        words = [
            each if each != "--oms" else "--only-opened" for each in words_of(oms=(ticket.replace("FU 34", "XF2"),))
        ]
        found = run(*words, *first.words, "--at", AT)
        self.assertEqual((found.status, found.customers["3"]), (0, "S-CB-7"))  # where the book has it: behind XF2 now
        self.assertEqual(found.devices["XF2"][1], "S-CB-7")
        words = [each if each != "--oms" else "--only-opened" for each in words_of()]
        found = run(*words, *first.words, "--at", AT)
        self.assertEqual(
            ({*found.devices}, [line for line in found.said if ".db" in line]), ({"CB-7", "FU-34", "SW-9", "CB-8"}, [])
        )

    def test_a_section_that_is_cut_in_two(self) -> None:
        """It is where its customers are; those on the other part would have to end and begin anew, and are told."""
        low = self.later(("LV1,line,N15,N17,,7", "SW-LV,switch,N15,N18,closed,7\nLV1,line,N18,N17,,7"))
        self.assertEqual(low.customers, {"1": "S-XF1", "2": "S-XF1", "3": "S-XF2", "4": "S-XF3"})
        self.assertEqual(low.nodes["S-SW-LV"], "7")
        customers = "customer,node,since,until\n1,N13,2020-01-01,\n2,N14,2020-01-01,\n3,N14,2020-01-01,\n"
        first = before("in-two", *words_of(customers=customers))
        self.assertEqual({*run(*words_of(customers=customers)).customers.values()}, {"S-FU-34"})
        found = run(*words_of(changed(self.FUSE), customers), *first.words, "--at", AT)
        self.assertEqual(found.status, 1)
        self.assertEqual(len(found.said), 1)
        self.assertRegex(
            found.said[0],
            "^network-customers.csv: row 1: customer 1 is on S-FU-34 in the book, and on S-FU-34-[0-9A-F]{6} in this export: end"
            " its service, and give the one that goes on another number$",
        )

    def test_tickets_by_their_moments(self) -> None:
        """Those of before the change have the name of before; one that goes over it is refused."""
        rows = (
            "1,XF1,2025-05-01 01:00,2025-05-01 02:00,WIND",
            "2,XF1,2025-07-01 01:00,2025-07-01 02:00,WIND",
            "3,FU 900,2025-07-02 01:00,2025-07-02 02:00,WIND",
            "4,XF1,2025-05-31 23:00,2025-06-01 00:00,WIND",
        )
        found = self.later(self.FUSE, oms=rows)
        self.assertEqual([row[1] for row in found.files["oms.csv"]], ["XF1", "XF1-2", "FU-900", "XF1"])
        over = self.later(self.FUSE, oms=(*rows, "5,XF1,2025-05-31 23:00,2025-06-01 01:00,WIND"))
        text = "network-oms.csv: row 5: XF1 is XF1 at its beginning and XF1-2 at its end: choose another --at"
        self.assertEqual((over.status, over.said), (1, [text]))

    def test_the_next_export_again(self) -> None:
        """With the book that has taken the rows nothing is new; a further change goes on from there."""
        found = self.later(self.FUSE)
        folder = kept("by-hand-second", found)
        done = rows_by(folder, "--book", self.first.book, "--table", self.first.table)
        text = self.first.text + "".join(f"{row}\n" for row in done.out.splitlines()[1:])
        second = Before(folder, *book_of("by-hand-second", text), text)
        edges = changed(self.FUSE)
        again = run(*words_of(edges), *second.words, "--at", "2025-07-01 00:00:00")
        self.assertEqual((again.status, [line for line in again.said if ".db" in line]), (0, []))
        self.assertEqual({row[6] for row in again.files["gis.csv"]}, {""})
        self.assertIn(["device", "XF1-2", "", "S-FU-900", "S-XF1", "closed", "", ""], again.files["gis.csv"])
        back = run(*words_of(EDGES), *second.words, "--at", "2025-07-01 00:00:00")
        self.assertIn(
            ["device", "XF1-3", "", "S-FU-34", "S-XF1", "closed", "2025-07-01T00:00:00+00:00", ""],
            back.files["gis.csv"],
        )
        early = run(*words_of(EDGES), *second.words, "--at", AT)
        text = "network-edges.csv: row 9: XF1-2 begins in the book at --at, and is otherwise here: give a later --at"
        self.assertEqual(early.said, [text])

    def test_spare_parts_that_the_book_has(self) -> None:
        """They stay, also where no ticket names them any more."""
        edges = EDGES + "SP1,switch,N1,N30,open,\nT2,transformer,N30,N31,,\nSP2,switch,N31,N3,open,\n"
        first = before("spare", *words_of(edges, oms=("1,SP1,2025-01-01 02:00,2025-01-01 01:00,WIND",)))
        found = run(*words_of(edges), *first.words, "--at", AT)
        self.assertEqual((found.status, [line for line in found.said if ".db" in line]), (0, []))
        self.assertIn("SP2", found.devices)

    def test_a_meter_keeps_its_section(self) -> None:
        """Also where later tickets don't name it any more."""
        customers = (
            "customer,transformer,meter,since,until\n1,XF1,M1,2020-01-01,\n2,XF1,M2,2020-01-01,\n3,XF1,M3,2020-01-01,\n"
        )
        ticket = "1,M2,2025-03-01 01:00,2025-03-01 02:00,WIND"
        first = before("meters", *words_of(customers=customers, oms=(ticket,)))
        again = run(*words_of(customers=customers), *first.words, "--at", AT)
        self.assertEqual(again.customers, {"1": "S-XF1", "2": "S-M2", "3": "S-XF1"})

    def test_a_meter_that_tickets_name_later(self) -> None:
        """Its customer stays where it is, with its meter, for outagebook-from-oms: that has a further number for a key alone."""
        customers = "customer,transformer,meter,since,until\nK1,XF1,M/1,2020-01-01,\nK2,XF1,M/2,2020-01-01,\n"
        table = support.folder() / "by-meters.keys.csv"
        table.unlink(missing_ok=True)
        folder = kept("by-meters-first", run(*words_of(customers=customers)))
        done = rows_by(folder, "--first", PERIOD[0], "--days", PERIOD[1], "--zone", PERIOD[2], "--keys", table)
        text, oms = done.out, ("1,M/2,2025-03-01 01:00,2025-03-01 02:00,WIND",)
        for turn in range(2):
            book = Before(folder, *book_of(f"by-meters-{turn}", text), text)
            found = run(*words_of(customers=customers, oms=oms), *book.words, "--at", AT, "--keys", table)
            self.assertEqual((found.status, [line for line in found.said if ".db" in line]), (0, []), found.err)
            self.assertEqual(
                [(row[1], row[-1]) for row in found.files["customers.csv"]], [("S-XF1", ""), ("S-XF1", "M-2")]
            )
            self.assertEqual(found.files["oms.csv"][0][1], "M-2")
            done = rows_by(support.folder() / "cut", *book.words[2:], "--keys", table)
            rows = [row.split(",")[0] for row in done.out.splitlines()[1:]]
            self.assertEqual(
                rows, [] if turn else ["section", "device", "revise", "connect", "switch", "switch"], done.err
            )
            text += done.out.removeprefix(exports.HEADER)

    def test_words(self) -> None:
        self.assertEqual(run(*words_of(), "--book", "b.db").status, 64)
        self.assertEqual(run(*words_of(), "--book", "b.db", "--at", AT).status, 64)
        found = run(*words_of(), *self.first.words, "--at", "June")
        self.assertTrue(found.err.startswith("error: --at 'June' is no time such as"), found.err)


class Made(unittest.TestCase):
    def test_a_year_in_which_the_network_changes(self) -> None:
        """A new fuse, a new transformer with customers, a moved open point: the figures are those of the raw edges."""
        grid = made_grid(3, 1, 3, 12, 60)
        middle = grid.tickets[len(grid.tickets) // 2]
        number = int(middle[0][1:])
        at = min(min(out, back) for ticket, _, _, out, back in grid.tickets if ticket == f"T{number}") - 1
        grid.change(at)
        self.assertGreater(at, FIRST + DAY)

        def words(is_later: bool) -> list[object]:
            texts = {
                "edges": grid.edge_lines(is_later),
                "customers": grid.customer_lines(is_later),
                "oms": grid.oms_lines() if is_later else grid.oms_lines(at),
            }
            files = [
                word
                for name, lines in texts.items()
                for word in (f"--{name}", written(f"year-{name}", "".join(f"{line}\n" for line in lines)))
            ]
            return [*files, *(word for source in grid.sources for word in ("--source", source)), *WORDS]

        first = before("year", *words(False))
        moment = grid_moment(at)
        folder = kept("year-second", run(*words(True), *first.words, "--at", moment))
        done = rows_by(folder, "--book", first.book, "--table", first.table)
        self.assertEqual(done.status, 0, done.err)
        book, table = book_of("year-whole", first.text + "".join(f"{row}\n" for row in done.out.splitlines()[1:]))
        with open_book(str(book), str(table)) as found:
            counted = grid.interruptions()
            of_book = by_customer(found)
            self.assertEqual({n: each for n, each in of_book.items() if each != counted[n]}, {})
            self.assertEqual(of_book, counted)
            figures = grid.figures()
            for index in ("SAIFI", "SAIDI", "CAIDI", "CAIFI"):
                (line,) = (line for line in found.table if line.split()[:2] == [index, "all"])
                self.assertEqual(Fraction(line.split()[2]), figures[index], line)


def grid_moment(second: int) -> str:
    from tests.made_grid import moment

    return moment(second)


if __name__ == "__main__":
    unittest.main()
