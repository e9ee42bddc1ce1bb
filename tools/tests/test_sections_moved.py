"""Customers who are elsewhere in the next export, or nowhere any more, and circuits under other names."""

import unittest

from tests import support
from tests.network_runs import CUSTOMERS, EDGES, Cut, changed, run
from tests.test_sections_changed import AT, PERIOD, Before, before, book_of, kept, rows_by, words_of

BY_KEYS = (
    "customer,transformer,since,until\nK1,XF1,2020-01-01,\nK2,XF1,2020-01-01,\nK3,XF2,2020-01-01,\nK4,XF3,1960-01-01,\n"
)
JULY, AUGUST = "2025-07-01 00:00:00", "2025-08-01 00:00:00"


class ByKeys(unittest.TestCase):
    """A register that calls each customer by its key."""

    def setUp(self) -> None:
        self.table = support.folder() / "moved.keys.csv"
        self.table.unlink(missing_ok=True)
        self.folder = kept("moved-first", run(*words_of(customers=BY_KEYS)))
        period = ("--first", PERIOD[0], "--days", PERIOD[1], "--zone", PERIOD[2])
        self.text = rows_by(self.folder, *period, "--keys", self.table).out
        self.runs = 0

    def cut(self, customers: str, at: str, edges: str = EDGES) -> Cut:
        """The next export against the book as it is now."""
        self.runs += 1
        self.book = Before(self.folder, *book_of(f"moved-{self.runs}", self.text), self.text)
        return run(*words_of(edges, customers), *self.book.words, "--at", at, "--keys", self.table)

    def rows(self, customers: str, at: str, edges: str = EDGES) -> list[str]:
        """The rows of commands of the next export, which the book takes."""
        found = self.cut(customers, at, edges)
        self.assertEqual(found.status, 0, found.err)
        self.folder = kept(f"moved-{self.runs}", found)
        done = rows_by(self.folder, *self.book.words[2:], "--keys", self.table)
        self.assertEqual(done.status, 0, done.err)
        rows = done.out.splitlines()[1:]
        self.text += "".join(f"{row}\n" for row in rows)
        return [
            row.replace("T00:00:00+00:00", "").rstrip(",") for row in rows if not row.startswith(("life", "device"))
        ]

    def test_to_another_transformer_and_back(self) -> None:
        """Each time under a further number; the register has one row for it in each later export too."""
        moved = changed(("K2,XF1", "K2,XF3"), ("K4,XF3", "K4,XF2"), text=BY_KEYS)
        found = self.cut(moved, AT)
        self.assertEqual(
            found.files["customers.csv"][1:3],
            [
                ["K2", "S-XF1", "2020-01-01T00:00:00+00:00", "2025-06-01T00:00:00+00:00"],
                ["K2", "S-XF3", "2025-06-01T00:00:00+00:00", ""],
            ],
        )
        text = "customers on another section from --at on, each under a further number of its key: 2 (rows 2, 4)"
        self.assertIn(f"network-customers.csv: noticed: {text}", found.said)
        rows = self.rows(moved, AT)
        self.assertEqual([row.split(",")[0] for row in rows], ["revise", "connect", "revise", "connect"])
        self.assertEqual(
            [row.split(",", 2)[2] for row in rows],
            ["2,2020-01-01,2025-06-01", "5,S-XF3,2025-06-01", "4,1970-01-01,2025-06-01", "6,S-XF2,2025-06-01"],
        )
        self.assertEqual(self.rows(moved, JULY), [])
        rows = self.rows(changed(("K4,XF3", "K4,XF2"), text=BY_KEYS), AUGUST)
        self.assertEqual([row.split(",", 2)[2] for row in rows], ["5,2025-06-01,2025-08-01", "7,S-XF1,2025-08-01"])
        over = changed(("K2,XF1,2020-01-01,", "K2,XF1,2020-01-01,2025-09-01"), ("K4,XF3", "K4,XF2"), text=BY_KEYS)
        self.assertEqual(
            [row.split(",", 2)[2] for row in self.rows(over, "2025-10-01 00:00:00")], ["7,2025-08-01,2025-09-01"]
        )

    def test_a_row_for_each_service(self) -> None:
        """The register may tell them itself."""
        told = changed(("K2,XF1,2020-01-01,", "K2,XF1,2020-01-01,2025-06-01\nK2,XF3,2025-06-01,"), text=BY_KEYS)
        rows = self.rows(told, AT)
        self.assertEqual([row.split(",", 2)[2] for row in rows], ["2,2020-01-01,2025-06-01", "5,S-XF3,2025-06-01"])
        self.assertEqual(self.rows(told, JULY), [])

    def test_to_another_transformer_as_the_old_one_goes(self) -> None:
        """Nobody is left there; of a customer whose service is over too the register may still name it."""
        without = changed(("XF3,transformer,N22,N23,,8\n", ""))
        moved = changed(("K4,XF3", "K4,XF2"), text=BY_KEYS)
        found = self.cut(moved, AT, without)
        self.assertEqual([line for line in found.said if "without supply" in line], [])
        self.rows(moved, AT, without)
        self.assertEqual(self.rows(moved, JULY, without), [])

    def test_a_second_time_at_one_moment(self) -> None:
        """That is refused: the service would have no second."""
        self.rows(changed(("K2,XF1", "K2,XF3"), text=BY_KEYS), AT)
        found = self.cut(changed(("K2,XF1", "K2,XF2"), text=BY_KEYS), AT)
        self.assertEqual(found.status, 1)
        self.assertRegex(
            found.said[0],
            "^network-customers.csv: row 2: customer K2 is on S-XF3 in the book, and on S-XF2 in this export",
        )


class ByNumbers(unittest.TestCase):
    """A register that calls each customer by the book's number."""

    first: Before

    @classmethod
    def setUpClass(cls) -> None:
        cls.first = before("numbered", *words_of())

    def test_another_transformer(self) -> None:
        customers = changed(("2,XF1", "2,XF3"), text=CUSTOMERS)
        found = run(*words_of(customers=customers), *self.first.words, "--at", AT)
        text = "customer 2 is on S-XF1 in the book, and on S-XF3 in this export"
        text += ": end its service, and give the one that goes on another number"
        self.assertEqual((found.status, found.said), (1, [f"network-customers.csv: row 2: {text}"]))

    def test_a_service_that_is_over_where_nothing_is_any_more(self) -> None:
        """The customer stays on its section and ends; one who goes on there is refused."""
        edges = changed(("XF3,transformer,N22,N23,,8\n", ""))
        customers = changed(("4,XF3,2020-01-01,", "4,XF3,2020-01-01,2025-06-01"), text=CUSTOMERS)
        found = run(*words_of(edges, customers), *self.first.words, "--at", AT)
        self.assertEqual(found.customers["4"], "S-XF3", found.err)
        self.assertEqual([line for line in found.said if "without supply" in line], [])
        done = rows_by(support.folder() / "cut", "--book", self.first.book, "--table", self.first.table)
        self.assertEqual([row.split(",")[0] for row in done.out.splitlines()[1:]], ["life", "revise"], done.err)
        for until in ("", "2025-06-02"):
            customers = changed(("4,XF3,2020-01-01,", f"4,XF3,2020-01-01,{until}"), text=CUSTOMERS)
            found = run(*words_of(edges, customers), *self.first.words, "--at", AT)
            self.assertEqual(found.said, ["network-customers.csv: row 4: no edge is called 'XF3'"])

    def test_a_circuit_under_another_name(self) -> None:
        """It keeps its number; one that is new gets a number that no circuit had."""
        named = EDGES.replace(",7\n", ",NORTH\n").replace(",8\n", ",SOUTH\n")
        first = before("circuits", *words_of(named))
        renamed = named.replace(",NORTH\n", ",NORTH-EAST\n")
        found = run(*words_of(renamed), *first.words, "--at", AT)
        self.assertEqual(
            [line.partition(": ")[2] for line in found.said if ".db" in line],
            ["the circuit NORTH is called NORTH-EAST now, and stays feeder 1"],
        )
        self.assertEqual(found.files["feeders.csv"], [["1", "NORTH-EAST"], ["2", "SOUTH"]])
        folder = kept("circuits-second", found)
        gone = named.replace("SW-9,switch,N12,N22,open,NORTH", "SW-9,switch,N12,N22,closed,SOUTH")
        gone = gone.replace("CB-7,breaker,N2,N10,closed,NORTH", "CB-7,breaker,N2,N10,open,SOUTH")
        gone = gone.replace(",NORTH\n", ",SOUTH\n") + "CB-9,breaker,N3,N40,closed,WEST\nXF9,transformer,N40,N41,,WEST\n"
        found = run(*words_of(gone), "--as", folder, *first.words[2:], "--at", AT)
        self.assertEqual(found.files["feeders.csv"], [["1", "NORTH-EAST"], ["2", "SOUTH"], ["3", "WEST"]], found.err)


if __name__ == "__main__":
    unittest.main()
