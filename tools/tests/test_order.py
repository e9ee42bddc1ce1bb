"""The order in which rows of switchings are written: by hand, and that no table depends on it, over made networks."""

import random
import shutil
import unittest
from itertools import groupby

from outage_tools.order import Does, Timed, returns_first
from outage_tools.work import works_of
from tests import exports, many_orders, program_books, support
from tests.made_exports import Year

SEEDS = range(1_000, 1_020)
DOES = {"D": Does.DEPARTURE, "R": Does.RETURN, "-": Does.OTHER}


def timed(name: str) -> Timed:
    """A row by its name: what it does, its second, and which of that second it is, as `D10a`."""
    return Timed(int(name[1:-1]), DOES[name[0]], [name])


def ordered(names: str) -> str:
    return " ".join(name for (name,) in returns_first(timed(name) for name in names.split()))


class Order(unittest.TestCase):
    def test_nothing(self) -> None:
        self.assertEqual(ordered(""), "")

    def test_returns_come_first_as_time_goes(self) -> None:
        self.assertEqual(ordered("D10a D20a R30a R40a D50a R60a"), "R30a R40a R60a D10a D20a D50a")

    def test_a_return_before_a_departure_of_its_second(self) -> None:
        self.assertEqual(ordered("D10a R20a D20b R30a"), "R20a R30a D10a D20b")

    def test_a_return_behind_a_departure_of_its_second(self) -> None:
        self.assertEqual(ordered("D10a D20a R20b R30a"), "R30a D10a D20a R20b")

    def test_several_of_one_second(self) -> None:
        self.assertEqual(ordered("R20a R20b D20c R20d D20e R20f R21a"), "R20a R20b R21a D20c R20d D20e R20f")

    def test_corrections_and_withdrawals_keep_their_places_among_the_rest(self) -> None:
        self.assertEqual(ordered("-10a D10b -10c R20a -20b R20c -30a"), "R20a R20c -10a D10b -10c -20b -30a")

    def test_what_is_no_new_entry_is_no_departure(self) -> None:
        self.assertEqual(ordered("-20a R20b"), "R20b -20a")

    def test_departures_alone_stay(self) -> None:
        self.assertEqual(ordered("D10a D10b D20a"), "D10a D10b D20a")

    def test_the_switchings_of_a_second_keep_their_order(self) -> None:
        """Also their count, and the order of time in both passes, over drawn rows."""
        draw = random.Random("orders")
        for _ in range(500):
            seconds = sorted(draw.randrange(8) for _ in range(draw.randrange(30)))
            rows = [Timed(second, draw.choice([*Does]), [str(number)]) for number, second in enumerate(seconds)]
            by_name = {row.command[0]: row for row in rows}
            found = [by_name[name] for (name,) in returns_first(rows)]
            entries = [row for row in rows if row.does is not Does.OTHER]
            stable = sorted((row for row in found if row.does is not Does.OTHER), key=lambda row: row.second)
            self.assertEqual(stable, entries)
            rest = [row for row in rows if row.does is Does.OTHER]
            self.assertEqual([row for row in found if row.does is Does.OTHER], rest)
            falls = sum(one.second > other.second for one, other in zip(found, found[1:]))
            self.assertLessEqual(falls, 1)

    def test_as_many_returns_as_may_come_first_do(self) -> None:
        """Those of a second up to its first departure."""
        draw = random.Random("returns")
        for _ in range(500):
            seconds = sorted(draw.randrange(8) for _ in range(draw.randrange(30)))
            rows = [
                Timed(second, draw.choice([Does.DEPARTURE, Does.RETURN]), [str(number)])
                for number, second in enumerate(seconds)
            ]
            first, rest = [], []
            for _, group in groupby(rows, key=lambda row: row.second):
                together = list(group)
                leaves = [row.does is Does.DEPARTURE for row in together]
                place = leaves.index(True) if True in leaves else len(together)
                first += together[:place]
                rest += together[place:]
            self.assertEqual(returns_first(rows), [row.command for row in [*first, *rest]])


class Rows(unittest.TestCase):
    """What from_oms writes."""

    def setUp(self) -> None:
        self.folder = support.folder() / "order"
        self.addCleanup(shutil.rmtree, self.folder, True)

    def refs(self, oms: str) -> list[str]:
        done = exports.run(*exports.arguments_of(self.folder, {"oms": oms}), *exports.PERIOD)
        self.assertEqual(done.status, 0, done.err)
        lines = [line.split(",") for line in done.out.splitlines() if line.startswith("switch")]
        return [line[1].removeprefix("OMS-T-") for line in lines]

    def test_a_ticket_of_three_steps(self) -> None:
        """The tie returns by its opening."""
        oms = exports.sample("oms").splitlines(keepends=True)
        found = self.refs("".join(oms[:4]))
        self.assertEqual(found, ["2041-1-C", "2041-2-C", "2041-3-O", "2041-1-O", "2041-2-O", "2041-3-C"])

    def test_a_departure_and_a_return_in_one_second(self) -> None:
        """The row of the departure comes first in the file: the return stays behind it. Else it comes first of all."""
        head = exports.sample("oms").splitlines(keepends=True)[0]
        leaves = "T-1,1,CB-8,2025-10-21 09:00,,2025-10-21 10:00,,WIND,,,\n"
        returns = "T-2,1,SW-81,2025-10-21 08:00,,2025-10-21 09:00,,WIND,,,\n"
        self.assertEqual(self.refs(head + leaves + returns), ["1-1-C", "2-1-O", "1-1-O", "2-1-C"])
        self.assertEqual(self.refs(head + returns + leaves), ["2-1-C", "1-1-C", "2-1-O", "1-1-O"])

    def test_no_row_of_a_first_export_is_late(self) -> None:
        """A departure behind returns of later seconds is none; one behind a departure of a later second is."""
        rows = exports.run(*exports.arguments_of(self.folder, {}), *exports.PERIOD).out
        late = "switch,DESK-1,CB-8,open,2025-10-22T09:00:00+02:00,1,DESK,\n"
        texts = [self.folder / "first.csv", self.folder / "late.csv"]
        for path, text in zip(texts, (rows, rows + late)):
            path.write_text(text)
        period = ("2025-10-20", "14", exports.ZONE)
        first, second = support.made_of("order-late", [(path, period) for path in texts])
        self.assertEqual([work for work in works_of(support.opened(first)) if work.is_late], [])
        self.assertEqual([work.command.ref for work in works_of(support.opened(second)) if work.is_late], ["DESK-1"])


class Tables(unittest.TestCase):
    def test_no_table_depends_on_the_order(self) -> None:
        """A first export and three later ones of twenty networks, in the model; many_orders.py takes as many as are asked for."""
        folder = support.folder() / "orders"
        folder.mkdir()
        self.addCleanup(shutil.rmtree, folder)
        with many_orders.own_zone():
            seen = many_orders.compared(folder, SEEDS)
        self.assertEqual(seen.differing, [])
        self.assertGreater(seen.moved, 20 * len(SEEDS), seen)
        self.assertGreater(seen.shared, 10 * len(SEEDS), seen)

    @support.needs_program
    def test_nor_does_one_of_the_program(self) -> None:
        folder = support.folder() / "orders-program"
        folder.mkdir()
        self.addCleanup(shutil.rmtree, folder)
        for seed in SEEDS[:2]:
            with many_orders.own_zone():
                chains = many_orders.Chains(Year(seed, shares=True), folder)
                chains.export(None)
            books = [program_books.new_book(path.stem, period, path) for path, period in chains.texts()]
            first, second = map(program_books.table_of, books)
            self.assertEqual(first, second, f"seed {seed}")


if __name__ == "__main__":
    unittest.main()
