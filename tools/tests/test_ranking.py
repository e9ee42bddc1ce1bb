"""Feeders ranked: against the figures of feeders, sorted anew; with an earlier book by number."""

import unittest
from fractions import Fraction
from typing import Any

from outage_tools import figures
from outage_tools.errors import BookError
from outage_tools.forms import Figures
from tests import support

Row = dict[str, Any]


def rows_of(shown: Figures) -> list[Row]:
    return [dict(zip(shown.columns, row)) for row in shown.rows]


def year(name: str, first: str, *outages: tuple[str, int, int]) -> support.Made:
    """A book of two feeders and more: each outage is a feeder's breaker, its first second in the period and its length."""
    rows = ["kind,ref,f1,f2,f3,f4,f5,f6", "cause,C1,1,WIND,,,,"]
    for number in (1, 2, 3):
        rows += [f"section,N{number},S{number},{number},,,,", f"device,D{number},B{number},GRID,S{number},closed,,"]
    rows += [f"connect,P{number},{number},S{1 + number % 2},0,,," for number in range(1, 11)]
    start = {"2023-01-01": 1_672_531_200, "2024-01-01": 1_704_067_200}[first]
    for number, (device, second, seconds) in enumerate(outages):
        rows.append(f"switch,O{number},{device},open,{start + second},1,K1,")
        rows.append(f"switch,E{number},{device},close,{start + second + seconds},1,K1,")
    text = support.written(f"{name}.csv", "\n".join(rows) + "\n")
    return support.made_of(name, [(text, (first, "2", "UTC0"))])[0]


class Ranking(unittest.TestCase):
    def test_against_feeders(self) -> None:
        """Each feeder in each set with its figures, the worst first, and ranks by counting the worse ones."""
        for made in support.books():
            found = support.opened(made)
            feeders = {(row["feeder"], row["set"]): row for row in rows_of(figures.feeders(found))}
            ranked = rows_of(figures.ranking(found))
            self.assertEqual({(row["feeder"], row["set"]) for row in ranked}, feeders.keys())
            for row in ranked:
                feeder = feeders[row["feeder"], row["set"]]
                for name in ("customers_served", "saidi", "saifi", "caidi", "saidi_3"):
                    self.assertEqual(row[name], feeder[name])
                for name, rank in (("saidi", "rank"), ("saifi", "rank_by_saifi"), ("caidi", "rank_by_caidi")):
                    others = [
                        each[name]
                        for key, each in feeders.items()
                        if key[1] == row["set"] and each[name] != "undefined"
                    ]
                    if row[name] == "undefined":
                        self.assertEqual(row[rank], "")
                    else:
                        self.assertEqual(row[rank], 1 + sum(Fraction(other) > Fraction(row[name]) for other in others))
            for which in ("all", "unmarked"):
                ranks = [row["rank"] or 1_000 for row in ranked if row["set"] == which]
                self.assertEqual(ranks, sorted(ranks))

    def test_with_an_earlier_book(self) -> None:
        before = support.opened(year("ranked-2023", "2023-01-01", ("B1", 100, 4_000), ("B2", 9_000, 600)))
        now = support.opened(
            year("ranked-2024", "2024-01-01", ("B1", 100, 600), ("B2", 9_000, 4_000), ("B2", 20_000, 400))
        )
        rows = [row for row in rows_of(figures.ranking(now, before)) if row["set"] == "all"]
        # Feeders 1 and 2 have five customers each; feeder 3 has none, and no rank.
        self.assertEqual(
            [(row["rank"], row["feeder"], row["earlier_rank"]) for row in rows], [(1, 2, 2), (2, 1, 1), ("", 3, "")]
        )
        self.assertEqual([row["saidi"] for row in rows], ["220/3", "10/1", "undefined"])
        self.assertEqual([row["earlier_saidi"] for row in rows], ["10/1", "200/3", "undefined"])
        self.assertEqual([row["rank_by_saifi"] for row in rows], [1, 2, ""])
        self.assertEqual([row["earlier_rank_by_saifi"] for row in rows], [1, 1, ""])

    def test_a_book_that_is_not_earlier(self) -> None:
        now = support.opened(support.fortnight())
        with self.assertRaisesRegex(BookError, "the earlier book ends on 2025-04-06: not before 2025-03-24"):
            figures.ranking(now, now)

    def test_words(self) -> None:
        made = support.fortnight()
        self.assertEqual(
            support.run_tool("figures", made.book, "feeders", "--earlier", "a.db", table=made).returncode, 64
        )
        done = support.run_tool("figures", made.book, "ranking", "--csv", table=made)
        self.assertEqual(done.returncode, 0)
        self.assertEqual(
            [line.split(",")[:3] for line in done.stdout.splitlines()[1:3]], [["1", "1", "all"], ["2", "2", "all"]]
        )
