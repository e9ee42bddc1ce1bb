"""The nearest other node of an island, against all pairs."""

import random
import unittest
from collections.abc import Callable
from math import hypot

from outage_tools.sections.edges import Point
from outage_tools.sections.near import FEW, Placed, Search, halved


class Nearest(unittest.TestCase):
    def all_pairs(self, placed: list[Placed], own: set[str]) -> tuple[float, str, str] | None:
        return min(
            (
                (hypot(a - x, b - y), node, other)
                for (x, y), node in placed
                if node in own
                for (a, b), other in placed
                if other not in own
            ),
            default=None,
        )

    def found(self, placed: list[Placed], own: set[str]) -> tuple[float, str, str] | None:
        in_order = halved(placed)
        self.assertEqual(sorted(in_order), sorted(placed))
        places = [place for place, (_, node) in enumerate(in_order) if node in own]
        search = Search(in_order, places)
        for place in places:
            search.look(in_order[place], 0, len(in_order))
        return search.best

    def test_against_all_pairs(self) -> None:
        """Points in the plane, on a grid with many of one distance, on a line, and in one place."""
        for seed in range(60):
            draw = random.Random(seed)
            count = draw.choice([1, 2, FEW, FEW + 1, 300])
            kinds: list[Callable[[], Point]] = [
                lambda: (draw.uniform(0, 1e6), draw.uniform(0, 1e6)),
                lambda: (float(draw.randrange(12)), float(draw.randrange(12))),
                lambda: (0.0, float(draw.randrange(50))),
                lambda: (5.0, 5.0),
            ]
            place = kinds[seed % 4]
            placed = [(place(), f"n{number}") for number in range(count)]
            own = set(draw.sample([node for _, node in placed], draw.randint(0, count)))
            self.assertEqual(self.found(placed, own), self.all_pairs(placed, own), seed)


if __name__ == "__main__":
    unittest.main()
