"""What the screen makes of the desk's figures where the period goes on: figures up to a second, what a mark moves, why a closing
gives nothing. By hand, and against a desk whose book ends there."""

import random
import unittest.mock
from fractions import Fraction
from pathlib import Path
from typing import Any

import support
from server import forecasts, to_now, year
from support import END, FIRST
from test_forecasts import Case


class Figures(Case):
    """One customer at QUAY and two at MILL, behind LBS-1."""

    async def asyncSetUp(self) -> None:
        await self.begin(support.live(self._testMethodName))
        self.start = self.state.period.bounds[2]

    async def switch(self, device: str, position: str, at: int) -> None:
        self.assertIsNotNone(await self.accept("switch", device, position, str(self.start + at), "1", "ANNA"))

    async def figures(self, at: int) -> dict[str, list[str]]:
        shown = await to_now.figures(self.office, self.start + at)
        return {name: sets["all"] for name, sets in shown["indices"].items()} | {"W": [str(shown["W"])]}

    async def forecast(self, device: str, position: str, at: int) -> dict[str, Any]:
        fields = [device, position, str(self.start + at), "1", "ANNA"]
        return await forecasts.forecast(self.office, "switch", fields)

    async def test_an_outage_counts_up_to_now(self) -> None:
        """Two customers for 400 seconds, and again since 100: by hand, 800 / (60 x 3) minutes for each customer served."""
        for at, position in ((0, "open"), (400, "close"), (900, "open")):
            await self.switch("LBS-1", position, at)
        served = 3 * (self.start + 1_000 - self.state.period.first)
        found = await self.figures(1_000)
        self.assertEqual(found.pop("ASAI"), [str(Fraction(served - 800, served)), "0.998"])
        minutes = {"SAIDI": ["40/9", "4.444"], "CAIDI": ["20/3", "6.667"]}
        self.assertEqual(found, {**minutes, "SAIFI": ["2/3", "0.667"], "W": ["1000"]})
        self.assertEqual((await self.figures(1_200))["SAIFI"], ["2/3", "0.667"])  # 300 seconds aren't sustained
        self.assertEqual((await self.figures(1_201))["SAIFI"], ["4/3", "1.333"])

    async def test_what_is_planned_counts_for_nothing(self) -> None:
        """Outages that begin later, one of them within an hour, and lives that turn: figures of now leave them out."""
        await self.switch("LBS-1", "open", 0)
        before = await self.figures(1_000)
        for device, position, at in (("LBS-1", "close", 2_000), ("CB-1", "open", 3_000), ("CB-1", "close", 9_000)):
            await self.switch(device, position, at)
        await self.accept("life", "CB-1", "0", str(self.start + 200_000))
        await self.accept("connect", "4", "MILL", str(self.start + 3_500), "-")
        self.assertEqual(await self.figures(1_000), before)

    async def test_open_outages_are_counted_by_what_cut_them_off(self) -> None:
        async def count() -> int:
            with unittest.mock.patch("time.time", return_value=self.start + 60.0):
                return int((await to_now.to_now_view(self.office))["open"])

        self.assertEqual(await count(), 0)
        await self.switch("LBS-1", "open", 0)
        await self.switch("CB-1", "open", 10)
        self.assertEqual(await count(), 2)
        await self.switch("CB-1", "close", 600)  # told already: it doesn't count to the period's end
        self.assertEqual(await count(), 1)
        with unittest.mock.patch("time.time", return_value=self.start + 1_000.0):
            shown = await forecasts.forecast(self.office, "withdraw", ["3", "1"])
        self.assertEqual((shown["up_to_now"], shown["total"]), (400, self.state.period.end - self.start - 600))

    async def test_a_mark_moves_the_unmarked_saidi(self) -> None:
        await self.switch("LBS-1", "open", 0)
        await self.switch("LBS-1", "close", 400)
        day = self.state.period.days[2].isoformat()
        found = await forecasts.forecast(self.office, "mark", [day, "ANNA"])
        self.assertEqual(found["unmarked"], {"to_now": ["4.444", "0.000"], "whole": ["4.444", "0.000"]})
        self.assertEqual(found["moved"], [])
        self.assertEqual(await self.copy.supply(self.start), await self.office.supply(self.start))

    async def test_what_keeps_a_closed_device_without_supply(self) -> None:
        await self.switch("LBS-1", "open", 0)
        await self.switch("CB-1", "open", 10)
        words = (await self.forecast("LBS-1", "close", 20))["reason"]
        self.assertRegex(words, r"^Still cut off: above it CB-1 is open since \d{4}-\d\d-\d\d 0[0-9]:00:10\.$")
        self.assertIsNone((await self.forecast("CB-1", "close", 20))["reason"])
        self.assertIsNone((await self.forecast("LBS-1", "open", 20))["reason"])


class Shorter(Case):
    async def test_they_are_those_of_a_book_that_ends_there(self) -> None:
        """Random switchings in the sample's network: a book of the first days alone says what the longer one says up to them."""
        chance, rows = random.Random(8), (support.FORTNIGHT_FILES / "fortnight.csv").read_text().splitlines()[1:]
        said = [row for row in rows if row.split(",")[0] not in ("switch", "correct", "withdraw")]
        devices = [row.split(",")[2] for row in said if row.startswith("device,")]
        seconds = [chance.randrange(FIRST, END) for _ in range(150)]
        switched = {
            f"switch,R-{number},{chance.choice(devices)},{chance.choice(['open', 'close'])},{second},5,CREW-1,": second
            for number, second in enumerate(seconds)
        }
        await self.begin(book_of("longer", [*said, *switched], 14))
        for days in (3, 7, 14):
            end = self.state.period.bounds[days]
            kept = [row for row in said if days > 6 or not row.startswith("mark")]
            kept += [row for row, second in switched.items() if second < end]
            table = year.table_view(support.run("table", "--book", book_of(f"shorter-{days}", kept, days)))
            found = await to_now.figures(self.office, end)
            for name in ("SAIFI", "SAIDI", "CAIDI", "ASAI"):
                self.assertEqual(found["indices"][name], table["indices"][name], (days, name))
            self.assertEqual(str(found["W"]), table["totals"]["W"])
            self.assertEqual([row[1] for row in found["days"]], [int(row[1]) for row in table["days"] if row[1] != "0"])


def book_of(name: str, rows: list[str], days: int) -> Path:
    """A book of the sample's first days."""
    first, _, zone = support.FORTNIGHT
    return support.new_book(name, support.text_of(rows), (first, str(days), zone))
