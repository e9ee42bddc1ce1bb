"""In which order the gate has `rt ci` prove what there is."""

from __future__ import annotations

import os
import tempfile
import time
import unittest
from collections.abc import Callable, Mapping, Sequence
from pathlib import Path
from threading import Condition, Event
from unittest import mock

import made_repository  # noqa: F401, the modules of ci/
import ahead
import run as gate
from parts import Ran, unheard

TESTS = "".join(f"tests_{number}: high low middle sqlite\n" for number in range(ahead.MANY))
CRATES = f"""# The crates, lowest first.
low: std
middle: low
high: low middle sqlite
other: low
other_tests: other middle
program: high sqlite
{TESTS}"""
TRUNK = (["rt", "ci", "low", "middle", "high"], None)
WHOLE = (["rt", "ci"], "4")
WITH_EDITS = ["high", "low"]
SOON = 20.0  # seconds


class Order(unittest.TestCase):
    def setUp(self) -> None:
        folder = tempfile.TemporaryDirectory()
        self.addCleanup(folder.cleanup)
        self.place = Path(folder.name)
        (self.place / "crates.txt").write_text(CRATES, encoding="ascii")
        for name in WITH_EDITS:
            self.edit(self.place, name).parent.mkdir(parents=True)
            self.edit(self.place, name).touch()
        self.calls: list[tuple[list[str], str | None]] = []
        self.told = ["low proved", "middle is kept: an earlier run proved the same", "high NOT PROVED"]
        self.failing: list[str] = []
        self.awaited = {"low", "other", "other_tests"}
        self.ended, self.built, self.are_idle = Condition(), Event(), True

    def edit(self, folder: Path, name: str) -> Path:
        return folder / f"crates/{name}/must-fail/turned.edit"

    def rt(
        self,
        words: Sequence[str | Path],
        folder: Path,
        more: Mapping[str, str] | None = None,
        shows: bool = False,
        heard: Callable[[str], None] = unheard,
    ) -> Ran:
        """Stands in for a command: it notes the words and the lanes, and the trunk's tells of crates and goes on until those
        that are awaited have ended beside it."""
        call, name = ([*map(str, words)], (more or {}).get("RT_JOBS")), str(words[-1])
        self.assertEqual((Path(folder) / "crates.txt").read_text(encoding="ascii"), CRATES)
        is_beside = words[0] == ahead.BEHIND[0]
        tried = [it for it in WITH_EDITS if self.edit(Path(folder), it).exists()]
        self.assertEqual(
            tried, [it for it in WITH_EDITS if it == name] if is_beside else [] if call == TRUNK else WITH_EDITS
        )
        with self.ended:
            self.calls.append(call)
        if call[0] == WHOLE[0]:
            self.assertFalse(self.built.is_set())
            heard("rt: outagebook proved\n")
        if call == TRUNK:
            for line in self.told:
                heard(f"rt: {line}\n")
            with self.ended:
                self.assertTrue(self.ended.wait_for(lambda: not self.awaited, SOON))
        with self.ended:
            self.awaited.discard(name)
            self.ended.notify_all()
        return Ran(1 if name in self.failing else 0, "7 passed, 0 failed\n", 5.0, 60.0)

    def prove(self, lanes: int, said: str) -> gate.Report:
        report = gate.Report()
        with (
            mock.patch.dict(os.environ, {"RT_JOBS": said}),
            mock.patch.object(gate, "run", self.rt),
            mock.patch.object(ahead, "run", self.rt),
            mock.patch.object(ahead, "LOOK", 0.01),
            mock.patch.object(ahead, "seconds_idle", self.idle),
            mock.patch.object(gate, "jobs", lambda: lanes),
            mock.patch.object(ahead, "takes_names", lambda _: True),
        ):
            gate.prove(self.place, [], report, False, self.built)
        return report

    def idle(self) -> float:
        """The seconds that processors have had nothing to do: two of them since ever, or none."""
        return 2 * time.monotonic() if self.are_idle else 0.0

    def beside(self, *names: str) -> None:
        """Sees that these calls, and no others, were made beside the trunk and before the whole."""
        self.assertEqual((self.calls[0], self.calls[-1]), (TRUNK, WHOLE))
        self.assertEqual(sorted(self.calls[1:-1]), sorted(([*ahead.BEHIND, "rt", "ci", name], "1") for name in names))

    def test_beside_the_trunk_goes_what_has_no_database_each_crate_once_it_can(self) -> None:
        part = self.prove(4, "").parts[0]
        self.beside("low", "other", "other_tests")
        order = [call[0][-1] for call in self.calls]
        self.assertLess(order.index("other"), order.index("other_tests"))
        self.assertEqual((part.passed, part.failed, part.processor), (7, 0, 300.0))

    def test_nothing_goes_beside_over_crates_of_the_trunk_that_were_not_proved(self) -> None:
        self.told, self.awaited = ["low NOT PROVED", "middle proved"], set()
        self.prove(4, "")
        self.beside()

    def test_nothing_goes_beside_over_a_crate_that_failed_there(self) -> None:
        self.failing, self.awaited = ["other"], {"low", "other"}
        self.prove(4, "")
        self.beside("low", "other")

    def test_nothing_goes_beside_where_all_processors_are_at_work(self) -> None:
        self.are_idle, self.awaited = False, set()
        self.prove(4, "")
        self.beside()

    def test_with_two_lanes_all_is_one_run(self) -> None:
        part = self.prove(2, "").parts[0]
        self.assertEqual(self.calls, [(["rt", "ci"], "2")])
        self.assertEqual((part.passed, part.failed, part.clock, part.processor), (7, 0, 5.0, 60.0))

    def test_it_is_told_when_the_program_is_built(self) -> None:
        self.prove(2, "")
        self.assertTrue(self.built.is_set())

    def test_lanes_that_are_asked_for_are_those(self) -> None:
        self.prove(4, "4")
        self.assertEqual(self.calls, [WHOLE])

    def test_the_keeper_is_of_the_trunk_and_what_tests_it_doesnt_go_beside(self) -> None:
        calls = ahead.calls_of(gate.ROOT)
        self.assertIn("ob_store", calls.trunk)
        self.assertIn("ob_book", calls.beside["ob_book_tests"])
        self.assertIn("ob_net", calls.beside["ob_net"])
        self.assertNotIn("ob_jobs_tests", calls.beside)
        self.assertNotIn("ob_sql_rows", calls.beside)


if __name__ == "__main__":
    unittest.main()
