"""What commands say, as the gate reads it."""

from __future__ import annotations

import contextlib
import io
import os
import signal
import unittest
from collections import Counter
from pathlib import Path

import made_repository  # noqa: F401, the modules of ci/
from parts import Ran, run
from rt_output import counts_of, tried_edits, unrefused
from suites import by_commands, by_first_run, by_screen, by_tests, first_run_shown, with_program

RT = """\
rt: ob_base: 1 of its 4 must-fail edits were tried by an earlier run on this machine, and nothing that they stand on has changed
rt: must-fail ob_base/cause_64.edit: refused, as it must be: ./proofs/field/read_cause/Answers.antt:5:21: error: `search`
rt: must-fail ob_base/deep.edit: refused, as it must be (only by a limit of the prover, which gave no verdict)
rt: must-fail ob_base/same.edit: NOT REFUSED: the crate is still proved with this edit
rt: must-fail ob_base/lost.edit: BAD EDIT: an 'old:' text is in src/field.rt 0 times, and not once
rt: must-fail ob_net/killed.edit: NOT TRIED: its check was killed, most likely for memory
rt: crates/ob_net/must-fail/deeper/it.edit: BAD EDIT: an edit stands right in must-fail/
rt: FAILED: ob_base/same.edit ob_net/killed.edit
3 passed, 2 failed
"""


def ended(said: str, status: int = 0) -> Ran:
    return Ran(status, said, 0.0, 0.0)


class Rt(unittest.TestCase):
    def test_edits(self) -> None:
        tried = tried_edits(RT)
        refused = {"cause_64.edit": "refused", "deep.edit": "refused"}
        self.assertEqual(tried["ob_base"], {**refused, "same.edit": "NOT REFUSED", "lost.edit": "BAD EDIT"})
        self.assertEqual(tried["ob_net"], {"killed.edit": "NOT TRIED", "deeper/it.edit": "BAD EDIT"})
        edits = ["cause_64.edit", "deep.edit", "other.edit", "same.edit"]
        self.assertEqual(unrefused(edits, tried["ob_base"]), ["other.edit: not seen", "same.edit: NOT REFUSED"])

    def test_last_line(self) -> None:
        self.assertEqual(counts_of(RT), (3, 2))
        self.assertEqual(counts_of("1 passed, 0 failed (ob_base and the crates below alone: not the gate)\n"), (1, 0))
        for said in ["", "rt: stopped\n", "3 passed, 2 failed\nTraceback\n"]:
            self.assertIsNone(counts_of(said))


class Commands(unittest.TestCase):
    def test_what_is_said_and_what_it_took(self) -> None:
        for shows in (False, True):
            with contextlib.redirect_stdout(io.StringIO()):
                ran = run(["sh", "-c", "echo one; echo two >&2; cat; exit 3"], Path.cwd(), shows=shows)
            self.assertEqual((ran.status, ran.said), (3, "one\ntwo\n"))
        ran = run(["sh", "-c", "n=0; while [ $n -lt 200000 ]; do n=$((n + 1)); done"], Path.cwd())
        self.assertGreater(ran.processor, 0.0)

    def test_program_left_at_work(self) -> None:
        ran = run(["sh", "-c", "sleep 60 & echo $!"], Path.cwd())
        os.kill(int(ran.said), signal.SIGTERM)
        self.assertLess(ran.clock, 50)


class Tests(unittest.TestCase):
    def test_counts(self) -> None:
        self.assertEqual(by_tests(ended("Ran 3 tests in 0.1s\n\nOK\n")), (3, 0, ""))
        self.assertEqual(by_tests(ended("Ran 1 test in 0.1s\n\nFAILED (failures=1)\n", 1)), (0, 1, ""))
        said = "test_a (x) ... skipped 'no program'\nRan 4 tests in 0.1s\n\nFAILED (failures=1, errors=1, skipped=1)\n"
        self.assertEqual(by_tests(ended(said, 1)), (1, 3, "1 skipped: 'no program'"))
        self.assertEqual(by_tests(ended("Ran 2 tests in 0.1s\n\nOK (skipped=1)\n"))[:2], (1, 1))

    def test_what_shows_nothing(self) -> None:
        self.assertEqual(by_tests(ended("Ran 0 tests in 0.0s\n\nOK\n"))[:2], (0, 1))
        self.assertEqual(by_tests(ended("Segmentation fault\n", -11))[:2], (0, 1))
        self.assertEqual(by_tests(ended("Ran 3 tests in 0.1s\n\nOK\n", 1))[:2], (0, 1))

    def test_each_of_the_tools_is_of_one_share(self) -> None:
        tests = Path(__file__).resolve().parents[2] / "tools/tests"
        patterns = [str(suite.words[-1]) for suite in with_program(tests.parents[1]) if "tools/tests" in suite.words]
        found = Counter(file.name for pattern in patterns for file in tests.glob(pattern))
        self.assertEqual(found, Counter(file.name for file in tests.glob("test_*.py")))

    def test_pages(self) -> None:
        said = "docs/A.md: 3 commands pasted, 0 print something else\ndocs/B.md: 2 commands pasted, 1 print something else\n"
        self.assertEqual(by_commands(ended(said, 1)), (4, 1, ""))
        self.assertEqual(by_commands(ended("the shell ended after: exit\n", 1)), (0, 1, "status 1"))
        self.assertEqual(by_commands(ended(""))[:2], (0, 1))

    def test_screen(self) -> None:
        said = "screen: tested (the short part): 31 of 54 tests, {} failed, {} skipped\n"
        left_out = "23 of the screen's 54 tests not run"
        self.assertEqual(by_screen(ended(said.format(0, 0))), (31, 0, left_out))
        self.assertEqual(by_screen(ended(said.format(2, 1), 1)), (28, 3, left_out))
        self.assertEqual(by_screen(ended("screen: NOT tested, for want of chromium\n"))[:2], (0, 1))

    def test_first_run(self) -> None:
        """README.md shows what run.sh prints, and another end of it fails."""
        root = Path(__file__).resolve().parents[2]
        counts = by_first_run(root)
        self.assertIn("SAIDI", first_run_shown(root))
        self.assertEqual(counts(ended("built\n" + first_run_shown(root)))[:2], (1, 0))
        self.assertEqual(counts(ended("SAIDI  195 minutes\n"))[:2], (0, 1))
        self.assertEqual(counts(ended(first_run_shown(root), 1))[:2], (0, 1))


if __name__ == "__main__":
    unittest.main()
