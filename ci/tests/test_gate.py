"""The gate as a whole, over a made repository: what it tries, and what makes it red."""

from __future__ import annotations

import subprocess
import unittest

from made_repository import EDIT, PAGE, PROGRAM, SKIPS, STRONG, TEST, WEAK, MadeRepository

Done = subprocess.CompletedProcess[str]


class Whole(unittest.TestCase):
    def setUp(self) -> None:
        self.made = MadeRepository()
        self.addCleanup(self.made.remove)

    def passes(self, *words: str) -> Done:
        done = self.made.gate(*words)
        self.assertEqual(done.returncode, 0, done.stdout + done.stderr)
        self.assertRegex(done.stdout.splitlines()[-1], r"\A[0-9]+ passed, 0 failed\Z")
        return done

    def fails(self, why: str, *words: str) -> Done:
        done = self.made.gate(*words)
        self.assertEqual(done.returncode, 1, done.stdout + done.stderr)
        self.assertRegex(done.stdout.splitlines()[-1], r"\A[0-9]+ passed, [1-9][0-9]* failed\Z")
        self.assertIn(why, done.stdout)
        return done


class Edits(Whole):
    def test_all_at_first_and_none_again(self) -> None:
        self.passes("--record")
        self.assertEqual(self.made.crates_tried(), ["beside", "high", "low", "middle"])
        self.made.turn_to(7)
        done = self.passes()
        self.assertEqual(self.made.crates_tried(), [])
        self.assertIn("must-fail edits: 0 tried, 4 of 4 crates stand by their sums", done.stdout)

    def test_without_record_nothing_is_written(self) -> None:
        self.passes()
        self.assertFalse((self.made.root / "ci/edits.txt").exists())

    def test_page_alone_tries_those_whose_turn_it_is(self) -> None:
        self.made.record()
        self.made.turn_to(1)
        done = self.passes()
        self.assertEqual(self.made.crates_tried(), ["middle"])
        self.assertIn(
            "must-fail edits: 1 tried (1 of 1 crates: its turn), 3 of 3 crates stand by their sums", done.stdout
        )

    def test_all_when_asked(self) -> None:
        self.made.record()
        self.made.turn_to(7)
        self.passes("--all")
        self.assertEqual(self.made.crates_tried(), ["beside", "high", "low", "middle"])

    def test_changed_interface_tries_the_crates_above(self) -> None:
        self.made.record()
        self.made.write("crates/middle/specs/Lib.antt", "pub mod Answer\n")
        self.made.turn_to(7)
        self.passes()
        self.assertEqual(self.made.crates_tried(), ["high", "middle"])

    def test_weakened_contract_is_caught_because_its_sum_changed(self) -> None:
        self.made.record()
        self.made.write("crates/beside/src/lib.rt", WEAK)
        self.made.turn_to(7)
        self.fails("beside: wrong_answer.edit: NOT REFUSED")
        self.assertEqual(self.made.crates_tried(), ["beside"])

    def forge(self) -> None:
        """Weakens a contract, and writes the line of its crate by hand."""
        self.made.record()
        self.made.write("crates/low/src/lib.rt", WEAK)
        plan = self.made.run("/usr/bin/python3", "-c", FORGERY)
        self.assertEqual(plan.returncode, 0, plan.stderr)

    def test_forged_line_is_caught_in_its_turn(self) -> None:
        self.forge()
        self.made.turn_to(0)
        self.fails("low: its line of ci/edits.txt is untrue: wrong_answer.edit: NOT REFUSED")
        self.assertEqual(self.made.crates_tried(), ["low"])

    def test_forged_line_stands_until_then(self) -> None:
        self.forge()
        self.made.turn_to(7)
        self.passes()

    def test_another_toolchain_tries_all(self) -> None:
        self.made.record()
        self.made.kit = "rattle-kit-other"
        self.passes()
        self.assertEqual(self.made.crates_tried(), ["beside", "high", "low", "middle"])

    def test_two_toolchains_that_take_turns_keep_a_line_each(self) -> None:
        for kit in ("rattle-kit-made", "rattle-kit-other"):
            self.made.kit = kit
            self.made.record()
        self.made.turn_to(7)
        for kit in ("rattle-kit-made", "rattle-kit-other"):
            self.made.kit = kit
            self.passes()
            self.assertEqual(self.made.crates_tried(), [])
        self.made.kit = "rattle-kit-third"
        self.made.record()
        self.made.kit = "rattle-kit-made"
        self.passes()
        self.assertEqual(self.made.crates_tried(), ["beside", "high", "low", "middle"])

    def test_edit_that_cannot_be_applied(self) -> None:
        self.made.write("crates/low/must-fail/other.edit", EDIT.replace("42", "43"))
        self.fails("low/other.edit: found 0 times: 43", "--record")
        self.assertEqual(self.made.crates_tried(), [])

    def test_edit_that_only_rt_finds_bad(self) -> None:
        made_rt = self.made.programs / "rt"
        made_rt.write_text(made_rt.read_text().replace("if old not in source:", "if 'low' in str(crate):"))
        self.fails("low: wrong_answer.edit: BAD EDIT", "--record")
        lines = (self.made.root / "ci/edits.txt").read_text().splitlines()
        self.assertEqual([line.split()[0] for line in lines if line[0] != "#"], ["beside", "high", "middle"])


class Records(Whole):
    def record(self, *names: str) -> Done:
        return self.made.run("/usr/bin/python3", "ci/edits.py", "record", *names)

    def plan(self) -> str:
        return self.made.run("/usr/bin/python3", "ci/edits.py", "plan").stdout

    def names(self) -> list[str]:
        lines = (self.made.root / "ci/edits.txt").read_text().splitlines()
        return [line.split()[0] for line in lines if line[0] != "#"]

    def test_crates_that_are_named(self) -> None:
        done = self.record("low")
        self.assertEqual((done.returncode, self.names()), (0, ["low"]), done.stdout)
        self.assertEqual(self.record("nothing").returncode, 1)

    def test_those_whose_line_does_not_hold(self) -> None:
        self.record("low")
        self.record()
        self.assertEqual(
            (self.made.crates_tried(), self.names()),
            (["beside", "high", "middle"], ["beside", "high", "low", "middle"]),
        )
        self.assertEqual(self.record().stdout, "every line holds\n")

    def test_toolchain_that_proves_no_crates_by_name_tries_the_edits_alone(self) -> None:
        self.made.takes_names = False
        done = self.record("low", "high")
        self.assertEqual((done.returncode, self.names()), (0, ["high", "low"]), done.stdout)

    def test_weakened_crate_gets_no_line(self) -> None:
        self.record()
        before = (self.made.root / "ci/edits.txt").read_text()
        self.made.write("crates/beside/src/lib.rt", WEAK)
        self.assertEqual(self.record().returncode, 1)
        self.assertEqual((self.made.root / "ci/edits.txt").read_text(), before)
        self.assertIn("beside                 1  changed", self.plan())

    def test_line_that_is_found_untrue_goes(self) -> None:
        self.record()
        self.made.write("crates/beside/src/lib.rt", WEAK)
        self.assertEqual(self.made.run("/usr/bin/python3", "-c", FORGERY).returncode, 0)
        self.assertNotIn("changed", self.plan())
        self.assertEqual((self.record("beside").returncode, self.names()), (1, ["high", "low", "middle"]))


class Suites(Whole):
    def test_page_that_shows_something_else(self) -> None:
        self.made.write("docs/PAGE.md", PAGE.replace("audit ok", "audit well"))
        self.fails("prints: ['audit ok']")

    def test_block_after_it_prints(self) -> None:
        self.made.write("README.md", "```\noutagebook audit\n```\n\nIt prints\n\n```\naudit bad\n```\n")
        self.fails("shows:  ['audit bad']")

    def test_block_that_is_not_pasted(self) -> None:
        text = "\n<!-- not pasted: wants root -->\n```\n$ systemctl start it\n```\n"
        self.made.write("docs/PAGE.md", PAGE + text)
        self.passes()

    def test_untyped_function_before_any_proof(self) -> None:
        self.made.with_real("mypy")
        self.made.write("tools/years.py", "def years(books):\n    return books\n")
        self.fails("Function is missing a type annotation")
        self.assertEqual(self.made.crates_tried(), [])

    def test_file_that_black_would_change(self) -> None:
        self.made.with_real("black")
        self.made.write("tools/years.py", "years = [ 1 ]\n")
        self.fails("would reformat")

    def test_skipped_test(self) -> None:
        self.made.write("tools/tests/test_tools.py", SKIPS)
        self.fails('1 skipped: "the program isn\'t built"')

    def test_figure_that_differs_from_the_program_s(self) -> None:
        self.made.write("tools/tests/test_tools.py", TEST.replace("assertTrue(True)", "assertEqual(194, 195)"))
        self.fails("AssertionError: 194 != 195")

    def test_program_that_differs_from_the_oracle(self) -> None:
        made_rt = self.made.programs / "rt"
        made_rt.write_text(made_rt.read_text().replace("echo 'audit ok'", "echo 'audit differs node'"))
        self.fails("program and oracle")

    def test_no_tests_at_all(self) -> None:
        self.made.write("oracle/test_model.py", "")
        self.fails("after 0 tests")
        self.made.write("tests/test_made_years.py", "")
        self.fails("no end of tests is told")

    def test_package_that_is_missing(self) -> None:
        self.made.write("ci/packages.txt", "program no-such-program no-such-package all\n")
        self.made.program("apt-get", "#!/bin/sh\nexit 100\n")
        self.fails("no no-such-program; as root: sh ci/install-packages.sh all")

    def test_package_that_is_installed(self) -> None:
        """What is missing is named, and then installed by whoever may."""
        self.made.write("ci/packages.txt", "program made-program made-package all\n")
        made = self.made.programs / "made-program"
        self.made.program("apt-get", f'#!/bin/sh\n[ "$1" = update ] || {{ touch {made}; chmod +x {made}; }}\n')
        self.made.program("sudo", '#!/bin/sh\n[ "$1" != --non-interactive ] || shift\nexec "$@"\n')
        self.assertIn("made-package: missing; installing: ", self.passes().stdout)

    def test_program_is_left_where_the_tools_look_for_it(self) -> None:
        self.passes()
        self.assertEqual((self.made.root / "crates/outagebook/out/outagebook").read_text(), PROGRAM)

    def test_rt_that_ends_without_counts(self) -> None:
        made_rt = self.made.programs / "rt"
        made_rt.write_text(made_rt.read_text().replace('print(f"{passed} passed', 'print(f"{passed} went'))
        self.fails("rt ci")

    def test_contract_that_is_weak_from_the_start(self) -> None:
        self.made.write("crates/high/src/lib.rt", WEAK)
        self.fails("high: wrong_answer.edit: NOT REFUSED", "--all")
        self.made.write("crates/high/src/lib.rt", STRONG)
        self.passes("--all")


FORGERY = """
import sys
from pathlib import Path

sys.path.insert(0, "ci")
from edits import Line, read_lines, write_lines
from sums import edit_sums
from toolchain import kit_of

root = Path.cwd()
sums = edit_sums(root, kit_of(root))
write_lines(root, {name: [Line(sums[name], lines[0].refused)] for name, lines in read_lines(root).items()})
"""

if __name__ == "__main__":
    unittest.main()
