"""What changes the sum of a crate's edits, and what doesn't."""

from __future__ import annotations

import os
import unittest

from made_repository import STRONG, MadeRepository

from sums import edit_sums


class Sums(unittest.TestCase):
    def setUp(self) -> None:
        self.made = MadeRepository()
        self.addCleanup(self.made.remove)
        self.made.write("crates/low/proofs/Lib.antt", "mod Own\npub mod Law\n")
        self.made.write("crates/low/proofs/Law.antt", "law\n")
        self.before = self.sums()

    def sums(self, kit: str = "a kit") -> dict[str, str]:
        return edit_sums(self.made.root, kit)

    def changed(self, kit: str = "a kit") -> list[str]:
        """The crates whose sums are others than before."""
        now = self.sums(kit)
        return sorted(name for name in now if now[name] != self.before.get(name))

    def test_only_crates_with_edits_have_one(self) -> None:
        self.assertEqual(sorted(self.before), ["beside", "high", "low", "middle"])

    def test_source_and_specs_change_those_above(self) -> None:
        for name in ("src/lib.rt", "src/other.rt", "specs/Lib.antt", "specs/New.antt"):
            with self.subTest(name):
                self.before = self.sums()
                self.made.write(f"crates/low/{name}", f"{STRONG}{name}\n")
                self.assertEqual(self.changed(), ["high", "low", "middle"])

    def test_comments_change_none(self) -> None:
        self.made.write("crates/low/src/lib.rt", f"//! A crate.\n\n{STRONG}")
        self.made.write("crates/low/specs/Lib.antt", "pub mod Answer\n")
        self.before = self.sums()
        self.made.write("crates/low/src/lib.rt", f"//! Another\n//! comment.\n\n\n    // here too\n{STRONG}")
        self.made.write("crates/low/specs/Lib.antt", "-- the answer\npub mod Answer\n")
        self.assertEqual(self.changed(), [])
        self.made.write("crates/low/src/lib.rt", f"//! A crate.\n\n{STRONG.rstrip()} // after code\n")
        self.assertEqual(self.changed(), ["high", "low", "middle"])

    def test_what_looks_like_a_comment_within_a_text(self) -> None:
        text = 'const TEXT: &str = "\\\n// {}\n";\n'
        self.made.write("crates/low/src/lib.rt", text.format("one"))
        self.before = self.sums()
        self.made.write("crates/low/src/lib.rt", text.format("two"))
        self.assertEqual(self.changed(), ["high", "low", "middle"])

    def test_edit_changes_its_own_crate(self) -> None:
        self.made.write("crates/low/must-fail/other.edit", "file: src/lib.rt\n")
        self.assertEqual(self.changed(), ["low"])

    def test_proof_of_a_function_changes_its_own_crate(self) -> None:
        self.made.write("crates/low/proofs/answer/Answers.antt", "answers\n")
        self.assertEqual(self.changed(), ["low"])

    def test_proof_of_a_function_from_which_a_lemma_takes_something(self) -> None:
        self.made.write("crates/low/proofs/Law.antt", "use Rattle.low.proofs.answer.Goals as goal\n")
        self.before = self.sums()
        self.made.write("crates/low/proofs/answer/Answers.antt", "answers\n")
        self.assertEqual(self.changed(), ["high", "low", "middle"])

    def test_public_lemma_changes_those_above(self) -> None:
        self.made.write("crates/low/proofs/Law.antt", "stronger law\n")
        self.assertEqual(self.changed(), ["high", "low", "middle"])

    def test_lemmas_of_a_crate_that_makes_none_public(self) -> None:
        self.made.write("crates/middle/proofs/Lib.antt", "mod Own\n")
        self.made.write("crates/middle/proofs/Own.antt", "own\n")
        self.assertEqual(self.changed(), ["middle"])

    def test_line_of_the_list_of_crates(self) -> None:
        listed = (self.made.root / "crates.txt").read_text()
        self.made.write("crates.txt", listed.replace("beside:", "beside: jiff"))
        self.assertEqual(self.changed(), ["beside"])

    def test_order_and_comments_of_the_list(self) -> None:
        lines = (self.made.root / "crates.txt").read_text().splitlines()
        self.made.write("crates.txt", "\n".join(["# the crates", *reversed(lines)]) + "\n")
        self.assertEqual(self.changed(), [])

    def test_handles_and_toolchain_change_all(self) -> None:
        self.assertEqual(self.changed("another kit"), sorted(self.before))
        self.made.write("HANDLES", "Handles allowed: Net.\n")
        self.assertEqual(self.changed(), sorted(self.before))

    def test_times_pages_and_what_was_built_change_none(self) -> None:
        os.utime(self.made.root / "crates/low/src/lib.rt", (0, 0))
        self.made.write("docs/PAGE.md", "# Another page\n")
        self.made.write("crates/low/out/rlib/stamp", "stamp\n")
        self.assertEqual(self.changed(), [])

    def test_text_that_moves_from_one_file_to_another(self) -> None:
        self.made.write("crates/low/src/a.rt", "one")
        self.made.write("crates/low/src/b.rt", "two")
        self.before = self.sums()
        self.made.write("crates/low/src/a.rt", "onet")
        self.made.write("crates/low/src/b.rt", "wo")
        self.assertIn("low", self.changed())


if __name__ == "__main__":
    unittest.main()
