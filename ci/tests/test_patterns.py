"""Which names of a definition are no constructors there, and which only look so."""

from __future__ import annotations

import contextlib
import io
import tempfile
import unittest
from pathlib import Path
from unittest import mock

import made_repository  # noqa: F401, the modules of ci/

import patterns

PRELUDE = "use Rattle.std.specs.Prelude."
POS = "use Rattle.low.specs.declared.Pos."
STATE = "crates/low/specs/State.antt"


class Patterns(unittest.TestCase):
    def setUp(self) -> None:
        folder = tempfile.TemporaryDirectory(prefix="outagebook-patterns-test-")
        self.addCleanup(folder.cleanup)
        self.root = Path(folder.name)

    def write(self, text: str, name: str = STATE) -> None:
        (self.root / name).parent.mkdir(parents=True, exist_ok=True)
        (self.root / name).write_text(text, encoding="utf-8")

    def found(self) -> tuple[int, list[str]]:
        """What the check ends with, and the places that it names."""
        with contextlib.redirect_stdout(io.StringIO()) as printed, mock.patch("sys.argv", ["", str(self.root)]):
            status = patterns.main()
        return status, [line.partition(" isn't")[0] for line in printed.getvalue().splitlines()[:-1]]

    def passes(self, text: str) -> None:
        self.write(text)
        self.assertEqual(self.found(), (0, []))

    def fails(self, text: str, *places: str) -> None:
        self.write(text)
        self.assertEqual(self.found(), (1, [f"{STATE}:{place}" for place in places]))

    def test_clause_that_is_about_everything(self) -> None:
        text = f"{PRELUDE}{{◌≡◌, Bool%s}}\n\nIs : Bool → Type 0\nIs false = ⊥\nIs is = ⊤\n"
        self.fails(text % "", "4: false")
        self.passes(text % ", false")

    def test_each_of_prelude(self) -> None:
        names = ["Err", "None", "Ok", "Some", "[]", "false", "true", "zero"]
        self.fails(
            "".join(f"f (g {name}) = 1\n" for name in names), *(f"{at}: {name}" for at, name in enumerate(names, 1))
        )

    def test_name_in_a_case(self) -> None:
        self.fails("f o = elim o [ None ↦ 0 | other ↦ 1 ]\n", "1: None")

    def test_import_under_another_name(self) -> None:
        self.fails(f"{PRELUDE}{{None as Nobody, Option}}\nf Nobody = None\n", "2: None")

    def test_import_of_several_lines(self) -> None:
        self.passes(f"{PRELUDE}{{Option,\n    None}}\nf None = 0\n")
        self.fails(f"{PRELUDE}{{Option,\n    Some}}\nf None = 0\n", "3: None")

    def test_what_is_no_constructor(self) -> None:
        """Comments, texts, names that begin or end so, names of a module, and what is built in."""
        self.passes('-- true\nf in-Some is_true = codes "false -- None" -- Err\nf a = b.None option.Some tt\n')

    def test_declared_here(self) -> None:
        self.passes("pub data Answer : Type 0 where\n  None : Answer\n\nf None = 0\n")

    def test_variant_of_a_type_that_is_imported(self) -> None:
        self.write(f"{POS}TheVariants.{{Opened, Closed}}\nf Opened = Closed\n", "crates/high/proofs/Laws.antt")
        self.passes(f"{POS}{{Pos}}\n{POS}TheVariants.{{Opened}}\nf Opened = 0\n")
        self.fails(f"{POS}{{Pos}}\n{POS}TheVariants.{{Opened}}\nf Opened = 0\nf Closed = 1\n", "4: Closed")
        self.fails(f"{POS}{{Pos}}\nf Opened = 0\n", "2: Opened")
        self.passes("f Opened = 0\n")

    def test_variant_by_its_module(self) -> None:
        self.write(f"{POS}TheVariants as pos\nf pos.Opened = pos.Closed\n", "crates/high/specs/Laws.antt")
        self.passes(f"{POS}{{Pos}}\n{POS}TheVariants as pos\nf pos.Opened = 0\n")
        self.fails(f"{POS}{{Pos}}\n{POS}TheVariants as pos\nf Opened = 0\n", "3: Opened")

    def test_module_of_a_variant_s_name(self) -> None:
        self.write(f"{POS}TheVariants.{{Opened}}\n", "crates/high/proofs/Laws.antt")
        self.passes(f"{POS}{{Pos}}\npub mod Opened\nmod Closed\n")

    def test_proofs_are_not_looked_at(self) -> None:
        self.write("f zero = zero\n", "crates/low/proofs/Laws.antt")
        self.passes("f a = a\n")


if __name__ == "__main__":
    unittest.main()
