"""Constructors that a definition uses and doesn't import: on the left of an equation such a name is a variable.

    python3 ci/patterns.py [FOLDER]      # prints each with its file and line; status 1 where there is one

`f false = ..` is a clause about `false` only in a file that imports `false`. Elsewhere the name is a variable, which the
prover accepts: the clause is about everything, and the definition says less than it seems. So each definition
(crates/*/specs, all .antt files) has to import, or declare, the constructors that it uses by their bare names: those of
Prelude, and the variants of each type that it imports. `tt` is built in.
"""

from __future__ import annotations

import re
import sys
from collections import defaultdict
from collections.abc import Iterable, Iterator
from dataclasses import dataclass
from functools import cached_property
from pathlib import Path

ROOT = Path(__file__).resolve().parent.parent
OF_PRELUDE = frozenset({"true", "false", "Some", "None", "Ok", "Err", "zero", "[]"})
VARIANTS = ".TheVariants"
TEXT = re.compile(r'"(?:[^"\\]|\\.)*"')
COMMENT = re.compile(r"(?:^|(?<=\s))--.*$", re.MULTILINE)
ITEMS = re.compile(r"\buse\s+([^\s{}]+)\.\{([^}]*)\}")
MODULE = re.compile(r"^\s*(?:pub\s+)?(?:use|mod)\s+(\S+)(?:\s+as\s+(\S+))?\s*$", re.MULTILINE)
BETWEEN = re.compile(r"[\s(){};,]+")  # `[]` is a name, and so is `in-Some`
DECLARES = frozenset({"data", "record", "module"})


@dataclass(frozen=True)
class File:
    """A file of definitions or proofs: its code without texts and comments."""

    path: Path
    code: str

    @cached_property
    def imports(self) -> list[tuple[str, str, str]]:
        """The items that are imported: the module, the item's name there, and its name here."""
        found = []
        for module, items in ITEMS.findall(self.code):
            for item in items.split(","):
                name, _, other = (part.strip() for part in item.partition(" as "))
                found.append((module, name, other or name))
        return found

    @cached_property
    def modules(self) -> dict[str, str]:
        """The modules that are imported whole, by their names here."""
        return {other or path.rpartition(".")[2]: path for path, other in MODULE.findall(self.code)}

    @cached_property
    def lines(self) -> list[list[str]]:
        """The names line by line, without those of imports; the point after a variable of a λ is none of it."""
        rest = MODULE.sub(blank, ITEMS.sub(blank, self.code))
        return [[name.removesuffix(".") for name in BETWEEN.split(line) if name] for line in rest.splitlines()]

    @property
    def own(self) -> set[str]:
        """What may be used by its bare name: what is imported, and what is declared here."""
        found = {here for _, _, here in self.imports}
        for line in self.lines:
            for name, after in zip(line, line[1:]):
                if after == ":":
                    found.add(name)
                elif name in DECLARES:
                    found.add(after)
        return found


def blank(found: re.Match[str]) -> str:
    """Nothing, on as many lines."""
    return "\n" * found[0].count("\n")


def read_file(path: Path) -> File:
    return File(path, COMMENT.sub("", TEXT.sub('""', path.read_text(encoding="utf-8"))))


def variants_of(files: Iterable[File]) -> dict[str, set[str]]:
    """The variants that any file names, by the type's module."""
    found: dict[str, set[str]] = defaultdict(set)
    for file in files:
        for module, name, _ in file.imports:
            if module.endswith(VARIANTS):
                found[module.removesuffix(VARIANTS)].add(name)
        for line in file.lines:
            for module, _, name in (word.partition(".") for word in line):
                path = file.modules.get(module, "")
                if path.endswith(VARIANTS) and name and "." not in name:
                    found[path.removesuffix(VARIANTS)].add(name)
    return found


def unimported(file: File, variants: dict[str, set[str]]) -> Iterator[tuple[int, str]]:
    """The constructors that a file uses and has not, with their lines."""
    types = {module.removesuffix(VARIANTS) for module, _, _ in file.imports}
    types |= {path.removesuffix(VARIANTS) for path in file.modules.values()}
    missing = OF_PRELUDE.union(*(variants.get(path, set()) for path in types)) - file.own
    for number, line in enumerate(file.lines, 1):
        yield from ((number, name) for name in sorted(missing.intersection(line)))


def main() -> int:
    root = Path(sys.argv[1]) if len(sys.argv) > 1 else ROOT
    definitions, proofs = (
        [read_file(path) for path in sorted(root.glob(f"crates/*/{folder}/**/*.antt"))]
        for folder in ("specs", "proofs")
    )
    variants = variants_of([*definitions, *proofs])
    wrong = [
        f"{file.path.relative_to(root)}:{number}: {name} isn't imported, so in a pattern it is a variable"
        for file in definitions
        for number, name in unimported(file, variants)
    ]
    print("\n".join([*wrong, f"{len(definitions)} files of definitions, {len(wrong)} wrong"]))
    return 1 if wrong else 0


if __name__ == "__main__":
    sys.exit(main())
