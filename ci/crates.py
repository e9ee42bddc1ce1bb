"""The crates of a repository, as crates.txt lists them."""

from __future__ import annotations

from dataclasses import dataclass
from pathlib import Path


@dataclass(frozen=True)
class Crate:
    """A crate: its line of crates.txt in words, and the crates of the repository that the line names."""

    name: str
    line: tuple[str, ...]
    uses: tuple[str, ...]


def read_crates(root: Path) -> dict[str, Crate]:
    """The crates by name, in the order of crates.txt."""
    lines = (line.partition("#")[0] for line in (root / "crates.txt").read_text(encoding="utf-8").splitlines())
    split = [line.partition(":") for line in lines if line.strip()]
    names = {head.split()[0] for head, _, _ in split}
    crates = {}
    for head, _, libraries in split:
        name, *kind = head.split()
        uses = tuple(library for library in libraries.split() if library in names)
        crates[name] = Crate(name, (name, *kind, ":", *libraries.split()), uses)
    return crates


def crates_below(crates: dict[str, Crate], name: str) -> list[str]:
    """The crates that a crate stands on, by name."""
    found: set[str] = set()
    waiting = [*crates[name].uses]
    while waiting:
        below = waiting.pop()
        if below not in found:
            found.add(below)
            waiting += crates[below].uses
    return sorted(found)


def edits_of(root: Path, name: str) -> list[str]:
    """What stands in a crate's must-fail folder to be tried: all but pages (.md), by path."""
    folder = root / "crates" / name / "must-fail"
    files = (file for file in folder.rglob("*") if file.is_file() and file.suffix != ".md")
    return sorted(file.relative_to(folder).as_posix() for file in files)
