"""The program, built over proved crates: several at once, with progress, and only where it isn't that of these files yet."""

from __future__ import annotations

import os
import re
import shutil
import sys
import tempfile
import time
from collections.abc import Callable
from dataclasses import dataclass, field
from pathlib import Path

from crates import crates_below, read_crates
from parts import Ran, run
from rt_output import counts_of
from sums import OWN, files_in, sum_of_files, sum_of_parts
from toolchain import jobs, kit_of

NAME = "outagebook"
PROGRAM = Path("crates/outagebook/out/outagebook")
BUILT_FROM = Path("crates/outagebook/out/built-from")
PROVED = re.compile(r"^rt: ([a-z0-9_]+) (?:proved$|is kept: )")
LAST_LINES = 40  # of the log, shown where the build fails


def crates_of_program(root: Path) -> list[str]:
    """The crates that the program depends on, and its own."""
    crates = read_crates(root)
    wanted = {NAME, *crates_below(crates, NAME)}
    return [name for name in crates if name in wanted]


def files_of_program(root: Path) -> list[Path]:
    """The files of these crates, but for mutation tests."""
    parts = [part for part in OWN if part != "must-fail"]
    return [
        file for name in crates_of_program(root) for part in parts for file in files_in(root / "crates" / name / part)
    ]


def sum_of_program(root: Path) -> str:
    """The sum of all that the program is built from, and the toolchain's name, which it begins with."""
    crates, kit = read_crates(root), kit_of(root)
    lines = [" ".join(crates[name].line).encode() for name in crates_of_program(root)]
    return f"{kit}: {sum_of_parts([*lines, sum_of_files(files_of_program(root), root).encode()])}\n"


def is_built(root: Path) -> bool:
    """Whether the program there was built from these files by this toolchain."""
    note = root / BUILT_FROM
    return (root / PROGRAM).exists() and note.exists() and note.read_text(encoding="utf-8") == sum_of_program(root)


def keep_program(place: Path, root: Path) -> None:
    """Puts the program that was built in a copy of the tree where tools, pages and run.sh look for it."""
    if place != root:
        (root / PROGRAM).parent.mkdir(parents=True, exist_ok=True)
        shutil.copy2(place / PROGRAM, f"{root / PROGRAM}.new")
        os.replace(f"{root / PROGRAM}.new", root / PROGRAM)
    (root / BUILT_FROM).write_text(sum_of_program(place), encoding="utf-8")


def copy_of_program(root: Path, to: Path) -> None:
    """A repository of the program's crates alone, without mutation tests."""
    (to / ".git").mkdir(parents=True)
    shutil.copy2(root / "HANDLES", to / "HANDLES")
    crates = read_crates(root)
    listed = ((name, crates[name].line) for name in crates_of_program(root))
    lines = (" ".join([line[0], *line[1:]]).replace(" :", ":") for _, line in listed)
    (to / "crates.txt").write_text("".join(f"{line}\n" for line in lines), encoding="ascii")
    leaves = shutil.ignore_patterns("out", "must-fail")
    for name in crates_of_program(root):
        shutil.copytree(root / "crates" / name, to / "crates" / name, ignore=leaves)


@dataclass
class Progress:
    """How far a build is, told crate by crate: on a terminal in one line that changes."""

    of: int
    begun: float = field(default_factory=time.monotonic)
    proved: set[str] = field(default_factory=set)

    def hear(self, line: str) -> None:
        """Hears a line of what `rt ci` prints."""
        found = PROVED.match(line)
        if not found or found[1] in self.proved:
            return
        self.proved.add(found[1])
        minutes = (time.monotonic() - self.begun) / 60
        text = f"{len(self.proved)} of {self.of} crates proved, {minutes:.0f} min: {found[1]}"
        if sys.stdout.isatty():
            print(f"\r\x1b[K{text}", end="\n" if len(self.proved) == self.of else "", flush=True)
        else:
            print(text, flush=True)


def build(root: Path, proving: Callable[[Path, Callable[[str], None]], Ran] | None = None) -> bool:
    """Proves the program's crates and builds it; answers whether it was. What failed is shown."""
    with tempfile.TemporaryDirectory(prefix="outagebook-build-") as folder:
        place = Path(folder) / "tree"
        copy_of_program(root, place)
        progress = Progress(len(crates_of_program(root)))
        ran = (proving or prove)(place, progress.hear)
        passed, failed = counts_of(ran.said) or (0, 1)
        if ran.status or failed or not passed or not (place / PROGRAM).exists():
            print("\n".join(ran.said.splitlines()[-LAST_LINES:]))
            return False
        keep_program(place, root)
    return True


def prove(place: Path, heard: Callable[[str], None]) -> Ran:
    """`rt ci` over a tree, several crates at once."""
    return run(["rt", "ci"], place, {"RT_JOBS": str(jobs())}, heard=heard)
