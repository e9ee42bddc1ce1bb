"""Which mutation tests are tried: those of what changed since they were last seen rejected, and others by turn.

    python3 ci/edits.py plan [--all]         # crate by crate, why its tests are tried or not
    python3 ci/edits.py apply                # whether the text that each replaces is found once in its file
    python3 ci/edits.py record [NAME ..]     # runs `rt ci` over these crates (those whose line doesn't hold), and writes their lines

A mutation test (in the code: an edit) is a file in a crate's must-fail/: wrong code that the prover has to reject.
ci/edits.txt has lines for each crate that has some: its name, a sum of all that their checks read (sums.py), and how
many were rejected. A line is written by a run that has just seen `rt ci` reject each of them, and by nobody else. It
holds as long as the sum is that of the files and of the toolchain. The last two lines of a crate stay, so that of two
toolchains that take turns each finds its own. Each state of the tree has a turn, one crate in eight of those of which
a line holds: their mutation tests are tried all the same, so that a line that was never true is found before long.
"""

from __future__ import annotations

import argparse
import sys
from collections import defaultdict
from dataclasses import dataclass
from enum import Enum
from pathlib import Path

from crates import edits_of, read_crates
from parts import run
from rt_output import tried_edits, unrefused
from sums import edit_sums
from toolchain import kit_of, takes_names
from tree import sum_of_tree

ROOT = Path(__file__).resolve().parent.parent
TURNS = 8
LINES = 2  # of a crate, the newest first
HEADER = """\
# Crate by crate: the sum of all that the checks of its mutation tests read when `rt ci` was last seen to reject each of them,
# and how many there were; the time before it too. Written by `sh test.sh --record` and ci/edits.py, never by hand: ci/README.md.
"""


@dataclass(frozen=True)
class Line:
    """A line of ci/edits.txt."""

    sum: str
    refused: int


class Why(Enum):
    """Why a crate's mutation tests are tried, or aren't."""

    CHANGED = "changed"
    TURN = "its turn"
    ASKED = "all are asked for"
    STANDS = "stands by its sum"


@dataclass(frozen=True)
class Planned:
    """A crate that has mutation tests, with what comes of them in a run."""

    name: str
    edits: tuple[str, ...]
    why: Why
    is_changed: bool  # no line of it has this sum

    @property
    def is_tried(self) -> bool:
        return self.why is not Why.STANDS


def read_lines(root: Path) -> dict[str, list[Line]]:
    """The lines of ci/edits.txt by crate; none where there is no such file."""
    file = root / "ci/edits.txt"
    rows = (row.split() for row in (file.read_text(encoding="ascii") if file.exists() else "").splitlines())
    lines: dict[str, list[Line]] = defaultdict(list)
    for row in rows:
        if row and row[0] != "#":
            lines[row[0]].append(Line(row[1], int(row[2])))
    return lines


def write_lines(root: Path, lines: dict[str, list[Line]]) -> None:
    """Writes ci/edits.txt anew."""
    rows = (f"{name} {line.sum} {line.refused}\n" for name in sorted(lines) for line in lines[name][:LINES])
    (root / "ci/edits.txt").write_text(HEADER + "".join(rows), encoding="ascii")


def turn_of(root: Path) -> int:
    """Whose turn it is: a number below TURNS that each change of the tree may change."""
    return int(sum_of_tree(root), 16) % TURNS


def plan(root: Path, sums: dict[str, str], turn: int, tries_all: bool = False) -> list[Planned]:
    """What comes of each crate's mutation tests, in the order of crates.txt."""
    lines = read_lines(root)
    found, holding = [], 0
    for name, found_sum in sums.items():
        edits = tuple(edits_of(root, name))
        holds = Line(found_sum, len(edits)) in lines.get(name, [])
        is_turn = holds and holding % TURNS == turn
        holding += holds
        why = Why.ASKED if tries_all else Why.CHANGED if not holds else Why.TURN if is_turn else Why.STANDS
        found.append(Planned(name, edits, why, not holds))
    return found


def write_seen(root: Path, sums: dict[str, str], lost: dict[str, list[str]]) -> None:
    """Writes the lines of the crates that a run tried, by what it hasn't seen refused of each: nothing, or no line of this sum.

    The lines of crates that have no edits any more go; those of the others stay.
    """
    lines = {name: kept for name, kept in read_lines(root).items() if name in sums}
    for name, edits in lost.items():
        seen = [] if edits else [Line(sums[name], len(edits_of(root, name)))]
        lines[name] = [*seen, *(line for line in lines.get(name, []) if line.sum != sums[name])]
    write_lines(root, lines)


def misfits(root: Path, name: str) -> list[str]:
    """Those of a crate's mutation tests whose text isn't found once in its file, as far as reading shows: each with why."""
    found, crate = [], root / "crates" / name
    for edit in edits_of(root, name):
        texts: dict[Path, str] = {}
        file, old = crate, ""
        for line in (crate / "must-fail" / edit).read_text(encoding="utf-8").splitlines():
            key, _, text = line.partition(":")
            if key == "file":
                file = crate / text.strip()
                texts.setdefault(file, file.read_text(encoding="utf-8") if file.is_file() else "")
            elif key == "old":
                old = text.removeprefix(" ")
                if texts.get(file, "").count(old) != 1:
                    found.append(f"{name}/{edit}: found {texts.get(file, '').count(old)} times: {old}")
            elif key == "new" and file in texts:
                texts[file] = texts[file].replace(old, text.removeprefix(" "), 1)
    return found


def apply(root: Path) -> int:
    """Prints the mutation tests that can't be applied."""
    wrong = [line for name in read_crates(root) for line in misfits(root, name)]
    print("\n".join([*wrong, f"{len(wrong)} edits can't be applied"]))
    return 1 if wrong else 0


def record(root: Path, names: list[str]) -> int:
    """Runs `rt ci` over some crates and writes the lines of those whose mutation tests it rejected, each of them."""
    kit = kit_of(root)
    sums = edit_sums(root, kit)
    wanted = names or [it.name for it in plan(root, sums, TURNS) if it.is_tried]
    unknown = [name for name in wanted if name not in sums]
    if unknown or not wanted:
        print(f"no crate with edits: {' '.join(unknown)}" if unknown else "every line holds")
        return 1 if unknown else 0
    ran = run(["rt", "ci" if takes_names(root) else "must-fail", *wanted], root, shows=True)
    tried = tried_edits(ran.said)
    if edit_sums(root, kit) != sums:
        print("files changed while rt ci ran: nothing is recorded")
        return 1
    # (rt ci tries those of the crates below too)
    seen = [name for name in sums if name in tried or name in wanted]
    lost = {name: unrefused(edits_of(root, name), tried.get(name, {})) for name in seen}
    write_seen(root, sums, lost)
    for name in seen:
        print(f"{name}: " + ("; ".join(lost[name]) or f"recorded, {len(edits_of(root, name))} refused"))
    return 1 if any(lost.values()) else 0


def main() -> int:
    words = argparse.ArgumentParser(description="Prints which mutation tests are tried, and records those that were.")
    jobs = words.add_subparsers(dest="job", required=True)
    planning = jobs.add_parser("plan", help="print, crate by crate, why its mutation tests are tried or not")
    planning.add_argument("--all", action="store_true", help="as in a run that tries all")
    planning.add_argument("root", type=Path, nargs="?", default=ROOT)
    jobs.add_parser("apply", help="print which mutation tests can't be applied")
    recording = jobs.add_parser("record", help="run rt ci over crates, and write the lines of those that it rejected")
    recording.add_argument("names", nargs="*", metavar="NAME", help="crates (those whose line doesn't hold)")
    said = words.parse_args()
    if said.job == "apply":
        return apply(ROOT)
    if said.job == "record":
        return record(ROOT, said.names)
    root = said.root.resolve()
    for it in plan(root, edit_sums(root, kit_of(root)), turn_of(root), said.all):
        print(f"{it.name:<20}{len(it.edits):>4}  {it.why.value}")
    return 0


if __name__ == "__main__":
    sys.exit(main())
