"""The full test run: every proof, test and program, mutation tests by what changed, and all tests next to the crates.

    sh test.sh               # mutation tests of crates that changed since they were last seen rejected, and of others by turn
    sh test.sh --all         # all mutation tests
    sh test.sh --record      # the same as either, and writes ci/edits.txt by what was seen rejected

The last line ends with 'N passed, M failed', and the status is 0 if nothing failed. README.md in this folder has the details.
An edit, here and in the code, is a mutation test: a file in a crate's must-fail/.
"""

from __future__ import annotations

import argparse
import re
import shutil
import sys
import tempfile
from collections import Counter
from concurrent.futures import ThreadPoolExecutor
from dataclasses import dataclass, field
from pathlib import Path
from threading import Event

from ahead import prove_behind_trunk
from build import PROGRAM, keep_program
from edits import Planned, Why, plan, turn_of, write_seen
from packages import FOR_ALL, install_with, lacks_of_machine, provided
from parts import Part, Ran, run, say
from rt_output import counts_of, tried_edits, unrefused
from suites import before_proofs, run_suite, screen, with_program
from sums import edit_sums
from toolchain import NOT_FOUND, has_toolchain, jobs, jobs_asked, kit_of
from tree import copy_tree

ROOT = Path(__file__).resolve().parent.parent
PROGRAM_BUILT = re.compile(r"^rt: outagebook (?:proved$|is kept: )")
COUNTED_BY_RT = ("NOT REFUSED", "NOT TRIED")


@dataclass
class Report:
    """What the full test run reports at its end."""

    parts: list[Part] = field(default_factory=list)
    notes: list[str] = field(default_factory=list)

    @property
    def failed(self) -> int:
        return sum(part.failed for part in self.parts)

    def tell(self) -> int:
        """Prints the parts, the notes and the last line; answers the status to end with."""
        say("\n".join(["", "== all parts", *[part.line() for part in self.parts], *self.notes]))
        left_out = [part.why for part in self.parts if part.why.endswith("not run")]
        say("; ".join([*left_out, f"{sum(part.passed for part in self.parts)} passed, {self.failed} failed"]))
        return 1 if self.failed else 0


def of_plan(planned: list[Planned]) -> str:
    """How many mutation tests are tried, and why; how many aren't, since their sums hold."""
    crates, edits = Counter(it.why for it in planned), Counter[Why]()
    for it in planned:
        edits[it.why] += len(it.edits)
    reasons = [
        f"{edits[why]} of {crates[why]} crates: {why.value}" for why in Why if crates[why] and why is not Why.STANDS
    ]
    tried = sum(edits.values()) - edits[Why.STANDS]
    told = f"{tried} tried{' (' + '; '.join(reasons) + ')' if reasons else ''}"
    return f"must-fail edits: {told}, {edits[Why.STANDS]} of {crates[Why.STANDS]} crates stand by their sums"


def judge(planned: list[Planned], said: str, report: Report) -> dict[str, list[str]]:
    """By crate whose mutation tests were to be tried, those that the run hasn't seen rejected."""
    tried, uncounted, unseen = tried_edits(said), 0, {}
    for it in planned:
        if not it.is_tried:
            continue
        lost = unseen[it.name] = unrefused(list(it.edits), tried.get(it.name, {}))
        uncounted += sum(not edit.endswith(COUNTED_BY_RT) for edit in lost)
        told = "; ".join(lost) if it.name in tried else "its edits weren't tried"
        if lost:
            untrue = "its line of ci/edits.txt is untrue: " if it.why is Why.TURN and it.name in tried else ""
            report.notes.append(f"{it.name}: {untrue}{told}")
    if uncounted:
        report.parts.append(Part("edits not refused", 0, uncounted))
    return unseen


def prove(place: Path, planned: list[Planned], report: Report, records: bool, built: Event) -> dict[str, list[str]]:
    """`rt ci` over a tree; answers which planned mutation tests it hasn't rejected. It tells when the program is built there."""

    def hear(line: str) -> None:
        if PROGRAM_BUILT.match(line):
            built.set()

    def whole() -> Ran:
        return run(["rt", "ci"], place, {"RT_JOBS": str(jobs())}, shows=True, heard=hear)

    ran = prove_behind_trunk(place, jobs(), whole) if not jobs_asked() and jobs() > 2 else whole()
    passed, failed = counts_of(ran.said) or (0, 1)
    why = f"status {ran.status}" if ran.status else ""
    report.parts.append(Part("rt ci", passed, max(failed, 1 if ran.status else 0), ran.clock, ran.processor, why))
    report.notes.append(of_plan(planned))
    unseen = judge(planned, ran.said, report)
    seen = [it.name for it in planned if it.is_changed and not unseen[it.name]]
    if seen and not records:
        report.notes.append(f"lines of ci/edits.txt that --record would write: {' '.join(seen)}")
    return unseen


def leave_out(place: Path, planned: list[Planned]) -> None:
    """Deletes from a copy the mutation tests of crates whose lines hold and whose turn it isn't."""
    for it in planned:
        if not it.is_tried:
            shutil.rmtree(place / "crates" / it.name / "must-fail")


def suites_with_program(place: Path, report: Report, built: Event) -> None:
    """The suites that need the program, once it is built: some side by side, then the screen's. `rt ci` may still be at work."""
    built.wait()
    program = place / PROGRAM
    if not program.exists():
        report.parts.append(Part("with the program", 0, 1, why="rt ci left no program"))
        return
    with ThreadPoolExecutor(max(2, jobs() // 2)) as pool:
        report.parts += pool.map(lambda suite: run_suite(suite, place, program), with_program(place))
    report.parts += [run_suite(suite, place, program) for suite in screen(place)]


def gate(place: Path, said: argparse.Namespace, report: Report) -> None:
    """Runs all parts over a tree: what is cheap first, and no proof if that fails."""
    lacking = provided(place / "ci")
    if lacking:
        names = ", ".join(it.name for it in lacking)
        report.parts.append(Part("packages", 0, len(lacking), why=f"no {names}; {install_with(FOR_ALL)}"))
        return
    lacks = [*lacks_of_machine(), *([] if has_toolchain() else [NOT_FOUND])]
    if lacks:
        report.parts.append(Part("the machine", 0, len(lacks), why="; ".join(lacks)))
        return
    with ThreadPoolExecutor(jobs()) as pool:
        report.parts += pool.map(lambda suite: run_suite(suite, place), before_proofs(place))
    if report.failed:
        report.notes.append("rt ci didn't run, since what comes before it failed")
        return
    kit = kit_of(place)
    sums = edit_sums(place, kit)
    planned = plan(place, sums, turn_of(ROOT), said.all)
    if place != ROOT:
        leave_out(place, planned)
    built = Event()
    with ThreadPoolExecutor(1) as pool:
        suites = pool.submit(suites_with_program, place, report, built)
        try:
            unseen = prove(place, planned, report, said.record, built)
        finally:
            built.set()
        suites.result()
    if said.record and place == ROOT and edit_sums(place, kit) != sums:
        report.notes.append("files changed while rt ci ran: ci/edits.txt is as it was")
    elif said.record:
        write_seen(ROOT, sums, unseen)
        report.notes.append("ci/edits.txt is written by what was seen refused")
    if not report.failed:
        keep_program(place, ROOT)


def main() -> int:
    words = argparse.ArgumentParser(prog="test.sh", description="The full test run: every proof and every test.")
    words.add_argument("--all", action="store_true", help="try all mutation tests, over the tree itself")
    words.add_argument("--record", action="store_true", help="write ci/edits.txt by what was seen rejected")
    said = words.parse_args()
    report = Report()
    with tempfile.TemporaryDirectory(prefix="outagebook-ci-") as folder:
        place = ROOT if said.all else Path(folder) / "tree"
        if place != ROOT:
            copy_tree(ROOT, place)
        gate(place, said, report)
        return report.tell()


if __name__ == "__main__":
    sys.exit(main())
