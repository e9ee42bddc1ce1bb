"""What is a test beside the crates: each suite, what it runs, and how much of it passed."""

from __future__ import annotations

import re
import sys
from collections.abc import Callable
from dataclasses import dataclass
from pathlib import Path

from parts import Part, Ran, run, say

Counts = tuple[int, int, str]
LONGEST = "1800"  # seconds of a suite
OVER_ORACLE = (  # programs over the oracle's modules
    "tools/tests/made_books.py",
    "tools/tests/made_districts.py",
    "tools/tests/taken_rows.py",
)
WAREHOUSE_PAGE = "docs/operate/WAREHOUSE.md"  # its blocks want a PostgreSQL server
TYPED = (
    *("oracle", "benches", "ci", "tests", "tools", "screen", "packaging"),
    *("examples/ieee", "examples/network", "examples/utility"),
)
SHARES = (
    "[ab]",
    "[cd]",
    "[e-n]",
    "o",
    "[p-z]",
)  # of the tools' tests, by the first letter of their subject: side by side
RAN = re.compile(r"^Ran ([0-9]+) tests? in ", re.MULTILINE)
ENDED = re.compile(r"^(?:OK|FAILED)(?: \((.*)\))?$", re.MULTILINE)
SKIPPED = re.compile(r"^(.*) \.\.\. skipped (.*)$", re.MULTILINE)
OF_SCREEN = re.compile(
    r"^screen: tested .*: ([0-9]+) of ([0-9]+) tests, ([0-9]+) failed, ([0-9]+) skipped$", re.MULTILINE
)
FIRST_RUN_SHOWN = "`sh run.sh` ends with"  # the line of README.md before the block that has what run.sh prints
PASTED = re.compile(r": ([0-9]+) commands pasted, ([0-9]+) print something else")


@dataclass(frozen=True)
class Suite:
    """A suite: its name, the words that run it, and what its end says."""

    name: str
    words: tuple[str | Path, ...]
    counts: Callable[[Ran], Counts]


def as_one(ran: Ran) -> Counts:
    """A suite that passes or fails as a whole."""
    return (0, 1, f"status {ran.status}") if ran.status else (1, 0, "")


def by_tests(ran: Ran) -> Counts:
    """The tests of unittest. One that was skipped has shown nothing, so it counts as failed."""
    number, end = RAN.search(ran.said), ENDED.search(ran.said)
    if number is None or end is None:
        return 0, 1, f"status {ran.status}, and no end of tests is told"
    kinds = dict(word.split("=") for word in (end[1] or "").split(", ") if "=" in word)
    skipped = int(kinds.get("skipped", 0))
    failed = sum(int(kinds.get(kind, 0)) for kind in ("failures", "errors", "unexpected successes")) + skipped
    if failed == 0 and (ran.status or number[1] == "0"):
        return 0, 1, f"status {ran.status} after {number[1]} tests"
    why = f"{skipped} skipped: {'; '.join(reason for _, reason in SKIPPED.findall(ran.said))}" if skipped else ""
    return max(0, int(number[1]) - failed), failed, why


def by_commands(ran: Ran) -> Counts:
    """The commands of pasted pages."""
    counted = [(int(count), int(wrong)) for count, wrong in PASTED.findall(ran.said)]
    wrong = sum(wrong for _, wrong in counted)
    if wrong == 0 and (ran.status or not counted):
        return 0, 1, f"status {ran.status}"
    return sum(count for count, _ in counted) - wrong, wrong, ""


def by_screen(ran: Ran) -> Counts:
    """The tests of the screen; those that its short part leaves out are named."""
    found = OF_SCREEN.search(ran.said)
    if found is None:
        return 0, 1, f"status {ran.status}, and no end of tests is told"
    number, of, failed, skipped = map(int, found.groups())
    wrong = max(failed + skipped, 1 if ran.status else 0)
    return max(0, number - wrong), wrong, f"{of - number} of the screen's {of} tests not run" if number < of else ""


def first_run_shown(root: Path) -> str:
    """What README.md shows that run.sh prints."""
    page = (root / "README.md").read_text(encoding="utf-8")
    return page.partition(f"\n{FIRST_RUN_SHOWN}\n")[2].partition("```text\n")[2].partition("```")[0]


def by_first_run(root: Path) -> Callable[[Ran], Counts]:
    """Whether run.sh prints what README.md shows."""

    def counts(ran: Ran) -> Counts:
        shown = first_run_shown(root)
        if ran.status or not shown or not ran.said.endswith(shown):
            return 0, 1, f"status {ran.status}; README.md shows:\n{shown}"
        return 1, 0, ""

    return counts


def tests_in(folder: str, top: str, share: str = "") -> tuple[str | Path, ...]:
    """The tests of a folder, or those whose subject begins so."""
    return (sys.executable, "-m", "unittest", "discover", "-v", "-s", folder, "-t", top, "-p", f"test_{share}*.py")


def typed(root: Path) -> list[Suite]:
    """Types, folder by folder: modules of two folders may have one name."""
    found = []
    for folder in TYPED:
        if (root / folder).is_dir():
            beside = [path for path in OVER_ORACLE if folder == "oracle" and (root / path).exists()]
            found.append(Suite(f"mypy {folder}", ("mypy", folder, *beside), as_one))
    return found


def before_proofs(root: Path) -> list[Suite]:
    """What wants no program, and takes seconds."""
    found = [Suite("black", ("black", "--check", "."), as_one), *typed(root)]
    found.append(Suite("tests of ci/", tests_in("ci/tests", "ci/tests"), by_tests))
    found.append(Suite("oracle's tests", tests_in("oracle", "oracle"), by_tests))
    found.append(Suite("edits apply", (sys.executable, "ci/edits.py", "apply"), as_one))
    found.append(Suite("patterns", (sys.executable, "ci/patterns.py"), as_one))
    found.append(Suite("links, lines, blocks", (sys.executable, "tests/check_pages.py"), as_one))
    found.append(Suite("made years", (sys.executable, "tests/test_made_years.py", "-v"), by_tests))
    return found


def with_program(root: Path) -> list[Suite]:
    """What is run against the program (OUTAGEBOOK) that the proofs ended with."""
    pages = ["README.md", *sorted(page.relative_to(root).as_posix() for page in root.glob("docs/**/*.md"))]
    with_server = [page for page in pages if page == WAREHOUSE_PAGE]
    paste = (sys.executable, "tests/paste_pages.py")
    shares = [share for share in SHARES if any(root.glob(f"tools/tests/test_{share}*.py"))]
    found = [
        *(Suite(f"tools' tests {share}", tests_in("tools/tests", "tools", share), by_tests) for share in shares),
        Suite("program and oracle", (sys.executable, "oracle/compare.py"), as_one),
        Suite("files and sockets", (sys.executable, "tests/test_files_sockets.py", "-v"), by_tests),
        Suite("pages", (*paste, *(page for page in pages if page not in with_server)), by_commands),
    ]
    if first_run_shown(root):
        words = ("sh", "run.sh", "--program", "crates/outagebook/out/outagebook")
        found.append(Suite("run.sh", words, by_first_run(root)))
    if with_server:
        server = (sys.executable, "tools/tests/own_postgres.py")
        found.append(Suite("the warehouse's page", (*server, *paste, *with_server), by_commands))
    return found


def screen(root: Path) -> list[Suite]:
    """The screen's tests in a real browser."""
    tests = root / "screen/tests/run.py"
    return [Suite("screen", (sys.executable, tests.relative_to(root), "--short"), by_screen)] if tests.exists() else []


def run_suite(suite: Suite, root: Path, program: Path | None = None) -> Part:
    """Runs a suite; what it said is shown where something failed."""
    words = ("timeout", "--kill-after=10", LONGEST, *suite.words)
    ran = run(words, root, {"OUTAGEBOOK": str(program)} if program else None)
    passed, failed, why = suite.counts(ran)
    part = Part(suite.name, passed, failed, ran.clock, ran.processor, why)
    say(f"== {part.line()}" + (f"\n{ran.said.rstrip()}" if failed else ""))
    return part
