"""Each request for memory of a test refused in turn, in tests that hold whichever one is refused.

    python3 tests/refused_tests.py [--program FILE] [--first N] [--every N] [--jobs N] [TEST ..]

The program is one of tests, as `rt test` builds it: that of crates/ob_fault_tests where none is named. Without names the tests
are those of TESTS. Each is run with its first request refused, with its second, and so on until a run meets none; a run is a
process of its own, so that no other test's requests are counted. At the first run that fails it ends with status 1. What is
refused is chosen by refuse.c, which `cc` builds: so this wants Linux with the GNU C library.
"""

import argparse
import os
import subprocess
import sys
import tempfile
import time
from concurrent.futures import ThreadPoolExecutor
from itertools import count, islice
from pathlib import Path

from places import ROOT
from refused_memory import built_library

PROGRAM = ROOT / "crates/ob_fault_tests/out/ob_fault_tests_tests"
TESTS = {
    "ob_fault_tests_tests": [
        "refusals::commands_where_memory_is_refused",
        "refusals::an_import_where_memory_is_refused",
        "refusals::a_migration_where_memory_is_refused",
    ],
    "ob_jobs_tests_tests": ["jobs::memory::memory_refused"],
    "ob_desk_tests_tests": ["memory::memory_refused"],
    "ob_total_tests_tests": ["streams::memory_refused"],
}
PASSED = "test result: ok"


class Test:
    """A test of a program, whose runs tell by files in a folder whether a request was refused."""

    def __init__(self, program: Path, library: Path, name: str, folder: Path) -> None:
        self.program = program
        self.library = library
        self.name = name
        self.folder = folder

    def run(self, nth: int) -> tuple[bool, str | None]:
        """One run: whether its nth request was refused, and what it said where it failed."""
        told = self.folder / f"told-{nth}"
        names = {
            "LD_PRELOAD": str(self.library),
            "REFUSE_WHAT": "memory",
            "REFUSE_NTH": str(nth),
            "REFUSE_TOLD": str(told),
        }
        done = subprocess.run(
            [self.program, self.name], env=os.environ | names, capture_output=True, text=True, timeout=120
        )
        refused = told.exists()
        told.unlink(missing_ok=True)
        has_passed = done.returncode == 0 and PASSED in done.stdout + done.stderr
        return refused, None if has_passed else f"status {done.returncode}: {(done.stdout + done.stderr).strip()}"

    def sweep(self, first: int, every: int, jobs: int) -> tuple[int, int]:
        """All runs up to one that meets no refusal: how many, and how many were refused. Ends the program where one fails."""
        runs = refusals = 0
        numbers = count(first, every)
        with ThreadPoolExecutor(jobs) as pool:
            while True:
                batch = list(islice(numbers, 4 * jobs))
                for nth, (refused, wrong) in zip(batch, pool.map(self.run, batch)):
                    runs += 1
                    refusals += refused
                    if wrong:
                        sys.exit(f"{self.name}, request {nth}: {wrong}")
                    if not refused:
                        return runs, refusals


def main() -> int:
    parser = argparse.ArgumentParser(description="Each request for memory of a test refused in turn.")
    parser.add_argument("tests", nargs="*", metavar="TEST", help="the tests' names (those of TESTS)")
    parser.add_argument("--program", default=PROGRAM, help="the program of tests")
    parser.add_argument("--first", type=int, default=1, help="the first request that is refused (1)")
    parser.add_argument(
        "--every", type=int, default=1, help="which of them from there on: each second one, .. (1, all)"
    )
    parser.add_argument("--jobs", type=int, default=1, help="how many runs at a time (1)")
    words = parser.parse_args()
    program = Path(words.program).resolve()
    print("| Test | Runs | Refused | All passed | Seconds |\n|---|---|---|---|---|")
    with tempfile.TemporaryDirectory() as folder:
        library = built_library(Path(folder))
        for name in words.tests or TESTS[program.name]:
            began = time.monotonic()
            runs, refusals = Test(program, library, name, Path(folder)).sweep(words.first, words.every, words.jobs)
            print(f"| {name} | {runs} | {refusals} | yes | {time.monotonic() - began:.0f} |", flush=True)
    return 0


if __name__ == "__main__":
    sys.exit(main())
