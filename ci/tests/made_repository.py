"""For the gate's tests: a small repository with the gate in it, and stand-ins for what takes long."""

from __future__ import annotations

import json
import os
import shutil
import subprocess
import sys
import tempfile
from pathlib import Path

TESTS = Path(__file__).resolve().parent
ROOT = TESTS.parent.parent
sys.path.insert(1, str(TESTS.parent))

from edits import turn_of  # noqa: E402

STRONG, WEAK = "pub fn answer() ensures result == 42\n", "pub fn answer() -> 42\n"
EDIT = "file: src/lib.rt\nold: 42\nnew: 41\n"
CRATES = "low:\nmiddle: low\nhigh: middle\nbeside:\noutagebook: high\n# tests alone\nhigh_tests: high\n"
PROGRAM = "#!/bin/sh\necho 'audit ok'\n"
TEST = """import unittest


class Tests(unittest.TestCase):
    def test_it(self) -> None:
        self.assertTrue(True)


if __name__ == "__main__":
    unittest.main()
"""
SKIPS = TEST.replace("    def", '    @unittest.skip("the program isn\'t built")\n    def')
PAGE = "# A page\n\n```\n$ outagebook audit\naudit ok\n```\n"
COMPARE = """import os
import subprocess
import sys
from pathlib import Path

ROOT = Path(__file__).resolve().parent.parent
PROGRAM = Path(os.environ.get("OUTAGEBOOK", "none"))
DATA, EXAMPLES, FORTNIGHT = ROOT / "bench-data", ROOT / "examples", ("2025-03-24", 14, "UTC0")

if __name__ == "__main__":
    sys.exit(subprocess.run([PROGRAM], capture_output=True).stdout != b"audit ok\\n")
"""
FILES = {
    "crates.txt": CRATES,
    "HANDLES": "Handles allowed: none.\n",
    "README.md": "# A book\n",
    "docs/PAGE.md": PAGE,
    "examples/one.csv": "kind\n",
    "benches/make_year.py": "",
    "tools/tests/__init__.py": "",
    "tools/tests/test_tools.py": TEST,
    "oracle/test_model.py": TEST,
    "oracle/compare.py": COMPARE,
    "tests/test_files_sockets.py": TEST,
    "tests/test_made_years.py": TEST,
    "ci/tests/test_gate.py": TEST,
    ".gitignore": "out/\n__pycache__/\n",
}


class MadeRepository:
    """A repository of five crates whose contracts catch their edits, in a folder of its own."""

    def __init__(self) -> None:
        self.folder = Path(tempfile.mkdtemp(prefix="outagebook-gate-test-"))
        self.root = self.folder / "repository"
        self.tried = self.folder / "tried"
        self.kit = "rattle-kit-made"
        self.takes_names = True
        for name, text in FILES.items():
            self.write(name, text)
        for crate in ("low", "middle", "high", "beside", "outagebook", "high_tests"):
            self.write(f"crates/{crate}/src/lib.rt", STRONG)
            self.write(f"crates/{crate}/specs/Lib.antt", "")
            if crate not in ("outagebook", "high_tests"):
                self.write(f"crates/{crate}/must-fail/wrong_answer.edit", EDIT)
        for name in (
            "pyproject.toml",
            ".ci/run",
            "test.sh",
            "run.sh",
            "tests/paste_pages.py",
            "tests/check_pages.py",
            "tests/places.py",
        ):
            self.take(name)
        for file in (ROOT / "ci").iterdir():
            if file.is_file() and file.name not in ("edits.txt", "README.md"):
                self.take(f"ci/{file.name}")
        self.programs = self.folder / "programs"
        self.programs.mkdir()
        shutil.copy2(TESTS / "made_rt.py", self.programs / "rt")
        (self.programs / "rt").chmod(0o755)
        for name in ("black", "mypy"):
            self.program(name, "#!/bin/sh\n")
        subprocess.run(["git", "init", "-q"], cwd=self.root, check=True)

    def remove(self) -> None:
        shutil.rmtree(self.folder)

    def write(self, name: str, text: str) -> None:
        (self.root / name).parent.mkdir(parents=True, exist_ok=True)
        (self.root / name).write_text(text, encoding="utf-8")

    def take(self, name: str) -> None:
        (self.root / name).parent.mkdir(parents=True, exist_ok=True)
        shutil.copy2(ROOT / name, self.root / name)

    def program(self, name: str, text: str) -> None:
        """A program on the path of what is run."""
        (self.programs / name).write_text(text, encoding="ascii")
        (self.programs / name).chmod(0o755)

    def with_real(self, name: str) -> None:
        """Has the machine's own program of that name run in place of the stand-in."""
        (self.programs / name).unlink()

    def run(self, *words: str | Path) -> subprocess.CompletedProcess[str]:
        """Runs a command at the top of the repository, where `rt` is the stand-in."""
        env = {name: text for name, text in os.environ.items() if name != "OUTAGEBOOK"}
        env |= {"PATH": f"{self.programs}:{env['PATH']}", "RT_JOBS": "2"}
        self.tried.unlink(missing_ok=True)
        settings = {"tried": str(self.tried), "kit": self.kit, "takes_names": self.takes_names}
        (self.programs / "rt.json").write_text(json.dumps(settings), encoding="utf-8")
        return subprocess.run([*map(str, words)], cwd=self.root, env=env, capture_output=True, text=True, check=False)

    def gate(self, *words: str) -> subprocess.CompletedProcess[str]:
        return self.run("sh", ".ci/run", *words)

    def record(self) -> None:
        """Has the gate write the lines of all crates."""
        done = self.gate("--record")
        assert done.returncode == 0, done.stdout + done.stderr

    def crates_tried(self) -> list[str]:
        """The crates whose edits the last run tried."""
        return sorted(self.tried.read_text(encoding="ascii").split()) if self.tried.exists() else []

    def turn_to(self, turn: int) -> None:
        """Changes a page, and nothing else, until it is the turn of that number."""
        number = 0
        while turn_of(self.root) != turn:
            number += 1
            self.write("docs/NOTES.md", f"# Notes\n\nState {number}.\n")
