"""run.sh over a made repository: what it builds, when it doesn't, and what it says where something is missing."""

from __future__ import annotations

import shutil
import subprocess
import unittest

from made_repository import MadeRepository

PROGRAM = """#!/bin/sh
case $1 in
total) echo 'W 9000' ;;
init) : > "$3"; echo created ;;
import) echo 'added 102 again 0' ;;
audit) echo 'audit ok' ;;
table) printf 'SAIFI     all      5/2 2.500\\\\nSAIDI     all      389/2 194.500\\\\nCAIDI     all      389/5 77.800\\\\n' ;;
esac
"""
SAIDI = "SAIDI  194.500 minutes: the average customer was without supply for so long (389/2)"


class FirstRun(unittest.TestCase):
    def setUp(self) -> None:
        self.made = MadeRepository()
        self.addCleanup(self.made.remove)
        for name in ("examples/first-run/first-run.csv", "examples/fortnight/fortnight.csv"):
            self.made.write(name, "kind\n")
        made_rt = self.made.programs / "rt"
        made_rt.write_text(made_rt.read_text().replace("\"#!/bin/sh\\necho 'audit ok'\\n\"", f'"""{PROGRAM}"""'))

    def run_it(self, *words: str) -> subprocess.CompletedProcess[str]:
        return self.made.run("sh", "run.sh", *words)

    def test_it_builds_once(self) -> None:
        done = self.run_it()
        self.assertEqual((done.returncode, done.stderr), (0, ""), done.stdout)
        self.assertIn("4 of 4 crates proved, 0 min: outagebook\n", done.stdout)
        self.assertIn(f"{SAIDI}\n", done.stdout)
        self.made.tried.unlink()
        again = self.run_it()
        self.assertEqual((again.returncode, self.made.tried.exists()), (0, False), again.stdout)
        self.assertNotIn("proved", again.stdout)

    def test_it_builds_again_after_a_change(self) -> None:
        self.run_it()
        self.made.write("crates/beside/src/lib.rt", "no crate of the program\n")
        self.assertNotIn("proves and builds", self.run_it().stdout)
        self.made.write("crates/low/src/lib.rt", "pub fn answer() ensures result == 42 // again\n")
        self.assertIn("proves and builds", self.run_it().stdout)
        self.made.kit = "another-kit"
        self.assertIn("another-kit: proves and builds", self.run_it().stdout)

    def test_it_takes_the_program_of_the_test_run(self) -> None:
        self.made.write("oracle/compare.py", 'PROGRAM = DATA = EXAMPLES = FORTNIGHT = ""\n')
        self.made.write("docs/PAGE.md", "# A page\n")
        done = self.made.gate()
        self.assertEqual(done.returncode, 0, done.stdout)
        self.assertNotIn("proves and builds", self.run_it().stdout)

    def test_a_build_that_fails(self) -> None:
        made_rt = self.made.programs / "rt"
        made_rt.write_text(made_rt.read_text().replace('print(f"{passed} passed', 'print(f"{passed} went'))
        done = self.run_it()
        self.assertEqual((done.returncode, done.stderr), (1, "run.sh: the program was not built\n"))

    def test_no_toolchain(self) -> None:
        shutil.copy2("/bin/true", self.made.programs / "rt")
        home = {"HOME": str(self.made.folder), "PATH": "/usr/bin:/bin"}
        words = ["sh", "-c", "PATH=/usr/bin:/bin; program=run.sh part=run; . ci/environment.sh; find_rt"]
        found = subprocess.run(words, cwd=self.made.root, env=home, capture_output=True, text=True, check=True).stdout
        self.assertNotIn(str(self.made.programs), found)

    def test_a_package_that_nobody_may_install(self) -> None:
        self.made.write("ci/packages.txt", "program no-such-program no-such-package run\n")
        self.made.program("apt-get", "#!/bin/sh\nexit 100\n")
        done = self.run_it()
        self.assertEqual(done.returncode, 1)
        self.assertEqual(
            done.stderr.splitlines()[-1],
            "run.sh: no no-such-program; as root: sh ci/install-packages.sh run",
        )

    def test_a_program_that_fails(self) -> None:
        program = self.made.folder / "broken"
        program.write_text("#!/bin/sh\necho 'refused 17 BadBook 0'\nexit 2\n")
        program.chmod(0o755)
        done = self.run_it("--program", str(program))
        self.assertEqual(
            (done.returncode, done.stderr), (1, "run.sh: outagebook total: status 2\nrefused 17 BadBook 0\n")
        )


class Archive(unittest.TestCase):
    """A tree that is no repository of git."""

    def test_it_is_tested_too(self) -> None:
        made = MadeRepository()
        self.addCleanup(made.remove)
        shutil.rmtree(made.root / ".git")
        made.write("out/left.md", "[dead](nowhere.md)\n")
        done = made.gate()
        self.assertEqual(done.returncode, 0, done.stdout + done.stderr)


if __name__ == "__main__":
    unittest.main()
