"""install.sh, and that the manual page and the completions have the words and options of the program.

These are taken from the program's --help where it is built, and from the table of docs/reference/CLI.md else.
"""

import os
import re
import shutil
import subprocess
import sys
import unittest
from functools import lru_cache
from pathlib import Path

from tests import support

PACKAGING = support.ROOT / "packaging"
SHELLS = {"bash": ["bash", "-n"], "zsh": ["zsh", "-n"], "fish": ["fish", "--no-execute"]}
Options = dict[str, set[str]]  # of each subcommand
DOCUMENTS = "share/doc/outagebook"
CHECK_PAGES = support.ROOT / "tests/check_pages.py"
COMMANDS_OF_INSTALL = "basename chmod cp dirname find ln mkdir mv sed sh sort tr".split()
FILES = {"bash": "outagebook.bash", "zsh": "_outagebook", "fish": "outagebook.fish"}


def text_of(name: str) -> str:
    return (PACKAGING / name).read_text()


def options_in(text: str) -> set[str]:
    """The long options of a text, but for --help and --version."""
    return set(re.findall(r"--[a-z]+", text)) - {"--help", "--version"}


def of_program() -> Options:
    """The subcommands and their options by the program's help."""

    def help_of(*subcommand: str) -> str:
        command = [str(support.PROGRAM), *subcommand, "--help"]
        return subprocess.run(command, check=True, capture_output=True, text=True).stdout

    listed = help_of().partition("Commands:\n")[2].partition("\n\n")[0]
    words = re.findall(r"^  ([a-z]+)", listed, re.M)
    return {word: options_in(help_of(word)) if word != "help" else set() for word in words}


def of_pages() -> Options:
    """The same by the page of the subcommands."""
    table = (support.ROOT / "docs/reference/CLI.md").read_text().partition("\n## ")[0]
    rows = re.findall(r"^\| `([a-z]+)([^`]*)`", table, re.M)
    return {word: options_in(rest) for word, rest in rows}


def wanted() -> Options:
    return of_program() if support.has_program() else of_pages()


class Words(unittest.TestCase):
    def test_manual_page(self) -> None:
        text = text_of("outagebook.1").replace("\\-", "-")
        synopsis = text.partition(".SH SYNOPSIS")[2].partition(".SH DESCRIPTION")[0]
        parts = re.split(r"^\.B outagebook ", synopsis, flags=re.M)[1:]
        self.assertEqual({part.split()[0]: options_in(part) for part in parts}, wanted())
        options = text.partition(".SH OPTIONS")[2].partition(".SH EXIT STATUS")[0]
        self.assertEqual(options_in(options), set().union(*wanted().values()))
        words = re.findall(
            r"^\.TP\n\.B ([a-z]+)$", text.partition(".SH SUBCOMMANDS")[2].partition(".SH OPTIONS")[0], re.M
        )
        self.assertEqual(set(words), set(wanted()))

    def test_bash(self) -> None:
        found: Options = {}
        for words, options in re.findall(r"^ +([a-z|]+)\) options='([^']*)'", text_of("outagebook.bash"), re.M):
            found.update({word: options_in(options) for word in words.split("|")})
        self.assertEqual(found, wanted())
        self.assertEqual(self.completed("''"), sorted([*wanted(), "--help", "--version"]))
        self.assertEqual(self.completed("ex"), ["export"])
        self.assertEqual(self.completed("init", "--z"), ["--zone"])
        self.assertEqual(self.completed("serve", "--port", "80", "--"), ["--book", "--help", "--port", "--streams"])

    def completed(self, *words: str) -> list[str]:
        """What bash offers behind some words."""
        script = (
            f". {PACKAGING / 'outagebook.bash'}; COMP_WORDS=(outagebook {' '.join(words)}); COMP_CWORD={len(words)};"
        )
        script += ' _outagebook; printf "%s\\n" "${COMPREPLY[@]}"'
        return sorted(subprocess.run(["bash", "-c", script], check=True, capture_output=True, text=True).stdout.split())

    def test_zsh(self) -> None:
        text = text_of("_outagebook")
        listed = re.findall(r"^ +['\"]([a-z]+):", text, re.M)
        self.assertEqual(set(listed), set(wanted()))
        found: Options = {}
        for words, body in re.findall(
            r"^        ([a-z| ]+)\)(.*?);;", text.partition("case $subcommand")[2], re.M | re.S
        ):
            options = options_in(body) | ({"--book"} if "$book" in body else set())
            found.update({word.strip(): options for word in words.split("|")})
        self.assertEqual(found, wanted())

    def test_fish(self) -> None:
        text = text_of("outagebook.fish")
        found: Options = {word: set() for word in re.findall(r"\$jobs\" -a ([a-z]+)", text)}
        for words, option in re.findall(r"-n '__fish_seen_subcommand_from ([a-z ]+)' -l ([a-z]+)", text):
            for word in words.split():
                found[word].add(f"--{option}")
        self.assertEqual(found, wanted())

    def test_shells_read_them(self) -> None:
        for shell, command in SHELLS.items():
            if shutil.which(shell):
                done = subprocess.run([*command, PACKAGING / FILES[shell]], capture_output=True, text=True, check=False)
                self.assertEqual((done.returncode, done.stderr), (0, ""), shell)


def install(*arguments: str | Path, root: Path = support.ROOT, **more: str | Path) -> subprocess.CompletedProcess[str]:
    return subprocess.run(
        ["sh", root / "install.sh", *arguments],
        capture_output=True,
        text=True,
        check=False,
        env={**os.environ, **{key: str(value) for key, value in more.items()}},
    )


@lru_cache(maxsize=None)
def own_program() -> Path:
    """What is installed as the program, so that none has to be built."""
    program = support.folder() / "program"
    program.write_text("#!/bin/sh\necho the program\n")
    program.chmod(0o755)
    return program


@lru_cache(maxsize=None)
def under_prefix(times: int = 1) -> Path:
    """A prefix under which all is installed, once or over what was there."""
    prefix = support.folder() / f"prefix-{times}"
    if times > 1:
        shutil.copytree(under_prefix(times - 1), prefix, symlinks=True)
    done = install(prefix, PROGRAM=own_program())
    if (done.returncode, done.stderr) != (0, ""):
        raise AssertionError(f"status {done.returncode}: {done.stderr}")
    return prefix


@lru_cache(maxsize=None)
def help_of(command: Path) -> str:
    """What an installed command says of itself."""
    done = subprocess.run([sys.executable, str(command), "--help"], capture_output=True, text=True, check=False)
    if done.returncode:
        raise AssertionError(done.stderr)
    return done.stdout


class Install(unittest.TestCase):
    def test_under_a_prefix(self) -> None:
        prefix = under_prefix(2)
        tools = [
            "agree",
            "check",
            "commands",
            "compare",
            "districts",
            "figures",
            "from-oms",
            "major-days",
            "make",
            "next-year",
            "order",
        ]
        tools += ["pack", "report", "sections", "sum", "try", "verify", "warehouse", "workbook", "years"]
        self.assertEqual(
            sorted(path.name for path in (prefix / "bin").iterdir()),
            sorted(["outagebook", "outagebook-screen", *(f"outagebook-{tool}" for tool in tools)]),
        )
        for tool in tools:
            self.assertIn("usage:", help_of(prefix / "bin" / f"outagebook-{tool}"))
        made = support.fortnight()
        command = [str(prefix / "bin" / "outagebook-compare"), str(made.book), "--table", str(made.table)]
        self.assertEqual(subprocess.run(command, capture_output=True, check=False).returncode, 0)
        library = prefix / "lib/outagebook"
        installed = {path.relative_to(library).as_posix() for path in library.rglob("*.py")}
        installed = {path for path in installed if not path.startswith(("oracle/", "screen/"))}
        package = {path.relative_to(support.TOOLS).as_posix() for path in support.TOOLS.glob("outage_tools/**/*.py")}
        commands = {path.name for path in support.TOOLS.glob("*.py")}
        self.assertEqual(installed, package | commands)
        self.assertTrue((library / "outage_tools/warehouse.sql").exists())

    def test_what_is_refused(self) -> None:
        self.assertEqual(install(support.folder() / "none", PROGRAM="/nowhere/outagebook").returncode, 1)
        self.assertEqual(install("relative").returncode, 64)
        self.assertFalse((support.folder() / "none").exists())


class ManualPages(unittest.TestCase):
    """The manual pages that Debian's packages have of the tools and the screen."""

    def test_each_command_has_a_page_with_its_options(self) -> None:
        prefix, pages = under_prefix(2), support.folder() / "manual"
        pages.mkdir()
        writer = [sys.executable, str(PACKAGING / "manual_pages.py"), str(prefix / "bin"), str(pages)]
        done = subprocess.run(writer, capture_output=True, text=True, check=False)
        self.assertEqual((done.returncode, done.stderr), (0, ""))
        commands = sorted((prefix / "bin").glob("outagebook-*"))
        self.assertEqual(sorted(page.stem for page in pages.iterdir()), [command.name for command in commands])
        for command in commands:
            told = help_of(command)
            page = (pages / f"{command.name}.1").read_text().replace("\\-", "-")
            self.assertIn(f".SH NAME\n{command.name} - ", page)
            self.assertLessEqual(set(re.findall(r"--[a-z][a-z-]*", told)), set(re.findall(r"--[a-z][a-z-]*", page)))
            self.assertFalse([line for line in page.splitlines() if line.startswith("'")])
        for job in ("cut", "check", "desks", "compare"):
            self.assertIn(f".SS {job}\n", (pages / "outagebook-districts.1").read_text())


def dead_links(folder: Path) -> list[str]:
    """The links of a folder's pages that lead nowhere, each with its page, by the check of the repository's own pages."""
    command = [sys.executable, str(CHECK_PAGES), str(folder), "--links"]
    *dead, count = subprocess.run(command, capture_output=True, text=True, check=False).stdout.splitlines()
    assert re.fullmatch(f"[1-9][0-9]* pages, {len(dead)} wrong", count), count
    return [line.removeprefix(f"{folder}/") for line in dead]


class Pages(unittest.TestCase):
    """The installed pages, of which no link leads nowhere."""

    def test_of_the_repository(self) -> None:
        """No link is dead in the installed copy; a heading that the repository's own pages lack is a defect of these."""
        lacking = {line for line in dead_links(support.ROOT) if "no such heading" in line}
        for times in (1, 2):
            prefix = under_prefix(times)
            self.assertEqual([line for line in dead_links(prefix / DOCUMENTS) if line not in lacking], [])
        for folder in ("docs", "examples", "deploy"):
            here, there = (
                {path.relative_to(root).as_posix() for path in (root / folder).rglob("[!.]*") if path.is_file()}
                for root in (support.ROOT, prefix / DOCUMENTS)
            )
            self.assertEqual(there, here)
            for name in here:
                if not name.endswith(".md"):
                    self.assertEqual((prefix / DOCUMENTS / name).read_bytes(), (support.ROOT / name).read_bytes())
        for page in (prefix / DOCUMENTS).rglob("*.md"):
            own = support.ROOT / page.relative_to(prefix / DOCUMENTS)
            kept = re.sub(r"!?\[((?:[^][]|\[[^][]*\])*)\]\([^)\s]*\)", r"\1", own.read_text())
            shown = re.sub(r"!?\[((?:[^][]|\[[^][]*\])*)\]\([^)\s]*\)", r"\1", page.read_text())
            self.assertEqual(shown, kept, "but for links the page is as it was")
            self.assertEqual(page.stat().st_mode & 0o777, 0o644)

    def test_which_links_are_kept(self) -> None:
        """Links in all shapes; by a path that has the commands of POSIX alone, so no Python."""
        root, path, to = (support.folder() / name for name in ("root", "commands-of-install", "destdir"))
        for folder in ("tools", "screen", "packaging", "oracle"):
            shutil.copytree(support.ROOT / folder, root / folder, ignore=shutil.ignore_patterns("tests", "__pycache__"))
        for folder in ("docs/use", "docs/pictures", "examples", "deploy", "crates/a.b"):
            (root / folder).mkdir(parents=True)
        for name in ("install.sh", "README.md", "CHANGELOG.md", "CONTRIBUTING.md", "SECURITY.md"):
            shutil.copy(support.ROOT / name, root)
        for name in (
            "docs/pictures/now.webp",
            "docs/.hidden",
            "examples/rows.csv",
            "examples/tried.db",
            "crates/a.b/lib.rt",
        ):
            (root / name).write_text("")
        (root / "docs/OTHER.md").write_text("# Other\n")
        (root / "docs/use/PAGE.md").write_text(
            "[other](../OTHER.md#other), [top](../../README.md), [web](https://example.org/a), [here](#page),\n"
            "![seen](../pictures/now.webp), ![not seen](../pictures/none.webp), [`lib.rt`](../../crates/a.b/lib.rt#L1), [a\n"
            "folder](../../crates/a.b/) of [0, 5) and [examples](../../examples/) [x [1]](../NONE.md).\n"
            "| [one](../NONE.md) | [two](../OTHER.md) | [three](../NONE.md) |\n"
            "```text\n[kept](../NONE.md)\n```\n[last](../../tests/README.md)\n"
        )
        path.mkdir()
        for command in COMMANDS_OF_INSTALL:
            (path / command).symlink_to(shutil.which(command) or command)
        done = install("/usr", root=root, PROGRAM=own_program(), PATH=path, DESTDIR=to)
        self.assertEqual((done.returncode, done.stderr, done.stdout), (0, "", "installed under /usr\n"))
        self.assertEqual(
            (to / "usr" / DOCUMENTS / "docs/use/PAGE.md").read_text(),
            "[other](../OTHER.md#other), [top](../../README.md), [web](https://example.org/a), [here](#page),\n"
            "![seen](../pictures/now.webp), not seen, `lib.rt`, a\n"
            "folder of [0, 5) and [examples](../../examples/) x [1].\n"
            "| one | [two](../OTHER.md) | three |\n"
            "```text\n[kept](../NONE.md)\n```\nlast\n",
        )
        self.assertFalse([*to.rglob("*.new"), *to.rglob("*.db"), *to.rglob(".hidden")])


class Screen(unittest.TestCase):
    """What the screen needs, and what it answers without it."""

    def packages(self, *arguments: str) -> tuple[int, list[str], str]:
        """The status of install-packages.sh, its lines and its complaint, with an apt-get that prints its arguments."""
        path = support.folder() / "only-apt-get"
        path.mkdir(exist_ok=True)
        (path / "apt-get").write_text('#!/bin/sh\necho "apt-get $*"\n')
        (path / "apt-get").chmod(0o755)
        done = subprocess.run(
            [shutil.which("sh") or "sh", support.ROOT / "screen/install-packages.sh", *arguments],
            capture_output=True,
            text=True,
            check=False,
            env={"PATH": str(path)},
        )
        return done.returncode, done.stdout.splitlines(), done.stderr

    def test_packages(self) -> None:
        """They are named before they are installed; the tests' are among those of the whole test run."""
        status, lines, complaint = self.packages("--screen-only")
        install = "apt-get install -y --no-install-recommends"
        own = "python3 python3-aiohttp python3-networkx"
        self.assertEqual((status, complaint), (0, ""))
        self.assertEqual(lines, [f"installing: {own}", "apt-get update", f"{install} {own}"])
        status, lines, complaint = self.packages()
        self.assertEqual((status, complaint), (0, ""))
        named = lines[0].removeprefix("installing: ")
        self.assertEqual(lines[1:], ["apt-get update", f"{install} {named}"])
        rows = (support.ROOT / "ci/packages.txt").read_text().splitlines()
        listed = {row.split()[2] for row in rows if row and not row.startswith("#")}
        self.assertLess({*own.split(), "nginx-light", "chromium", "python3-selenium"}, {*named.split()})
        self.assertLessEqual({*named.split()}, listed)

    def test_wrong_arguments_install_nothing(self) -> None:
        for arguments in (["--screen"], ["--screen-only", "--screen-only"], [""]):
            status, lines, complaint = self.packages(*arguments)
            self.assertEqual((status, lines), (64, []))
            self.assertTrue(complaint.startswith("usage: "))

    def test_without_packages(self) -> None:
        """A Python without site packages finds none of Debian's: one line names those that are missing."""
        command = [sys.executable, "-E", "-S", str(support.ROOT / "screen/outagebook-screen"), "--help"]
        done = subprocess.run(command, capture_output=True, text=True, check=False)
        self.assertEqual((done.returncode, done.stdout), (1, ""))
        self.assertEqual(
            done.stderr,
            "outagebook-screen: packages are missing; as root: apt-get install python3-aiohttp python3-networkx\n",
        )
