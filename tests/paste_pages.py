"""Pastes the blocks of pages and compares what they print with what the page shows.

    python3 tests/paste_pages.py README.md docs/use/TUTORIAL.md docs/reference/CLI.md docs/reference/HTTP-API.md

A block is pasted where it has lines that begin with `$ `: these, with the lines of an open quote or here-document behind them, go
to one shell for the whole page, in a folder of its own that has the repository's examples/ and tools/, and the program as
`outagebook`. What lies between two of them is what the first one should print, its messages among it. A block without
such lines is pasted as a whole where the page goes on with `It prints` and a block, which is what it should print.

What a page says takes its files away (`rm ..` in its text) is pasted at its end, and nothing may be left then.

A block below a line `<!-- not pasted: WHY -->` is not pasted, as one that wants root; how many those are is told. It
ends with status 1 where a block prints something else. Wants a built program, `sqlite3` and, for the desk, `curl`.
"""

import argparse
import os
import re
import subprocess
import sys
import tempfile
from collections.abc import Iterator
from dataclasses import dataclass, field
from pathlib import Path

from places import PROGRAM, ROOT

END = "---- end of a command ----"
NOT_PASTED = "<!-- not pasted: "
SHOWN_NEXT = "It prints"
GOES_AWAY = re.compile("`(rm [^`]+)`")
GIVEN = {"examples", "tools", "bin"}  # what the folder has before anything is pasted


@dataclass
class Block:
    """A block of a page: the number of its first line, the text between it and the block before, its kind and its lines."""

    number: int
    before: list[str]
    kind: str = ""  # what follows the three marks, as sh or text
    lines: list[str] = field(default_factory=list)

    @property
    def is_left_out(self) -> bool:
        return bool(self.before) and self.before[-1].startswith(NOT_PASTED)


@dataclass
class Command:
    """A command of a block, with the lines that it should print."""

    number: int
    text: str
    wanted: list[str] = field(default_factory=list)


def blocks_of(page: Path) -> Iterator[Block]:
    """The blocks of a page."""
    block, between = None, list[str]()
    for number, line in enumerate(page.read_text(encoding="utf-8").splitlines(), 1):
        if line.startswith("```"):
            if block is not None:
                yield block
            opened = Block(number + 1, between, line[3:].strip())
            block, between = (opened, []) if block is None else (None, [])
        elif block is not None:
            block.lines.append(line)
        elif line.strip():
            between.append(line)


def is_whole(command: str) -> bool:
    """The shell takes these lines as a whole command; a here-document has its end."""
    seen = subprocess.run(["bash", "-n"], input=command, capture_output=True, text=True, check=False)
    return seen.returncode == 0 and not seen.stderr


def commands_in(block: Block) -> list[Command]:
    """The commands of a block, each with what the block shows behind it."""
    commands: list[Command] = []
    for number, line in enumerate(block.lines, block.number):
        if line.startswith("$ "):
            commands.append(Command(number, line[2:]))
        elif commands and not commands[-1].wanted and not is_whole(commands[-1].text):
            commands[-1].text += f"\n{line}"
        elif commands:
            commands[-1].wanted.append(line)
    return commands


def commands_of(page: Path) -> tuple[list[Command], int]:
    """The commands of a page, and how many of its blocks aren't to be pasted."""
    commands, left_out, last = list[Command](), 0, None
    for block in blocks_of(page):
        if block.is_left_out:
            left_out += 1
        elif last is not None and block.before == [SHOWN_NEXT]:
            commands.append(Command(last.number, "\n".join(last.lines), block.lines))
        else:
            commands += commands_in(block)
        last = None if block.is_left_out else block
    return commands, left_out


class Shell:
    """A shell in a new folder, with the program and the Python of this run on its path."""

    def __init__(self, folder: Path, program: Path) -> None:
        for name in ["examples", "tools"]:
            (folder / name).symlink_to(ROOT / name)
        (folder / "bin").mkdir()
        (folder / "bin" / "outagebook").symlink_to(program.resolve())
        (folder / "bin" / "python3").symlink_to(sys.executable)
        path = f"{folder / 'bin'}{os.pathsep}{os.environ['PATH']}"
        self.child = subprocess.Popen(
            ["bash", "--norc"],
            cwd=folder,
            env={**os.environ, "PATH": path},
            stdin=subprocess.PIPE,
            stdout=subprocess.PIPE,
            stderr=subprocess.STDOUT,
            text=True,
        )

    def paste(self, command: str) -> list[str]:
        """The lines that a command prints."""
        assert self.child.stdin is not None and self.child.stdout is not None
        self.child.stdin.write(f"{command}\nset -- $?; echo '{END}'; (exit $1)\n")
        self.child.stdin.flush()
        lines = list[str]()
        for line in self.child.stdout:
            if line.rstrip("\n").endswith(END):
                rest = line.rstrip("\n")[: -len(END)]
                return lines + [rest] if rest else lines
            lines.append(line.rstrip("\n"))
        sys.exit(f"the shell ended after: {command}")

    def close(self) -> None:
        """Ends the shell, and what it has started in its background."""
        self.child.communicate("kill $(jobs -p) 2> /dev/null\n")


def left_behind(page: Path, shell: Shell, folder: Path) -> list[str]:
    """The files of a page that are there still once its own words have taken them away."""
    for words in GOES_AWAY.findall(page.read_text(encoding="utf-8")):
        shell.paste(" ".join(words.split()))
    return sorted(path.name for path in folder.iterdir() if path.name not in GIVEN)


def paste_page(page: Path, program: Path) -> int:
    """Pastes a page and tells what prints something else, or is left behind; answers how many commands do."""
    wrong = 0
    commands, left_out = commands_of(page)
    with tempfile.TemporaryDirectory() as folder:
        shell = Shell(Path(folder), program)
        for command in commands:
            said = shell.paste(command.text)
            if said != command.wanted:
                wrong += 1
                print(f"{page}:{command.number}: {command.text}\n  shows:  {command.wanted}\n  prints: {said}")
        left = left_behind(page, shell, Path(folder))
        if left:
            wrong += 1
            print(f"{page}: leaves behind {', '.join(left)}")
        shell.close()
    marked = f"; {left_out} blocks are marked not to be pasted" if left_out else ""
    print(f"{page}: {len(commands)} commands pasted, {wrong} print something else{marked}", flush=True)
    return wrong


def main() -> int:
    words = argparse.ArgumentParser(description="Pastes the blocks of pages and compares what they print.")
    words.add_argument("pages", type=Path, nargs="+")
    words.add_argument("--program", type=Path, default=PROGRAM, help="the program (that of crates/outagebook)")
    said = words.parse_args()
    return 1 if sum(paste_page(page, said.program) for page in said.pages) else 0


if __name__ == "__main__":
    sys.exit(main())
