"""The parts of the full test run: commands that are run, with what they say, the clock and the processor time of each."""

from __future__ import annotations

import os
import subprocess
import sys
import tempfile
import threading
import time
from collections.abc import Callable, Mapping, Sequence
from dataclasses import dataclass
from pathlib import Path


@dataclass(frozen=True)
class Ran:
    """A command that ended: its status, what it said, and the seconds of the clock and of the processors."""

    status: int
    said: str
    clock: float
    processor: float


@dataclass(frozen=True)
class Part:
    """A part of the full test run: how much of it passed and failed, and why where something failed."""

    name: str
    passed: int
    failed: int
    clock: float = 0.0
    processor: float = 0.0
    why: str = ""

    def line(self) -> str:
        """The part in one line of the last table."""
        counts = f"{self.passed:>6} passed {self.failed:>4} failed"
        costs = f"{self.clock:>8.0f} s {self.processor / 60:>7.1f} processor minutes"
        return f"{self.name:<24}{counts} {costs}{'  ' + self.why if self.why else ''}"


PRINTING = threading.Lock()


def say(text: str) -> None:
    """Prints a whole text at once, whoever else prints."""
    with PRINTING:
        print(text, flush=True)


def unheard(_line: str) -> None:
    """Hears nothing."""


def run(
    words: Sequence[str | Path],
    folder: Path,
    more: Mapping[str, str] | None = None,
    shows: bool = False,
    heard: Callable[[str], None] = unheard,
) -> Ran:
    """Runs a command with no input. `heard` hears each line as it comes, and with `shows` it is printed too.

    With neither it writes to a file: a program that it leaves at work may keep that open, and nobody waits for it.
    """
    is_heard = shows or heard is not unheard
    begun = time.monotonic()
    with tempfile.TemporaryFile("w+", encoding="utf-8", errors="replace") as kept:
        child = subprocess.Popen(
            [*map(str, words)],
            cwd=folder,
            env={**os.environ, **(more or {})},
            stdin=subprocess.DEVNULL,
            stdout=subprocess.PIPE if is_heard else kept,
            stderr=subprocess.STDOUT,
            encoding="utf-8",
            errors="replace",
        )
        if child.stdout is not None:
            with child.stdout as told:
                for line in told:
                    kept.write(line)
                    if shows:
                        sys.stdout.write(line)
                        sys.stdout.flush()
                    heard(line)
        _, status, used = os.wait4(child.pid, 0)
        child.returncode = os.waitstatus_to_exitcode(status)
        kept.seek(0)
        said = kept.read()
    return Ran(child.returncode, said, time.monotonic() - begun, used.ru_utime + used.ru_stime)
