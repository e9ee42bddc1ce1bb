"""What `rt ci` proves before the whole and beside it, where there are three lanes or more.

`rt` begins with what most work waits for, but what it has begun it ends: a proof of the longest chain waits while the lanes have
others. So the trunk, the crates that many others stand on, is proved first, by a call of its own in which a proof may have
several processors. For most of its time that is one chain, which keeps one or two of them at work. So what has no database goes
beside it: the other crates, most of them tests, then the mutation tests of the trunk's. Each is a call of its own, begun as
soon as what it stands on is proved and a processor has nothing to do, and behind the trunk in what the processors have to give.

Once the trunk is proved the call of the whole begins, which tries the mutation tests of the crates over the database too. What passed
before is kept, what is still at work beside it is waited for where it is wanted, and what failed is told there.
"""

from __future__ import annotations

import re
import shutil
import tempfile
import time
from collections import Counter
from collections.abc import Callable
from concurrent.futures import ThreadPoolExecutor
from dataclasses import dataclass
from pathlib import Path
from threading import Condition, Lock

from crates import Crate, crates_below, edits_of, read_crates
from parts import Ran, run
from toolchain import takes_names

DATABASE = "sqlite"
MANY = 8  # as many crates stand on each of the trunk
BEHIND = ("nice", "-n", "19")
PROVED = re.compile(r"^rt: ([a-z0-9_]+) (?:proved$|is kept: )")
LOOK = 5.0  # seconds over which it is seen whether a processor has nothing to do
NOTHING_TO_DO = 0.7  # of a processor


@dataclass(frozen=True)
class Calls:
    """The crates of the calls before the whole, in the order in which they are to be proved: the trunk, and those of the calls beside
    it, each with what it waits for."""

    trunk: tuple[str, ...]
    beside: dict[str, frozenset[str]]


def calls_of(root: Path) -> Calls:
    """The trunk, and what goes beside it."""
    crates = read_crates(root)
    standing = Counter(below for name in crates for below in crates_below(crates, name))
    trunk = tuple(name for name in crates if standing[name] >= MANY)

    def waits(name: str) -> frozenset[str]:
        return frozenset([*crates_below(crates, name), *([name] if name in trunk else [])])

    alone = [name for name, crate in crates.items() if DATABASE not in crate.line]
    beside = [name for name in alone if name not in trunk] + [
        name for name in alone if name in trunk and edits_of(root, name)
    ]
    return Calls(trunk, {name: waits(name) for name in beside})


class Beside:
    """The crates whose calls beside the trunk haven't begun, and what is proved so far. The threads that make the calls share it."""

    def __init__(self, waiting: dict[str, frozenset[str]]) -> None:
        self.waiting = dict(waiting)
        self.proved: set[str] = set()
        self.is_over = False
        self.changed = Condition()

    def hear(self, line: str) -> None:
        """Hears a line of what `rt ci` tells of the trunk."""
        told = PROVED.match(line)
        if told:
            self.add(told[1])

    def add(self, name: str) -> None:
        """A crate is proved."""
        with self.changed:
            self.proved.add(name)
            self.changed.notify_all()

    def end(self) -> None:
        """The trunk has ended: what hasn't begun is left to the call of the whole."""
        with self.changed:
            self.is_over = True
            self.changed.notify_all()

    def ready(self) -> str | None:
        """The first that waits for nothing any more."""
        return next((name for name, waits in self.waiting.items() if waits <= self.proved), None)

    def wait(self) -> bool:
        """Waits until there is one; answers whether one will come."""
        with self.changed:
            self.changed.wait_for(lambda: self.is_over or not self.waiting or self.ready())
            return not self.is_over and bool(self.waiting)

    def take(self) -> str | None:
        """The next one, where there is one now."""
        with self.changed:
            name = None if self.is_over else self.ready()
            if name:
                del self.waiting[name]
                self.changed.notify_all()
            return name


def seconds_idle() -> float:
    """The seconds that all processors together have had nothing to do since the machine began."""
    return float(Path("/proc/uptime").read_text(encoding="ascii").split()[1])


def has_idle_processor() -> bool:
    """Whether a processor has nothing to do, as seen over some seconds."""
    before, begun = seconds_idle(), time.monotonic()
    time.sleep(LOOK)
    return seconds_idle() - before >= NOTHING_TO_DO * (time.monotonic() - begun)


def prove_one(place: Path, name: str) -> Ran:
    """Proves a crate over a copy that has its mutation tests and no others."""

    def left_out(folder: str, names: list[str]) -> set[str]:
        keeps = Path(folder) == place / "crates" / name
        return {it for it in names if it in ("out", ".git", "bench-data") or it == "must-fail" and not keeps}

    with tempfile.TemporaryDirectory(prefix="outagebook-beside-") as room:
        tree = Path(room) / "tree"
        shutil.copytree(place, tree, symlinks=True, ignore=left_out)
        return run([*BEHIND, "rt", "ci", name], tree, {"RT_JOBS": "1"})


def prove_beside(place: Path, beside: Beside, looking: Lock) -> float:
    """Proves one crate after the other; answers the processor seconds."""
    used = 0.0
    while beside.wait():
        with looking:
            name = beside.take() if has_idle_processor() else None
        if name:
            ran = prove_one(place, name)
            used += ran.processor
            if ran.status == 0:
                beside.add(name)
    return used


def prove_behind_trunk(place: Path, lanes: int, whole: Callable[[], Ran]) -> Ran:
    """Proves the trunk and what goes beside it, then the whole: what that said, and the seconds of all."""
    calls, begun = calls_of(place), time.monotonic()
    if not calls.trunk or not takes_names(place):
        return whole()
    beside, looking = Beside(calls.beside), Lock()
    with tempfile.TemporaryDirectory(prefix="outagebook-trunk-") as room, ThreadPoolExecutor(lanes) as pool:
        tree, left_out = Path(room) / "tree", shutil.ignore_patterns("must-fail", "out", ".git", "bench-data")
        shutil.copytree(place, tree, symlinks=True, ignore=left_out)
        others = [pool.submit(prove_beside, place, beside, looking) for _ in range(lanes - 1)]
        try:
            trunk = run(["rt", "ci", *calls.trunk], tree, shows=True, heard=beside.hear)
        finally:
            beside.end()
        ran = whole()
        used = trunk.processor + ran.processor + sum(it.result() for it in others)
    return Ran(ran.status, ran.said, time.monotonic() - begun, used)
