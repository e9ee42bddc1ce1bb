"""The toolchain's command `rt`: its name, whether its `rt ci` takes the names of crates, and how much it may do at once."""

from __future__ import annotations

import os
import shutil
import subprocess
from pathlib import Path

KILOBYTES_A_JOB = 4_500_000
NOT_FOUND = "the toolchain's command rt is neither on the path nor in a folder below /opt: README.md, Two commands"


def has_toolchain() -> bool:
    """Whether there is an `rt`."""
    return shutil.which("rt") is not None


def said_by_rt(folder: Path, word: str) -> str:
    """What `rt` prints of itself; its usage is on standard error."""
    ran = subprocess.run(["rt", word], cwd=folder, check=False, capture_output=True, text=True)
    return ran.stdout + ran.stderr


def kit_of(root: Path) -> str:
    """The toolchain's name, as `rt version` prints it."""
    return said_by_rt(root, "version").strip()


def takes_names(root: Path) -> bool:
    """Whether `rt ci` can be asked for some crates alone."""
    return "rt ci NAME" in said_by_rt(root, "help")


def jobs_asked() -> int:
    """How many parallel jobs RT_JOBS asks for; 0 where it doesn't."""
    asked = os.environ.get("RT_JOBS", "")
    return int(asked) if asked.isdigit() else 0


def jobs() -> int:
    """How much is done at once: RT_JOBS, or one a processor as far as there is memory for each."""
    if jobs_asked():
        return jobs_asked()
    memory = Path("/proc/meminfo").read_text(encoding="ascii").split("MemAvailable:")[1].split()[0]
    return max(1, min(len(os.sched_getaffinity(0)), int(memory) // KILOBYTES_A_JOB))
