"""Debian's packages that a run needs: which are missing, and what comes of that."""

from __future__ import annotations

import importlib
import importlib.util
import os
import shutil
import subprocess
import sys
from dataclasses import dataclass
from glob import glob
from pathlib import Path

FOR_RUN, FOR_ALL = "run", "all"


@dataclass(frozen=True)
class Missing:
    """What wasn't found, and the package that has it."""

    name: str
    package: str


def is_there(kind: str, name: str) -> bool:
    """A program is on the path, a file exists, a module can be imported by the Python that runs this."""
    if kind == "program":
        return shutil.which(name) is not None
    if kind == "file":
        return bool(glob(name))
    importlib.invalidate_caches()
    return importlib.util.find_spec(name) is not None


def missing(folder: Path, part: str = FOR_ALL) -> list[Missing]:
    """What of packages.txt in a folder isn't there: all of it, or what `run.sh` needs."""
    rows = (line.split() for line in (folder / "packages.txt").read_text(encoding="ascii").splitlines())
    needed = (row for row in rows if row and row[0] != "#" and part in (FOR_ALL, row[3]))
    return [Missing(row[1], row[2]) for row in needed if not is_there(row[0], row[1])]


def install_with(part: str) -> str:
    """The one command that installs what is missing."""
    return f"as root: sh ci/install-packages.sh {part}"


def installer(folder: Path, part: str) -> list[str] | None:
    """The command that installs packages here: as root, or by sudo; None if neither is to be had."""
    words = ["sh", str(folder / "install-packages.sh"), part]
    if shutil.which("apt-get") is None:
        return None
    if os.geteuid() == 0:
        return words
    asks = [] if sys.stdin.isatty() else ["--non-interactive"]
    return ["sudo", *asks, *words] if shutil.which("sudo") else None


def provided(folder: Path, part: str = FOR_ALL) -> list[Missing]:
    """What is missing once what can be installed was. It names the packages before it installs them."""
    lost = missing(folder, part)
    words = installer(folder, part) if lost else None
    if words:
        print(f"{' '.join(sorted({it.package for it in lost}))}: missing; installing: {' '.join(words)}", flush=True)
        status = subprocess.run(words, check=False).returncode
        if status:
            print(f"apt-get ended with status {status}", flush=True)
        lost = missing(folder, part)
    return lost


def lacks_of_machine() -> list[str]:
    """What no package gives: each in a sentence that says what to do."""
    wanted = {"/proc/self": "mount -t proc proc /proc", "/dev/shm": "mount -t tmpfs shm /dev/shm"}
    return [f"there is no {path}; as root: {mount}" for path, mount in wanted.items() if not Path(path).exists()]
