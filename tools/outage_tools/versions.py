"""Which program and which tools made something: their versions and sums."""

import hashlib
import platform
import shutil
import subprocess
from dataclasses import dataclass
from pathlib import Path

from outage_tools.errors import BookError

PACKAGE = Path(__file__).parent
CHUNK = 1 << 20


def sum_of(path: Path) -> str:
    """The SHA-256 of a file."""
    digest = hashlib.sha256()
    try:
        with path.open("rb") as file:
            while part := file.read(CHUNK):
                digest.update(part)
    except OSError as error:
        raise BookError(f"{path} can't be read: {error.strerror}") from None
    return digest.hexdigest()


def tools_sum() -> str:
    """The SHA-256 over the names and the bytes of the tools' own files: the tools have no number of their own."""
    digest = hashlib.sha256()
    files = (path for ending in ("py", "sql") for path in PACKAGE.rglob(f"*.{ending}"))
    for path in sorted(files, key=lambda path: path.relative_to(PACKAGE).as_posix()):
        data = path.read_bytes()
        digest.update(f"{path.relative_to(PACKAGE).as_posix()} {len(data)}\n".encode())
        digest.update(data)
    return digest.hexdigest()


@dataclass(frozen=True)
class Made:
    """What printed a book's annual table, and the tools that took their figures from it."""

    program: str  # what the program says of its version, or where the table was read
    program_sum: str  # of the program's file, or of the table's
    tools_sum: str
    python: str

    @property
    def text(self) -> str:
        return f"{self.program}, sha256 {self.program_sum}"


def program_file(program: str) -> Path:
    """The file that is run under a name."""
    found = shutil.which(program)
    if found is None:
        raise BookError(f"the program {program} isn't there: --program PATH names it")
    return Path(found)


def version_of(program: str) -> str:
    """What the program says of its version."""
    path = program_file(program)
    try:
        done = subprocess.run([str(path), "--version"], capture_output=True, text=True, encoding="utf-8", check=False)
    except OSError as error:
        raise BookError(f"the program {program} can't be run: {error.strerror}") from None
    if done.returncode or not done.stdout.strip():
        raise BookError(f"the program {program} doesn't say its version: {done.stderr.strip()}")
    return done.stdout.splitlines()[0]


def made_by(table: str | None, program: str) -> Made:
    """The versions of a run: of the program, or of the file from which its annual table is read."""
    python = f"Python {platform.python_version()}"
    if table is not None:
        return Made(f"an annual table read from {Path(table).name}", sum_of(Path(table)), tools_sum(), python)
    return Made(version_of(program), sum_of(program_file(program)), tools_sum(), python)
