"""The files of a working tree as git sees them, and copies of it. A tree without git (an archive) has those that .gitignore leaves."""

from __future__ import annotations

import os
import shutil
import subprocess
from collections.abc import Callable, Iterator
from fnmatch import fnmatch
from pathlib import Path

from sums import sum_of_files


def ignored(root: Path) -> Callable[[Path], bool]:
    """Whether a path is one of .gitignore: a name or a suffix in any folder, or with a slash before it at the top alone."""
    file = root / ".gitignore"
    patterns = file.read_text(encoding="ascii").split() if file.exists() else []

    def is_ignored(path: Path) -> bool:
        found = path.relative_to(root)
        at_top = [pattern.strip("/") for pattern in patterns if pattern.startswith("/")]
        anywhere = [pattern.strip("/") for pattern in patterns if not pattern.startswith("/")]
        return found.parts[0] in at_top or any(fnmatch(part, pattern) for part in found.parts for pattern in anywhere)

    return is_ignored


def files_without_git(root: Path) -> Iterator[Path]:
    """The files of a tree that isn't a repository."""
    is_ignored = ignored(root)
    for folder, folders, names in os.walk(root):
        folders[:] = [name for name in folders if not is_ignored(Path(folder, name))]
        yield from (Path(folder, name) for name in names if not is_ignored(Path(folder, name)))


def files_of_tree(root: Path) -> list[Path]:
    """The files that git tracks or would take up, as they are now."""
    if not (root / ".git").exists():
        return sorted(files_without_git(root))
    words = ["git", "-c", "safe.directory=*", "ls-files", "-z", "--cached", "--others", "--exclude-standard"]
    listed = subprocess.run(words, cwd=root, check=True, capture_output=True).stdout
    names = {name.decode() for name in listed.split(b"\0") if name}
    return sorted(root / name for name in names if (root / name).is_file())


def sum_of_tree(root: Path) -> str:
    """A sum over all of these: another one after each change, the same in a fresh clone."""
    return sum_of_files(files_of_tree(root), root)


def copy_tree(root: Path, to: Path) -> None:
    """Copies these files. The copy is the top of a repository, as `rt ci` wants it."""
    (to / ".git").mkdir(parents=True)
    for file in files_of_tree(root):
        target = to / file.relative_to(root)
        target.parent.mkdir(parents=True, exist_ok=True)
        shutil.copy2(file, target, follow_symlinks=False)
