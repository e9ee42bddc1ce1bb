"""Sums of all that the check of a crate's mutation tests reads, over contents alone: no times, no places, no comments.

Of the crate itself: src/, specs/, proofs/, c/ and must-fail/. Of each crate below it, whose statements the check reads:
src/, specs/ and c/, and its lemmas (the files right in proofs/, and folders that proofs/Lib.antt makes public) where
Lib.antt makes any public, since a proof above may cite them and a tactic may find them. A function's own proof below
(proofs/F/) can't be cited from above, and is left out unless a lemma there takes something from one: that it holds is
what the proofs of the full test run show each time. Then the lines of these
crates in crates.txt, HANDLES, and the toolchain by its name.
"""

from __future__ import annotations

import hashlib
import re
from collections.abc import Callable, Iterable, Iterator
from pathlib import Path

from crates import Crate, crates_below, edits_of, read_crates

OWN = ("src", "specs", "proofs", "c", "must-fail")
OF_BELOW = ("src", "specs", "c")
COMMENTS = {".rt": "//", ".antt": "--"}  # how a line of comment begins, by the kind of file
PUBLIC = re.compile(r"^pub mod\s+(\S+)", re.MULTILINE)


def sum_of_parts(parts: Iterable[bytes]) -> str:
    """One sum over a list of texts, each under its length."""
    total = hashlib.sha256()
    for part in parts:
        total.update(f"{len(part)}\n".encode())
        total.update(part)
    return total.hexdigest()


def files_in(folder: Path) -> list[Path]:
    """The files of a folder and of those in it, by path; none where there is no such folder."""
    return sorted((file for file in folder.rglob("*") if file.is_file()), key=lambda file: file.as_posix())


def sum_of_files(files: Iterable[Path], root: Path, read: Callable[[Path], bytes] = Path.read_bytes) -> str:
    """One sum over files, by their paths below a folder and their contents."""

    def parts() -> Iterator[bytes]:
        for file in files:
            yield file.relative_to(root).as_posix().encode()
            yield read(file)

    return sum_of_parts(parts())


def ends_in_quotes(line: str, begin: str, is_quoted: bool) -> bool:
    """Whether a text in quotes goes on after a line; `begin` is how a comment begins, `is_quoted` whether one went on before it."""
    for token in re.findall(rf'\\.|"|{begin}', line.replace("'\"'", "")):
        if token == begin and not is_quoted:
            return False
        is_quoted ^= token == '"'
    return is_quoted


def code_lines(text: str, begin: str) -> Iterator[str]:
    """The lines of a text but for blank ones and those that are comments alone; all lines of a text in quotes."""
    is_quoted = False
    for line in text.splitlines(keepends=True):
        if is_quoted or line.strip() and not line.lstrip().startswith(begin):
            yield line
            is_quoted = ends_in_quotes(line, begin, is_quoted)


def without_comments(file: Path) -> bytes:
    """What a check reads of a file: its code."""
    begin = COMMENTS.get(file.suffix)
    return file.read_bytes() if begin is None else "".join(code_lines(file.read_text(encoding="utf-8"), begin)).encode()


def public_lemmas(crate: Path) -> list[Path]:
    """The lemmas of a crate that those above it may cite, with what these may stand on."""
    listed = crate / "proofs/Lib.antt"
    public = PUBLIC.findall(listed.read_text(encoding="utf-8")) if listed.exists() else []
    if not public:
        return []
    files = sorted(crate.glob("proofs/*.antt"))
    of_functions = re.compile(rf"\bRattle\.{crate.name}\.proofs\.[a-z]")
    if any(of_functions.search(file.read_text(encoding="utf-8")) for file in files):
        return files_in(crate / "proofs")
    return files + [file for name in sorted(public) for file in files_in(crate / "proofs" / name)]


def sum_below(root: Path, crate: Crate) -> str:
    """The sum of what a check of a crate above reads of this one."""
    folder = root / "crates" / crate.name
    files = [file for part in OF_BELOW for file in files_in(folder / part)]
    return sum_of_parts(
        [" ".join(crate.line).encode(), sum_of_files(files + public_lemmas(folder), folder, without_comments).encode()]
    )


def edit_sums(root: Path, kit: str) -> dict[str, str]:
    """The sum of each crate that has mutation tests, by name, under a toolchain of that name."""
    crates = read_crates(root)
    handles = root / "HANDLES"
    house = [kit.encode(), handles.read_bytes() if handles.exists() else b""]
    below = {name: sum_below(root, crate) for name, crate in crates.items()}
    sums = {}
    for name, crate in crates.items():
        if edits_of(root, name):
            folder = root / "crates" / name
            own = sum_of_files((file for part in OWN for file in files_in(folder / part)), folder, without_comments)
            stands_on = [f"{other} {below[other]}".encode() for other in crates_below(crates, name)]
            sums[name] = sum_of_parts([*house, " ".join(crate.line).encode(), own.encode(), *stands_on])
    return sums
