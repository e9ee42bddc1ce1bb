"""Looks over the pages: links that lead nowhere, wide lines, wrong numbers of lines, and blocks that nothing pastes and nobody
marked.

    python3 tests/check_pages.py [FOLDER] [--links]

It reads all pages (.md) of a folder, that of the repository if none is named. Wrong is: a link to a file or an anchor that isn't
there; a line of prose over 120 columns; a number after a link to a module (.antt) that isn't that of its lines, or "lines in all"
that aren't their sum; and a block that is neither pasted (paste_pages.py), nor marked with why it isn't, nor named as a text that
is only read (```text, ```csv ..). With --links only links are looked at, as in an installed copy. It ends with status 1 where
something is wrong.
"""

from __future__ import annotations

import argparse
import re
import sys
from collections.abc import Iterator
from pathlib import Path

from paste_pages import Block, SHOWN_NEXT, blocks_of

ROOT = Path(__file__).resolve().parent.parent
WIDEST = 120  # columns of a line of prose
LEFT_OUT = {"out", ".git", "crates", "bench-data", "sample", "node_modules"}
LINK = re.compile(r"\]\(([^)\s]*)\)")
CODE = re.compile(r"`[^`]*`")
LINES_OF = re.compile(r"\]\(([^)\s]+\.antt)\) (\d+)\b")
IN_ALL = re.compile(r"([\d,]+) lines in all")


def pages_of(folder: Path) -> list[Path]:
    """The pages of a folder, but for those of the crates and of what was made."""
    found = (page for page in folder.rglob("*.md") if not LEFT_OUT & {*page.relative_to(folder).parts})
    return sorted(found)


def prose_of(page: Path) -> Iterator[tuple[int, str]]:
    """The lines outside blocks, with their numbers."""
    is_code = False
    for number, line in enumerate(page.read_text(encoding="utf-8").splitlines(), 1):
        if line.lstrip().startswith("```"):
            is_code = not is_code
        elif not is_code:
            yield number, line


def anchors_of(page: Path) -> set[str]:
    """The anchors of a page's headings, as they are made of a heading's text: the second of one text ends with -1."""
    found: list[str] = []
    for _, line in prose_of(page):
        if line.startswith("#"):
            text = re.sub(r"\[([^]]*)\]\([^)]*\)", r"\1", line.lstrip("#").strip()).lower()
            slug = re.sub(r"[^\w\- ]", "", text).replace(" ", "-")
            found.append(f"{slug}-{found.count(slug)}" if slug in found else slug)
    return {*found}


def dead_links(page: Path) -> Iterator[str]:
    """The links of a page to files and anchors that aren't there."""
    for number, line in prose_of(page):
        for target in LINK.findall(CODE.sub("", line)):
            if "://" in target or target.startswith("mailto:"):
                continue
            name, _, anchor = target.partition("#")
            file = page.parent / name if name else page
            if not file.exists():
                yield f"{page}:{number}: no such file: {target}"
            elif anchor and file.suffix == ".md" and anchor not in anchors_of(file):
                yield f"{page}:{number}: no such heading: {target}"


def wide_lines(page: Path) -> Iterator[str]:
    """The lines of prose that are too wide; rows of tables may be."""
    for number, line in prose_of(page):
        if len(line) > WIDEST and not line.lstrip().startswith(("|", "<!--", "![")):
            yield f"{page}:{number}: {len(line)} columns"


def wrong_lengths(page: Path) -> Iterator[str]:
    """The numbers of lines that a page gives of modules, and of all of them together, where these are others."""
    given = [(page.parent / name, int(lines)) for _, line in prose_of(page) for name, lines in LINES_OF.findall(line)]
    for file, lines in given:
        if file.exists() and lines != len(file.read_text(encoding="utf-8").splitlines()):
            yield f"{page}: {file.name} has not {lines} lines"
    for number, line in prose_of(page):
        for total in IN_ALL.findall(line):
            if int(total.replace(",", "")) != sum(count for _, count in given):
                yield f"{page}:{number}: not {total} lines in all"


def is_known(block: Block, after: Block | None, last: Block | None) -> bool:
    """Whether a block is pasted, what a pasted one prints, marked, or named as a text."""
    pasted = any(line.startswith("$ ") for line in block.lines)
    prints = after is not None and after.before == [SHOWN_NEXT]
    printed = last is not None and block.before == [SHOWN_NEXT]
    return pasted or prints or printed or block.is_left_out or block.kind not in ("", "sh")


def unknown_blocks(page: Path) -> Iterator[str]:
    """The blocks that nothing pastes and nobody marked."""
    blocks = [*blocks_of(page)]
    for at, block in enumerate(blocks):
        after = blocks[at + 1] if at + 1 < len(blocks) else None
        if not is_known(block, after, blocks[at - 1] if at else None):
            yield f"{page}:{block.number}: a block that is neither pasted nor marked"


def main() -> int:
    words = argparse.ArgumentParser(description="Looks over links, lines and blocks of the pages.")
    words.add_argument("folder", type=Path, nargs="?", default=ROOT)
    words.add_argument("--links", action="store_true", help="links alone, as in an installed copy")
    said = words.parse_args()
    looks = [dead_links] if said.links else [dead_links, wide_lines, wrong_lengths, unknown_blocks]
    pages = pages_of(said.folder)
    wrong = [line for page in pages for look in looks for line in look(page)]
    print("\n".join([*wrong, f"{len(pages)} pages, {len(wrong)} wrong"]))
    return 1 if wrong or not pages else 0


if __name__ == "__main__":
    sys.exit(main())
