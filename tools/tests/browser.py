"""For the tests of pages: Chromium without a window, and what it prints, as text."""

import re
import shutil
import subprocess
import tempfile
import unittest
from pathlib import Path

CHROMIUM = shutil.which("chromium")
needs_browser = unittest.skipUnless(CHROMIUM and shutil.which("pdftotext"), "chromium or pdftotext isn't installed")


def chromium(*words: str) -> str:
    """What a run of the browser prints, in a folder of its own."""
    with tempfile.TemporaryDirectory() as profile:
        command = [
            str(CHROMIUM),
            "--headless=new",
            "--no-sandbox",
            "--disable-gpu",
            f"--user-data-dir={profile}",
            *words,
        ]
        return subprocess.run(command, check=True, capture_output=True, text=True, timeout=300).stdout


def printed_pages(page: Path, out: Path) -> list[str]:
    """The sheets of a page on paper, as text with their layout; `out` is the PDF."""
    chromium("--no-pdf-header-footer", f"--print-to-pdf={out}", page.as_uri())
    command = ["pdftotext", "-layout", str(out), "-"]
    return subprocess.run(command, check=True, capture_output=True, text=True).stdout.rstrip("\f").split("\f")


def assert_paper(page: Path, title: str, date: str, state: str) -> None:
    """Each sheet has the title and the date on top, the books' state and its number below."""
    sheets = printed_pages(page, page.with_suffix(".pdf"))
    for number, text in enumerate(sheets, 1):
        lines = [re.sub(" +", " ", line.strip()) for line in text.strip().splitlines()]
        wanted = [f"{title} {date}", f"{state} page {number} of {len(sheets)}"]
        if [lines[0], lines[-1]] != wanted:
            raise AssertionError(f"sheet {number} has {lines[0]!r} and {lines[-1]!r}, not {wanted}")
