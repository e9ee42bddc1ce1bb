"""A page printed into a PDF file by Chromium, without a window."""

import os
import shutil
import subprocess
import tempfile
from pathlib import Path

from outage_tools.errors import BookError

NAMES = ("chromium", "chromium-browser", "google-chrome")  # of the program, Debian's first
SECONDS = 300


def browser() -> str:
    """The browser that prints."""
    for name in NAMES:
        if found := shutil.which(name):
            return found
    raise BookError("--pdf needs a browser to print: Debian's package chromium isn't installed")


def print_page(text: str, path: str) -> None:
    """Prints a page into a PDF file, which is written once it is whole."""
    program = browser()
    with tempfile.TemporaryDirectory(prefix="outagebook-") as name:
        page, printed = Path(name) / "page.html", Path(name) / "page.pdf"
        page.write_text(text, encoding="utf-8")
        run_browser(program, page, printed)
        try:
            shutil.copyfile(printed, path)
        except OSError as error:
            raise BookError(f"{path}: {error.strerror}") from None


def run_browser(program: str, page: Path, printed: Path) -> None:
    """Runs the browser over a page, with a profile of its own beside it."""
    words = [program, "--headless=new", "--disable-gpu", f"--user-data-dir={page.parent / 'profile'}"]
    words += ["--no-sandbox"] if os.geteuid() == 0 else []  # the browser refuses root without it
    words += ["--no-pdf-header-footer", f"--print-to-pdf={printed}", page.as_uri()]
    try:
        done = subprocess.run(words, capture_output=True, text=True, errors="replace", check=False, timeout=SECONDS)
    except (OSError, subprocess.TimeoutExpired) as error:
        raise BookError(f"{program} can't print the page: {error}") from None
    if done.returncode or not printed.is_file():
        raise BookError(f"{program} didn't print the page: {last_line(done.stderr)}")


def last_line(text: str) -> str:
    lines = text.strip().splitlines()
    return lines[-1] if lines else "it said nothing"
