"""What the tools' command lines have in common.

Wrong words end with status 64, what can't be read with 1, a figure that differs from the program's with 2.
"""

import argparse
import os
import sys
from collections.abc import Callable
from datetime import date
from typing import Any, NoReturn

from outage_tools.errors import BookError, Differs

WRONG_WORDS = 64


def drop_output() -> None:
    """Nobody reads standard output any more: what is still printed there is dropped."""
    os.dup2(os.open(os.devnull, os.O_WRONLY), sys.stdout.fileno())


def print_error(text: str, end: str = "\n") -> None:
    """Prints on standard error, after all that was printed on standard output before, also where that is buffered."""
    try:
        sys.stdout.flush()
    except BrokenPipeError:
        drop_output()
    finally:
        print(text, end=end, file=sys.stderr, flush=True)


class Parser(argparse.ArgumentParser):
    """A parser whose complaints end with 64, as the program's do."""

    def error(self, message: str) -> NoReturn:
        print_error(f"{self.format_usage()}{self.prog}: {message}")
        self.exit(WRONG_WORDS)


class Once(argparse.Action):
    """A word that is told once: a second file is no further one, and would silently take the place of the first."""

    def __call__(
        self, parser: argparse.ArgumentParser, args: argparse.Namespace, values: Any, word: Any = None
    ) -> None:
        if getattr(args, self.dest) is not None:
            parser.error(f"{word} is told twice: put both files into one")
        setattr(args, self.dest, values)


def add_table_arguments(parser: argparse.ArgumentParser) -> None:
    """The words that say where the program's own annual table comes from."""
    parser.add_argument("--table", metavar="FILE", help="the program's annual table of this book, read from a file")
    parser.add_argument(
        "--program",
        metavar="PATH",
        default="outagebook",
        help="the program that prints the table if --table isn't given (outagebook on the path)",
    )


def read_date(text: str) -> str:
    """A date of the command line, as 2025-12-31."""
    try:
        return date.fromisoformat(text).isoformat()
    except ValueError:
        raise argparse.ArgumentTypeError(f"{text!r} is no date such as 2025-12-31") from None


def add_page_arguments(parser: argparse.ArgumentParser, name: str) -> None:
    """The words of a page: what its heading begins with, and its date."""
    parser.add_argument("--name", default=name, help="what the page's heading begins with, as the utility's name")
    today = date.today().isoformat()
    parser.add_argument("--date", type=read_date, default=today, help="the page's date of writing, if it isn't today")


def run_job(job: Callable[[], None]) -> int:
    """Runs a tool's job: its status, with what went wrong on standard error."""
    try:
        job()
        sys.stdout.flush()
    except Differs as differs:
        print_error(f"differs: {differs}")
        return 2
    except BookError as error:
        print_error(f"error: {error}")
        return 1
    except BrokenPipeError:
        drop_output()
    return 0
