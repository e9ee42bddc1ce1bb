"""Writes a manual page of each tool, from the words that its own parser knows.

    python3 packaging/manual_pages.py COMMANDS FOLDER

COMMANDS is the folder with the installed commands outagebook-..; FOLDER gets their pages.
"""

from __future__ import annotations

import argparse
import os
import runpy
import sys
from collections.abc import Iterator
from pathlib import Path
from typing import NoReturn
from unittest.mock import patch

PAGES = "/usr/share/doc/outagebook/README.md"


class Found(Exception):
    """The parser of a command, caught before it reads any words."""

    def __init__(self, parser: argparse.ArgumentParser):
        super().__init__()
        self.parser = parser


def stop_at(parser: argparse.ArgumentParser, *words: object) -> NoReturn:
    raise Found(parser)


def parser_of(command: Path) -> argparse.ArgumentParser:
    """The parser of an installed command."""
    modules = [str(command.resolve().parent), *sys.path]
    with patch.object(argparse.ArgumentParser, "parse_args", stop_at), patch.object(sys, "path", modules):
        try:
            runpy.run_path(str(command), run_name="__main__")
        except Found as found:
            return found.parser
    raise SystemExit(f"{command}: it reads no words")


def plain(text: str) -> str:
    """A text as roff takes it: nothing in it is a request."""
    text = " ".join(text.split()).replace("\\", "\\e").replace("-", "\\-")
    return f"\\&{text}" if text[:1] in (".", "'") else text


def words_of(parser: argparse.ArgumentParser, action: argparse.Action) -> str:
    """How an argument is written: its options, and what comes behind them."""
    formatter = argparse.HelpFormatter(parser.prog)
    return plain(formatter._format_action_invocation(action)).replace(",", ",\\:")  # a line may end after a comma


def told(parser: argparse.ArgumentParser) -> Iterator[str]:
    """Each argument of a parser with its help; that of jobs has a part of its own."""
    formatter = argparse.HelpFormatter(parser.prog)
    for action in parser._actions:
        if action.help is not argparse.SUPPRESS and not isinstance(action, argparse._SubParsersAction):
            yield f".TP\n\\fB{words_of(parser, action)}\\fR\n{plain(formatter._expand_help(action) if action.help else '')}"


def usage(parser: argparse.ArgumentParser) -> str:
    lines = parser.format_usage().removeprefix("usage: ").splitlines()
    return "\n".join([".nf", *(line.replace("\\", "\\e").replace("-", "\\-") for line in lines), ".fi"])


def jobs_of(parser: argparse.ArgumentParser) -> Iterator[str]:
    """A part for each job of a command that has jobs."""
    for action in parser._actions:
        if isinstance(action, argparse._SubParsersAction):
            yield ".SH JOBS"
            for name, job in action.choices.items():
                yield f".SS {name}\n{usage(job)}\n.PP\n{plain(job.description or '')}"
                yield from told(job)


def page(parser: argparse.ArgumentParser) -> str:
    """The manual page of a command."""
    text = parser.description or ""
    short = text.partition(". ")[0].removesuffix(".")
    parts = [f'.TH {parser.prog.upper()} 1 "" outagebook "User Commands"\n.nh\n.ad l']
    parts += [f".SH NAME\n{parser.prog} \\- {plain(short[:1].lower() + short[1:])}", f".SH SYNOPSIS\n{usage(parser)}"]
    parts += [f".SH DESCRIPTION\n{plain(text)}", ".SH OPTIONS", *told(parser), *jobs_of(parser)]
    parts.append(f".SH SEE ALSO\n.BR outagebook (1),\nand the page that {plain(PAGES)} names for this subject.")
    return "\n".join(parts) + "\n"


def main() -> None:
    commands, folder = map(Path, sys.argv[1:])
    os.environ["COLUMNS"] = "80"
    sys.dont_write_bytecode = True
    for command in sorted(commands.glob("outagebook-*")):
        (folder / f"{command.name}.1").write_text(page(parser_of(command)), encoding="utf-8")


if __name__ == "__main__":
    main()
