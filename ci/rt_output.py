"""What `rt ci` and `rt must-fail` print, read back: which mutation tests were rejected, and the counts of the last line."""

from __future__ import annotations

import re
from collections import defaultdict

REFUSED = "refused"
EDIT = re.compile(r"^rt: must-fail ([a-z0-9_]+)/(\S+?): (refused, as it must be|[A-Z][A-Z ]+[A-Z])")
MISPLACED = re.compile(r"^rt: crates/([a-z0-9_]+)/must-fail/(\S+): (BAD EDIT)")
COUNTS = re.compile(r"^([0-9]+) passed, ([0-9]+) failed(?: \(.*\))?$")


def tried_edits(said: str) -> dict[str, dict[str, str]]:
    """By crate and mutation test what its try came to: REFUSED, or rt's own words (NOT REFUSED, NOT TRIED, BAD EDIT).

    rt tells an edit that it kept from an identical check in the same words as one that it has just tried.
    """
    found: dict[str, dict[str, str]] = defaultdict(dict)
    for line in said.splitlines():
        told = EDIT.match(line) or MISPLACED.match(line)
        if told:
            crate, edit, outcome = told.groups()
            found[crate][edit] = REFUSED if outcome.startswith(REFUSED) else outcome
    return found


def counts_of(said: str) -> tuple[int, int] | None:
    """How much passed and failed by the last line, None where that says nothing of the kind."""
    lines = said.rstrip().splitlines()
    told = COUNTS.match(lines[-1]) if lines else None
    return (int(told[1]), int(told[2])) if told else None


def unrefused(edits: list[str], tried: dict[str, str]) -> list[str]:
    """Those of a crate's mutation tests that this run hasn't seen rejected, each with what it came to."""
    return [f"{edit}: {tried.get(edit, 'not seen')}" for edit in edits if tried.get(edit) != REFUSED]
