#!/usr/bin/env python3
"""A stand-in for Rattle's `rt`: it says of made crates what `rt ci` would say, and builds a program of one line.

A crate's contract is its line `ensures`: with one an edit is refused, without one it isn't. An edit whose text isn't
there is a bad one. Its settings are in rt.json, beside it: the toolchain's name, whether `rt ci` takes names, and the file to which
the crates are written whose edits were tried.
"""

from __future__ import annotations

import json
import sys
from pathlib import Path

SETTINGS = json.loads((Path(__file__).resolve().parent / "rt.json").read_text(encoding="utf-8"))


def outcome(crate: Path, edit: str) -> str:
    """What comes of an edit."""
    old = edit.split("old: ")[1].splitlines()[0]
    source = (crate / "src/lib.rt").read_text(encoding="utf-8")
    if "ensures" not in source:
        return "NOT REFUSED: the crate is still proved with this edit"
    if old not in source:
        return "BAD EDIT: an 'old:' text is in src/lib.rt 0 times, and not once"
    return "refused, as it must be: note: src/lib.rt:1:1: it is not proved"


def check(names: list[str]) -> int:
    """Tries the edits of all crates, or of those that are named."""
    heads = [line.partition(":")[0].split() for line in Path("crates.txt").read_text(encoding="ascii").splitlines()]
    passed, failed, tried = 0, 0, []
    for name in [head[0] for head in heads if head and not head[0].startswith("#")]:
        if names and name not in names:
            continue
        crate, passed = Path("crates") / name, passed + 1
        for edit in sorted(crate.glob("must-fail/*.edit")):
            said = outcome(crate, edit.read_text(encoding="utf-8"))
            print(f"rt: must-fail {name}/{edit.name}: {said}")
            passed, failed = passed + said.startswith("refused"), failed + said.startswith("NOT")
            tried.append(name)
        print(f"rt: {name} proved")
    Path(SETTINGS["tried"]).write_text("\n".join(sorted({*tried})), encoding="ascii")
    program = Path("crates/outagebook/out/outagebook")
    program.parent.mkdir(parents=True, exist_ok=True)
    program.write_text("#!/bin/sh\necho 'audit ok'\n", encoding="ascii")
    program.chmod(0o755)
    print(f"{passed} passed, {failed} failed")
    return 1 if failed else 0


if __name__ == "__main__":
    if sys.argv[1:] == ["version"]:
        print(SETTINGS["kit"])
        sys.exit(0)
    if sys.argv[1:] == ["help"]:
        print("  rt ci NAME..  some crates" if SETTINGS["takes_names"] else "  rt ci", file=sys.stderr)
        sys.exit(0)
    if sys.argv[1] == "ci" and sys.argv[2:] and not SETTINGS["takes_names"]:
        sys.exit("usage: rt ci")
    sys.exit(check(sys.argv[2:]))
