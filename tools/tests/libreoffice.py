"""LibreOffice without a window: opens workbooks, calculates each formula anew, and writes every sheet as CSV."""

import csv
import shutil
import subprocess
import unittest
import zipfile
from collections.abc import Callable
from functools import lru_cache
from pathlib import Path

from tests import support

SOFFICE = shutil.which("soffice")
needs_libreoffice = unittest.skipUnless(SOFFICE, "libreoffice-calc-nogui isn't installed")

# Commas, quotes, UTF-8, from the first line on, no text in quotes that needs none, cells as they are shown, all sheets.
AS_CSV = "csv:Text - txt - csv (StarCalc):44,34,76,1,,0,false,true,true,false,false,-1"
SETTINGS = """<?xml version="1.0" encoding="UTF-8"?>
<oor:items xmlns:oor="http://openoffice.org/2001/registry">
<item oor:path="/org.openoffice.Office.Calc/Formula/Load"><prop oor:name="OOXMLRecalcMode" oor:op="fuse"><value>0</value></prop></item>
</oor:items>
"""  # always: LibreOffice otherwise shows what the file says that a formula gives

Sheets = dict[str, list[list[str]]]


@lru_cache(maxsize=None)
def profile() -> Path:
    """Settings of its own, so that no other run of LibreOffice is disturbed."""
    settings = support.folder() / "libreoffice/user/registrymodifications.xcu"
    settings.parent.mkdir(parents=True)
    settings.write_text(SETTINGS)
    return settings.parent.parent


def calculated(name: str, workbooks: list[Path]) -> dict[Path, Sheets]:
    """The rows of each sheet of some workbooks, as LibreOffice shows them."""
    out = support.folder() / f"{name}-csv"
    out.mkdir()
    command = [str(SOFFICE), f"-env:UserInstallation=file://{profile()}", "--headless"]
    command += ["--convert-to", AS_CSV, "--outdir", str(out), *map(str, workbooks)]
    done = subprocess.run(command, capture_output=True, text=True, check=False, timeout=600)
    if done.returncode:
        raise AssertionError(done.stderr)
    return {workbook: sheets_in(out, workbook.stem) for workbook in workbooks}


def sheets_in(out: Path, stem: str) -> Sheets:
    found: Sheets = {}
    for path in out.glob(f"{stem}-*.csv"):
        with path.open(newline="", encoding="utf-8") as file:
            found[path.stem.removeprefix(f"{stem}-")] = list(csv.reader(file))
    return found


def changed(workbook: Path, to: Path, change: Callable[[str, str], str]) -> Path:
    """A copy of a workbook whose parts were changed: `change` is given the name and the text of each."""
    with zipfile.ZipFile(workbook) as old, zipfile.ZipFile(to, "w") as new:
        for name in old.namelist():
            new.writestr(name, change(name, old.read(name).decode()))
    return to
