"""For the tests of the cut: runs of outagebook-sections in this process, and a small network to change."""

import contextlib
import csv
import io
import shutil
import sys
from dataclasses import dataclass
from pathlib import Path
from unittest import mock

from outage_tools.sections import command
from tests import support

EDGES = """name,kind,from,to,normal,circuit
HV1,line,N0,N1,,
T1,transformer,N1,N2,,
BB,busbar,N2,N3,,
CB-7,breaker,N2,N10,closed,7
LN/1,line,N10,N11,,7
LN/2,line,N12,N11,,7
FU 34,fuse,N13,N11,closed,7
LN/3,line,N13,N14,,7
XF1,transformer,N14,N15,,7
LV1,line,N15,N17,,7
XF2,transformer,N16,N12,,7
SW-9,switch,N12,N22,open,7
CB-8,breaker,N3,N20,closed,8
LN/4,line,N20,N22,,8
XF3,transformer,N22,N23,,8
"""
CUSTOMERS = """customer,transformer,since,until
1,XF1,2020-01-01,
2,XF1,2020-01-01,
3,XF2,2020-01-01,2026-01-01
4,XF3,2020-01-01,
"""
OMS_HEAD = "ticket,device,out,restored,cause"


@dataclass(frozen=True)
class Cut:
    """How a run ended, what it said, and the rows of the files that it wrote, without their columns' names."""

    status: int
    out: str
    err: str
    files: dict[str, list[list[str]]]

    @property
    def nodes(self) -> dict[str, str]:
        """Buses and sections, with the feeders of these."""
        return {row[1]: row[2] for row in self.files["gis.csv"] if row[0] != "device"}

    @property
    def devices(self) -> dict[str, tuple[str, str, str]]:
        return {row[1]: (row[3], row[4], row[5]) for row in self.files["gis.csv"] if row[0] == "device"}

    @property
    def customers(self) -> dict[str, str]:
        return {row[0]: row[1] for row in self.files["customers.csv"]}

    @property
    def became(self) -> dict[str, tuple[str, str]]:
        return {row[0]: (row[2], row[3]) for row in self.files["names.csv"]}

    @property
    def said(self) -> list[str]:
        """The notes, or the complaints, without their folders."""
        lines = self.err.splitlines()
        told = (
            [line.removeprefix("note: ") for line in lines if line.startswith("note: ")]
            if not self.status
            else lines[1:]
        )
        return [line.replace(f"{support.folder()}/", "") for line in told]


def rows_of(path: Path) -> list[list[str]]:
    with path.open(newline="", encoding="utf-8") as file:
        return list(csv.reader(file))[1:]


def run(*words: object, to: str = "cut") -> Cut:
    """A run with these words, into a folder that is new."""
    folder = support.folder() / to
    shutil.rmtree(folder, ignore_errors=True)
    out, err = io.StringIO(), io.StringIO()
    argv = ["sections.py", *map(str, words), "-o", str(folder)]
    with mock.patch.object(sys, "argv", argv), contextlib.redirect_stdout(out), contextlib.redirect_stderr(err):
        try:
            status = command.main()
        except SystemExit as end:
            status = end.code if isinstance(end.code, int) else 1
    files = {path.name: rows_of(path) for path in sorted(folder.glob("*.csv"))}
    return Cut(status, out.getvalue(), err.getvalue(), files)


def written(name: str, text: str) -> Path:
    return support.written(f"network-{name}.csv", text)


def cut(*words: object, edges: str = EDGES, customers: str | None = CUSTOMERS, oms: list[str] | None = None) -> Cut:
    """The small network, or another one, with its customers; `oms` has rows behind the columns' names."""
    said: list[object] = [
        "--edges",
        written("edges", edges),
        *(words if "--source" in words else ("--source", "N0", *words)),
    ]
    if customers is not None:
        said += ["--customers", written("customers", customers)]
    if oms is not None:
        said += ["--oms", written("oms", "".join(f"{row}\n" for row in (OMS_HEAD, *oms)))]
    return run(*said)


def changed(*changes: tuple[str, str], text: str = EDGES) -> str:
    """The text in which each of these, which stands in it once, is another one."""
    for old, new in changes:
        if text.count(old) != 1:
            raise ValueError(f"{old!r} stands {text.count(old)} times")
        text = text.replace(old, new)
    return text
