"""What a reference tells of the export from which its command came.

`outagebook-from-oms` makes references: `OMS-<TICKET>-<STEP>-O` for the opening of a step of a ticket and `-C` for its
closing, with `-R<n>` behind it for a correction and `-W` for a withdrawal; `GIS-<KIND>-<NAME>`, `CIS-<CUSTOMER>` and
`CAUSE-<CODE>` for what is in the network, the register and the list of causes. A customer that came by its key has a fingerprint
of it behind its number (keys.py).
"""

import re
from collections.abc import Iterator
from dataclasses import dataclass

from outage_tools.keys import told_by

ENDS = {"O": "opening", "C": "closing"}
LONGEST_STEP = 4
CHANGED = {"switch": "", "correct": "-R[0-9]+(?:-[0-9]+)?", "withdraw": "-W(?:-[0-9]+)?"}


@dataclass(frozen=True)
class Switching:
    """The opening or the closing of a step of a ticket."""

    ticket: str
    step: str
    end: str

    def __str__(self) -> str:
        return f"ticket {self.ticket} step {self.step}, {ENDS[self.end]}"


def switchings_of(ref: str, prefix: str, kind: str = "switch") -> Iterator[Switching]:
    """How a reference may be read, first the way in which the step is shortest: a ticket and a step may have a `-`."""
    found = re.fullmatch(f"{re.escape(prefix)}(.+)-([OC]){CHANGED.get(kind, '')}", ref)
    if found is None:
        return
    words, end = found.groups()
    for place in range(len(words) - 2, max(0, len(words) - LONGEST_STEP - 2), -1):
        if words[place] == "-":
            yield Switching(words[:place], words[place + 1 :], end)


@dataclass(frozen=True)
class Source:
    """A row of an export by what it is about: which export, and the name or number there."""

    export: str
    name: str
    text: str


def sources_of(kind: str, ref: str, prefix: str) -> Iterator[Source]:
    """What the reference of a command of some kind may come from."""
    if kind in CHANGED:
        for each in switchings_of(ref, prefix, kind):
            yield Source("oms", f"{each.ticket} {each.step}", str(each))
    elif found := re.fullmatch("GIS-(?:BUS|SECTION|DEVICE|LIFE)-(.+)", ref):
        name = found.group(1)
        yield Source("gis", name, f"{'device' if kind == 'life' else kind} {name}")
        if kind == "life" and (numbered := re.fullmatch("(.+)-[0-9]+", name)):
            yield Source("gis", numbered.group(1), f"device {numbered.group(1)}")
    elif (found := re.fullmatch("CIS-([0-9]+)(?:-.*)?", ref)) and (mark := told_by(ref)):
        yield Source("customers", mark, f"customer {found.group(1)}")
    elif found:
        yield Source("customers", found.group(1), f"customer {found.group(1)}")
    elif found := re.fullmatch("CAUSE-([0-9]+)", ref):
        yield Source("causes", found.group(1), f"cause {found.group(1)}")
