"""Names as a book has them: 1 to 24 of A-Z, 0-9, - and _, each once."""

import hashlib
import re
from collections import defaultdict
from collections.abc import Iterable

from outage_tools.oms.conversion import MOST_NAME

DIGITS = 6  # of a label's digest, in a name that is shortened or that two labels would have
SECTION, BUS = "S-", "B-"


def cleaned(label: str) -> str:
    """A label in capitals, with - for all that no name has."""
    return re.sub("[^A-Z0-9_-]", "-", label.upper())


def told_apart(name: str, label: str) -> str:
    """A name that no other label has: the beginning of it, and digits that hang on the label alone."""
    digest = hashlib.sha256(label.encode()).hexdigest()[:DIGITS].upper()
    return f"{name[:MOST_NAME - DIGITS - 1]}-{digest}"


def book_names(labels: Iterable[str], earlier: dict[str, str], taken: set[str]) -> dict[str, str]:
    """The name of each label: that of an earlier run; else the label itself, where it is one; else in capitals and with -, and
    shortened or with digits where it is too long or where another label would have it too."""
    labels = list(labels)
    found = {label: earlier[label] for label in labels if label in earlier}
    alike: dict[str, list[str]] = defaultdict(list)
    for label in labels:
        if label not in found:
            alike[cleaned(label)].append(label)
    for name, listed in alike.items():
        for label in listed:
            is_own = label == name or (len(listed) == 1 and name not in taken)
            found[label] = name if len(name) <= MOST_NAME and is_own and name not in taken else told_apart(name, label)
    return found


def node_name(prefix: str, device: str, label: str, taken: set[str]) -> str:
    """The name of the bus or section behind a device, which nothing else has."""
    name = prefix + device
    return told_apart(name, label) if len(name) > MOST_NAME or name in taken else name
