"""The name that a login has in the book, as a crew or an engineer: no two logins have the same one."""

import re

LETTERS = 16
NAME = re.compile(r"[A-Z0-9_-]{1,16}")
REFERENCE = re.compile(r"SCR-([A-Z0-9_-]{1,16})-[A-Z0-9_]+")  # of one name alone: the last part has no hyphen
REFERENCE_LETTERS = 40


def folded(login: str) -> str:
    """A login in the book's alphabet: upper case, 16 letters at most. Two logins may fold to the same text."""
    return re.sub(r"[^A-Z0-9_-]", "-", login.upper())[:LETTERS]


def name_in(reference: str) -> str | None:
    """The name in a reference of the screen's; None where another program made it."""
    found = REFERENCE.fullmatch(reference) if len(reference) <= REFERENCE_LETTERS else None
    return found[1] if found else None


def outage_in(reference: str) -> str | None:
    """What the references of an outage's steps have in common: before the letters that make each unique, a ticket's number, or
    one that begins with `_` where no ticket was given. A reference of another program counts as a ticket."""
    if name_in(reference) is None:
        return reference.replace("-", "_") or None
    return reference.rpartition("-")[2].rpartition("_")[0] or None


class Names:
    """The names of logins that send: the first login that folds to a name has it, a later one gets a number behind it."""

    def __init__(self) -> None:
        self.by_login: dict[str, str] = {}

    def keep(self, login: str, name: str) -> None:
        """Takes a name under which a login sent before; of two logins with the same one, the first keeps it."""
        if name not in self.by_login.values():
            self.by_login.setdefault(login, name)

    def of(self, login: str) -> str:
        if login not in self.by_login:
            taken, name, number = set(self.by_login.values()), folded(login), 1
            while name in taken:
                number += 1
                name = f"{folded(login)[: LETTERS - 1 - len(str(number))]}-{number}"
            self.by_login[login] = name
        return self.by_login[login]
