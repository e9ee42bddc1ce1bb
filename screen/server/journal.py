"""The screen's own log: who sent what under which reference, when, and what was answered. Append only, a JSON object a line."""

import json
import os
from collections.abc import Iterator, Sequence
from contextlib import suppress
from dataclasses import dataclass
from datetime import datetime, timezone
from functools import partial
from pathlib import Path
from typing import Any

from .commands import fields_of
from .names import Names, folded, name_in

IMPORT, ELSEWHERE = "import", "elsewhere"  # kinds of sendings beside those of commands


@dataclass(slots=True)
class Sending:
    """A command, or a file of them, that was sent; or commands of another program, at the second at which they were seen."""

    at: int
    login: str
    reference: str
    kind: str
    fields: Sequence[str] = ()
    outcome: str = "unanswered"  # or saved, refused
    number: int | None = None  # of the command, once it is saved
    remark: str = ""
    refusal: str = ""
    commands: tuple[int, int] | None = None  # the first and the last number of those that came at once

    def is_by(self, part: str) -> bool:
        """Whether its sender has a text in the login or in the name; upper case."""
        return part in self.login.upper() or part in folded(self.login) or part in (name_in(self.reference) or "")


class Journal:
    def __init__(self, path: Path | None):
        self.path = path
        self.sendings: list[Sending] = []
        self.open: dict[tuple[str, str], Sending] = {}  # by login and reference: those whose answer isn't read yet
        self.sent: dict[str, int] = {}  # by reference: the second at which a command was sent first
        self.names = Names()
        if path is not None and path.exists():
            with path.open(encoding="utf-8", errors="replace") as file:
                for line in file:
                    self._remember(line)

    def _remember(self, line: str) -> None:
        """A line that was cut off by a loss of power is left out of what pages show; the file keeps it."""
        with suppress(ValueError, TypeError, LookupError, AttributeError):
            self._keep(json.loads(line))

    def _keep(self, row: dict[str, Any]) -> None:
        login, reference, sent = row["login"], row["reference"], row.get("sent")
        at, commands = int(datetime.fromisoformat(row["time"]).timestamp()), None
        if row.get("commands"):
            first, last = row["commands"]
            commands = int(first), int(last)
        if sent is not None:
            sending = Sending(at, login, reference, sent["kind"], fields_of(sent), remark=row.get("remark", ""))
            self.sendings.append(sending)
            self.open[login, reference] = sending
            if reference:
                self.sent.setdefault(reference, at)
            if "name" in row:  # of a proxy's login
                self.names.keep(login, row["name"])
        elif login:
            opened = self.open.pop((login, reference), None)
            if opened is not None:
                opened.commands = commands
                take_answer(opened, row.get("answer"))
        elif commands is not None:
            self.sendings.append(Sending(at, "", "", ELSEWHERE, outcome="saved", commands=commands))

    def write(self, login: str, reference: str, **said: Any) -> None:
        row = {"time": datetime.now(timezone.utc).isoformat(timespec="milliseconds"), "login": login}
        row |= {"reference": reference, **said}
        self._keep(row)
        if self.path is None:
            return
        with open(self.path, "ab", buffering=0, opener=partial(os.open, mode=0o600)) as file:
            file.write((json.dumps(row) + "\n").encode())

    def between(self, since: int, until: int, part: str = "") -> Iterator[Sending]:
        """What was sent from one second up to another, latest first, by whoever has a text in the name."""
        for sending in reversed(self.sendings):
            if since <= sending.at < until and sending.is_by(part):
                yield sending

    def remark_of(self, reference: str) -> str:
        """The remark that was sent with a command, if there is one."""
        return next((each.remark for each in self.sendings if each.remark and each.reference == reference), "")

    def last_number(self) -> int | None:
        """The last command that the log knows of; None where it knows of none."""
        found = (each.commands[1] if each.commands else each.number for each in reversed(self.sendings))
        return max((number for number in found if number), default=None)


def take_answer(sending: Sending, answer: object) -> None:
    """What the desk answered; an answer that isn't one of the desk's leaves the sending unanswered."""
    if not isinstance(answer, dict):
        return
    if isinstance(answer.get("no"), int):
        sending.outcome, sending.number = "saved", answer["no"]
    elif sending.kind == IMPORT and "added" in answer:
        stopped = answer.get("stopped")
        sending.outcome = "refused" if stopped else "saved"
        sending.refusal = f"row {stopped.get('row')}: {refusal_of(stopped)}" if isinstance(stopped, dict) else ""
    elif "refused" in answer:
        sending.outcome, sending.refusal = "refused", refusal_of(answer)


def refusal_of(answer: dict[str, Any]) -> str:
    """The number and the name of a refusal, as the desk writes them."""
    parts = (answer.get(name) for name in ("refused", "name", "detail"))
    return " ".join(str(part) for part in parts if part is not None)
