"""The program at work on a copy of a book: it is served on a free port of this machine as long as it is asked."""

import http.client
import json
import subprocess
import tempfile
from collections.abc import Iterator
from contextlib import closing, contextmanager
from dataclasses import dataclass
from pathlib import Path

from outage_tools.errors import BookError

LONGEST_BODY = 4_194_304  # bytes
LONGEST_REPLY = 600  # seconds


@dataclass(frozen=True)
class Refusal:
    """Why a row is refused: the number and the name of the refusal, its detail where it has one."""

    number: int
    name: str
    detail: int | None

    def __str__(self) -> str:
        return " ".join(str(part) for part in (self.number, self.name, self.detail) if part is not None)


@dataclass(frozen=True)
class Imported:
    """What the import of a text answers; `row` is the row that stopped it, with its refusal."""

    added: int
    again: int
    row: int | None
    refusal: Refusal | None


@dataclass(frozen=True)
class Desk:
    """A book that is served."""

    connection: http.client.HTTPConnection

    def answer(self, method: str, route: str, body: bytes | None = None) -> bytes:
        """The body of a reply that says 200 or 422."""
        try:
            self.connection.request(method, route, body)
            reply = self.connection.getresponse()
            told = reply.read()
        except (OSError, http.client.HTTPException) as error:
            raise BookError(f"the program that serves the copy doesn't answer: {error!r}") from None
        if reply.status not in (200, 422):
            raise BookError(f"the program that serves the copy answers {reply.status} to {method} {route}")
        return told

    def table(self) -> list[str]:
        """The lines of the annual table."""
        return self.answer("GET", "/table").decode("ascii").splitlines()

    def import_text(self, text: bytes) -> Imported:
        """Acts the rows of a text up to the first that is refused."""
        told = json.loads(self.answer("POST", "/import", text))
        stopped = told["stopped"]
        if stopped is None:
            return Imported(told["added"], told["again"], None, None)
        refusal = Refusal(stopped["refused"], stopped["name"], stopped.get("detail"))
        return Imported(told["added"], told["again"], stopped["row"], refusal)


@contextmanager
def served(program: str, book: Path) -> Iterator[Desk]:
    """A book's file, served by the program until the block ends. The program is ended then, which is safe at any moment."""
    with tempfile.TemporaryFile() as complaints:
        command = [program, "serve", "--book", str(book), "--port", "0"]
        try:
            child = subprocess.Popen(command, stdin=subprocess.DEVNULL, stdout=subprocess.PIPE, stderr=complaints)
        except OSError as error:
            raise BookError(f"the program {program} can't be run ({error.strerror}): --program PATH names it") from None
        assert child.stdout is not None
        try:
            told = child.stdout.readline().decode("ascii", "replace").rpartition(":")
            if told[0] != "listening 127.0.0.1":
                child.wait()
                complaints.seek(0)
                reason = complaints.read().decode("utf-8", "replace").strip()
                raise BookError(f"the program doesn't serve this book: {reason}")
            with closing(http.client.HTTPConnection("127.0.0.1", int(told[2]), timeout=LONGEST_REPLY)) as connection:
                yield Desk(connection)
        finally:
            child.kill()
            child.wait()
            child.stdout.close()
