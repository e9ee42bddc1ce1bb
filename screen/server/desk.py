"""The desk as the screen's server speaks to it: one request at a time, each over a connection of its own that is closed."""

import asyncio
import ctypes
import json
import signal
from dataclasses import dataclass
from pathlib import Path
from typing import Any

import aiohttp

ANSWER_SECONDS = 10.0
LOOK_SECONDS = 3.0
IMPORT_SECONDS = 300.0
SEND_SECONDS = 25.0  # for all tries of a command
BETWEEN_TRIES = 0.25
SHOWN_ERROR = 300
ALONE: dict[str, Any] = {
    "headers": {"Connection": "close"},
    "allow_redirects": False,
}  # a request of its own connection


class Away(Exception):
    """The desk gave no answer: nothing is known of what it did."""


@dataclass(frozen=True)
class Answer:
    """A reply of the desk, its body word for word."""

    status: int
    body: bytes

    def json(self) -> Any:
        return json.loads(self.body)


class Desk:
    """A desk at an address. Requests wait for each other, so the desk has one connection of this screen at most."""

    def __init__(self, url: str | None):
        self.url = url
        self.why_away: str | None = None if url else "the book's server hasn't been started yet"
        self.is_busy = False
        self.order = asyncio.Lock()

    async def ask(self, method: str, route: str, body: bytes | None = None, seconds: float = ANSWER_SECONDS) -> Answer:
        """One request, once. A 503 counts as no answer: the desk had a fault and doesn't know its book."""
        async with self.order:
            if self.url is None:
                raise Away(self.why_away or "the book has no server")
            limit = aiohttp.ClientTimeout(total=seconds)
            try:
                async with aiohttp.request(method, self.url + route, data=body, timeout=limit, **ALONE) as reply:
                    answer = Answer(reply.status, await reply.read())
            except (aiohttp.ClientError, asyncio.TimeoutError, OSError) as error:
                late = isinstance(error, asyncio.TimeoutError) and f"no answer within {seconds:.0f} seconds"
                self.why_away = late or f"{type(error).__name__}: {error}"[:SHOWN_ERROR]
                raise Away(self.why_away) from None
            if answer.status == 503:
                self.why_away = "the book's server had a fault (503)"
                raise Away(self.why_away)
            self.why_away, self.is_busy = None, False
            return answer

    async def look(self, route: str, body: bytes | None = None) -> Answer:
        """What changes nothing: it waits a short time for its turn and the answer. A desk that is away, or let others wait in
        vain, isn't asked until it has answered something."""
        if self.url is None or self.why_away or self.is_busy:
            raise Away(self.why_away or "the book's server is busy")
        try:
            async with asyncio.timeout(LOOK_SECONDS):
                return await self.ask("POST" if body else "GET", route, body)
        except TimeoutError:
            self.is_busy = True
            raise Away("the book's server is busy") from None

    async def send(self, command: dict[str, str]) -> tuple[Answer, int]:
        """Sends a command until it is answered, always under its reference: the answer, and how many tries it took."""
        return await self.insist("POST", "/commands", SEND_SECONDS, json.dumps(command).encode())

    async def insist(self, method: str, route: str, seconds: float, body: bytes | None = None) -> tuple[Answer, int]:
        """Asks until there is an answer: that, and how many tries it took."""
        end, tries = asyncio.get_running_loop().time() + seconds, 0
        while True:
            tries += 1
            try:
                return await self.ask(method, route, body), tries
            except Away:
                if asyncio.get_running_loop().time() + BETWEEN_TRIES > end:
                    raise
                await asyncio.sleep(BETWEEN_TRIES)


def end_with_parent() -> None:
    """The child is told to end when the screen's process does, however that ends."""
    parent_death_signal = 1
    ctypes.CDLL(None).prctl(parent_death_signal, signal.SIGTERM)


class OwnDesk:
    """A desk that the screen starts over its book, starts again where it was killed, and ends with itself."""

    FINAL = (2, 64)  # the file is no book, or the words are wrong: starting again doesn't help
    BETWEEN_STARTS, AFTER_FAILURE = 0.5, 5.0

    def __init__(self, desk: Desk, program: str, book: Path):
        self.desk, self.program, self.book = desk, program, book
        self.process: asyncio.subprocess.Process | None = None
        self.is_final = False
        self.first_start: asyncio.Future[str | None] = asyncio.get_running_loop().create_future()
        self.keeping = asyncio.create_task(self.keep())

    async def begun(self) -> None:
        """Waits for the first start, and raises why it failed."""
        if why := await self.first_start:
            raise Away(why)

    async def keep(self) -> None:
        """Starts the desk, and again each time it has ended."""
        while True:
            why = await self.run_once()
            self.desk.url, self.desk.why_away = None, why
            if not self.first_start.done():
                self.first_start.set_result(why)
            if self.is_final:
                return
            await asyncio.sleep(self.BETWEEN_STARTS if self.process else self.AFTER_FAILURE)

    async def run_once(self) -> str:
        """Runs the desk until it ends: why it did."""
        words = [self.program, "serve", "--book", str(self.book), "--port", "0"]
        pipe = asyncio.subprocess.PIPE
        self.process = None
        try:
            starting = asyncio.create_subprocess_exec(*words, stdout=pipe, stderr=pipe, preexec_fn=end_with_parent)
            self.process = await starting
        except OSError as error:
            self.is_final = True
            return f"the program {self.program} can't be run: {error.strerror}"
        assert self.process.stdout is not None and self.process.stderr is not None
        line = (await self.process.stdout.readline()).decode(errors="replace").strip()
        if line.startswith("listening 127.0.0.1:"):
            self.desk.url, self.desk.why_away = f"http://{line.split()[1]}", None
            self.is_here()
            if not self.first_start.done():
                self.first_start.set_result(None)
        last = b""
        async for said in self.process.stderr:
            last = said
        status = await self.process.wait()
        self.is_final = status in self.FINAL
        return f"the book's server ended with status {status}: {last.decode(errors='replace').strip()}"

    def is_here(self) -> None:
        """The desk takes requests from now on."""

    async def end(self) -> None:
        self.keeping.cancel()
        if self.process is not None and self.process.returncode is None:
            self.process.terminate()
            await self.process.wait()
        await asyncio.gather(self.keeping, return_exceptions=True)
