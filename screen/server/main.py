"""The command `outagebook-screen`: its words, and the run of the server."""

import argparse
import asyncio
import logging
import resource
import signal
import sys
from contextlib import AsyncExitStack
from pathlib import Path

from aiohttp import web

from .desk import Away, Desk, OwnDesk
from .guard import Guard, Limits
from .journal import Journal
from .office import Office, new_state
from .reader import BookError, Parser, read_later
from .deskcopy import DeskCopy
from .state import State
from .web import Settings, application

FIRST_ANSWER_SECONDS = 600
OPEN_FILES = 8_192
LONGEST_LIMIT = 3_600


def seconds(text: str) -> float:
    """A limit of time: some seconds, an hour at most."""
    found = float(text)
    if not 0 < found <= LONGEST_LIMIT:
        raise ValueError
    return found


def read_words() -> argparse.Namespace:
    words = Parser(prog="outagebook-screen", description="The screen of an outage book, for browsers on 127.0.0.1.")
    words.add_argument("--book", metavar="FILE", type=Path, required=True, help="the book that the desk serves")
    words.add_argument("--port", type=int, default=8081, help="the port of 127.0.0.1 (8081); 0 takes one that is free")
    words.add_argument("--desk", metavar="URL", help="a desk that is there; without it the screen starts its own")
    words.add_argument("--no-desk", action="store_true", help="look at a copy of a book, without any desk")
    words.add_argument("--program", metavar="PATH", default="outagebook", help="the program (outagebook on the path)")
    words.add_argument("--read-only", action="store_true", help="nobody may send commands")
    words.add_argument("--proxy", metavar="ADDRESS", help="the address whose X-Remote-User is the login, as 127.0.0.1")
    words.add_argument("--senders", metavar="PREFIX", default="", help="only logins that begin so may send commands")
    words.add_argument("--name", metavar="TEXT", help="the book's name on each page (that of its file)")
    words.add_argument("--training", action="store_true", help="a book for training: pages have another colour")
    words.add_argument("--host", metavar="NAME", action="append", default=[], help="a name by which browsers call it")
    words.add_argument("--log", metavar="FILE", type=Path, help="its own log (the book's name and -screen.jsonl)")
    words.add_argument("--head-seconds", metavar="N", type=seconds, default=Limits.head, help="for a whole head (10)")
    words.add_argument("--body-seconds", metavar="N", type=seconds, default=Limits.body, help="for its body (30)")
    given = words.parse_args()
    if given.desk and given.no_desk:
        words.error("--desk and --no-desk exclude each other")
    if not 0 <= given.port <= 65_535:
        words.error("there is no such port")
    return given


async def start_desk(given: argparse.Namespace, at_end: AsyncExitStack) -> Desk | None:
    """The desk that is asked for, at work."""
    if given.no_desk:
        return None
    if given.desk:
        desk = Desk(given.desk.rstrip("/"))
        await desk.insist("GET", "/commands/0", FIRST_ANSWER_SECONDS)  # a large book takes its time to load
        return desk
    own = OwnDesk(Desk(None), given.program, given.book.resolve())
    at_end.push_async_callback(own.end)
    await own.begun()
    return own.desk


async def known_state(copy: DeskCopy, book: Path) -> State:
    """The rows of a book that is looked at without its desk; the copy has what they have."""
    await copy.begun()
    state = new_state(book)
    for command, moves in read_later(book, copy.known):
        if command.number <= state.number:
            copy.note(command, moves)
    return state


async def serve(given: argparse.Namespace) -> None:
    ended, book = asyncio.Event(), given.book.resolve()
    for each in (signal.SIGTERM, signal.SIGINT):
        asyncio.get_running_loop().add_signal_handler(each, ended.set)
    async with AsyncExitStack() as at_end:
        desk = await start_desk(given, at_end)
        copy = DeskCopy(given.program, book)
        at_end.push_async_callback(copy.end)
        log = given.log or given.book.with_name(f"{given.book.name}-screen.jsonl")
        state = await known_state(copy, book) if desk is None else new_state(book)
        office = Office(book, state, desk, copy, Journal(log if desk else None))
        if desk is not None:
            if (await desk.ask("GET", f"/supply/{state.now()}")).status == 404:
                raise BookError("the desk's program is older than this screen")
            office.note_start()
        for work in (office.past(), *([office.watch()] if desk else [])):
            at_end.callback(asyncio.create_task(work).cancel)
        await listen(given, office, ended)


async def listen(given: argparse.Namespace, office: Office, ended: asyncio.Event) -> None:
    settings = Settings(given.program, set(given.host), given.proxy, given.read_only, given.senders)
    settings.name, settings.training = given.name or given.book.stem, given.training
    runner = web.AppRunner(application(office, settings), access_log=None, handle_signals=False)
    await runner.setup()
    loop = asyncio.get_running_loop()
    assert runner.server is not None
    web_server: web.Server = runner.server
    limits = Limits(given.head_seconds, given.body_seconds)
    try:
        server = await loop.create_server(lambda: Guard(web_server(), limits), "127.0.0.1", given.port, backlog=1_024)
    except OSError as error:
        raise BookError(f"port {given.port} can't be bound: {error.strerror}") from None
    port = server.sockets[0].getsockname()[1]
    settings.own_hosts = {f"127.0.0.1:{port}", f"localhost:{port}"}
    settings.hosts |= settings.own_hosts
    print(f"listening 127.0.0.1:{port}", flush=True)
    try:
        await ended.wait()
    finally:
        server.close()
        await web_server.shutdown(1.0)


def main() -> int:
    given = read_words()
    most = resource.getrlimit(resource.RLIMIT_NOFILE)[1]
    resource.setrlimit(resource.RLIMIT_NOFILE, (most if most < OPEN_FILES else OPEN_FILES, most))
    logging.basicConfig(level=logging.ERROR)
    try:
        asyncio.run(serve(given))
    except (BookError, Away) as error:
        print(f"error: {error}", file=sys.stderr)
        return 1
    return 0
