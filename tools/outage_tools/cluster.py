"""Work on many books on a cluster of Dask's `distributed`, which is Debian's python3-distributed.

A worker takes a book by its path if the same bytes lie there; else the book is sent to it. Each worker has these tools
and the program. The answer is that of one machine, or a failure with the name of a book: a worker that ends loses nothing,
since the scheduler gives its books to another; after a scheduler that ended the books that lack an answer are asked for
again, once a scheduler listens at the same address.
"""

import hashlib
import logging
import os
import tempfile
import time
import warnings
from collections import deque
from collections.abc import Callable, Generator, Iterator, Sequence
from concurrent.futures import CancelledError
from contextlib import contextmanager, suppress
from dataclasses import dataclass
from functools import lru_cache
from pathlib import Path
from typing import Any, Generic, TypeVar

from outage_tools.copies import copy_of, log_of
from outage_tools.errors import BookError, lacks
from outage_tools.versions import tools_sum

Result = TypeVar("Result")
Told = tuple[str, Result | None, str]  # what was wrong ("" if nothing), the result, the text of what was wrong

PATIENCE = 60.0  # seconds for a scheduler or a first worker to come
CONNECT = 5.0  # seconds for one try to reach the scheduler
LONGEST = 300.0  # seconds for a result to come over the network
STEP = 1.0  # seconds between looks at what has ended
ABSENT = "absent"  # the book doesn't lie there


class Away(Exception):
    """The scheduler doesn't answer."""


@dataclass(frozen=True)
class Files:
    """The bytes of a book's file and of its log, as of one commit."""

    book: bytes
    log: bytes

    @property
    def digest(self) -> str:
        return hashlib.sha256(b"%d " % len(self.book) + self.book + self.log).hexdigest()


@dataclass(frozen=True)
class Asked:
    """A book that is to be worked on, its table where one is given, and the tools with which."""

    path: str
    digest: str
    table: bytes | None
    program: str
    tools: str
    files: Files | None = None  # for a worker where it doesn't lie

    @property
    def place(self) -> str:
        return os.path.abspath(self.path)


def files_of(path: str) -> Files:
    """A copy of a book."""
    with copy_of(Path(path).resolve()) as copy:
        log = log_of(copy)
        return Files(copy.read_bytes(), log.read_bytes() if log.exists() else b"")


def asked_for(path: str, table: str | None, program: str, is_sent: bool) -> Asked:
    """What a worker has to know of a book. A program that is named by its path is there at the same path."""
    try:
        files = files_of(path)
        text = None if table is None else Path(table).read_bytes()
    except BookError as error:
        raise BookError(str(error) if path in str(error) else f"{path}: {error}") from None
    except OSError as error:
        raise BookError(f"{path}: {error.filename}: {error.strerror}") from None
    there = os.path.abspath(program) if os.sep in program else program
    return Asked(path, files.digest, text, there, tools_sum(), files if is_sent else None)


# On a worker.


@lru_cache(maxsize=None)
def own_tools() -> str:
    return tools_sum()


def lies_here(asked: Asked) -> bool:
    """The same bytes are at the book's path."""
    try:
        return files_of(asked.place).digest == asked.digest
    except BookError:
        return False


def work_here(told: Callable[..., Told[Result]], asked: Asked) -> Told[Result]:
    """A book's result on a worker, or what was wrong, under the path that the user gave."""
    if own_tools() != asked.tools:
        return "error", None, "the worker has other tools than these: install the same packages on all machines"
    if asked.files is None and not lies_here(asked):
        return ABSENT, None, ""
    with tempfile.TemporaryDirectory(prefix="outagebook-") as folder:
        book, table = Path(asked.place), Path(folder) / "table.txt"
        if asked.files is not None:
            book = Path(folder) / Path(asked.path).name
            book.write_bytes(asked.files.book)
            if asked.files.log:
                log_of(book).write_bytes(asked.files.log)
        if asked.table is not None:
            table.write_bytes(asked.table)
        kind, result, text = told(str(book), str(table) if asked.table is not None else None, asked.program)
        return kind, result, text.replace(str(book), asked.path)


# Where the tool runs.


def new_client(address: str) -> Any:
    """A client of the scheduler at an address."""
    try:
        import distributed
    except ImportError:
        raise lacks("a cluster is used", "python3-distributed") from None
    for name in ("distributed", "distributed.client", "asyncio", "tornado"):  # what is lost is asked for again
        logging.getLogger(name).setLevel(logging.CRITICAL)
    warnings.filterwarnings("ignore", message="Large object")  # a book that is sent
    try:
        return distributed.Client(address, timeout=CONNECT)
    except ValueError as error:
        raise BookError(f"{address} is no address of a cluster: {error}") from None


class Scheduler:
    """A scheduler as it was found; another one at its address knows nothing of what was asked for."""

    def __init__(self, client: Any):
        self.client = client
        self.number = client.scheduler_info().get("id")

    def threads(self) -> int:
        """How many threads its workers have."""
        told_of = self.client.scheduler_info()
        if self.client.status != "running" or told_of.get("id") != self.number:
            raise Away("the scheduler ended")
        return sum(int(worker["nthreads"]) for worker in told_of["workers"].values())


@contextmanager
def connected(address: str) -> Iterator[Scheduler]:
    """The scheduler at an address; `Away` if it isn't there or goes away."""
    client = None
    try:
        client = new_client(address)
        yield Scheduler(client)
    except (OSError, TimeoutError, CancelledError) as error:
        raise Away(str(error)) from None
    finally:
        if client is not None:
            client.close(timeout=STEP)


class OnCluster(Generic[Result]):
    """The work on some books: those that wait, those that are worked on, the results."""

    def __init__(
        self, told: Callable[..., Told[Result]], paths: Sequence[str], tables: Sequence[str | None], program: str
    ):
        self.told, self.paths, self.tables, self.program = told, paths, tables, program
        self.waiting = deque(range(len(paths)))
        self.going: dict[Any, int] = {}
        self.sent: set[int] = set()  # the books that lay on no worker that was asked
        self.ended: dict[int, Told[Result]] = {}

    @property
    def is_done(self) -> bool:
        return len(self.ended) == len(self.paths)

    @property
    def left(self) -> str:
        """The books that lack an answer, in words for the user."""
        places = [place for place in range(len(self.paths)) if place not in self.ended]
        more = f" and {len(places) - 1} more" if len(places) > 1 else ""
        return f"{self.paths[places[0]]}{more}"

    def ask(self, scheduler: Scheduler) -> int:
        """Asks for as many books as keep all workers busy: how many threads they have."""
        threads = scheduler.threads()
        while self.waiting and len(self.going) < 2 * threads:
            place = self.waiting[0]
            asked = asked_for(self.paths[place], self.tables[place], self.program, place in self.sent)
            future = scheduler.client.submit(work_here, self.told, asked, pure=False)
            self.going[future] = self.waiting.popleft()
        return threads

    def look(self) -> Iterator[int]:
        """Waits for a moment: the books whose work has ended."""
        from distributed import wait

        if self.going:
            with suppress(TimeoutError, CancelledError):
                wait([*self.going], timeout=STEP, return_when="FIRST_COMPLETED")
        for future in [future for future in self.going if future.status != "pending"]:
            answer = self.answer_of(future)
            place = self.going.pop(future)
            if answer is not None and answer[0] != ABSENT:
                self.ended[place] = answer
                yield place
                continue
            self.waiting.appendleft(place)
            if answer is not None:
                self.sent.add(place)

    def answer_of(self, future: Any) -> Told[Result] | None:
        """What came of a book; None if its work was lost."""
        if future.status == "error":
            error = future.exception(LONGEST)
            return "error", None, f"the cluster: {type(error).__name__}: {error}"
        answer: Told[Result] | None = future.result(LONGEST) if future.status == "finished" else None
        return answer

    def lose_all(self) -> None:
        """All that is worked on waits again."""
        self.waiting.extendleft(sorted(self.going.values(), reverse=True))
        self.going.clear()


def results_on(address: str, work: OnCluster[Result]) -> Generator[tuple[int, Told[Result]], None, None]:
    """Each book's place with what came of it, as they end."""
    last = time.monotonic()  # when a worker was last there
    while not work.is_done:
        why = "has no worker"
        try:
            with connected(address) as scheduler:
                while not work.is_done and time.monotonic() - last < PATIENCE:
                    if work.ask(scheduler):
                        last = time.monotonic()
                    if not work.going:
                        time.sleep(STEP)
                    for place in work.look():
                        yield place, work.ended[place]
        except Away as away:
            why = f"can't be reached: {away}"
            time.sleep(STEP)
        work.lose_all()
        if not work.is_done and time.monotonic() - last >= PATIENCE:
            raise BookError(f"{work.left}: not done, since the cluster {address} {why}")
