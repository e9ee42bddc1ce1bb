"""Work on many books: a process for each, as many at once as processors and memory allow, with progress.

Where the machine lacks what processes share (/dev/shm), this process works on one book after the other. With an address
of a cluster its workers do (cluster.py).
"""

import os
import sys
from argparse import ArgumentParser
from collections.abc import Callable, Generator, Sequence
from concurrent.futures import FIRST_COMPLETED, Future, ProcessPoolExecutor, wait
from contextlib import closing
from functools import partial
from pathlib import Path
from typing import TypeVar

from outage_tools.cli import print_error
from outage_tools.cluster import OnCluster, Told, results_on
from outage_tools.errors import BookError, Differs

Result = TypeVar("Result")
Work = Callable[[str, str | None, str], Result]
Ended = Generator[tuple[int, Told[Result]], None, None]  # a book's place, and what came of it

LEAST_MEMORY = 100_000_000  # bytes that a book takes beside what grows with its file
MEMORY_PER_BYTE = 6  # bytes of memory for each byte of a book's file and log, while it is read


class DiffersIn(Differs):
    """A figure of one of many books isn't its program's."""

    def __init__(self, path: str, text: str):
        Exception.__init__(self, f"{path}: {text}")


def add_spread_arguments(parser: ArgumentParser) -> None:
    """The words that say where the work is done."""
    spread = parser.add_mutually_exclusive_group()
    spread.add_argument("--processes", type=int, metavar="N", help="how many books are read at once")
    spread.add_argument(
        "--cluster", metavar="ADDRESS", help="work on a cluster of Dask's distributed, as tcp://head:8786"
    )


def free_memory() -> int:
    """The bytes that processes may take without pushing others out, as the kernel estimates them."""
    try:
        for line in Path("/proc/meminfo").read_text(encoding="ascii").splitlines():
            if line.startswith("MemAvailable:"):
                return int(line.split()[1]) * 1_024
    except OSError:
        pass
    return os.sysconf("SC_PHYS_PAGES") * os.sysconf("SC_PAGE_SIZE")


def memory_of(path: str) -> int:
    """What the work on a book takes at most, about."""
    files = [Path(path), Path(f"{path}-wal")]
    return LEAST_MEMORY + MEMORY_PER_BYTE * sum(file.stat().st_size for file in files if file.exists())


def processes_for(paths: Sequence[str], asked: int | None) -> int:
    """How many books are worked on at once: as many as were asked for, else one a processor while memory holds them."""
    if asked is not None:
        return max(1, min(asked, len(paths)))
    most = max((memory_of(path) for path in paths), default=LEAST_MEMORY)
    return max(1, min(len(os.sched_getaffinity(0)), len(paths), free_memory() // most))


def told(work: Work[Result], path: str, table: str | None, program: str) -> Told[Result]:
    """A book's result, or what was wrong with it, in a form that passes between processes."""
    try:
        return "", work(path, table, program), ""
    except Differs as differs:
        return "differs", None, str(differs)
    except BookError as error:
        return "error", None, str(error)


def failure(path: str, kind: str, text: str) -> Exception:
    """What was wrong with a book, with its path where the text hasn't it."""
    told_path = text if path in text else f"{path}: {text}"
    return DiffersIn(path, text) if kind == "differs" else BookError(told_path)


def one_after_another(
    work: Work[Result], paths: Sequence[str], tables: Sequence[str | None], program: str
) -> Ended[Result]:
    """What came of each book, in this process."""
    for place, (path, table) in enumerate(zip(paths, tables)):
        yield place, told(work, path, table, program)


def new_pool(count: int) -> ProcessPoolExecutor | None:
    """So many processes; none for one book at once, or where locks between processes can't be made, as without /dev/shm."""
    try:
        return ProcessPoolExecutor(count) if count > 1 else None
    except (OSError, NotImplementedError):
        return None


def side_by_side(
    pool: ProcessPoolExecutor, work: Work[Result], paths: Sequence[str], tables: Sequence[str | None], program: str
) -> Ended[Result]:
    """What came of each book, as they end."""
    going: dict["Future[Told[Result]]", int] = {
        pool.submit(told, work, path, table, program): place for place, (path, table) in enumerate(zip(paths, tables))
    }
    waiting = set(going)
    try:
        while waiting:
            ended, waiting = wait(waiting, return_when=FIRST_COMPLETED)
            for future in ended:
                yield going[future], future.result()
    finally:
        pool.shutdown(wait=True, cancel_futures=True)


def over_books(
    work: Work[Result],
    paths: Sequence[str],
    tables: Sequence[str | None],
    program: str,
    processes: int | None,
    cluster: str | None = None,
) -> list[Result]:
    """The results of all books in their order. The first that fails ends the work, and its path is told."""
    if cluster is not None:
        ended = results_on(cluster, OnCluster(partial(told, work), paths, tables, program))
    elif pool := new_pool(processes_for(paths, processes)):
        ended = side_by_side(pool, work, paths, tables, program)
    else:
        ended = one_after_another(work, paths, tables, program)
    results: dict[int, Result] = {}
    with closing(ended):
        for place, (kind, result, text) in ended:
            if result is None:
                raise failure(paths[place], kind, text)
            results[place] = result
            tell_progress(len(results), len(paths), paths[place])
    return [results[place] for place in range(len(paths))]


def tell_progress(done: int, of: int, path: str) -> None:
    """A line for a person who waits: only where standard error is a terminal."""
    if of > 1 and sys.stderr.isatty():
        print_error(f"{done} of {of}: {path}")
