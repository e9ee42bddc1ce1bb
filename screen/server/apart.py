"""Work that takes its time, off the loop: each kind of it has a thread of its own, so that none waits for another kind."""

import asyncio
from collections.abc import Callable, Coroutine
from concurrent.futures import ThreadPoolExecutor
from typing import Any, TypeVar

Done = TypeVar("Done")


class Apart:
    """A thread for one kind of work: one piece at a time, in order."""

    def __init__(self, kind: str):
        self.thread = ThreadPoolExecutor(1, thread_name_prefix=kind)

    async def run(self, work: Callable[..., Done], *given: object) -> Done:
        return await asyncio.get_running_loop().run_in_executor(self.thread, work, *given)


class Kept:
    """What is made of the whole book: once for all who ask for it, until the book has another command. Who asks while it is
    being made gets that one, or its failure."""

    def __init__(self, version: Callable[[], object], make: Callable[[], Coroutine[Any, Any, Any]]):
        self.version, self.make = version, make
        self.of: object = None
        self.making: asyncio.Task[Any] | None = None

    async def get(self) -> Any:
        while self.making is not None and not self.making.done() and self.of != self.version():
            await asyncio.wait([self.making])  # it is of an older version
        if self.making is None or self.of != self.version() or (self.making.done() and self.making.exception()):
            self.of, self.making = self.version(), asyncio.create_task(self.make())
        return await asyncio.shield(self.making)
