"""A desk over a copy of the book, in a folder that goes away: steps are tried on it one after the other and taken back. It
follows what the book's own desk accepts, and is asked what changes nothing while that one gives no answer.

What was tried leaves the copy's entries with other numbers and revisions than the book's, and nothing else: a switching is
withdrawn again, a correction is corrected back, and a withdrawal is tried as a correction to the period's first second and the
position that the device has there anyway: the entry acts as if it were withdrawn, and is corrected back."""

import asyncio
import os
import secrets
import shutil
import tempfile
from collections import Counter, deque
from collections.abc import AsyncIterator, Awaitable, Callable, Sequence
from contextlib import asynccontextmanager
from dataclasses import dataclass, replace
from itertools import chain
from pathlib import Path
from typing import Any

from .answers import NotPlanned, Plan, SectionChange, Supply, command_body, moves_in, plan_in, supply_in
from .apart import Apart
from .desk import Answer, Away, Desk, OwnDesk
from .reader import BookError, Command, Moves, copy_of, counts_of
from .state import Refused, State, said

MEMORY = Path("/dev/shm")
ROOM = 4  # times the size of the book, for what is tried
READY_SECONDS = 12.0  # for one's turn, and for a copy that is being made
MOST_LATER = 1_000  # commands that a copy follows; after more of them there is a new one
MOST_MADE = 20_000  # entries that were tried and taken back in a copy: a book takes 50,000
STALE, WITHDRAWN = 7, 8  # refusals
OPPOSITES = {"mark": "unmark", "unmark": "mark"}
Step = Sequence[str]  # a command's kind and its fields
Order = Sequence[int]  # places of steps


@dataclass(frozen=True)
class Tried:
    """What a step would do, and the supply at its second before it, where that was looked at."""

    plan: Plan
    before: Supply | None


async def within(seconds: float, waited: Awaitable[Any], why: Callable[[], str]) -> None:
    """Waits for something; where it takes too long it is away, and why."""
    try:
        async with asyncio.timeout(seconds):
            await waited
    except TimeoutError:
        raise Away(why()) from None


def copied(book: Path) -> tuple[tempfile.TemporaryDirectory[str], int, int]:
    """A folder with a copy of a book, in memory where there is some, and how many commands and entries it has."""
    with copy_of(book) as copy:
        commands, entries = counts_of(copy)
        copy.with_name(f"{copy.name}-shm").unlink(missing_ok=True)  # of the counting
        has_room = os.access(MEMORY, os.W_OK) and shutil.disk_usage(MEMORY).free > ROOM * copy.stat().st_size
        folder = tempfile.TemporaryDirectory(prefix="screen-copy-", dir=MEMORY if has_room else None)
        shutil.copytree(copy.parent, folder.name, dirs_exist_ok=True)
    return folder, commands, entries


class DeskCopy(OwnDesk):
    def __init__(self, program: str, original: Path):
        super().__init__(Desk(None), program, original)
        self.original = original
        self.copies = Apart("copies")
        self.order = asyncio.Lock()
        self.ready = asyncio.Event()
        self.known = 0  # the last of the book's commands that the copy has
        self.later: deque[tuple[Command, Moves]] = deque(maxlen=MOST_LATER)
        self.entries: list[int] = []  # the copy's number of each of the book's entries
        self.numbers: dict[int, int] = {}  # the book's number of each of these
        self.changes: deque[tuple[int, list[SectionChange]]] = deque(maxlen=MOST_LATER)  # by the commands it followed
        self.made = 0  # entries that the copy has
        self.revisions: Counter[int] = Counter()  # by how many the copy's revision of an entry is later

    # The copy, and its following.

    async def run_once(self) -> str:
        self.later.clear()
        self.changes.clear()
        self.desk.why_away = self.process = None
        try:
            self.folder, self.known, self.made = await self.copies.run(copied, self.original)
        except (BookError, OSError) as error:
            return str(error)
        self.entries = list(range(1, self.made + 1))
        self.numbers = {number: number for number in self.entries}
        self.revisions.clear()
        self.book = Path(self.folder.name) / "book.db"
        try:
            return await super().run_once()
        finally:
            self.ready.clear()
            self.folder.cleanup()

    def is_here(self) -> None:
        self.folder.cleanup()  # the desk has the files open: they go with it, however this process ends
        self.ready.set()

    def note(self, command: Command, moves: Moves) -> None:
        """Has the copy follow a command that the desk accepted, before it is asked again."""
        if len(self.later) == MOST_LATER and self.ready.is_set():
            self.throw_away()
        self.later.append((command, moves))

    def throw_away(self) -> None:
        """The copy isn't the book any more: another one is made."""
        self.ready.clear()
        if self.process is not None and self.process.returncode is None:
            self.process.kill()

    @asynccontextmanager
    async def turn(self) -> AsyncIterator[None]:
        """The copy for one question, as of the last command that is known. Where that breaks off nothing is known of the copy
        any more: there will be another one."""
        await within(READY_SECONDS, self.order.acquire(), lambda: "the copy of the book is busy")
        try:
            await within(
                READY_SECONDS, self.ready.wait(), lambda: self.desk.why_away or "the copy of the book is being made"
            )
            await self.follow()
            yield
            if self.made - len(self.entries) > MOST_MADE:
                self.throw_away()
        except (Refused, NotPlanned):
            raise
        except BaseException:
            if self.ready.is_set():
                self.throw_away()
            raise
        finally:
            self.order.release()

    async def follow(self) -> None:
        while self.later:
            command, moves = self.later[0]
            if command.number > self.known:
                await self.take(command, moves)
            self.later.popleft()

    async def take(self, command: Command, moves: Moves) -> None:
        """Acts the next command, which has to move what it moved in the book; which outages it changed is kept."""
        try:
            planned = await self.own_plan(command.kind, command.fields)
            is_same = await self.act(command.kind, command.fields, command.ref) == moves
        except NotPlanned:
            is_same = False
        if command.number != self.known + 1 or not is_same:
            raise Away(f"the copy of the book could not follow change no. {command.number}")
        self.known = command.number
        if command.kind == "switch":
            self.entries.append(self.made)
            self.numbers[self.made] = len(self.entries)
        self.changes.append((self.known, [self.told(change) for change in planned.changes]))

    def told(self, change: SectionChange) -> SectionChange:
        """A change with the book's numbers of entries."""
        before, after = (
            [(since, until, self.numbers.get(entry, 0)) for since, until, entry in intervals]
            for intervals in (change.before, change.after)
        )
        return SectionChange(change.section, before, after)

    async def act(self, kind: str, fields: Sequence[str], ref: str = "") -> Moves:
        """Sends a command to the copy for real."""
        return await self.send(kind, self.own(kind, fields), ref or new_reference())

    async def send(self, kind: str, fields: Sequence[str], ref: str) -> Moves:
        answer = await self.desk.ask("POST", "/commands", command_body(kind, fields, ref))
        if answer.status != 200:
            raise Away(f"the copy of the book refused {kind}: {answer.body.decode(errors='replace')}")
        self.made += kind == "switch"
        return moves_in(answer.json())

    def own(self, kind: str, fields: Sequence[str]) -> Sequence[str]:
        """The fields of a command with the copy's own number and revision of an entry; those of an entry that isn't there, or
        that can't be read, stay."""
        number = int(fields[0]) if kind in ("correct", "withdraw") and fields[0].isdecimal() else 0
        if not 1 <= number <= len(self.entries):
            return fields
        revision = str(int(fields[1]) + self.revisions[number]) if fields[1].isdecimal() else fields[1]
        return [str(self.entries[number - 1]), revision, *fields[2:]]

    # What is asked of it.

    async def supply(self, second: int) -> Supply:
        async with self.turn():
            return await self.own_supply(second)

    async def own_supply(self, second: int) -> Supply:
        found = supply_in(await self.desk.ask("GET", f"/supply/{second}"))
        return replace(found, outages=[replace(row, entry=self.numbers.get(row.entry, 0)) for row in found.outages])

    async def plan(self, kind: str, fields: Sequence[str]) -> Plan:
        async with self.turn():
            return await self.own_plan(kind, fields)

    async def own_plan(self, kind: str, fields: Sequence[str]) -> Plan:
        try:
            return plan_in(await self.desk.ask("POST", "/plan", command_body(kind, self.own(kind, fields))))
        except NotPlanned as refused:
            if refused.reply.get("refused") != STALE:
                raise
            revision = int(refused.reply["detail"]) - self.revisions[int(fields[0])]
            raise NotPlanned({**refused.reply, "detail": revision}) from None

    async def changes_after(self, number: int) -> tuple[int, list[SectionChange]] | None:
        """The last command that the copy has, and how those after a number changed outages, in their order; None where it hasn't
        followed all of them."""
        async with self.turn():
            found = [changes for command, changes in self.changes if command > number]
            return (self.known, list(chain.from_iterable(found))) if len(found) == self.known - number else None

    async def ask(self, route: str) -> Answer:
        """A view of the whole book."""
        async with self.turn():
            return await self.desk.ask("GET", route)

    async def indices_around(self, kind: str, fields: Sequence[str]) -> tuple[Any, Any]:
        """The indices before a day is marked, or unmarked, and after it."""
        async with self.turn():
            before = (await self.desk.ask("GET", "/indices")).json()
            await self.act(kind, fields)
            after = (await self.desk.ask("GET", "/indices")).json()
            await self.act(OPPOSITES[kind], fields)
            return before, after

    async def walk(self, state: State, steps: Sequence[Step], orders: Sequence[Order]) -> list[list[Tried]]:
        """What each of some steps would do on what those before it leave, for each order of them; then all is taken back. The
        state is that of the book."""
        async with self.turn():
            return [await self.walk_once(state, steps, order, order is orders[0]) for order in orders]

    async def walk_once(self, state: State, steps: Sequence[Step], order: Order, looks: bool) -> list[Tried]:
        tried: list[Tried] = []
        before, made = state, self.made
        try:
            for place in order:
                kind, *fields = steps[place]
                try:
                    plan = await self.own_plan(kind, fields)
                    refuse_withdrawn(before, state, kind, fields)
                except NotPlanned as refused:
                    raise NotPlanned({**refused.reply, "step": place}) from None
                looked = await self.own_supply(int(fields[2])) if looks and kind == "switch" else None
                tried.append(Tried(plan, looked))
                if place != order[-1]:
                    await self.act(*(harmless(state, *fields) if kind == "withdraw" else (kind, fields)))
                    state = state.after(kind, *fields)
            return tried
        finally:
            await self.take_back(before, state, made)

    async def take_back(self, before: State, after: State, made: int) -> None:
        """Corrects the entries back that were changed, and withdraws those that were made."""
        for entry, tried in zip(before.entries, after.entries):
            if tried.revision > entry.revision:
                seen = self.entries[entry.number - 1], tried.revision + self.revisions[entry.number]
                await self.send("correct", [*map(str, seen), *said(entry)], new_reference())
                self.revisions[entry.number] += tried.revision + 1 - entry.revision
        for number in range(self.made, made, -1):
            await self.send("withdraw", [str(number), "1"], new_reference())


def new_reference() -> str:
    return f"TRY-{secrets.token_hex(12).upper()}"


def harmless(state: State, number: str, revision: str) -> tuple[str, list[str]]:
    """The correction with which an entry acts as if it were withdrawn."""
    entry, first = state.entries[int(number) - 1], state.period.first
    device = state.devices[entry.device]
    last = state.last_entry(device, first, entry.number)
    as_if = replace(entry, closes=last.closes if last else device.is_closed, second=first)
    return "correct", [number, revision, *said(as_if)]


def refuse_withdrawn(before: State, state: State, kind: str, fields: Sequence[str]) -> None:
    """An entry that a step before has withdrawn is kept in the copy: the book refuses what changes it. One that is corrected to
    the second at which those stand might act before them."""
    if kind != "switch" and not state.entries[int(fields[0]) - 1].is_kept:
        raise NotPlanned({"refused": WITHDRAWN, "name": "Withdrawn"})
    are_kept = all(entry.is_kept or not known.is_kept for known, entry in zip(before.entries, state.entries))
    if kind == "correct" and int(fields[3]) == state.period.first and not are_kept:
        raise Away("behind a withdrawal an entry is corrected to the period's first second")
