"""A year's book in plain Python, standard library alone, to compare the proved book with. It shares no code with it.

    python3 benches/year.py bench-data/year.txt             # all customer-seconds, and those by cause, feeder and day
    python3 benches/year.py bench-data/year.txt --indices   # counts and indices too

It reads a made year (benches/make_year.py), keeps the runs of each section in step with the sheet and the devices'
lives, and posts what each command moves. A change of the sheet sweeps the window from its first second up to its device's
next entry and no more; a life that is set anew, from the first second that only one of the two lives holds up to the
last one.
"""

import argparse
from bisect import bisect_left, bisect_right, insort
from collections.abc import Iterator
from dataclasses import dataclass
from fractions import Fraction
from itertools import groupby
from math import inf

FIRST = 1_704_067_200
DAYS = 366
DAY = 86_400
Run = tuple[int, int, int | None]  # first second, the one after, the cutter's number
Life = tuple[float, float]  # first second, the one after, or infinite
YEAR = [FIRST + DAY * number for number in range(DAYS + 1)]


class Services:
    """The services of a section's customers: their first seconds and their ends, sorted, with running sums."""

    def __init__(self) -> None:
        self.begins: list[int] = []
        self.ends: list[int] = []
        self.sums: tuple[list[int], list[int]] | None = None

    def add(self, since: int, until: float) -> None:
        insort(self.begins, since)
        if until != inf:
            insort(self.ends, int(until))
        self.sums = None

    def remove(self, since: int, until: float) -> None:
        self.begins.pop(bisect_left(self.begins, since))
        if until != inf:
            self.ends.pop(bisect_left(self.ends, until))
        self.sums = None

    def before(self, second: int) -> int:
        """The customer-seconds in service before a second."""
        if self.sums is None:
            self.sums = running_sums(self.begins), running_sums(self.ends)
        begun = bisect_left(self.begins, second)
        ended = bisect_left(self.ends, second)
        return (begun - ended) * second - self.sums[0][begun] + self.sums[1][ended]


def running_sums(numbers: list[int]) -> list[int]:
    sums = [0]
    for number in numbers:
        sums.append(sums[-1] + number)
    return sums


class OneService:
    """The service of one customer."""

    def __init__(self, since: int, until: float) -> None:
        self.since = since
        self.until = until

    def before(self, second: int) -> int:
        return max(0, int(min(second, self.until)) - self.since)


@dataclass(slots=True)
class Entry:
    """A line of the switching sheet."""

    device: int
    closes: bool
    second: int
    cause: int
    revision: int = 1


class Book:
    """The book of some days, by their bounds: those of the 366 days from 2024-01-01 in UTC where none are given.

    Nodes are numbers, GRID is 0. A life is a pair of
    its first second and the one after it. A run is a triple of its first second, the second after it and its cutter's
    number, None where it has no cutter.
    """

    def __init__(self, bounds: list[int] = YEAR) -> None:
        self.bounds = bounds
        self.whole: Run = (bounds[0], bounds[-1], None)
        self.node_of = {"GRID": 0}
        self.feeder_of: list[int | None] = [None]
        self.joined: list[list[tuple[int, int]]] = [[]]
        self.device_of: dict[str, int] = {}
        self.normal: list[bool] = []
        self.lives: list[Life] = []
        self.turns: list[tuple[int, int]] = []  # the seconds at which lives begin and end, rising, with their devices
        self.customers: dict[str, tuple[int, int, float]] = {}
        self.services = [Services()]
        self.entries = [Entry(0, False, 0, 0)]  # numbered from 1
        self.order: list[tuple[int, int]] = []  # second and number
        self.order_of: list[list[tuple[int, int]]] = []
        self.runs: list[list[Run]] = [[]]
        self.marked: set[str] = set()
        self.by_cause: dict[int, int] = {}
        self.by_feeder: dict[int, int] = {}
        self.by_day: dict[int, int] = {}

    def act(self, kind: str, *fields: str) -> None:
        getattr(self, f"act_{kind}")(*fields)

    def act_cause(self, code: str, name: str) -> None:
        pass

    def act_bus(self, name: str, feeder: str | None = None) -> None:
        self.node_of[name] = len(self.node_of)
        self.feeder_of.append(int(feeder) if feeder else None)
        self.joined.append([])
        self.services.append(Services())
        self.runs.append([self.whole])

    act_section = act_bus

    def act_device(self, name: str, a: str, b: str, normal: str, since: str, until: str) -> None:
        device = self.device_of[name] = len(self.normal)
        one, other = self.node_of[a], self.node_of[b]
        self.joined[one].append((device, other))
        self.joined[other].append((device, one))
        self.normal.append(normal == "closed")
        self.order_of.append([])
        self.lives.append(NEVER)
        self.live(device, int(since), end_of(until))

    def act_life(self, name: str, since: str, until: str) -> None:
        self.live(self.device_of[name], int(since), end_of(until))

    def live(self, device: int, since: int, until: float) -> None:
        """Sets a device's life anew, and finds the runs anew from the first second to the last that one of both holds."""
        old, new = self.lives[device], (since, until)
        self.lives[device] = new
        self.turns = [turn for turn in self.turns if turn[1] != device]
        for second in new:
            if second != inf:
                insort(self.turns, (int(second), device))
        window = differing(old, new, self.bounds[0], self.bounds[-1])
        if window and (self.normal[device] or self.order_of[device]):
            self.sweep(window[0], min(window[1] + 1, self.bounds[-1]))

    def act_connect(self, number: str, section: str, since: str, until: str) -> None:
        node, first, end = self.node_of[section], int(since), end_of(until)
        self.customers[number] = node, first, end
        self.post(node, OneService(first, end), self.runs[node], 1)
        self.services[node].add(first, end)

    def act_revise(self, number: str, since: str, until: str) -> None:
        node, old_first, old_end = self.customers[number]
        first, end = int(since), end_of(until)
        self.customers[number] = node, first, end
        self.post(node, OneService(old_first, old_end), self.runs[node], -1)
        self.post(node, OneService(first, end), self.runs[node], 1)
        self.services[node].remove(old_first, old_end)
        self.services[node].add(first, end)

    def act_switch(self, device: str, act: str, second: str, cause: str, crew: str) -> None:
        entry = Entry(self.device_of[device], act == "close", int(second), int(cause))
        number = len(self.entries)
        self.entries.append(entry)
        self.keep(number)
        self.sweep_entry(entry.device, number, entry.second, entry.second)

    def act_correct(self, number: str, revision: str, act: str, second: str, cause: str, crew: str) -> None:
        at, entry = int(number), self.entries[int(number)]
        if int(cause) != entry.cause:
            self.post_cutter(at, -1)
            entry.cause = int(cause)
            self.post_cutter(at, 1)
        first, last = sorted([entry.second, int(second)])
        self.drop(at)
        entry.closes, entry.second = act == "close", int(second)
        entry.revision += 1
        self.keep(at)
        self.sweep_entry(entry.device, at, first, last)

    def act_withdraw(self, number: str, revision: str) -> None:
        at, entry = int(number), self.entries[int(number)]
        self.drop(at)
        self.sweep_entry(entry.device, at, entry.second, entry.second)

    def act_mark(self, date: str, engineer: str) -> None:
        self.marked.add(date)

    def act_unmark(self, date: str, engineer: str) -> None:
        self.marked.remove(date)

    def keep(self, number: int) -> None:
        key = self.entries[number].second, number
        insort(self.order, key)
        insort(self.order_of[self.entries[number].device], key)

    def drop(self, number: int) -> None:
        key = self.entries[number].second, number
        for order in [self.order, self.order_of[self.entries[number].device]]:
            order.pop(bisect_left(order, key))

    def supplied(self, closed: list[bool]) -> list[bool]:
        """Which nodes are supplied, by a search from GRID."""
        reached = [False] * len(self.joined)
        reached[0] = True
        found = [0]
        for node in found:
            for device, other in self.joined[node]:
                if closed[device] and not reached[other]:
                    reached[other] = True
                    found.append(other)
        return reached

    def positions_before(self, second: int) -> list[bool]:
        """The position of each device before a second: that of its last earlier entry, else its normal one."""
        closed = list(self.normal)
        for device, order in enumerate(self.order_of):
            place = bisect_left(order, (second,))
            if place:
                closed[device] = self.entries[order[place - 1][1]].closes
        return closed

    def sweep_entry(self, device: int, number: int, first: int, last: int) -> None:
        """Finds the runs anew from a first second on, up to the device's first entry after the last one."""
        order = self.order_of[device]
        place = bisect_right(order, (last, number))
        self.sweep(first, self.entries[order[place][1]].second + 1 if place < len(order) else self.bounds[-1])

    def is_alive(self, device: int, second: int) -> bool:
        since, until = self.lives[device]
        return since <= second < until

    def steps(self, first: int, end: int) -> list[tuple[int, int, list[int]]]:
        """What may change the supply: lives before the entries of their second, then these in their order.

        Each is a triple of the second, the entry's number, 0 for the lives, and the devices with what they are then told.
        """
        turns = self.turns[bisect_left(self.turns, (first,)) : bisect_left(self.turns, (end,))]
        entries = self.order[bisect_left(self.order, (first,)) : bisect_left(self.order, (end,))]
        lives = groupby(turns, key=lambda turn: turn[0])
        steps = [(second, 0, [device for _, device in of_second]) for second, of_second in lives]
        steps += [(second, number, [self.entries[number].device]) for second, number in entries]
        return sorted(steps)

    def sweep(self, first: int, end: int) -> None:
        """Finds the runs anew from a first second up to an end."""
        switched = self.positions_before(first)
        before = max(first - 1, self.bounds[0])
        closed = [is_closed and self.is_alive(device, before) for device, is_closed in enumerate(switched)]
        was = self.supplied(closed)
        since: list[tuple[int, int | None] | None] = [None if is_reached else (first, None) for is_reached in was]
        found: dict[int, list[Run]] = {node: [] for node, start in enumerate(since) if start}
        for second, step, devices in self.steps(first, end):
            if step:
                switched[devices[0]] = self.entries[step].closes
            new = [switched[device] and self.is_alive(device, second) for device in devices]
            if new == [closed[device] for device in devices]:
                continue
            for device, is_closed in zip(devices, new):
                closed[device] = is_closed
            reached = self.supplied(closed)
            if reached == was:
                continue
            for node, (before, after) in enumerate(zip(was, reached)):
                if before and not after:
                    found.setdefault(node, [])
                    since[node] = self.cut(found[node], second, step or None)
                elif after and not before:
                    start = since[node]
                    if start and start[0] < second:
                        found[node].append((start[0], second, start[1]))
                    since[node] = None
            was = reached
        for node, start in enumerate(since):
            if start:
                found[node].append((start[0], end, start[1]))
        for node, runs in enumerate(self.runs):
            if node in found or (runs and runs[-1][1] > first):
                self.splice(node, found.get(node, []), first, end)

    @staticmethod
    def cut(runs: list[Run], second: int, step: int | None) -> tuple[int, int | None]:
        """A node's supply ends: the run that ended in the same second goes on, or one begins."""
        if runs and runs[-1][1] == second:
            since, _, cutter = runs.pop()
            return since, cutter
        return second, step

    def splice(self, node: int, inner: list[Run], first: int, end: int) -> None:
        """Puts the runs found in a window in the place of those that the node had there."""
        runs = self.runs[node]
        low = bisect_left(runs, first, key=lambda run: run[1])
        high = bisect_right(runs, end, key=lambda run: run[0])
        old = runs[low:high]
        new: list[Run] = []
        if old and old[0][0] < first:
            new.append((old[0][0], min(old[0][1], first), old[0][2]))
        for run in inner:
            join(new, run)
        if old and old[-1][1] > end:
            join(new, (max(end, old[-1][0]), old[-1][1], old[-1][2]))
        if new == old:
            return
        runs[low:high] = new
        if self.feeder_of[node] is not None:
            self.post(node, self.services[node], [run for run in old if run not in new], -1)
            self.post(node, self.services[node], [run for run in new if run not in old], 1)

    def post_cutter(self, number: int, sign: int) -> None:
        """Posts the runs that an entry cut off by its cause alone."""
        for node, runs in enumerate(self.runs):
            if self.feeder_of[node] is None:
                continue
            for since, until, cutter in runs:
                if cutter == number:
                    services = self.services[node]
                    amount = services.before(until) - services.before(since)
                    move(self.by_cause, self.entries[number].cause, sign * amount)

    def day_of(self, second: int) -> int:
        return bisect_right(self.bounds, second) - 1

    def post(self, node: int, services: Services | OneService, runs: list[Run], sign: int) -> None:
        """Posts the customer-seconds of some runs of a node."""
        for since, until, cutter in runs:
            before = start = services.before(since)
            for day in range(self.day_of(since), self.day_of(until - 1) + 1):
                after = services.before(min(until, self.bounds[day + 1]))
                move(self.by_day, day, sign * (after - before))
                before = after
            move(self.by_feeder, self.feeder_of[node] or 0, sign * (before - start))
            cause = self.entries[cutter].cause if cutter else 0
            move(self.by_cause, cause, sign * (before - start))


NEVER = 0, 0  # the life of a device that isn't there


def end_of(until: str) -> float:
    return inf if until == "-" else int(until)


def differing(old: Life, new: Life, first: int, end: int) -> tuple[int, int] | None:
    """The first second of a period that exactly one of two lives holds and the one after the last; None where none is."""
    spans = [(int(max(life[0], first)), int(min(life[1], end))) for life in (old, new)]
    (a, b), (c, d) = [span if span[0] < span[1] else (first, first) for span in spans]
    if (a, b) == (c, d):
        return None
    if a == b or c == d or b <= c or d <= a:
        some = [span for span in [(a, b), (c, d)] if span[0] < span[1]]
        return min(some)[0], max(span[1] for span in some)
    bounds = [pair for pair in [sorted([a, c]), sorted([b, d])] if pair[0] < pair[1]]
    return bounds[0][0], bounds[-1][1]


def join(runs: list[Run], run: Run) -> None:
    """Appends a run; one that touches the last one lengthens it."""
    if runs and runs[-1][1] == run[0]:
        since, _, cutter = runs.pop()
        run = since, run[1], cutter
    runs.append(run)


def move(amounts: dict[int, int], key: int, amount: int) -> None:
    amounts[key] = amounts.get(key, 0) + amount


def interruptions(book: Book) -> Iterator[list[tuple[int, int]]]:
    """The interruptions of each customer that has some, as pairs of the first second and the one after."""
    for section, since, until in book.customers.values():
        found = []
        for begin, end, _ in book.runs[section]:
            first, last = max(begin, since), int(min(end, until))
            if first < last:
                found.append((first, last))
        if found:
            yield found


def counts(book: Book, unmarked: bool) -> tuple[int, int, list[int], int]:
    """Sustained interruptions, their seconds, customers with n or more for n from 1 to 10, momentary ones."""
    ci, csi, momentary = 0, 0, 0
    with_some = [0] * 10
    marked_days = {day_of_date(date) for date in book.marked} if unmarked else set()
    for found in interruptions(book):
        lengths = [end - begin for begin, end in found if book.day_of(begin) not in marked_days]
        sustained = [length for length in lengths if length > 300]
        ci += len(sustained)
        csi += sum(sustained)
        momentary += len(lengths) - len(sustained)
        for n in range(min(10, len(sustained))):
            with_some[n] += 1
    return ci, csi, with_some, momentary


def day_of_date(text: str) -> int:
    year, month, day = map(int, text.split("-"))
    lengths = [31, 29, 31, 30, 31, 30, 31, 31, 30, 31, 30, 31]
    assert year == 2024
    return sum(lengths[: month - 1]) + day - 1


def index_lines(book: Book) -> Iterator[str]:
    """S, and counts and indices over all interruptions and over the unmarked ones."""
    first, end, _ = book.whole
    p = end - first
    s = sum(max(0, int(min(until, end)) - max(since, first)) for _, since, until in book.customers.values())
    yield f"S {s}"
    for word in ["all", "unmarked"]:
        ci, csi, with_some, momentary = counts(book, word == "unmarked")
        quotients = [(ci * p, s), (csi * p, 60 * s), (csi, 60 * ci), (ci, with_some[0]), (s - csi, s)]
        quotients += [(customers * p, s) for customers in with_some]
        names = ["SAIFI", "SAIDI", "CAIDI", "CAIFI", "ASAI", *(f"CEMI-{n}" for n in range(1, 11))]
        for name, (numerator, denominator) in zip(names, quotients):
            if denominator:
                quotient = Fraction(numerator, denominator)
                yield f"{name} {word} {quotient.numerator}/{quotient.denominator}"
            else:
                yield f"{name} {word} undefined"
        yield f"SUSTAINED {word} {ci}"
        yield f"MOMENTARY {word} {momentary}"


def amount_lines(book: Book) -> Iterator[str]:
    yield f"W {sum(book.by_cause.values())}"
    for word, amounts in [("cause", book.by_cause), ("feeder", book.by_feeder), ("day", book.by_day)]:
        for key, amount in sorted(amounts.items()):
            if amount:
                yield f"{word} {key} {amount}"


def main() -> None:
    parser = argparse.ArgumentParser(description="Keeps the book of a made year and prints its customer-seconds.")
    parser.add_argument("text", help="the made year")
    parser.add_argument("--indices", action="store_true", help="print counts and indices too")
    words = parser.parse_args()
    book = Book()
    with open(words.text, encoding="ascii") as text:
        for line in text:
            book.act(*line.split())
    for line in amount_lines(book):
        print(line)
    if words.indices:
        for line in index_lines(book):
            print(line)


if __name__ == "__main__":
    main()
