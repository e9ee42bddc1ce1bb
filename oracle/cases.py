"""Books that are compared with the model one after another, or several at once, up to the first difference."""

import sys
from collections import Counter
from collections.abc import Callable, Iterable, Iterator, Sequence
from concurrent.futures import ProcessPoolExecutor
from dataclasses import dataclass

from over_program import ROOT, Difference

DATA = ROOT / "bench-data"
PROGRESS = 100  # books between two lines on standard error

Checked = tuple[Difference | None, Counter[str]]


@dataclass(frozen=True)
class Case:
    """A book: its name, what compares it and counts what it compared, and the text that it is of."""

    name: str
    check: Callable[[Counter[str]], Difference | None]
    text: bytes = b""


def checked(case: Case) -> Checked:
    """How a book differs, and what was compared."""
    counts: Counter[str] = Counter()
    return case.check(counts), counts


def each_checked(cases: Sequence[Case], processes: int) -> Iterator[Checked]:
    """What came of each book, in their order."""
    if processes == 1:
        yield from map(checked, cases)
        return
    with ProcessPoolExecutor(processes) as pool:
        yield from pool.map(checked, cases)


def compare(what: str, cases: Iterable[Case], processes: int = 1) -> int:
    """Compares books, and prints how many there are of what, or the first that differs; answers the status to end with."""
    every = [*cases]
    compared: Counter[str] = Counter()
    for number, (case, (found, counts)) in enumerate(zip(every, each_checked(every, processes)), 1):
        if found:
            tell_difference(case, found)
            return 1
        compared += counts
        if number % PROGRESS == 0:
            print(f"{number:,} of {len(every):,} {what}", file=sys.stderr, flush=True)
    parts = " and ".join(f"{count:,} {name}" for name, count in compared.items())
    print(f"{len(every):,} {what} are those of the model{', with ' + parts if parts else ''}", flush=True)
    return 0


def tell_difference(case: Case, found: Difference) -> None:
    """Prints what was wanted and what was found, and keeps the text."""
    if case.text:
        DATA.mkdir(exist_ok=True)
        (DATA / "difference.csv").write_bytes(case.text)
    print(f"{case.name}: {found[0]}\nwanted {found[1]!r}\nfound {found[2]!r}")
