"""Sections that explain by how many customers tickets differ.

Where a section hangs on the wrong device, or a customer on the wrong section, the tickets of a section differ by the same number
of customers. So the section is sought in whose tickets most of all differences goes away once that number is taken off; then the
next one, in what is left. It is a hint: other reasons may look the same.
"""

from collections import Counter, defaultdict
from collections.abc import Iterable
from dataclasses import dataclass

MOST_SUSPECTS = 4
FEWEST_TICKETS = 2  # that differ by the same number


@dataclass(frozen=True)
class Difference:
    """By how many customers a ticket differs, and its sections in the book, each with its customers."""

    ticket: str
    more: int
    sections: dict[str, int]


@dataclass(frozen=True)
class Guess:
    """By how many customers the tickets of a section may differ: those of them that count, and what of all differences it explains."""

    section: str
    more: int
    tickets: tuple[str, ...]
    explained: int
    is_whole: bool  # all customers of the section


@dataclass(frozen=True)
class Suspect:
    """Sections that explain the same, by how many customers their tickets differ, and how many tickets do."""

    sections: tuple[str, ...]
    more: int
    tickets: int


def guess_of(section: str, listed: list[Difference], left: dict[str, int]) -> Guess | None:
    """The number by which most tickets of a section differ. A whole section on the wrong device has no difference in tickets of
    its own, which don't speak against it."""
    differing = [each for each in listed if left[each.ticket]]
    counted = Counter(left[each.ticket] for each in differing)
    if not counted or counted.most_common(1)[0][1] < FEWEST_TICKETS:
        return None
    more = counted.most_common(1)[0][0]
    is_whole = all(each.sections[section] == more for each in differing if left[each.ticket] == more)
    tickets = tuple(each.ticket for each in (differing if is_whole else listed))
    explained = sum(abs(left[ticket]) - abs(left[ticket] - more) for ticket in tickets)
    return Guess(section, more, tickets, explained, is_whole) if explained > 0 else None


def suspects_of(differences: Iterable[Difference]) -> list[Suspect]:
    """The sections that explain most, the first one first."""
    left: dict[str, int] = {}
    tickets: dict[str, list[Difference]] = defaultdict(list)
    for each in differences:
        left[each.ticket] = each.more
        for section in each.sections:
            tickets[section].append(each)
    suspects: list[Suspect] = []
    while len(suspects) < MOST_SUSPECTS and any(left.values()):
        guesses = [guess for section, listed in tickets.items() if (guess := guess_of(section, listed, left))]
        if not guesses:
            break
        best = max(guesses, key=lambda each: (each.explained, each.is_whole))
        alike = [each.section for each in guesses if (each.explained, each.more) == (best.explained, best.more)]
        if best.is_whole:
            alike = [each.section for each in guesses if each.section in alike and each.is_whole]
        suspects.append(Suspect(tuple(alike), best.more, sum(left[name] == best.more for name in best.tickets)))
        for name in best.tickets:
            left[name] -= best.more
    return suspects
