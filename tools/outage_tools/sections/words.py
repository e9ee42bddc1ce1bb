"""The words of an export for kinds of equipment and for positions, and what the user says of them."""

import argparse
from collections.abc import Iterable
from dataclasses import dataclass, field

from outage_tools.oms.complaints import BadRow
from outage_tools.oms.fields import shown
from outage_tools.sections.edges import KINDS, SWITCHING

POSITIONS = {"closed": True, "open": False}
LEFT_OUT = "left-out"  # stands for kinds that join nothing
MEANINGS = (*KINDS, LEFT_OUT, *POSITIONS)

Word = tuple[str, tuple[str, ...]]  # a meaning, and the user's words for it


def word_argument(text: str) -> Word:
    """Words on the command line, as `closed=on,1,NC`."""
    meaning, between, rest = text.partition("=")
    words = tuple(word.strip().lower() for word in rest.split(","))
    if not between or meaning.strip().lower() not in MEANINGS or not all(words):
        raise argparse.ArgumentTypeError(f"{text!r} isn't MEANING=WORD,.. with one of {', '.join(MEANINGS)}")
    return meaning.strip().lower(), words


def kinds_argument(text: str) -> frozenset[str]:
    """Kinds on the command line, as `switch,fuse`."""
    kinds = frozenset(kind.strip().lower() for kind in text.split(","))
    if not kinds <= set(KINDS):
        raise argparse.ArgumentTypeError(f"{text!r} isn't a list of {', '.join(KINDS)}")
    return kinds


@dataclass
class Words:
    """What the words of an export mean; those of this page stand for themselves, if the user doesn't say otherwise."""

    kinds: dict[str, str] = field(default_factory=lambda: {kind: kind for kind in KINDS})
    positions: dict[str, bool] = field(default_factory=lambda: dict(POSITIONS))

    def kind(self, text: str) -> str:
        kind = self.kinds.get(text.lower())
        if kind is None:
            raise BadRow(
                f"kind {shown(text)} is none of {', '.join(KINDS)} (--word KIND={text.lower() or 'WORD'} says which,"
                f" --word {LEFT_OUT}=.. that it joins nothing)"
            )
        return kind

    def is_closed(self, text: str, kind: str) -> bool:
        """The normal position. What can't be switched is closed if nothing is told; of a switch or fuse it isn't guessed."""
        if not text and kind not in SWITCHING:
            return True
        if not text:
            raise BadRow(f"a {kind} without a normal position")
        found = self.positions.get(text.lower())
        if found is None:
            raise BadRow(f"normal {shown(text)} is neither open nor closed (--word closed=.. or --word open=..)")
        return found


def words_of(said: Iterable[Word]) -> Words:
    """The words with those of the user; a ValueError where one would mean two things."""
    found = Words()
    kinds: dict[str, str] = {}
    positions: dict[str, bool] = {}
    for meaning, words in said:
        for word in words:
            if meaning in POSITIONS:
                if positions.setdefault(word, POSITIONS[meaning]) != POSITIONS[meaning]:
                    raise ValueError(f"--word: {word!r} can't be both open and closed")
            elif kinds.setdefault(word, meaning) != meaning:
                raise ValueError(f"--word: {word!r} can't be both {kinds[word]} and {meaning}")
    found.kinds |= kinds
    found.positions |= positions
    return found
