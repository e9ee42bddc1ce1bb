"""Counts, the indices as exact fractions of them, and how these are written."""

from dataclasses import dataclass, field
from fractions import Fraction
from functools import cached_property
from operator import add

from outage_tools.interruptions import Interruption

SETS = ("all", "unmarked")


@dataclass
class Counts:
    """CI, CSI in seconds, MI, and the customers with at least 1, 2 and so on to 10 sustained interruptions."""

    sustained: int = 0
    sustained_seconds: int = 0
    momentary: int = 0
    with_some: list[int] = field(default_factory=lambda: [0] * 10)

    def add(self, each: Interruption) -> None:
        """Adds one of the program's interruptions; whose it is isn't told, so `with_some` stays."""
        if each.is_sustained:
            self.sustained += each.customers
            self.sustained_seconds += each.customer_seconds
        else:
            self.momentary += each.customers

    def __add__(self, other: "Counts") -> "Counts":
        """The counts of both, whose customers are distinct."""
        return Counts(
            self.sustained + other.sustained,
            self.sustained_seconds + other.sustained_seconds,
            self.momentary + other.momentary,
            list(map(add, self.with_some, other.with_some)),
        )


def quotient(numerator: int, denominator: int) -> Fraction | None:
    """A fraction, or None where there is nothing to divide by."""
    return Fraction(numerator, denominator) if denominator else None


def indices_of(counts: Counts, served_seconds: int, length: int) -> dict[str, Fraction | None]:
    """The fifteen quotients of IEEE 1366 by name; SAIDI and CAIDI in minutes. `length` is P."""
    indices = {
        "SAIFI": quotient(counts.sustained * length, served_seconds),
        "SAIDI": quotient(counts.sustained_seconds * length, 60 * served_seconds),
        "CAIDI": quotient(counts.sustained_seconds, 60 * counts.sustained),
        "CAIFI": quotient(counts.sustained, counts.with_some[0]),
        "ASAI": quotient(served_seconds - counts.sustained_seconds, served_seconds),
    }
    for n, customers in enumerate(counts.with_some, 1):
        indices[f"CEMI-{n}"] = quotient(customers * length, served_seconds)
    return indices


@dataclass(frozen=True)
class Rates:
    """Counts over the customers who were served: `served` customer-seconds in service in `length` seconds."""

    counts: Counts
    served: int
    length: int

    @property
    def customers(self) -> Fraction | None:
        """Customers served on average."""
        return quotient(self.served, self.length)

    @cached_property
    def indices(self) -> dict[str, Fraction | None]:
        """The fifteen quotients by name."""
        return indices_of(self.counts, self.served, self.length)

    @property
    def maifi(self) -> Fraction | None:
        """Momentary interruptions per customer served, each by itself."""
        return quotient(self.counts.momentary * self.length, self.served)

    @property
    def saifi(self) -> Fraction | None:
        """Interruptions per customer served."""
        return self.indices["SAIFI"]

    @property
    def saidi(self) -> Fraction | None:
        """Minutes per customer served."""
        return self.indices["SAIDI"]

    @property
    def caidi(self) -> Fraction | None:
        """Minutes per interruption."""
        return self.indices["CAIDI"]


def decimal_text(value: Fraction | None, places: int = 3) -> str:
    """Three decimals, or as many as are asked for, rounded half up; empty where there is no value."""
    if value is None:
        return ""
    scale = 10**places
    parts = (2 * scale * value.numerator + value.denominator) // (2 * value.denominator)
    return f"{parts // scale}.{parts % scale:0{places}}"


def index_decimals(index: str) -> int:
    """How many decimals of an index are shown beside its fraction: of ASAI five, since three say nothing."""
    return 5 if index == "ASAI" else 3


def index_text(index: str, value: Fraction | None) -> str:
    """The fraction of an index, and its decimals."""
    return "undefined" if value is None else f"{fraction_text(value)} {decimal_text(value, index_decimals(index))}"


def fraction_text(value: Fraction | None) -> str:
    """A fraction in lowest terms as the program writes it."""
    return "undefined" if value is None else f"{value.numerator}/{value.denominator}"


def quotient_text(value: Fraction | None) -> str:
    return "undefined" if value is None else f"{fraction_text(value)} {decimal_text(value)}"
