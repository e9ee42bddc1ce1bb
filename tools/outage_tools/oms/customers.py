"""Customers and their services, of a customer information system."""

import re
from collections.abc import Iterable, Iterator
from dataclasses import dataclass, field, replace

from outage_tools.keys import GREATEST_NUMBER, Keys, read_key, ref_of
from outage_tools.oms.complaints import BadRow, Notes, Place
from outage_tools.oms.conversion import MOST_NAME, Conversion, note_small_letters
from outage_tools.oms.fields import LATEST_MOMENT, identifier, life_texts, number, shown
from outage_tools.oms.files import Row
from outage_tools.oms.known import Service
from outage_tools.oms.network import Network
from outage_tools.oms.services import Meters, Own, parts_of

COLUMNS = ("customer", "section", "since", "since_hour", "until", "until_hour", "meter")
REQUIRED = ("customer", "section", "since", "until")
MOST_CUSTOMERS = 100_000
OTHER_KEY = re.compile("[A-Za-z]|[0-9]{11}")
NEW_KEYS = "keys that are new, with numbers of their own from now on"
ALIKE = "new keys that differ from another one in small letters, blanks or noughts at the beginning alone"
MOVED = "customers who end in the book, and go on behind their meters under further numbers"


def read_customer(text: str) -> int:
    """The number of a customer that the register calls by a book's number."""
    try:
        return number(text, GREATEST_NUMBER, "the customer")
    except BadRow as error:
        if OTHER_KEY.search(text):
            raise BadRow(f"{error} (--keys FILE takes other keys, and keeps a table of their numbers)") from None
        raise


@dataclass(frozen=True)
class Told:
    """What a row says: whose service, by a number or a key; where and when, as a book has it, and since when in the row's own words."""

    row: Row
    who: int | str
    service: Service
    since: int | None


@dataclass
class Customers:
    """The customers of the rows, each with its row, and how many the book has with them. `meters` where the register has them."""

    conversion: Conversion
    network: Network
    meters: Meters | None = None
    rows: dict[int, int] = field(default_factory=dict)
    told: dict[int, tuple[Service, Place]] = field(default_factory=dict)  # of customers with keys, by their numbers
    count: int = 0

    def __post_init__(self) -> None:
        self.count = len(self.conversion.known.customers)

    def read(self, rows: Iterable[Row], notes: Notes) -> Iterator[list[str]]:
        """New customers, and new services of those that the book has."""
        for row in rows:
            with self.conversion.complaints.about(row):
                yield from self.commands(self.read_row(row, notes), notes)
        if self.conversion.keys is not None:
            self.check_services(self.conversion.keys)

    def read_row(self, row: Row, notes: Notes) -> Told:
        """What a row says."""
        who: int | str = self.told_once(row) if self.conversion.keys is None else read_key(row["customer"])
        section = identifier(row["section"], MOST_NAME, "the section")
        note_small_letters(row, ("section",), notes)
        if not row["since"]:
            raise BadRow("since is empty")
        since, until = self.conversion.ends(row, notes)
        return Told(row, who, Service(section, max(since or 0, 0), until), since)

    def told_once(self, row: Row) -> int:
        """The number of a customer; a second row of it is refused."""
        customer = read_customer(row["customer"])
        first = self.rows.setdefault(customer, row.number)
        if first != row.number:
            raise BadRow(f"customer {customer} was told in row {first} already")
        return customer

    def commands(self, told: Told, notes: Notes) -> Iterator[list[str]]:
        """The commands of a row, none where the book has its service."""
        own = self.own_of(told)
        if own is not None and isinstance(told.who, str) and (supplied := self.supplied(told.who, told.service)):
            self.check(told)
            yield from self.move(told, told.who, supplied, own, notes)
            return
        service = replace(told.service, section=own.section) if own is not None else told.service
        customer = self.number_of(told.who, service)
        before = None if customer is None else self.conversion.known.customers.get(customer)
        if before is None and self.conversion.is_over(service.until):
            notes.left_out("customers whose service was over before the period", told.row)
            return
        self.check(told)
        self.conversion.from_1970(told.since, told.row, notes)
        if own is not None and self.meters is not None:
            self.refuse_without_keys(told, before, own)
            yield from self.meters.make(told.row, own, notes)
            service = self.like(before, service)
        yield from self.of_row(told, customer, service, before, notes)

    def check(self, told: Told) -> None:
        """The row's section is one, and the end of a customer that the book has can be said."""
        section, until = told.service.section, told.service.until
        if self.network.is_whole and not self.network.is_section(section):
            raise BadRow(f"{section} is no section")
        if until is not None and until <= 0:
            raise BadRow(
                f"until {told.row['until']!r} lies before 1970, and the book has the customer: give a later moment"
            )

    def number_of(self, who: int | str, service: Service) -> int | None:
        """The number of a service: the register's own; that of its key, None where it needs a new one."""
        keys = self.conversion.keys
        if isinstance(who, int) or keys is None:
            return int(who)
        return keys.find(who, service, self.conversion.known.customers)

    def of_row(
        self, told: Told, customer: int | None, service: Service, before: Service | None, notes: Notes
    ) -> Iterator[list[str]]:
        """The commands of a service under its number, a new one where its key has none."""
        keys = self.conversion.keys
        if isinstance(told.who, int) or keys is None:
            yield from self.service_commands(int(told.who), f"CIS-{told.who}", service, before, notes)
            return
        if customer is None:
            self.note_new(keys, told, notes)
            customer = keys.give(told.who)
        keys.used.add(customer)
        self.told[customer] = service, told.row
        yield from self.service_commands(customer, ref_of(customer, told.who), service, before, notes)

    def note_new(self, keys: Keys, told: Told, notes: Notes) -> None:
        """A key without any number is new."""
        if told.who not in keys.numbers:
            notes.noticed(NEW_KEYS, told.row)
            if keys.is_like_another(str(told.who)):
                notes.noticed(ALIKE, told.row)

    # Customers behind their meters.

    def own_of(self, told: Told) -> Own | None:
        """The section behind the customer's meter, where it has one in this book; none for a service that was over before the period, if
        the book has it elsewhere."""
        if self.meters is None or not told.row["meter"]:
            return None
        own = self.meters.own_of(told.row, told.service.section)
        if own is None or not self.conversion.is_over(told.service.until):
            return own
        customers, keys = self.conversion.known.customers, self.conversion.keys
        numbers = (
            [told.who] if isinstance(told.who, int) else keys.numbers.get(told.who, []) if keys is not None else []
        )
        return own if any(customers[each].section == own.section for each in numbers if each in customers) else None

    def supplied(self, key: str, service: Service) -> int | None:
        """The number that a key has in the book on the section that supplies its meter."""
        keys, customers = self.conversion.keys, self.conversion.known.customers
        found = keys.find(key, service, customers) if keys is not None else None
        if found is None:
            return None
        return found if found in customers and customers[found].section == service.section else None

    def refuse_without_keys(self, told: Told, before: Service | None, own: Own) -> None:
        """A number of the register's own can't go on behind a meter, as no command moves a customer."""
        if isinstance(told.who, int) and before is not None and before.section == own.supply:
            raise BadRow(
                f"customer {told.who} is on {own.supply} in the book, and a ticket names its meter: it goes on under a further number,"
                " which needs a table of keys (--keys FILE)"
            )

    def like(self, before: Service | None, service: Service) -> Service:
        """The service as the book has it, where both are the same from the period's first second on."""
        period = self.conversion.period
        if before is None or period is None or before.section != service.section or before.until != service.until:
            return service
        return before if max(before.since, period.first) == max(service.since, period.first) else service

    def move(self, told: Told, key: str, supplied: int, own: Own, notes: Notes) -> Iterator[list[str]]:
        """A customer ends on the section that supplies it, and goes on behind its meter under a further number of its key."""
        keys, period, customers = self.conversion.keys, self.conversion.period, self.conversion.known.customers
        if keys is None or period is None or self.meters is None:
            return
        yield from self.meters.make(told.row, own, notes)
        old, new = parts_of(told.service, own, period.first)
        keys.used.add(supplied)
        self.told[supplied] = old, told.row
        yield from self.service_commands(supplied, "", old, customers[supplied], notes)
        behind = keys.find(key, new, customers)
        before = None if behind is None else customers.get(behind)
        if before is None:
            notes.noticed(MOVED, told.row)
        yield from self.of_row(told, behind, self.like(before, new), before, notes)

    # Services of one key.

    def check_services(self, keys: Keys) -> None:
        """The services of one key lie one behind another."""
        for key, numbers in keys.numbers.items():
            if len(numbers) > 1 and any(each in self.told for each in numbers):
                self.check_key(key, numbers)

    def check_key(self, key: str, numbers: list[int]) -> None:
        """Seconds before the period don't count."""
        known, period = self.conversion.known.customers, self.conversion.period
        first = period.first if period is not None else 0
        services = {each: self.told[each][0] if each in self.told else known.get(each) for each in numbers}
        found = sorted(
            (max(service.since, first), LATEST_MOMENT if service.until is None else service.until, each)
            for each, service in services.items()
            if service is not None
        )
        within = [(since, until, each) for since, until, each in found if since < until]
        for (_, until, one), (since, _, other) in zip(within, within[1:]):
            if since < until:
                self.refuse(key, one, other)

    def refuse(self, key: str, first: int, second: int) -> None:
        """Two services of one key at the same time are refused at the row that comes last."""
        one, other = self.told.get(first), self.told.get(second)
        if one is not None and other is not None:
            earlier, later = sorted((one[1], other[1]), key=lambda place: place.number)
            self.conversion.complaints.add(
                later, f"customer {shown(key)} was told in row {earlier.number} already, in service at the same time"
            )
        elif (said := one or other) is not None:
            there = second if one is not None else first
            self.conversion.complaints.add(
                said[1],
                f"customer {shown(key)} is on {self.conversion.known.customers[there].section} in the book (number {there}) and stays"
                f" there: end its service in a row of its own, and begin the one on {said[0].section} behind it",
            )

    # Commands.

    def service_commands(
        self, customer: int, connected: str, service: Service, before: Service | None, notes: Notes
    ) -> Iterator[list[str]]:
        """A new customer, or another service of one that the book has."""
        known = self.conversion.known
        if before is None:
            self.count += 1
            if self.count > MOST_CUSTOMERS:
                raise BadRow(f"a book has at most {MOST_CUSTOMERS} customers")
            ref, texts = known.unused(connected), self.texts_of(service)
            yield self.conversion.command(notes, "connect", ref, customer, service.section, *texts)
        elif before.section != service.section:
            raise BadRow(
                f"customer {customer} is on {before.section} and stays there: end its service, and give the"
                f" one on {service.section} another number"
            )
        elif before != service:
            ref = known.unused(f"CIS-{customer}-{service.since}-{service.until or 0}")
            yield self.conversion.command(notes, "revise", ref, customer, *self.texts_of(service))

    def texts_of(self, service: Service) -> tuple[str | None, str | None]:
        return life_texts(service.since, service.until, self.conversion.zone)
