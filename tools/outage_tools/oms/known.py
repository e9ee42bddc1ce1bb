"""What a book has already."""

from dataclasses import dataclass, field

from outage_tools.commands import read_commands
from outage_tools.compare import Checked
from outage_tools.rows import Book, Entry


@dataclass(frozen=True)
class Service:
    """A customer's section, by its name, and from when to when it is served (None: without end)."""

    section: str
    since: int
    until: int | None

    def has(self, second: int) -> bool:
        return self.since <= second and (self.until is None or second < self.until)


@dataclass(frozen=True)
class Known:
    """What a book has already; nothing where there is none."""

    book: Book | None = None
    refs: dict[str, int | None] = field(default_factory=dict)  # each reference, with the entry that it made
    customers: dict[int, Service] = field(default_factory=dict)
    customer_refs: dict[int, str] = field(default_factory=dict)  # under which each customer was connected

    def entry_of(self, ref: str) -> Entry | None:
        number = self.refs.get(ref)
        return self.book.entries[number - 1] if self.book and number else None

    def device_of(self, entry: Entry) -> str:
        """The name of the device that an entry of the book switched."""
        return self.book.devices[entry.device].name if self.book else ""

    def unused(self, ref: str) -> str:
        """The reference, or it with the least number behind it that makes it new."""
        found, number = ref, 1
        while found in self.refs:
            number += 1
            found = f"{ref}-{number}"
        return found


def known_of(found: Checked) -> Known:
    """What a compared book has."""
    nodes = found.book.nodes
    customers = {
        number: Service(nodes[section], since, until)
        for number, section, since, until in found.database.execute("SELECT id, section, since, until FROM customer")
    }
    known = Known(found.book, {}, customers)
    for each in read_commands(found.database):
        known.refs[each.ref] = each.entry if each.kind == "switch" else None
        if each.kind == "connect":
            known.customer_refs[int(each.fields[0])] = each.ref
    return known
