"""For the tests: exports of which something is spoilt, each from a seed."""

import random
from collections.abc import Callable

Texts = dict[str, bytes]

BYTES = b'",;\t\n\r \0\xe4\xff-:.+0129AZaz_'
FIELDS = [
    "",
    " ",
    "0",
    "-1",
    "4294967296",
    "1e9",
    "CB-7",
    "GRID",
    "TIE-78",
    "OAK-STREET",
    "NORTH-BUS",
    "x" * 41,
    "ä",
    '"',
    "\0",
]
FIELDS += [
    "2025-10-26 02:30:00",
    "2025-10-26 02:30",
    "1960-01-01",
    "1969-12-31 23:59",
    "2025-03-30 02:30",
    "9999-12-31",
    "0001-01-01",
]
FIELDS += [
    "2025-10-20",
    "2025-10-20 00:00",
    "2025-11-03 00:00",
    "2025-11-02 23:59:59",
    "2025-10-25T12:00Z",
    "25.10.2025",
    "24:00",
]
FIELDS += [
    "open",
    "closed",
    "CLOSED",
    "device",
    "bus",
    "section",
    "cancelled",
    "A",
    "B",
    "7",
    "8",
    "255",
    "256",
    "63",
    "64",
    "T-2041",
]


def spoil_byte(rng: random.Random, data: bytes) -> bytes:
    """A byte is another, or gone, or there is one more."""
    place = rng.randrange(len(data) + 1)
    byte = bytes([rng.choice(BYTES) if rng.random() < 0.7 else rng.randrange(256)])
    return data[:place] + rng.choice([byte, b"", byte + data[place : place + 1]]) + data[place + 1 :]


def table_of(data: bytes) -> list[list[str]]:
    return [line.split(",") for line in data.decode("utf-8", "surrogateescape").split("\n")[:-1]]


def data_of(table: list[list[str]]) -> bytes:
    return "".join(f"{','.join(row)}\n" for row in table).encode("utf-8", "surrogateescape")


def spoil_field(rng: random.Random, data: bytes) -> bytes:
    """A field is another one's, or something that fields seldom are, or gone."""
    table = table_of(data)
    row = rng.choice(table[1:])
    place = rng.randrange(len(row))
    other = rng.choice(table[1:])
    what = rng.randrange(5)
    if what == 0:
        del row[place]
    elif what == 1:
        row.insert(place, rng.choice(FIELDS))
    elif what == 2:
        row[place] = rng.choice(FIELDS)
    elif what == 3:
        row[place] = other[min(place, len(other) - 1)]
    else:
        row[place], other[-1] = other[-1], row[place]
    return data_of(table)


def spoil_row(rng: random.Random, data: bytes) -> bytes:
    """A row is gone, or there twice, or cut."""
    table = table_of(data)
    place = rng.randrange(1, len(table))
    what = rng.randrange(4)
    if what == 0:
        del table[place]
    elif what == 1:
        table.insert(rng.randrange(1, len(table)), list(table[place]))
    elif what == 2:
        table[place] = table[place][: rng.randrange(len(table[place]))]
    else:
        return data_of(table)[: -rng.randrange(1, 60)]
    return data_of(table)


def swap_rows(rng: random.Random, data: bytes) -> bytes:
    table = table_of(data)
    a, b = rng.randrange(len(table)), rng.randrange(1, len(table))
    table[a], table[b] = table[b], table[a]
    return data_of(table)


def rename_column(rng: random.Random, data: bytes) -> bytes:
    table = table_of(data)
    head = table[0]
    place = rng.randrange(len(head))
    other = rng.randrange(len(head))
    what = rng.randrange(4)
    if what == 0:
        head[place] = head[place][:-1] + rng.choice("abcdefghijklmnopqrstuvwxyz_1")
    elif what == 1:
        head[place] = head[place].upper()
    elif what == 2:
        head[place] = rng.choice(["", "x", "remark", head[other]])
    else:
        head[place], head[other] = head[other], head[place]
    return data_of(table)


KINDS: list[Callable[[random.Random, bytes], bytes]] = [spoil_byte, spoil_field, spoil_row, swap_rows, rename_column]


def spoilt(seed: int, texts: Texts) -> Texts:
    """The texts, of which one is spoilt in one way, or in a few."""
    rng = random.Random(f"spoilt {seed}")
    found = dict(texts)
    for _ in range(rng.choice([1, 1, 1, 2, 3])):
        name = rng.choice([*found, "oms"])
        if found[name].count(b"\n") > 2:
            found[name] = rng.choice(KINDS)(rng, found[name])
    return found
