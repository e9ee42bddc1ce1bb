"""Small random books as CSV of commands, each from a seed, with what is seldom in a book.

    python3 oracle/make_commands.py 7                # the text
    python3 oracle/make_commands.py 7 --period       # first day, days and zone of its book

Meshed networks, devices side by side, parts that come after customers and after switchings, lives and services inside
the period, at its bounds or outside, lives that are set anew, switchings outside them, several switchings in one second
and at the period's first and last one, also where a life begins or ends, switchings that change nothing, days of 23 and
25 hours, midnights that don't come or come twice, entries in any order of their seconds, corrections and withdrawals,
marks, rows that are sent again in another spelling. The last row of every third text is refused. `calls_of` has the
commands of such a book one by one, most of the refused ones among them, and `old_text_of` a book of version 1.
"""

import argparse
import random
from collections.abc import Iterator
from datetime import datetime, timedelta, timezone

from commands import HEADER, Refusal, Value, body_text, read_row
from state import Period, State, is_old

PERIODS = [
    ("2024-01-01", "UTC0"),
    ("2025-03-29", "CET-1CEST,M3.5.0,M10.5.0/3"),
    ("2025-10-25", "CET-1CEST,M3.5.0,M10.5.0/3"),
    ("2024-03-09", "EST5EDT,M3.2.0,M11.1.0"),
    ("2024-11-02", "EST5EDT,M3.2.0,M11.1.0"),
    ("2024-09-07", "<-04>4<-03>,M9.1.6/24,M4.1.6/24"),
    ("2024-04-05", "<-04>4<-03>,M9.1.6/24,M4.1.6/24"),
    ("2024-10-26", "XXX-1YYY,M3.5.0,M10.5.0/0:30"),
    ("1970-01-01", "UTC0"),
]


def period_of(seed: int) -> tuple[str, int, str]:
    """The first day, the number of days and the zone of a seed's book."""
    rng = random.Random(f"period {seed}")
    first, zone = rng.choice(PERIODS)
    return first, rng.randint(1, 4), zone


class Accepted(State):
    """What was said, with the rows that were accepted."""

    def __init__(self, period: Period) -> None:
        super().__init__(period)
        self.rows: dict[str, list[str]] = {}

    def known(self, _ref: str) -> None:
        return None

    def accepted(self) -> int:
        return len(self.rows)

    def accept(self, ref: str, kind: str, values: list[Value], _body: str) -> int:
        self.say(kind, values)
        return len(self.rows) + 1


class Text:
    """The rows of a text, drawn one after another; those that would be refused are left out.

    `calls` has the refused ones too, and between the rows some that nearly every state refuses, and some that change what
    was said before. A text of version 1 has the rows alone that this version accepted.
    """

    def __init__(self, seed: int, is_of_version_1: bool = False) -> None:
        self.rng = random.Random(f"commands {seed}")
        self.calls_rng = random.Random(f"calls {seed}")
        self.is_of_version_1 = is_of_version_1
        self.state = Accepted(Period(*period_of(seed)))
        self.rows: list[list[str]] = []
        self.calls: list[list[str]] = []
        self.draw_parts()
        self.draw_sheet()
        if seed % 3 == 0:
            self.draw_refused()

    def add(self, kind: str, *fields: object) -> None:
        """Adds a row where it is accepted; some are sent again later."""
        row = [kind, f"R-{self.state.accepted() + 1}", *map(str, fields)]
        row += [""] * (8 - len(row))
        if self.is_of_version_1 and not self.is_old_row(row):
            return
        self.calls.append(row)
        try:
            self.state.act(row)
        except Refusal:
            return
        self.state.rows[row[1]] = row
        self.rows.append(row)
        if self.rng.random() < 0.05:
            self.rows.append(self.spelled_anew(self.rng.choice(self.rows)))
            self.calls.append(self.rows[-1])
        if self.calls_rng.random() < 0.3:
            self.calls.append(self.refused_row(self.calls_rng))
        if self.calls_rng.random() < 0.2:
            self.calls.append(self.other_row(self.calls_rng))

    def is_old_row(self, row: list[str]) -> bool:
        """Whether version 1 had the command of a row."""
        try:
            _, kind, values = read_row(row)
        except Refusal:
            return True
        return is_old(body_text(kind, values), bool(self.state.entries))

    def spelled_anew(self, row: list[str]) -> list[str]:
        """The same command in another spelling: moments with another offset, zeros before numbers."""
        anew = list(row)
        for place, field in enumerate(row[2:], 2):
            if field.isdigit() and len(field) == 1 and row[0] in ["switch", "correct", "connect"]:
                anew[place] = "0" + field
            elif field.isdigit() and len(field) > 6:
                anew[place] = self.civil(int(field))
            elif row[0] == "device" and place == 6 and field in ["", "0"]:
                anew[place] = "" if field else "0"
        return anew

    def civil(self, second: int) -> str:
        offset = self.rng.choice([-570, -300, -60, 0, 60, 120, 345])
        moment = datetime.fromtimestamp(second, timezone(timedelta(minutes=offset)))
        return moment.isoformat() if offset or self.rng.random() < 0.5 else moment.strftime("%Y-%m-%dT%H:%M:%SZ")

    def second(self) -> int:
        """A second of the period, often one that a switching has already, or a bound of a day."""
        rng, period = self.rng, self.state.period
        said = [entry.second for entry in self.state.entries]
        said += [turn for device in self.state.devices.values() for turn in device.turns() if period.holds(turn)]
        near = [rng.choice(said) + rng.choice([0, 0, 0, 1, -1, 300, 301, 60])] if said else []
        bounds = [period.first, period.end - 1, rng.choice(period.bounds), rng.randrange(period.first, period.end)]
        return rng.choice(near * 3 + bounds)

    def moment(self) -> str:
        second = max(0, self.second())
        return self.civil(second) if self.rng.random() < 0.3 else str(second)

    def service(self) -> tuple[str, str]:
        """The two ends of a service; one that ends before it begins is refused."""
        rng, period = self.rng, self.state.period
        since = rng.choice(["0", str(period.first), self.moment(), self.moment()])
        until = rng.choice(["", "", str(period.end), str(period.end + 5), self.moment(), self.moment()])
        return since, until

    def life(self) -> tuple[str, str]:
        """The two ends of a life, either of which may be empty; one that ends before it begins is refused."""
        rng, period = self.rng, self.state.period
        since = rng.choice(["", "", "0", str(period.first), self.moment(), self.moment()])
        until = rng.choice(["", "", "", str(period.end - 1), str(period.end), self.moment(), self.moment()])
        return since, until

    def draw_parts(self) -> None:
        rng = self.rng
        for code in rng.sample(range(1, 64), rng.randint(1, 4)):
            self.add("cause", code, f"CAUSE-{code}")
        for _ in range(rng.randint(4, 24)):
            part = rng.choice(["bus", "section", "section", "device", "connect", "connect"])
            if part == "device":
                self.draw_device(rng.choice(list(self.state.feeders)))
            elif part == "connect":
                self.draw_connection()
            else:
                self.draw_node(part)

    def draw_node(self, kind: str) -> None:
        """A bus or a section, in most cases behind a device that is normally closed."""
        rng = self.rng
        name = f"N{len(self.state.feeders)}"
        self.add(kind, name, *([rng.choice([1, 2, 3, 255])] if kind == "section" else []))
        if rng.random() < 0.85:
            self.draw_device(name)

    def draw_device(self, node: str) -> None:
        other = self.rng.choice(["GRID", *self.state.feeders])
        normal = self.rng.choice(["open", "closed", "closed", "closed"])
        life = self.life() if self.rng.random() < 0.3 else ("", "")
        self.add("device", f"D{len(self.state.devices)}", other, node, normal, *life)

    def draw_connection(self) -> None:
        sections = [node for node, feeder in self.state.feeders.items() if feeder is not None]
        if sections:
            self.add("connect", self.rng.randint(1, 30), self.rng.choice(sections), *self.service())

    def draw_sheet(self) -> None:
        for _ in range(self.rng.randint(0, 30)):
            if self.rng.random() < 0.15 and self.state.devices:
                self.draw_flurry()
            elif self.rng.random() < 0.05:
                self.draw_joining()
            else:
                self.draw_command()

    def draw_flurry(self) -> None:
        """One device opened and closed by turns in one second, under several causes."""
        rng, state = self.rng, self.state
        device = rng.choice(list(state.devices))
        second = self.second()
        begin = rng.choice([0, 1])
        for act in (["open", "close"] * 3)[begin : begin + rng.randint(2, 4)]:
            self.add("switch", device, act, second, rng.choice(sorted(state.causes)[1:]), "K2")

    def draw_joining(self) -> None:
        """A device to a new section that joins in the period, opened before it does, and closed later in some."""
        rng, state = self.rng, self.state
        period, name = state.period, f"D{len(state.devices)}"
        opened, joins, closed = sorted(rng.randrange(period.first, period.end) for _ in range(3))
        node = f"N{len(state.feeders)}"
        self.add("section", node, rng.choice([1, 2, 3]))
        self.add("connect", 100 + len(state.feeders), node, 0, "")
        self.add("device", name, "GRID", node, "closed", joins, "")
        cause = sorted(state.causes)[-1]
        self.add("switch", name, "open", opened, cause, "K3")
        if rng.random() < 0.5:
            self.add("switch", name, "close", closed, cause, "K3")

    def draw_command(self) -> None:
        rng, state = self.rng, self.state
        kinds = ["switch"] * 8 + ["correct"] * 3 + ["withdraw", "connect", "revise", "mark", "unmark", "cause"]
        kinds += ["life"] * 3 + ["device", "section", "bus"]
        kind = rng.choice(kinds)
        said = rng.choice(["open", "open", "close"]), self.moment(), rng.choice(sorted(state.causes)[1:]), "K1"
        entry = rng.randint(1, len(state.entries) + 1)
        revision = state.entries[entry - 1].revision if entry <= len(state.entries) else 1
        day = rng.choice(state.period.days)
        if kind == "switch" and state.devices:
            self.add(kind, rng.choice(list(state.devices)), *said)
        elif kind == "correct":
            self.add(kind, entry, revision, *said)
        elif kind == "withdraw":
            self.add(kind, entry, revision)
        elif kind == "connect":
            self.draw_connection()
        elif kind == "revise":
            self.add(kind, rng.randint(1, 30), *self.service())
        elif kind in ["mark", "unmark"]:
            self.add(kind, day, f"ENG-{rng.randint(1, 3)}")
        elif kind == "cause":
            code = rng.randint(1, 63)
            self.add(kind, code, f"CAUSE-{code}")
        elif kind == "life" and state.devices:
            self.add(kind, rng.choice(list(state.devices)), *self.life())
        elif kind == "device":
            self.draw_device(rng.choice(list(state.feeders)))
        elif kind in ["section", "bus"]:
            self.draw_node(kind)

    def draw_refused(self) -> None:
        """A last row that is refused, but for chance."""
        self.rows.append(self.refused_row(self.rng))

    def refused_row(self, rng: random.Random) -> list[str]:
        """A row that is refused, but for chance."""
        if rng.random() < 0.3:
            row = list(rng.choice(self.rows))
            row[rng.randrange(8)] = rng.choice(["*", " ", "a", "100000000000"])
            return row
        kind, *fields = map(str, rng.choice(list(self.refused_commands())))
        row = [kind, rng.choice(["R-1", "X", "X", "X"]), *fields]
        return row + [""] * (8 - len(row))

    def other_row(self, rng: random.Random) -> list[str]:
        """A row of what is seldom in a text: a day marked or unmarked, a service or an entry changed once more."""
        state, period = self.state, self.state.period
        day, since = rng.choice(period.days[:-1]), rng.randrange(period.first, period.end)
        commands: list[tuple[object, ...]] = [("mark", day, "ENG-9"), ("unmark", day, "ENG-9")]
        for number in list(state.customers)[-2:]:
            commands.append(("revise", number, since, rng.choice(["", since + rng.randint(1, 100_000)])))
        for number, entry in list(enumerate(state.entries, 1))[-2:]:
            commands.append(("withdraw", number, entry.revision))
        kind, *fields = map(str, rng.choice(commands))
        row = [kind, f"E-{len(self.calls)}", *fields]
        return row + [""] * (8 - len(row))

    def refused_commands(self) -> Iterator[tuple[object, ...]]:
        """Commands that most states refuse, each for another reason."""
        state = self.state
        first, end = state.period.first, state.period.end
        code = sorted(state.causes)[-1]
        unused = next(number for number in range(1, 65) if number not in state.causes)
        yield "cause", code, "NEW"
        yield "cause", min(unused, 63), f"CAUSE-{code}"
        yield "cause", min(unused, 63), "UNASSIGNED"
        yield "bus", "GRID"
        yield "bus", "NEW"
        yield "section", "GRID", 1
        yield "device", "D0", "GRID", "N1", "open"
        yield "device", "NEW", "NOWHERE", "GRID", "open"
        yield "life", "NOWHERE", first, end
        yield "connect", 999, "GRID", 0, ""
        yield "revise", 999, 0, ""
        yield "switch", "NOWHERE", "open", first, code, "K1"
        yield "correct", len(state.entries) + 1, 1, "open", first, code, "K1"
        yield "withdraw", len(state.entries) + 1, 1
        yield "mark", state.period.days[-1], "ENG"
        for section in [node for node, feeder in state.feeders.items() if feeder is not None][:1]:
            yield "connect", 999, section, 5, 5
            for number in list(state.customers)[:1]:
                yield "connect", number, section, 0, ""
                yield "revise", number, 5, 4
        for device in list(state.devices)[:1]:
            yield "switch", device, "open", end, code, "K1"
            yield "switch", device, "close", max(0, first - 1), code, "K1"
            yield "switch", device, "close", first, min(unused, 63), "K1"
            yield "life", device, end, end
            yield "device", "NEW", *state.devices[device].ends, "open", end, first
        for number, entry in enumerate(state.entries, 1):
            yield "correct", number, entry.revision + 1, "open", first, code, "K1"
            yield "withdraw", number, max(1, entry.revision - 1)
            yield "correct", number, entry.revision, "open", end, code, "K1"
            yield "correct", number, entry.revision, "open", first, min(unused, 63), "K1"
        for number, day in enumerate(state.period.days[:-1]):
            yield "mark" if number in state.marks else "unmark", day, "ENG"

    def data(self) -> bytes:
        end = self.rng.choice(["\n", "\r\n", "\r"])
        mark = "\ufeff" if self.rng.random() < 0.2 else ""
        lines = [",".join(row) + end for row in [HEADER, *self.rows]]
        return (mark + "".join(lines)).encode()


def text_of(seed: int) -> bytes:
    """The bytes of a seed's text."""
    return Text(seed).data()


def calls_of(seed: int) -> list[list[str]]:
    """The commands of a seed's book in the order in which they are sent, with those that are refused or sent again."""
    return Text(seed).calls


def old_text_of(seed: int) -> bytes:
    """The bytes of a seed's text whose rows version 1 accepted too, but for a last one that is refused."""
    return Text(seed, is_of_version_1=True).data()


def main() -> None:
    parser = argparse.ArgumentParser(description="Writes a small random text of commands to standard output.")
    parser.add_argument("seed", type=int)
    parser.add_argument("--period", action="store_true", help="the period in place of the text")
    words = parser.parse_args()
    if words.period:
        print(*period_of(words.seed))
    else:
        print(text_of(words.seed).decode(), end="")


if __name__ == "__main__":
    main()
