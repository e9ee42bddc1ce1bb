"""Makes reports of a book while its desk acts commands, and sees that none fails and none differs.

    python3 tests/soak_reports.py [--commands N] [--reports N] [--seed N] [--program FILE] [--folder FOLDER]

A client sends random switchings, corrections and withdrawals to `outagebook serve`, one after another, as many during
each report; each tool compares its figures with the program's of the same copy before it answers. Beside each page the
book's commands are written: they have to be those that the desk accepted, in their order, no fewer than were answered
before the tool began, and no more than one above those that were answered when it ended. It ends with status 1 at the
first thing that is wrong, and leaves the book in the folder.
"""

import argparse
import csv
import json
import random
import subprocess
import sys
import tempfile
import threading
import time
from pathlib import Path

from places import PROGRAM, ROOT
from soak import TEXT, Office, Wrong
from soak_desk import BROKEN, Desk

FIRST, END = 1_742_770_800, 1_743_976_800  # the fortnight's seconds
CAUSES = range(1, 9)


def rows_of_text() -> list[dict[str, str]]:
    with TEXT.open(newline="", encoding="ascii") as text:
        return list(csv.DictReader(text))


class Client(threading.Thread):
    """Sends random commands over one connection, so many for each report that has begun."""

    def __init__(self, desk: Desk, rows: list[dict[str, str]], seed: int, share: int) -> None:
        super().__init__(daemon=True)
        self.desk, self.share, self.rng = desk, share, random.Random(seed)
        self.devices = [row["f1"] for row in rows if row["kind"] == "device"]
        self.refs = [row["ref"] for row in rows]  # accepted, in order
        self.begun_with = len(self.refs)
        self.revisions = self.revisions_of(rows)
        self.number, self.rounds, self.sent, self.is_over = self.count_entries(rows), 0, 0, False
        self.wrong: Exception | None = None

    @staticmethod
    def count_entries(rows: list[dict[str, str]]) -> int:
        return sum(row["kind"] == "switch" for row in rows)

    def revisions_of(self, rows: list[dict[str, str]]) -> dict[int, int]:
        """The revision of each kept entry."""
        revisions = {number: 1 for number in range(1, self.count_entries(rows) + 1)}
        for row in rows:
            if row["kind"] == "correct":
                revisions[int(row["f1"])] += 1
            elif row["kind"] == "withdraw":
                del revisions[int(row["f1"])]
        return revisions

    @property
    def acted(self) -> int:
        return len(self.refs) - self.begun_with

    def drawn(self) -> list[str]:
        """A command that the desk accepts."""
        rng = self.rng
        act = [rng.choice(["open", "close"]), str(rng.randrange(FIRST, END)), str(rng.choice(CAUSES)), "SOAK"]
        kind = rng.choices(["switch", "correct", "withdraw", "life"], [6, 3, 1, 1])[0]
        if kind == "switch":
            return [kind, rng.choice(self.devices), *act]
        if kind == "life":
            since, until = sorted(rng.sample(range(FIRST, END), 2))
            return [kind, rng.choice(self.devices), *rng.choice([["", ""], ["", str(until)], [str(since), str(until)]])]
        entry = rng.choice(sorted(self.revisions))
        return [kind, str(entry), str(self.revisions[entry]), *(act if kind == "correct" else [])]

    def take(self, kind: str, fields: list[str]) -> None:
        """Keeps what an accepted command changed."""
        if kind == "switch":
            self.number += 1
            self.revisions[self.number] = 1
        elif kind == "correct":
            self.revisions[int(fields[0])] += 1
        elif kind == "withdraw":
            del self.revisions[int(fields[0])]

    def send(self) -> None:
        kind, *fields = self.drawn()
        self.sent += 1
        ref = f"SOAK-{self.sent}"
        command = {"kind": kind, "ref": ref, **{f"f{n}": text for n, text in enumerate(fields, 1)}}
        status, body = self.desk.post(json.dumps(command))
        if status != 200:
            raise Wrong(f"the desk says {status} {body!r} to {command}")
        self.take(kind, fields)
        self.refs.append(ref)

    def run(self) -> None:
        try:
            while not self.is_over:
                if self.acted < self.share * self.rounds:
                    self.send()
                else:
                    time.sleep(0.001)
        except (Wrong, *BROKEN) as wrong:
            self.wrong = wrong


def run_tool(office: Office, tool: str, *words: str | Path) -> str:
    """What a tool prints of the book; it has to end well."""
    command = [sys.executable, ROOT / f"tools/{tool}.py", office.book, *words, "--program", office.program]
    done = subprocess.run(list(map(str, command)), capture_output=True, text=True, check=False)
    if done.returncode:
        raise Wrong(f"{tool} ended with {done.returncode}: {done.stderr}")
    return done.stdout


def look_at_commands(office: Office, client: Client) -> None:
    """The commands that a copy of the book has are the first ones that the desk accepted."""
    before = len(client.refs)
    rows = csv.DictReader(run_tool(office, "commands").splitlines())
    after = len(client.refs) + 1
    refs = [row["ref"] for row in rows]
    while len(client.refs) < len(refs) and client.is_alive():
        time.sleep(0.001)
    if refs != client.refs[: len(refs)] or not before <= len(refs) <= after:
        raise Wrong(f"{len(refs)} commands where {before} to {after} were answered, or others")


def soak(office: Office, client: Client, reports: int) -> list[float]:
    """Makes the reports; answers the seconds of each."""
    seconds = []
    client.start()
    for number in range(reports):
        client.rounds = number + 1
        begun = time.perf_counter()
        run_tool(office, "report", "-o", office.folder / f"page-{number}.html")
        seconds.append(time.perf_counter() - begun)
        look_at_commands(office, client)
        while client.acted < client.share * client.rounds and client.is_alive():
            time.sleep(0.001)
        if client.wrong:
            raise Wrong(client.wrong)
    return seconds


def main() -> int:
    parser = argparse.ArgumentParser(description="Makes reports of a book while its desk acts commands.")
    parser.add_argument("--commands", type=int, default=1000)
    parser.add_argument("--reports", type=int, default=50)
    parser.add_argument("--seed", type=int, default=1)
    parser.add_argument("--program", default=PROGRAM, help="the program (that of crates/outagebook)")
    parser.add_argument("--folder", type=Path, help="where the book is made (a temporary folder)")
    words = parser.parse_args()
    folder = Path(words.folder or tempfile.mkdtemp(prefix="soak-"))
    folder.mkdir(exist_ok=True)
    office = Office(words.program, folder)
    office.run("import", TEXT)
    desk = Desk(office)
    client = Client(desk, rows_of_text(), words.seed, -(-words.commands // words.reports))
    try:
        seconds = soak(office, client, words.reports)
    except Wrong as wrong:
        print(f"{wrong}\nthe book is in {folder}")
        return 1
    finally:
        client.is_over = True
        client.join()
        desk.kill()
    pages = {(folder / f"page-{number}.html").read_bytes() for number in range(words.reports)}
    print(
        f"{words.reports} reports, {len(pages)} different pages, under {client.acted} commands; none failed, none differed"
    )
    print(f"a report took {min(seconds):.2f} to {max(seconds):.2f} s; {office.run('audit').strip()}")
    return 0


if __name__ == "__main__":
    sys.exit(main())
