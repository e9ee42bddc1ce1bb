"""Kills the desk in the middle of its work, and sees that nothing that it answered is lost.

    python3 tests/soak_desk.py [--kills N] [--seed N] [--program FILE] [--folder FOLDER] [--quick]

A client sends the commands of the sample fortnight to `outagebook serve`, one after another over a kept connection, and
the program is killed (SIGKILL) at a random moment. Then `audit` has to say `audit ok`, and the commands in the book have
to be those that were answered, and at most the one that wasn't; their table has to be that of a book of as many rows.
The desk is started anew, and the client sends what wasn't answered once more, under the same reference: each reply has
to be the one that a desk gives that nobody kills. At the end the table and the export are compared with the sample's,
and a new book is begun, until there were so many kills. It ends with status 1 at the first thing that is wrong, and
leaves that book in the folder. --quick: 50 kills.
"""

import csv
import http.client
import json
import random
import shutil
import subprocess
import sys
import tempfile
import threading
import time
from collections import Counter
from pathlib import Path

from soak import TEXT, Office, Wrong, look_after_kill, look_at_end, show, words_of

Reply = tuple[int, bytes]  # status and body
BROKEN = (OSError, http.client.HTTPException)


class Desk:
    """The program as it serves a book, until it is killed."""

    def __init__(self, office: Office) -> None:
        words = office.words("serve", "--port", "0")
        self.child = subprocess.Popen(words, stdout=subprocess.PIPE, stderr=subprocess.DEVNULL, text=True)
        assert self.child.stdout is not None
        self.told = self.child.stdout
        line = self.told.readline()
        if not line.startswith("listening 127.0.0.1:"):
            raise Wrong(f"serve says {line!r}")
        self.connection = http.client.HTTPConnection("127.0.0.1", int(line.rpartition(":")[2]))

    def post(self, command: str) -> Reply:
        """The status and the body of the reply to one command."""
        self.connection.request("POST", "/commands", command)
        reply = self.connection.getresponse()
        return reply.status, reply.read()

    def kill(self) -> None:
        self.child.kill()
        self.child.wait()
        self.told.close()
        self.connection.close()


def commands_of_text() -> list[str]:
    """The rows of the sample as the bodies of requests."""
    with TEXT.open(newline="", encoding="ascii") as text:
        return [json.dumps({name: value for name, value in row.items() if value}) for row in csv.DictReader(text)]


def refs_of(commands: list[str]) -> list[str]:
    return [json.loads(command)["ref"] for command in commands]


def replies_unkilled(program: str | Path, commands: list[str]) -> tuple[list[Reply], float]:
    """The replies of a desk that nobody kills before it has given all, and the seconds that they took."""
    with tempfile.TemporaryDirectory() as folder:
        desk = Desk(Office(program, Path(folder)))
        begun = time.perf_counter()
        replies = [desk.post(command) for command in commands]
        seconds = time.perf_counter() - begun
        desk.kill()
    return replies, seconds


def post_until_killed(office: Office, commands: list[str], replies: list[Reply], answered: int, seconds: float) -> int:
    """Sends the commands after the answered ones, and kills the desk after so many seconds; answers how many are answered then."""
    desk = Desk(office)
    killer = threading.Timer(seconds, desk.child.kill)
    killer.start()
    try:
        while answered < len(commands):
            try:
                said = desk.post(commands[answered])
            except BROKEN:
                break
            if said != replies[answered]:
                raise Wrong(f"the reply to command {answered + 1} is {said} in place of {replies[answered]}")
            answered += 1
    finally:
        killer.cancel()
        desk.kill()
    return answered


def soak(program: str | Path, folder: Path, kills: int, seed: int) -> tuple[int, Counter[int], int]:
    """Kills desks until there were so many kills; answers how many books there were, how many kills left how many commands, and how many commands
    were kept that had not been answered."""
    random.seed(seed)
    commands = commands_of_text()
    refs = refs_of(commands)
    replies, whole = replies_unkilled(program, commands)
    tables, left, books, unanswered = dict[int, str](), Counter[int](), 0, 0
    while left.total() < kills:
        place = folder / f"desk-{books}"
        place.mkdir()
        office, answered, count = Office(program, place), 0, 0
        while answered < len(commands):
            answered = post_until_killed(office, commands, replies, answered, random.uniform(0, whole))
            count = look_after_kill(office, refs, max(answered, count), tables)
            if count > answered + 1:
                raise Wrong(f"{count} commands where {answered} were answered")
            left[count] += 1
            unanswered += count - answered
        look_at_end(office)
        shutil.rmtree(place)
        books += 1
    return books, left, unanswered


def main() -> int:
    words = words_of("Kills the desk at random moments.")
    try:
        books, left, unanswered = soak(words.program, words.folder, words.kills, words.seed)
    except Wrong as wrong:
        print(f"{wrong}\nthe books are in {words.folder}")
        return 1
    show(books, left)
    print(
        f"{unanswered} kills fell between a commit and its reply; each command was answered once more, as before, and nothing was lost"
    )
    return 0


if __name__ == "__main__":
    sys.exit(main())
