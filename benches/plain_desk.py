"""A plain desk in Python, to compare `outagebook serve` with: http.server over the plain office (plain_office.py).

    python3 benches/plain_desk.py TEXT --book FILE --first DATE --days N [--zone TEXT] [--port N]

It makes a new book in the file, imports the text, prints `listening 127.0.0.1:<port>` and serves GET /totals and
POST /commands, one connection after another, with kept connections, until it is ended. The bodies are those of the
program (docs/reference/HTTP-API.md). Standard library alone: amounts in dictionaries, one transaction of SQLite a command.
"""

import argparse
import json
import os
import sys
from http.server import BaseHTTPRequestHandler, HTTPServer

import places  # noqa: F401, the modules of oracle/
from commands import NAMES, Refusal
from plain_office import Office
from state import Period

MEMBERS = ["kind", "ref", "f1", "f2", "f3", "f4", "f5", "f6"]
DIMENSIONS = ["cause", "feeder", "day"]
Answer = tuple[int, dict[str, object]]  # status and body
CONFLICTS = {3, 7, 8, 11, 13, 14}


def amounts_of(amounts: dict[int, int]) -> list[list[int]]:
    return [[key, amounts[key]] for key in sorted(amounts) if amounts[key]]


def totals_of(office: Office) -> Answer:
    totals = {name: amounts_of(amounts) for name, amounts in zip(DIMENSIONS, office.amounts)}
    return 200, {**totals, "total": sum(office.amounts[0].values())}


def row_of(body: bytes) -> list[str]:
    """The fields of a command in JSON."""
    try:
        said = json.loads(body)
    except ValueError:
        raise Refusal(1, 0) from None
    if not isinstance(said, dict) or not set(said) <= set(MEMBERS):
        raise Refusal(1, 0)
    for column, name in enumerate(MEMBERS, 1):
        if not isinstance(said.get(name, ""), str):
            raise Refusal(1, column)
    return [said.get(name, "") for name in MEMBERS]


def number_of(office: Office, ref: str) -> int:
    """The number of a command that was accepted before."""
    known = office.known(ref)
    assert known is not None
    return known[0]


def answer_of(office: Office, body: bytes) -> Answer:
    """The status and the body that answer a command."""
    try:
        row = row_of(body)
        number = office.act(row) or number_of(office, row[1])
    except Refusal as refusal:
        said: dict[str, object] = {"refused": refusal.number, "name": NAMES[refusal.number]}
        if refusal.detail is not None:
            said["detail"] = refusal.detail
        return 409 if refusal.number in CONFLICTS else 422, said
    rows = office.run("SELECT dim, k, delta FROM moved WHERE cmd = ? ORDER BY dim, k", (number,))
    return 200, {"moved": [[DIMENSIONS[dim - 1], key, delta] for dim, key, delta in rows], "no": number}


class Desk(BaseHTTPRequestHandler):
    protocol_version = "HTTP/1.1"
    disable_nagle_algorithm = True
    wbufsize = -1  # a reply goes out in one write
    office: Office

    def reply(self, status: int, value: object) -> None:
        body = json.dumps(value, separators=(",", ":"), sort_keys=True).encode()
        self.send_response(status)
        self.send_header("Content-Type", "application/json")
        self.send_header("Content-Length", str(len(body)))
        self.end_headers()
        self.wfile.write(body)

    def do_GET(self) -> None:
        if self.path == "/totals":
            self.reply(*totals_of(self.office))
        else:
            self.send_error(404)

    def do_POST(self) -> None:
        body = self.rfile.read(int(self.headers["Content-Length"]))
        if self.path == "/commands":
            self.reply(*answer_of(self.office, body))
        else:
            self.send_error(404)

    def log_message(self, *_: object) -> None:
        pass


def main() -> None:
    parser = argparse.ArgumentParser(description="Serves a new book over HTTP with kept connections.")
    parser.add_argument("text", help="the commands that the book begins with, as CSV")
    parser.add_argument("--book", required=True, help="the file of the new book")
    parser.add_argument("--first", required=True, help="the first day of the period")
    parser.add_argument("--days", type=int, required=True, help="how many days it has")
    parser.add_argument("--zone", default="UTC0", help="the POSIX rule of the zone")
    parser.add_argument("--port", type=int, default=0, help="the port (one that is free)")
    words = parser.parse_args()
    if os.path.exists(words.book):
        sys.exit(f"{words.book}: there is a book already")
    Desk.office = Office(words.book, Period(words.first, words.days, words.zone), "wal", "full")
    with open(words.text, "rb") as text:
        _, _, refusal = Desk.office.import_text(text.read())
    if refusal:
        sys.exit(str(refusal))
    server = HTTPServer(("127.0.0.1", words.port), Desk)
    print(f"listening 127.0.0.1:{server.server_port}", flush=True)
    server.serve_forever()


if __name__ == "__main__":
    main()
