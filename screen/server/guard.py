"""What stands between a socket and the web server: limits of a head, of a body, and of the time that each side may take.

Each connection has one request. A connection that says nothing, or half of something, is closed in time, and so is one
that doesn't read what it is sent; one whose head is too long is told so. The web server behind it sees whole heads alone.
"""

import asyncio
import re
from dataclasses import dataclass
from typing import cast

HEAD_BYTES = 16_384
BODY_BYTES = 4_194_304
MOST_CONNECTIONS = 2_000
END_OF_HEAD = b"\r\n\r\n"
FIRST_LINE = re.compile(rb"[A-Z]{1,20} /[!-~]{0,8000} HTTP/1\.[01]\r\n")
FOLDED = re.compile(rb"\r?\n[ \t]")  # a field that goes on in the next line
MOST_FIELDS = 100


@dataclass(frozen=True)
class Limits:
    """Seconds that a connection may take: for a whole head, for a whole body, and until it takes what it is sent."""

    head: float = 10.0
    body: float = 30.0
    reading: float = 30.0


def refusal(status: str) -> bytes:
    return f"HTTP/1.1 {status}\r\nContent-Length: 0\r\nConnection: close\r\n\r\n".encode()


class Guard(asyncio.Protocol):
    """A connection: its head is gathered, then handed on with what follows."""

    open_connections = 0
    transport: asyncio.Transport
    timer: asyncio.TimerHandle  # for the head, then for the body

    def __init__(self, inner: asyncio.Protocol, limits: Limits):
        self.inner, self.limits = inner, limits
        self.head = b""
        self.is_whole = False  # the head: what is behind the guard knows of the connection
        self.left = 0  # bytes of the body
        self.unread: asyncio.TimerHandle | None = None

    def connection_made(self, transport: asyncio.BaseTransport) -> None:
        self.transport = cast(asyncio.Transport, transport)
        self.transport.set_write_buffer_limits(0)  # so that each byte that isn't taken at once is told
        self.timer = asyncio.get_running_loop().call_later(self.limits.head, self._too_late)
        Guard.open_connections += 1
        if Guard.open_connections > MOST_CONNECTIONS:
            self._close(refusal("503 Service Unavailable"))

    def _too_late(self) -> None:
        self._close(refusal("408 Request Timeout") if self.head or self.is_whole else b"")

    def _close(self, last: bytes) -> None:
        if not self.transport.is_closing():
            self.transport.write(last)
            self.transport.close()

    def data_received(self, data: bytes) -> None:
        if self.transport.is_closing():
            return
        if self.is_whole:
            self._hand_on(data)
            return
        self.head += data
        end = self.head.find(END_OF_HEAD)
        if end > HEAD_BYTES or (end < 0 and len(self.head) > HEAD_BYTES):
            self._close(refusal("431 Request Header Fields Too Large"))
        elif end >= 0:
            self._begin(end + len(END_OF_HEAD))

    def _begin(self, length: int) -> None:
        """The head is whole: what the body may have is counted from here on."""
        head, rest, self.head = self.head[:length], self.head[length:], b""
        told = self._told_length(head)
        if told is None or told > BODY_BYTES:
            self._close(refusal("400 Bad Request" if told is None else "413 Payload Too Large"))
            return
        self.is_whole, self.left = True, told
        self.timer.cancel()
        if told:
            self.timer = asyncio.get_running_loop().call_later(self.limits.body, self._too_late)
        self.inner.connection_made(self.transport)
        self.inner.data_received(head)
        self._hand_on(rest)

    def _told_length(self, head: bytes) -> int | None:
        """The length of the body by Content-Length; None where the head isn't one that is taken."""
        fields = [line.partition(b":") for line in head.split(b"\r\n")[1:] if line]
        if not FIRST_LINE.match(head) or len(fields) > MOST_FIELDS or FOLDED.search(head):
            return None
        names = [name.strip().lower() for name, _, _ in fields]
        lengths = [value.strip() for name, _, value in fields if name.strip().lower() == b"content-length"]
        if b"transfer-encoding" in names or len(lengths) > 1 or names.count(b"host") > 1:
            return None
        if not lengths:
            return 0
        return int(lengths[0]) if lengths[0].isdigit() and len(lengths[0]) <= 15 else None

    def _hand_on(self, data: bytes) -> None:
        """Hands on what belongs to the one request; what follows it is not read."""
        part, self.left = data[: self.left], self.left - min(len(data), self.left)
        if part:
            self.inner.data_received(part)
        if not self.left:
            self.timer.cancel()

    def eof_received(self) -> bool | None:
        return self.inner.eof_received() if self.is_whole else False

    def connection_lost(self, error: Exception | None) -> None:
        Guard.open_connections -= 1
        self.timer.cancel()
        if self.unread is not None:
            self.unread.cancel()
        if self.is_whole:
            self.inner.connection_lost(error)

    def pause_writing(self) -> None:
        self.unread = asyncio.get_running_loop().call_later(self.limits.reading, self.transport.abort)
        if self.is_whole:
            self.inner.pause_writing()

    def resume_writing(self) -> None:
        if self.unread is not None:
            self.unread.cancel()
        if self.is_whole:
            self.inner.resume_writing()
