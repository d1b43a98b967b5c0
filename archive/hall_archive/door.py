"""A door of a running hall on 127.0.0.1, as a source of rows: `GET /acts/N` ten times a second,
over one connection after another. Its answers are as docs/FORMATS.md has them: what else comes is
no answer of a door."""

import re
import socket

from hall_archive.taking import Page, Unanswered

# A door ends a connection at its 1 000th request: it is renewed before.
REQUESTS = 900
# Seconds that an answer is waited for, and bytes that are taken at once.
PATIENCE = 10
PIECE = 65_536
# The longest head, and the longest answer.
HEAD_BYTES = 1_024
MOST_BYTES = 1 << 20
END = b"\r\n\r\n"
HEAD = re.compile(
    rb"HTTP/1\.1 (?P<status>[0-9]{3}) [A-Za-z ]+\r\n(?:[A-Za-z-]+: [^\r\n]*\r\n)*?"
    rb"Content-Length: (?P<size>[0-9]{1,7})\r\n(?:Book-Row: (?P<rows>[0-9]{1,7})\r\n)?"
    rb"(?:[A-Za-z-]+: [^\r\n]*\r\n)*"
)


class Door:
    """A door, by its port."""

    def __init__(self, port: int) -> None:
        self.port = port
        self.link: socket.socket | None = None
        self.asked = 0

    @property
    def is_new(self) -> bool:
        return self.link is None or self.asked >= REQUESTS

    def ask(self, after: int) -> Page:
        """The lines behind a row; Unanswered where none come, and then the next request is of
        another connection."""
        try:
            status, rows, body = self.answer(after)
            text = body.decode("ascii")
        except (OSError, ValueError) as fault:
            self.close()
            raise Unanswered(f"port {self.port}: {fault or type(fault).__name__}") from fault
        if status != 200 or rows is None:
            self.close()
            raise Unanswered(f"port {self.port}: {status} {text[:80]}")
        return Page(text, rows)

    def answer(self, after: int) -> tuple[int, int | None, bytes]:
        """The status, how many rows the book has where that is said, and the body."""
        link = self.opened()
        self.asked += 1
        link.sendall(b"GET /acts/%d HTTP/1.1\r\nHost: 127.0.0.1\r\n\r\n" % after)
        held = taken(link)
        while (place := held.find(END)) < 0:
            if len(held) > HEAD_BYTES:
                raise ValueError("the head of an answer doesn't end")
            held += taken(link)
        found = HEAD.fullmatch(held, 0, place + 2)
        size = int(found["size"]) if found else MOST_BYTES + 1
        if found is None or size > MOST_BYTES:
            raise ValueError(f"no answer of a door: {held[:80]!r}")
        return int(found["status"]), rows_of(found), body_of(link, held[place + len(END) :], size)

    def opened(self) -> socket.socket:
        """The connection for the next request."""
        if self.link is None or self.asked >= REQUESTS:
            self.close()
            self.link = socket.create_connection(("127.0.0.1", self.port), timeout=PATIENCE)
            self.link.setsockopt(socket.IPPROTO_TCP, socket.TCP_NODELAY, 1)
        return self.link

    def close(self) -> None:
        """Ends the connection."""
        if self.link:
            self.link.close()
        self.link, self.asked = None, 0


def rows_of(found: re.Match[bytes]) -> int | None:
    return int(found["rows"]) if found["rows"] else None


def body_of(link: socket.socket, held: bytes, size: int) -> bytes:
    parts, count = [held], len(held)
    while count < size:
        parts.append(taken(link))
        count += len(parts[-1])
    if count > size:
        raise ValueError(f"more than {size} bytes came")
    return b"".join(parts)


def taken(link: socket.socket) -> bytes:
    if got := link.recv(PIECE):
        return got
    raise ConnectionError("the connection ended")
