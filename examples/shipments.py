#!/usr/bin/env python3
"""Writes what is new of a book as shipments, one behind the other, for one `hall follow
--shipments 1000000` that stays open. For standby.sh, which says what it is for.

usage: shipments.py BOOK ROWS     ROWS is how many rows the copy has of the book's; HALL, DOOR,
                                  EVERY and TIMES in the environment as standby.sh has them

At the door each look asks for the rows behind those that were written (`/rows/N`), so its cost
grows with what is new. Where nothing answers there, or without DOOR, the file is shipped whenever
it has changed. `book N rows, copy M` goes to descriptor 3 each second: M is what was taken out of
the pipe.

Status 0: TIMES looks were made. 3: nobody reads any more, the shipments of one `follow` are used
up, or the book has fewer rows than before. 2: the hall at the door serves another book.
"""

import fcntl
import hashlib
import http.client
import os
import re
import struct
import subprocess
import sys
import termios
import time
from typing import NamedTuple

HEAD, ROW, MARK = 16, 96, b"AQHSHIP2"
# How many rows an answer of a door has at most, and how many shipments one `follow` takes.
PAGE, MOST_SHIPMENTS = 128, 1_000_000
# Seconds that an answer is waited for, between two looks, and between two lines that say how it is.
PATIENCE, LOOK, LINE = 20, 0.2, 1.0
DONE, OTHER_BOOK, AGAIN = 0, 2, 3


class Missing(Exception):
    """There is no answer, or none that can be used: it may be asked again."""


class Other(Exception):
    """The hall at the door serves another book."""


class Shipment(NamedTuple):
    """Rows of a book: all its bytes, how many rows the book has, and how many were passed over."""

    sent: bytes
    all: int
    after: int

    @property
    def rows(self) -> int:
        return (len(self.sent) - HEAD) // ROW


def head_of(count: int, after: int) -> bytes:
    return MARK + struct.pack("<II", count, after)


def read_shipment(sent: bytes) -> Shipment:
    if len(sent) < HEAD or not sent.startswith(MARK):
        raise Missing("no shipment")
    count, after = struct.unpack("<II", sent[len(MARK) : HEAD])
    return Shipment(sent, count, after)


class Book:
    """A book's file, read by the program."""

    def __init__(self, path: str, program: str) -> None:
        self.path, self.program = path, program
        self.seen = (0, 0)

    def say(self, *words: str) -> bytes:
        ran = subprocess.run(
            [self.program, *words, "--book", self.path],
            stdin=subprocess.DEVNULL,
            capture_output=True,
        )
        if ran.returncode:
            said = (ran.stderr or ran.stdout).decode(errors="replace").strip()
            raise Missing(f"hall {words[0]} of {self.path} ends {ran.returncode}: {said}")
        return ran.stdout

    def behind(self, after: int) -> Shipment | None:
        """What the file has behind a row, where it has changed since it was last asked."""
        try:
            found = os.stat(self.path)
        except OSError as fault:
            raise Missing(str(fault)) from fault
        now = found.st_mtime_ns, found.st_size
        if now == self.seen:
            return None
        shipment = read_shipment(self.say("ship", "--after", str(after)))
        self.seen = now
        return shipment

    def fingerprint(self, rows: int) -> tuple[int, str]:
        """How many rows it has, and the fingerprint of the first, so many at most."""
        said = self.say("audit", "--rows", str(rows)).decode("ascii")
        found = re.fullmatch(r"rows (\d+) whole\nsnapshot \w+\nsha256 (\w+)\n", said)
        if not found:
            raise Missing(f"hall audit of {self.path} says {said}")
        return int(found[1]), found[2]


class Door:
    """The standby's own door of the hall that serves the book."""

    def __init__(self, port: int) -> None:
        self.link = http.client.HTTPConnection("127.0.0.1", port, timeout=PATIENCE)
        # whether its hall was seen to serve the book since it was last gone
        self.is_known = False

    def behind(self, after: int) -> Shipment:
        """The next rows, and how many rows the hall's book has in all."""
        try:
            self.link.request("GET", f"/rows/{after}")
            answer = self.link.getresponse()
            sent, rows = answer.read(), answer.headers["Book-Row"]
        except (OSError, http.client.HTTPException) as fault:
            self.link.close()
            self.is_known = False
            raise Missing(f"port {self.link.port}: {fault}") from fault
        if answer.status != 200 or rows is None:
            raise Missing(f"port {self.link.port} answers {answer.status} at /rows/{after}")
        return read_shipment(sent)._replace(all=int(rows))

    def know(self, book: Book) -> None:
        """Compares the first rows of the hall with those of the file."""
        if self.is_known:
            return
        first = self.behind(0)
        count, told = book.fingerprint(first.rows)
        alike = min(count, first.rows)
        front = head_of(alike, 0) + first.sent[HEAD : HEAD + ROW * alike]
        if hashlib.sha256(front).hexdigest() != told:
            raise Other(f"the hall at port {self.link.port} serves another book than {book.path}")
        self.is_known = True


class Standby:
    """What is new, from the door or from the file, and where it goes."""

    def __init__(self, book: Book, door: Door | None, rows: int) -> None:
        self.book, self.door, self.rows = book, door, rows
        self.all, self.shipments, self.said, self.told = rows, 0, 0.0, ""

    def next(self) -> Shipment | None:
        if self.door:
            try:
                self.door.know(self.book)
                return self.door.behind(self.rows)
            except Missing as fault:
                self.tell(str(fault))
        return self.book.behind(self.rows)

    def look(self) -> bool:
        """Ships what is new. Says whether there may be more at once."""
        try:
            shipment = self.next()
        except Missing as fault:
            self.tell(str(fault))
            return False
        if shipment is None:
            return False
        self.all = shipment.all
        # a shipment without a row is sent first, so that the copy is there and was compared
        if shipment.rows or not self.shipments:
            self.rows = shipment.after + shipment.rows
            os_write(shipment.sent)
            self.shipments += 1
        return shipment.rows >= PAGE

    def has_fewer(self) -> bool:
        return self.all < self.rows

    def tell(self, words: str) -> None:
        """Says why nothing comes, once."""
        if words != self.told:
            print(f"standby: {words}", file=sys.stderr, flush=True)
        self.told = words

    def say(self) -> None:
        if time.monotonic() - self.said < LINE:
            return
        self.said = time.monotonic()
        taken = self.rows - -(-unread() // ROW)
        os.write(3, f"book {self.all} rows, copy {max(0, taken)}\n".encode())


def os_write(sent: bytes) -> None:
    rest = memoryview(sent)
    while rest:
        rest = rest[os.write(1, rest) :]


def unread() -> int:
    """How many bytes of the pipe nobody has taken yet."""
    try:
        return int.from_bytes(fcntl.ioctl(1, termios.FIONREAD, bytes(4)), sys.byteorder)
    except OSError:
        return 0


def work(standby: Standby, every: float, times: int) -> int:
    while times != 0 and standby.shipments < MOST_SHIPMENTS:
        if standby.look():
            continue
        standby.say()
        if standby.has_fewer():
            return AGAIN
        times -= 1
        time.sleep(every if times else 0)
    return AGAIN if times else DONE


def main() -> int:
    path, rows = sys.argv[1:]
    settings = os.environ
    door = Door(int(settings["DOOR"])) if settings.get("DOOR") else None
    standby = Standby(Book(path, settings.get("HALL", "hall")), door, int(rows))
    try:
        return work(standby, float(settings.get("EVERY", LOOK)), int(settings.get("TIMES", -1)))
    except BrokenPipeError:
        return AGAIN
    except Other as other:
        print(f"standby: {other}", file=sys.stderr)
        return OTHER_BOOK


if __name__ == "__main__":
    sys.exit(main())
