"""Who acted, and why: lines of JSON that the front writes for each act, tied to the rows of a book.

The front's line has the time of the answer and how long it took (seconds of UTC), the hall's book,
the person, the status, the row that the answer named, and the body of the act; never a password.
Desk and request are no key of lines, since a refused number comes again: a line of status 200 is of
the row that it was answered, where that row has its desk, its request and its act. A repeat is
answered with how many rows the book has by then: it is of the act before that has the desk and the
request, which no two acts of a book have. The first line of a row is the one who acted."""

import json
import os
from typing import Any, NamedTuple, Protocol

from hall_archive.rows import Entry

ACCEPTED = 200
# The longest reason that is kept, in letters.
REASON_LETTERS = 500
# Bytes of a log that are read at once.
PIECE = 1 << 20
WORDS = {"product_ml": "product", "open_at": "open"}


class Place(NamedTuple):
    """How far a log was read: the file, by its inode, and the bytes of it."""

    file: int
    place: int


class Line(NamedTuple):
    """What the front says of an act that was accepted. Times in ms of UTC."""

    row: int
    person: str
    desk: int
    request: int
    act: str
    reason: str | None
    low: int
    high: int
    text: str


class Hour(NamedTuple):
    """From when the front had a request to when it had answered, ms of UTC."""

    low: int
    high: int


class Tied(NamedTuple):
    """A line that is tied to its row; or, with `fault`, one of no act of the book. A repeat has no
    hour: it was asked later than its act."""

    row: int
    person: str
    reason: str | None
    hour: Hour | None
    line: str
    fault: str


class Acts(Protocol):
    """The acts of a book."""

    def acts_at(self, rows: list[int]) -> dict[int, Entry]:
        """The acts of some rows, where there are any."""

    def act_of(self, desk: int, request: int, upto: int) -> Entry | None:
        """The act of a desk and a request, among the first `upto` rows."""


def read_line(text: str, book: str) -> Line | None:
    """An accepted act of this book; None for each other line."""
    try:
        said = json.loads(text)
        body = json.loads(said["body"])
        if said["book"] != book or int(said["status"]) != ACCEPTED:
            return None
        high = round(float(said["time"]) * 1000)
        low = high - round(float(said["took"]) * 1000)
        numbers = int(said["row"]), int(body["desk"]), int(body["request"])
        reason = reason_of(body)
        return Line(numbers[0], said["person"], *numbers[1:], body["act"], reason, low, high, text)
    except (ValueError, KeyError, TypeError):
        return None


def reason_of(body: dict[str, Any]) -> str | None:
    reason = body.get("reason")
    return reason[:REASON_LETTERS] if isinstance(reason, str) and reason.strip() else None


def is_of(line: Line, entry: Entry | None) -> bool:
    """Whether an act has a line's desk, request and kind."""
    if entry is None or (entry.desk, entry.request) != (line.desk, line.request):
        return False
    return type(entry.act).__name__.lower() == WORDS.get(line.act, line.act)


def tie(line: Line, there: Entry | None, acts: Acts) -> Tied:
    """Ties a line to its act, where `there` is the act of its row."""
    row, fault = line.row, ""
    hour: Hour | None = Hour(line.low, line.high)
    if not is_of(line, there):
        hour, before = None, acts.act_of(line.desk, line.request, row)
        if before and is_of(line, before):
            row = before.row
        else:
            fault = f"up to row {row} no {line.act} is of desk {line.desk}, request {line.request}"
    return Tied(row, line.person, line.reason, hour, line.text, fault)


class Log:
    """The front's log, read from a place on. Where the log was turned, its file of before (PATH.1)
    is read to its end first."""

    def __init__(self, path: str, place: Place) -> None:
        self.path = path
        self.place = place

    def lines(self) -> tuple[list[str], Place]:
        """The whole lines that came since, and the place behind them. A last line without its LF
        is left for the next time."""
        file = self.place.file
        for path in (self.path, f"{self.path}.1"):
            if inode_of(path) == file and file:
                found = self.read(path, self.place)
                if found[0] or path == self.path:
                    return found
        if inode := inode_of(self.path):
            return self.read(self.path, Place(inode, 0))
        return [], self.place

    def read(self, path: str, place: Place) -> tuple[list[str], Place]:
        with open(path, "rb") as file:
            size = os.fstat(file.fileno()).st_size
            # a file that became shorter was begun anew
            begin = place.place if place.place <= size else 0
            file.seek(begin)
            piece = file.read(PIECE)
        whole = piece[: piece.rfind(b"\n") + 1]
        lines = whole.decode("utf-8", errors="replace").splitlines()
        return lines, Place(place.file, begin + len(whole))


def inode_of(path: str) -> int:
    try:
        return os.stat(path).st_ino
    except OSError:
        return 0


def tie_lines(lines: list[str], book: str, upto: int, acts: Acts) -> tuple[list[Tied], list[str]]:
    """The lines of a book that can be tied now, and those whose row isn't taken yet."""
    said, waiting = [], []
    for text in lines:
        line = read_line(text, book)
        if line and line.row <= upto:
            said.append(line)
        elif line:
            waiting.append(text)
    there = acts.acts_at([line.row for line in said]) if said else {}
    return [tie(line, there.get(line.row), acts) for line in said], waiting
