"""A book at rest: what it has more is taken in, its last acts get their persons, and a witness that
was kept gets its last line."""

import logging
import os
import time
from collections.abc import Iterator

from hall_archive import checks, witness
from hall_archive.following import COMMIT_ROWS, Follower
from hall_archive.reading import Reader, at_rest
from hall_archive.rows import line_of
from hall_archive.service import People, Witnessing
from hall_archive.settings import BookSettings, Settings
from hall_archive.store import Store
from hall_archive.taking import OtherBook, Page
from hall_archive.witness import Witness

log = logging.getLogger("hall-archive")


class Rest:
    """A book at rest as a source of rows, some thousands of lines at a time."""

    is_new = False

    def __init__(self, reader: Reader, book: str, after: int) -> None:
        asked = reader.ask(book, "acts", str(after) if after else "")
        self.lines = checks.lines_of(asked)
        self.after = after

    def ask(self, after: int) -> Page:
        assert after == self.after
        lines = list(next_lines(self.lines))
        self.after += len(lines)
        # as of a door, an answer of PAGE_ROWS or more has more behind it
        return Page("".join(lines), self.after)

    def close(self) -> None:
        pass


def next_lines(lines: Iterator[str]) -> Iterator[str]:
    for _, line in zip(range(COMMIT_ROWS), lines, strict=False):
        yield line


def take_rest(kept: Store, reader: Reader) -> int:
    """Takes in what a book at rest has more; how many rows that makes."""
    follower = Follower(kept.name, Rest(reader, kept.name, kept.cursor().upto), kept)
    while follower.step()[0]:
        pass
    if follower.waiting.upto > follower.waiting.after:
        follower.keep()
    return follower.upto


def first_other(kept: Store, reader: Reader, upto: int) -> str:
    """What of the book's first rows isn't as it was taken; nothing where all of it is."""
    lines = checks.lines_of(reader.ask(kept.name, "acts"))
    said = compare_rows(map(line_of, kept.entries(upto=upto)), lines, upto)
    checks.read_out(lines)
    return said


def compare_rows(ours: Iterator[str], lines: Iterator[str], upto: int) -> str:
    row = 0
    for row, (one, other) in enumerate(zip(ours, lines, strict=False), 1):
        if f"{one}\n" != other:
            return f"has another row {row} than was taken: {other[:80].rstrip()}"
    return f"has {row} rows, {upto} were taken" if row < upto else ""


def refuse(kept: Store, why: str) -> None:
    said = f"book {kept.name} isn't the one that was followed: it {why}"
    kept.refuse(said)
    raise OtherBook(said)


# ---- behind the last row


def witnessed(settings: Settings, book: BookSettings, kept: Store, reader: Reader) -> None:
    """A witness that was kept has a line of all rows, with their fingerprint."""
    if not os.path.exists(settings.witness(book)):
        return
    if witnessing := witnessing_of(settings, book, kept, reader):
        close = witnessing.close
        at_rest(reader, lambda: close(time.time_ns() // 1_000_000))


def people_tied(settings: Settings, kept: Store) -> None:
    """The acts that came behind the end of the follower have their persons too."""
    if settings.front:
        try:
            People(kept, settings.front).look_all()
        except OSError as fault:
            log.warning("%s: the persons of its last acts aren't known: %s", kept.name, fault)


def witnessing_of(
    settings: Settings, book: BookSettings, kept: Store, reader: Reader
) -> Witnessing | None:
    """Keeps the witness of a book; none, and an alarm, where its file isn't chained any more."""
    path = settings.witness(book)
    try:
        return Witnessing(kept, Witness(path), reader)
    except witness.Differs as fault:
        kept.alarm(time.time_ns() // 1_000_000, f"{path}: {fault}")
        log.error("%s: %s: no line is added", path, fault)
        return None
