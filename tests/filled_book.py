"""Writes a book of many rows by docs/FORMATS.md alone, since a hall would take long to weigh them.

usage: filled_book.py ROWS PATH

One lane weighs good packs of 250 g in a package of 10 g, a few thousand a batch. Each batch is
ended; the rows left after the last one are days. ROWS is 20 to 1 000 000. The book has no snapshot,
as one that a kill left.
"""

import sys
from collections.abc import Iterator

SLOT = 96
HEADER = b"AQHBOOK2".ljust(SLOT, b"\0")
# The packs of a batch, and the rows that a batch has beside them: open, start, stop, end.
BATCH_PACKS = 9_990
BATCH_ROWS = 4
DAY = 20_150
LANE = b"\x01"
# What the gate did at the pack before: nothing to say, or it opened.
NONE, OPENED = b"\0", b"\x01"
PASS = b"\0"


def number(value: int, size: int = 4) -> bytes:
    return value.to_bytes(size, "little")


def name(text: str) -> bytes:
    return bytes([len(text)]) + text.encode("ascii").ljust(32, b"\0")


def weighing(at: int) -> bytes:
    """A good pack; its weight follows from its place in the batch."""
    gross = 262_000 + at * 7_919 % 8_000
    return LANE + number(gross) + (OPENED if at else NONE) + PASS


def rows(count: int) -> Iterator[tuple[int, bytes]]:
    """The kinds of the rows, and their fields from place 14 on."""
    yield 1, number(DAY)
    yield 2, name("P") + number(250_000, 8) + b"\0"
    yield 3, name("P") + number(DAY) + number(10_000)
    left, batch = count - 3, 0
    while left > BATCH_ROWS:
        batch += 1
        packs = min(BATCH_PACKS, left - BATCH_ROWS)
        left -= packs + BATCH_ROWS
        named = name(f"B{batch}")
        yield 4, named + name("P") + number(0)
        yield 5, LANE + named
        for at in range(packs):
            yield 6, weighing(at)
        yield 7, LANE + OPENED
        yield 9, named
    for _ in range(left):
        yield 1, number(DAY)


def write_book(path: str, count: int) -> None:
    with open(path, "wb") as book:
        book.write(HEADER)
        for at, (kind, fields) in enumerate(rows(count), 1):
            head = bytes([1, kind]) + number(at)
            book.write((head + bytes(8) + fields).ljust(SLOT, b"\0"))
        book.write(b"\0")


if __name__ == "__main__":
    write_book(sys.argv[2], int(sys.argv[1]))
