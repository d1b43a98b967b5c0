"""How many packs a book has, by lane and signal, read from its file while a hall runs over it.

By docs/FORMATS.md: a slot has 96 bytes, and the rows are those of the slots up to the first that is
closed. The last open one may be replaced, so it is left for the next time. Only what is new since
the last time is read."""

import os

SLOT = 96
# What a book begins with.
MAGIC = b"AQHBOOK2"
WEIGHING = 6
PIECE = 10_000
# Places in a row.
GATE, KIND, NUMBER, LANE, SIGNAL = 0, 1, 2, 14, 20
SIGNALS = ("pass", "held", "full", "inadequate", "allowance")


class BookRows:
    """The rows of a book, counted as they come."""

    def __init__(self, path: str) -> None:
        self.path = path
        self.begin()

    def begin(self) -> None:
        """Nothing was read yet."""
        self.rows = 0
        self.file: tuple[int, int] | None = None
        self.packs: dict[tuple[int, str], int] = {}

    def read(self) -> None:
        """Reads what is new. A file that is another one is read from its beginning."""
        with open(self.path, "rb") as book:
            about = os.fstat(book.fileno())
            if self.file != (about.st_dev, about.st_ino):
                self.begin()
                self.file = (about.st_dev, about.st_ino)
            if not MAGIC.startswith(book.read(len(MAGIC))):
                raise ValueError(f"{self.path} is no book")
            book.seek(SLOT * (self.rows + 1))
            while slots := whole_slots(book.read(SLOT * PIECE), self.rows):
                self.take(slots[:-1])
                if len(slots) == 1:
                    return
                book.seek(SLOT * (self.rows + 1))

    def take(self, slots: list[bytes]) -> None:
        """Counts rows."""
        for slot in slots:
            self.rows += 1
            if slot[KIND] == WEIGHING and slot[SIGNAL] < len(SIGNALS):
                key = (slot[LANE], SIGNALS[slot[SIGNAL]])
                self.packs[key] = self.packs.get(key, 0) + 1


def whole_slots(piece: bytes, rows: int) -> list[bytes]:
    """The open slots of a piece, each with its number, behind so many rows."""
    slots: list[bytes] = []
    for place in range(0, len(piece) - SLOT + 1, SLOT):
        slot = piece[place : place + SLOT]
        number = int.from_bytes(slot[NUMBER : NUMBER + 4], "little")
        if slot[GATE] != 1 or number != rows + len(slots) + 1:
            break
        slots.append(slot)
    return slots
