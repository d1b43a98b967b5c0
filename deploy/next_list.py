"""The list of a book whose hall is at work: begun by the program, carried on by what its doors say
is new, until its hall ends. So no book is read whole while lanes stand."""

import os
from typing import NoReturn

import next_book
from in_force import InForce, Tare, Unclear
from next_place import Place

# Rows of a page at a door.
PAGE = 128
# Of a book that was left in good order (docs/FORMATS.md): its slots, its mark, the beginning of its
# last one, the bytes of content of one, and how many there are beside rows and content.
SLOT, MARK, TAIL, CONTENT, BESIDE = 96, 8, b"\0T", 94, 4


class Carried:
    """The list of a served book. It is that of the book at rest where `is_whole` says so."""

    def __init__(self, place: Place, path: str, env: str) -> None:
        self.place, self.path = place, path
        self.ports = next_book.doors_of(env)
        self.told = InForce.read(place.seen(path), next_book.setting(env, "LIMIT", 1_000_000))
        self.is_clear = True

    def text(self) -> str:
        return self.told.text()

    def go_on(self) -> bool:
        """Takes in what is new; whether a door has said all of it."""
        lines = [""] * PAGE
        try:
            while self.is_clear and len(lines) == PAGE:
                said = self.ask(f"/acts/{self.told.rows}")
                if said is None:
                    return False
                lines = said.splitlines()
                for line in lines:
                    self.told.take(line, self)
        except Unclear:
            self.is_clear = False
        return self.is_clear

    def ask(self, path: str) -> str | None:
        """What the first door that answers says; None where none does."""
        answers = (self.place.ask(port, path) for port in self.ports)
        return next((said for said in answers if said is not None), None)

    def batch_of(self, pack: int) -> NoReturn:
        raise Unclear(f"pack {pack} was voided")

    def tares(self, rows: int) -> list[Tare]:
        raise Unclear(f"a tare of before the newest day, among {rows} rows")

    def is_whole(self) -> bool:
        """Whether the hall ended in good order, with as many rows as are known."""
        return self.is_clear and rows_left(self.path) == self.told.rows


def rows_left(path: str) -> int | None:
    """How many rows a hall that ended in good order left in a book, by the snapshot at its end;
    None where there is none."""
    with open(path, "rb") as file:
        header = file.read(SLOT)
        size = file.seek(0, os.SEEK_END)
        file.seek(max(0, size - SLOT))
        tail = file.read(SLOT)
    rows, length = int.from_bytes(tail[2:6], "little"), int.from_bytes(tail[6:14], "little")
    blocks = BESIDE + rows + -(-length // CONTENT)
    fits = len(header) == SLOT and header[MARK] == 1 and tail[:2] == TAIL
    return rows if fits and size == blocks * SLOT else None
