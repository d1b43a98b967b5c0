"""For bench/archive.py: a book that is made up, the hours and persons that it would have, and books
like it."""

import random
from typing import Any

from sqlalchemy import text

from hall_archive import store
from hall_archive.store import Store

BATCH = 9_000
# Packs a second of the book, by its hours, and of how many rows an answer had some.
RATE, ANSWER = 140, 14
# Of so many packs one is a reject, is voided, or stayed at its gate.
REJECTED, VOIDED, STAYED = 50, 500, 2_000
# ms of UTC of the first book's first row; each book begins a day after the one before.
BEGIN, DAY = 1_740_992_400_000, 86_400_000
PEOPLE = ("anna", "ben", "carla", "dora")


def make_book(rows: int) -> list[str]:
    """A book of batches of 9 000 packs on four lanes, all but the last closed."""
    book = Made(rows)
    book.add("ok", "script", "day 2025-03-03")
    for product in ("rice250", "oats250"):
        book.add("ok", "script", f"product {product} 250.000")
        book.add("ok", "script", f"tare {product} 2025-03-03 10.000")
    batch = 0
    while len(book.lines) < rows:
        batch += 1
        book.batch(f"B{batch}", ("rice250", "oats250")[batch % 10 == 0])
    return [f"{row} {line}\n" for row, line in enumerate(book.lines[:rows], 1)]


class Made:
    """A book of at least so many rows, in the making."""

    def __init__(self, rows: int) -> None:
        self.rows = rows
        self.lines: list[str] = []
        self.chance = random.Random(1)
        self.requests = {101: 0, 102: 0}
        self.last: dict[int, bool] = {}

    def add(self, told: str, by: str, said: str) -> int:
        self.lines.append(f"{told}\t{by}\t{said}")
        return len(self.lines)

    def act(self, desk: int, said: str, told: str = "ok") -> int:
        self.requests[desk] += 1
        return self.add(told, f"door {desk - 100}", f"@{desk} {self.requests[desk]} {said}")

    def batch(self, name: str, product: str) -> None:
        self.act(101, f"open {name} {product}")
        for lane in (1, 2, 3, 4):
            self.add("ok", f"lane {lane}", f"start {lane} {name}")
        self.last = {}
        packs = [row for place in range(BATCH) for row in self.weigh(place % 4 + 1)]
        for lane in (1, 2, 3, 4):
            self.add("ok", f"lane {lane}", f"stop {lane} {self.prior(lane)}")
        if len(self.lines) < self.rows:
            self.end(name, packs)

    def end(self, name: str, packs: list[int]) -> None:
        """A test of 50 packs by a word, each measured."""
        self.act(102, f"end {name}")
        self.act(102, f"draw {name} keep {self.chance.randrange(1 << 32)}")
        for pack in self.chance.sample(packs, 50):
            self.act(102, f"measure {pack} 262.000")
        self.act(102, f"close {name}", "released")

    def prior(self, lane: int) -> str:
        if not self.last.get(lane):
            return "none"
        return "stayed" if self.chance.randrange(STAYED) == 0 else "opened"

    def weigh(self, lane: int) -> list[int]:
        """A pack, and perhaps its voiding; its row where it may be measured."""
        gross = 262_000 + self.chance.randrange(-5_000, 5_000)
        is_good = self.chance.randrange(REJECTED) != 0
        told = "pass" if is_good else self.chance.choice(("reject held", "reject inadequate"))
        weight = f"{gross // 1000}.{gross % 1000:03}"
        row = self.add(told, f"lane {lane}", f"weigh {lane} {weight} {self.prior(lane)}")
        self.last[lane] = is_good
        if is_good and self.chance.randrange(VOIDED) == 0:
            self.act(101, f"void {row}")
            self.last[lane] = False
            return []
        return [row] if is_good else []


def put_hours(kept: Store, rows: int) -> None:
    """The hours that a follower has of so many rows as they come about, in place of those of a book
    that was caught up with; and who acted."""
    [(clock,)] = asked(kept, f"SELECT clock FROM book WHERE id = {kept.book}")
    acts = asked(kept, f"SELECT row FROM act WHERE book = {kept.book} AND line LIKE '%@10%'")
    reason = "the bag was torn"
    with kept.keeper.commit() as cursor:
        cursor.execute(f"DELETE FROM answer WHERE book = {kept.book}")
        answers = [hour(upto, clock, kept.book) for upto in range(ANSWER, rows + ANSWER, ANSWER)]
        kept.keeper.insert(cursor, "answer", answers)
        people = [
            (row, kept.book, PEOPLE[row % 4], reason, moment(row), moment(row) + 40)
            for (row,) in acts
        ]
        kept.keeper.insert(cursor, "person", people)


def asked(kept: Store, statement: str) -> list[Any]:
    with store.reaching(kept.reads.connect) as link:
        return list(link.execute(text(statement)))


def moment(row: int) -> int:
    return BEGIN + row * 1000 // RATE


def hour(upto: int, clock: int, book: int) -> tuple[int, ...]:
    return moment(upto) - 110, moment(upto), upto, clock, book, 0


COPIED = {
    "pack": "row, batch, day, gross, by, {book}, lane, prior, signal",
    "block": "gross, batch, day, block, count, {book}, lane, signal",
    "move": "pack, row, {book}, pile",
    "act": "row, {book}, batch, product, kind, line",
    "batch": "row, {book}, name, product, state, verdict, first, last, closed",
    "answer": "low + {later}, high + {later}, upto, clock, {book}, kind",
    "person": "row, {book}, name, reason, low + {later}, high + {later}",
}


def copy_books(kept: Store, books: int) -> None:
    """Further books of the same rows, each a day later, until there are so many."""
    [(upto, asked_at, clock)] = asked(
        kept, f"SELECT upto, asked, clock FROM book WHERE id = {kept.book}"
    )
    for place in range(1, books):
        with kept.keeper.commit() as cursor:
            kept.keeper.run(
                cursor,
                "INSERT INTO book (id, hall, name, upto, asked, clock)"
                " VALUES (%s, 'main', %s, %s, %s, %s)",
                (kept.book + place, f"day{place:02}", upto, asked_at, clock),
            )
            for table, columns in COPIED.items():
                values = columns.format(book=kept.book + place, later=place * DAY)
                cursor.execute(
                    f"INSERT INTO {table} SELECT {values} FROM {table} WHERE book = {kept.book}"
                )
