"""For bench/months.py: months of books that are made up. One book is taken in and summed; the
others are copies of it, a day later each, of as many halls as are wanted."""

import os
import sys
from typing import Any

HERE = os.path.dirname(os.path.realpath(__file__))
sys.path[:0] = [f"{HERE}/../archive", f"{HERE}/../tests"]

import archive_books  # noqa: E402

from hall_archive import store  # noqa: E402
from hall_archive.following import Follower, Page  # noqa: E402
from hall_archive.halls import BOOKS, hall_number  # noqa: E402
from hall_archive.rows import PAGE_ROWS  # noqa: E402
from hall_archive.store import Store  # noqa: E402
from hall_archive.summing import Summing  # noqa: E402

# A book is a day of two shifts: its rows in so many seconds.
DAY = 57_600
QUARTERS = 96
# What is copied of each book: sums, batches, acts and persons; rows only where they are wanted.
SUMS = {
    "summed": "{book}, upto, first_day + {day}, last_day + {day}, state",
    "quarter": "gross, net, square, {book}, quarter + {day} * 96, batch, day + {day}, count, short,"
    " poor, first, last, lane, signal, pile",
    "pace": "running, stopped, {book}, quarter + {day} * 96, batch, day + {day}, stops, lane",
    "closing": "{book}, row, quarter + {day} * 96, day + {day}, batch",
    "opening": "nominal, mass, {book}, batch, day + {day}, density, name || '-{day}', product",
    "batch": "row, {book}, name || '-{day}', product, state, verdict, first, last, closed",
    "act": "row, {book}, batch, product, kind, line",
    "person": "row, {book}, name, reason, low, high",
}
ROWS = {
    "pack": 'row, batch, day + {day}, gross, "by", {book}, lane, prior, signal',
    "move": "pack, row, {book}, pile",
}


class Text:
    """A book as a source of rows."""

    is_new = False

    def __init__(self, lines: list[str]) -> None:
        self.lines = lines

    def ask(self, after: int) -> Page:
        return Page("".join(self.lines[after : after + PAGE_ROWS]), len(self.lines))

    def close(self) -> None:
        pass


def first_book(engine: Any, lines: list[str]) -> Store:
    """Takes the first book in, with the hours of two shifts, and sums it."""
    kept = Store(engine, "hall1", "day01")
    follower = Follower("day01", Text(lines), kept)
    while follower.step()[0]:
        pass
    if follower.upto > follower.waiting.after:
        follower.keep()
    archive_books.RATE = len(lines) // DAY + 1
    archive_books.put_hours(kept, len(lines))
    Summing(engine, kept.reads, kept.book, "day01").look()
    return kept


def months(kept: Store, halls: int, books: int, with_rows: int) -> None:
    """As many books of as many halls; those of the first `with_rows` halls with their rows."""
    for hall in range(1, halls + 1):
        for place in range(books):
            if (hall, place) != (1, 0):
                copy(kept, f"hall{hall}", place, hall <= with_rows)
    with store.reaching(kept.reads.connect) as link:
        link.exec_driver_sql("ANALYZE")
        link.commit()


def copy(kept: Store, hall: str, day: int, with_rows: bool) -> None:
    book = number(kept, hall, day)
    with kept.keeper.commit() as cursor:
        kept.keeper.run(
            cursor,
            "INSERT INTO book (id, hall, name, upto) SELECT %s, %s, %s, upto FROM book"
            " WHERE id = %s",
            (book, hall, f"day{day + 1:02}", kept.book),
        )
        for table, columns in {**SUMS, **(ROWS if with_rows else {})}.items():
            values = columns.format(book=book, day=day)
            cursor.execute(
                f"INSERT INTO {table} SELECT {values} FROM {table} WHERE book = {kept.book}"
            )


def number(kept: Store, hall: str, day: int) -> int:
    if kept.keeper.is_postgres:
        with store.reaching(kept.engine.begin) as link:
            return hall_number(link, hall) * BOOKS + 1 + day
    place = int(hall.removeprefix("hall"))
    return kept.book + (place - 1) * 100 + day
