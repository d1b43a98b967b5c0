"""Which rows of which books a question is about: the books of a hall in turn, by their names, and
of each the rows whose hours lie in a span of time. A page goes on behind a row of a book."""

from collections.abc import Iterator
from typing import NamedTuple

from hall_archive.questions import Books
from hall_archive.rows import MAX_ROWS


class BadQuestion(ValueError):
    """A question that can't be asked so; the text says why."""


class Span(NamedTuple):
    """Rows behind `after` up to `upto`, of the book of a number and a name."""

    book: int
    name: str
    after: int
    upto: int


class Time(NamedTuple):
    """From `low` on and before `high`, in ms of UTC; each may be open."""

    low: int | None = None
    high: int | None = None


EVER = Time()


class Behind(NamedTuple):
    """Where a page begins: behind a row of a book, or at the first book. Of one book that is asked
    for by its name, `book` is empty."""

    book: str = ""
    row: int = 0


FIRST = Behind()


class Spans(Books):
    """Books of a hall, and spans of their rows."""

    def one_book(self, hall: str, book: str) -> int:
        number = self.number(hall, book)
        if number is None:
            raise BadQuestion(f"there is no book {book!r}")
        return number

    def spans(
        self, hall: str, book: str, time: Time = EVER, behind: Behind = FIRST
    ) -> Iterator[Span]:
        """Of each book of the hall, or of the one that is named, the rows that a page is about."""
        if book:
            self.one_book(hall, book)
        for number, name in self.ask(
            "SELECT id, name FROM book WHERE hall = :hall AND (:book = '' OR name = :book)"
            " AND name >= :begin ORDER BY name",
            hall=hall,
            book=book,
            begin=behind.book,
        ):
            begins = name == (behind.book or book)
            span = self.span(number, name, time)
            span = span._replace(after=max(span.after, behind.row if begins else 0))
            if span.after < span.upto:
                yield span

    def span(self, book: int, name: str, time: Time) -> Span:
        """The rows of a book whose hours may lie in a span of time: between the first answer that
        came in it or later, and the first one that was asked for behind it. Where the machine's
        clock was put there may be others between them."""
        after, upto = 0, MAX_ROWS
        if time.low is not None:
            begins = self.first_answer(book, "high >= :time", time.low)
            after = MAX_ROWS if begins is None else self.answer_before(book, begins)
        if time.high is not None:
            ends = self.first_answer(book, "high >= :time AND low >= :time", time.high)
            upto = MAX_ROWS if ends is None else self.answer_before(book, ends)
        return Span(book, name, after, upto)

    def first_answer(self, book: int, holds: str, time: int) -> int | None:
        """The first answer of which something holds. By one clock the hours only rise, so that its
        first one is found by the index; clocks are few."""
        [(upto,)] = self.ask(
            f"""SELECT min(upto) FROM (SELECT (
                SELECT upto FROM answer WHERE book = :book AND answer.clock = clock.id AND {holds}
                ORDER BY high LIMIT 1) AS upto FROM clock) AS first""",
            book=book,
            time=time,
        )
        return None if upto is None else int(upto)

    def answer_before(self, book: int, upto: int) -> int:
        """The last row before those of an answer."""
        [(before,)] = self.ask(
            "SELECT max(upto) FROM answer WHERE book = :book AND upto < :upto", book=book, upto=upto
        )
        return int(before or 0)
