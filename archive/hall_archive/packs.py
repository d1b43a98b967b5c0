"""Packs by batch, product, lane, signal, pile and span of time, over the books of a hall, each with
its net as it now is. Masses in mg.

Rejects and packs that were moved are few, and have indexes. All others are looked for where they
are: in the blocks of rows that have such packs at all, by the sums of each."""

import heapq
from collections.abc import Iterator
from typing import Any, NamedTuple

from hall_archive import nets
from hall_archive.keeping import BLOCK
from hall_archive.nets import PILES
from hall_archive.questions import PAGE
from hall_archive.rows import MAX_ROWS, SIGNALS, day_text
from hall_archive.spans import EVER, FIRST, BadQuestion, Behind, Span, Spans, Time

# Piles into which packs come by a move alone.
MOVED = ("sampled", "voided")
FIELDS = "p.row, p.batch, p.day, p.gross, p.lane, p.signal, m.pile"


class Wanted(NamedTuple):
    """What packs have to be; what is empty may be anything. `signal` may be `reject`, for each."""

    batch: str = ""
    product: str = ""
    lane: int = 0
    signal: str = ""
    pile: str = ""


class Part(NamedTuple):
    """Packs of one book: a span of rows, batches by the rows of their openings (None: of each), and
    what else they have to be."""

    span: Span
    batches: list[int] | None
    wanted: Wanted


class Row(NamedTuple):
    """A pack as it is kept; `pile` is None where it is that of its signal."""

    row: int
    batch: int
    day: int
    gross: int
    lane: int
    signal: int
    pile: int | None


class Packs(Spans):
    """Questions for packs."""

    def packs(
        self,
        hall: str,
        book: str,
        wanted: Wanted = Wanted(),
        time: Time = EVER,
        behind: Behind = FIRST,
    ) -> list[dict[str, Any]]:
        """At most PAGE packs, in order of books and weighing."""
        need_words(wanted)
        found: list[dict[str, Any]] = []
        for span in self.spans(hall, book, time, behind):
            if len(found) < PAGE and (part := self.part_of(span, wanted)):
                found += self.records(part, PAGE - len(found))
        return found

    def part_of(self, span: Span, wanted: Wanted) -> Part | None:
        """What is asked for of a book, between the first and the last pack of its batches; None
        where it has none of them."""
        if not wanted.batch and not wanted.product:
            return Part(span, None, wanted)
        batches = self.ask(
            """SELECT row, first, last FROM batch WHERE book = :book AND first > 0
            AND (:name = '' OR name = :name) AND (:product = '' OR product = :product)""",
            book=span.book,
            name=wanted.batch,
            product=wanted.product,
        )
        if not batches:
            return None
        rows, firsts, lasts = zip(*batches, strict=True)
        after, upto = max(span.after, min(firsts) - 1), min(span.upto, max(lasts))
        return Part(span._replace(after=after, upto=upto), list(rows), wanted)

    def records(self, part: Part, most: int) -> list[dict[str, Any]]:
        rows = self.found(part, most)
        if not rows:
            return []
        only = sorted({row.batch for row in rows})
        batches = self.batches_of(part.span.book, self.goods(part.span.book), only)
        return [{"book": part.span.name} | pack_record(batches, row) for row in rows]

    def found(self, part: Part, most: int) -> list[Row]:
        """At most so many packs of a book, by the way that has the fewest to look at."""
        signal, pile = part.wanted.signal, part.wanted.pile
        is_reject = signal not in ("", "pass")
        if pile in MOVED:
            return self.by_moves(part, most)
        if pile == "passed":
            return [] if is_reject else self.by_blocks(part, most)
        if pile == "rejected":
            moved = self.by_moves(part, most)
            unmoved = [] if signal == "pass" else self.by_signals(part, most)
            return list(heapq.merge(moved, unmoved, key=lambda row: row.row))[:most]
        return self.by_signals(part, most) if is_reject else self.by_blocks(part, most)

    def by_moves(self, part: Part, most: int) -> list[Row]:
        pile = PILES.index(part.wanted.pile)
        terms = ["m.book = :book", f"m.pile = {pile}", "m.pack > :after", "m.pack <= :upto"]
        return self.rows(
            f"""SELECT {FIELDS} FROM move m JOIN pack p ON p.book = m.book AND p.row = m.pack
            WHERE {' AND '.join(terms + terms_of(part))} ORDER BY m.pack LIMIT :most""",
            part.span,
            most,
        )

    def by_signals(self, part: Part, most: int) -> list[Row]:
        index = "pack_rejected" if part.wanted.signal in ("", "reject") else "pack_signal"
        # what the first term says lets the indexes of rejects answer; SQLite has to be told
        hint = f"INDEXED BY {index}" if self.is_sqlite else ""
        terms = ["p.signal > 0", "p.book = :book", "p.row > :after", "p.row <= :upto"]
        terms += ["m.pile IS NULL"] * (part.wanted.pile == "rejected")
        return self.rows(with_moves(terms + terms_of(part), hint), part.span, most)

    def by_blocks(self, part: Part, most: int) -> list[Row]:
        terms = ["p.book = :book", "p.row > :after", "p.row <= :upto"] + terms_of(part)
        terms += ["p.signal = 0 AND m.pile IS NULL"] * (part.wanted.pile == "passed")
        found: list[Row] = []
        for first, last in self.runs(part):
            after, upto = max(part.span.after, first - 1), min(part.span.upto, last)
            if len(found) < most and after < upto:
                span = part.span._replace(after=after, upto=upto)
                found += self.rows(with_moves(terms), span, most - len(found))
        return found

    def runs(self, part: Part) -> Iterator[tuple[int, int]]:
        """Rows from one to another that have such packs: whole blocks, and what is behind the last
        whole one."""
        wanted, span = part.wanted, part.span
        if part.batches is None and not wanted.lane:
            yield span.after + 1, span.upto
            return
        terms = ["p.book = :book", "p.block >= :low", "p.block <= :high"] + terms_of(part)
        low, high = span.after // BLOCK, (span.upto - 1) // BLOCK
        blocks = self.ask(
            f"SELECT DISTINCT p.block FROM block p WHERE {' AND '.join(terms)} ORDER BY p.block",
            book=span.book,
            low=low,
            high=high,
        )
        yield from joined([block for (block,) in blocks])
        yield self.whole(span.book) + 1, MAX_ROWS

    def whole(self, book: int) -> int:
        """The last row of the last whole block."""
        [(block,)] = self.ask("SELECT max(block) FROM block WHERE book = :book", book=book)
        return 0 if block is None else (int(block) + 1) * BLOCK

    def rows(self, statement: str, span: Span, most: int) -> list[Row]:
        found = self.ask(statement, book=span.book, after=span.after, upto=span.upto, most=most)
        return [Row(*row) for row in found]


def need_words(wanted: Wanted) -> None:
    if wanted.signal not in ("", "reject", *SIGNALS):
        raise BadQuestion(f"no signal is {wanted.signal!r}")
    if wanted.pile not in ("", *PILES):
        raise BadQuestion(f"no pile is {wanted.pile!r}")


def terms_of(part: Part) -> list[str]:
    """What rows of packs, or the sums of a block, have to be."""
    wanted, terms = part.wanted, []
    if part.batches is not None:
        terms.append(f"p.batch IN ({', '.join(map(str, part.batches))})")
    if wanted.lane:
        terms.append(f"p.lane = {wanted.lane}")
    if wanted.signal:
        is_each = wanted.signal == "reject"
        terms.append("p.signal > 0" if is_each else f"p.signal = {SIGNALS.index(wanted.signal)}")
    return terms


def with_moves(terms: list[str], hint: str = "") -> str:
    return f"""SELECT {FIELDS} FROM pack p {hint}
        LEFT JOIN move m ON m.book = p.book AND m.pack = p.row
        WHERE {' AND '.join(terms)} ORDER BY p.row LIMIT :most"""


def joined(blocks: list[int]) -> Iterator[tuple[int, int]]:
    """The rows of blocks, those that follow each other as one run."""
    first = 0
    for place, block in enumerate(blocks, 1):
        if place == len(blocks) or blocks[place] != block + 1:
            yield blocks[first] * BLOCK + 1, (block + 1) * BLOCK
            first = place


def pack_record(batches: dict[int, nets.Batch], found: Row) -> dict[str, Any]:
    """A pack with its net now, as questions are answered."""
    of, told = batches[found.batch], SIGNALS[found.signal]
    net = found.gross - of.goods.tare(found.day)
    return {
        "row": found.row,
        "batch": of.name,
        "product": of.goods.name,
        "lane": found.lane,
        "day": day_text(found.day),
        "gross": found.gross,
        "net": net,
        "class": of.limits.class_of(net),
        "signal": told,
        "pile": nets.first_pile(told) if found.pile is None else PILES[found.pile],
    }
