"""What people ask of all the books of a hall beside packs and acts: books, batches, sums, and the
hour and place of a pack. Masses in mg, times in ms of UTC. Each answer has at most PAGE records;
the next page is asked behind the last."""

from typing import Any

from hall_archive.acts import Acts
from hall_archive.keeping import BLOCK
from hall_archive.packs import FIELDS, Packs, Row, pack_record
from hall_archive.questions import PAGE
from hall_archive.rows import SIGNALS, Measure, Void, read_line
from hall_archive.spans import EVER, FIRST, BadQuestion, Behind, Span, Time

# The words of a question for batches, and the columns that they have to be in.
COLUMNS = {"name": "name", "product": "product", "state": "state", "verdict": "verdict"}


class Search(Packs, Acts):
    """Questions over the books of one hall."""

    def books(self, hall: str) -> list[dict[str, Any]]:
        return [
            dict(row._mapping)
            for row in self.ask(
                """SELECT name, upto AS rows, asked, refused,
                (SELECT count(*) FROM batch WHERE batch.book = book.id) AS batches,
                (SELECT count(*) FROM batch WHERE batch.book = book.id AND state = 'closed')
                    AS closed
                FROM book WHERE hall = :hall ORDER BY name""",
                hall=hall,
            )
        ]

    def batches(
        self,
        hall: str,
        book: str = "",
        given: dict[str, str] | None = None,
        time: Time = EVER,
        behind: Behind = FIRST,
    ) -> list[dict[str, Any]]:
        """Batches in order of books and openings; `given` are words of COLUMNS. With a span of
        time, those that weighed within it."""
        words = {word: value for word, value in (given or {}).items() if value}
        found: list[dict[str, Any]] = []
        for span in self.spans(hall, book, time, behind._replace(row=0)):
            begins = behind.row if span.name == (behind.book or book) else 0
            if len(found) < PAGE:
                found += self.of_book(span, words, time != EVER, begins, PAGE - len(found))
        return found

    def of_book(
        self, span: Span, words: dict[str, str], weighed: bool, behind: int, most: int
    ) -> list[dict[str, Any]]:
        """Batches of a book, of those opened behind a row."""
        terms = ["book = :book", "row > :behind"]
        terms += [f"{COLUMNS[word]} = :{word}" for word in words]
        if weighed:
            terms += ["first > 0", "last > :after", "first <= :upto"]
        found = self.ask(
            f"""SELECT row, name, product, state, verdict, first, last, closed FROM batch
            WHERE {' AND '.join(terms)} ORDER BY row LIMIT :most""",
            book=span.book,
            behind=behind,
            most=most,
            **({"after": span.after, "upto": span.upto} if weighed else {}),
            **words,
        )
        return [{"book": span.name} | dict(row._mapping) for row in found]

    # ---- a pack

    def story(self, hall: str, book: str, row: int) -> dict[str, Any]:
        """A pack's story: what it was, its hour, its place among the packs of its lane in its
        batch, and the acts that speak of it, with who did them and why."""
        number = self.one_book(hall, book)
        found = self.ask(
            f"""SELECT {FIELDS}, m.row AS moved
            FROM pack p LEFT JOIN move m ON m.book = p.book AND m.pack = p.row
            WHERE p.book = :book AND p.row = :row""",
            book=number,
            row=row,
        )
        if not found:
            raise BadQuestion(f"no pack is row {row} of {book}")
        *fields, moved = found[0]
        pack = Row(*fields)
        record = pack_record(self.batches_of(number, self.goods(number)), pack)
        hour = self.hour(number, row)
        of_batch = self.all_acts(hall, book, {"batch": record["batch"]})
        acts = [one for one in of_batch if one["row"] == moved or speaks_of(one["line"], row)]
        more = {"place": self.place(number, pack), "moved": moved}
        return record | more | {"hour": hour._asdict() if hour else None, "acts": acts}

    def place(self, book: int, pack: Row) -> int:
        """How many packs its lane weighed for its batch up to a pack: by the sums of whole blocks,
        and the rows behind them."""
        whole = pack.row // BLOCK * BLOCK
        values = {"book": book, "batch": pack.batch, "lane": pack.lane}
        [(before,)] = self.ask(
            """SELECT sum(count) FROM block WHERE book = :book AND block < :block
            AND batch = :batch AND lane = :lane""",
            block=whole // BLOCK,
            **values,
        )
        [(count,)] = self.ask(
            """SELECT count(*) FROM pack WHERE book = :book AND row > :whole AND row <= :row
            AND batch = :batch AND lane = :lane""",
            whole=whole,
            row=pack.row,
            **values,
        )
        return int(before or 0) + int(count)

    # ---- sums

    def totals(self, hall: str, book: str, time: Time = EVER) -> list[dict[str, Any]]:
        """How many packs were weighed in a span, by batch, lane and signal: their number, and the
        sums of their grosses and nets."""
        number = self.one_book(hall, book)
        batches = self.batches_of(number, self.goods(number))
        sums: dict[tuple[int, int, int], list[int]] = {}
        for batch, day, lane, signal, count, gross in self.sums(self.span(number, book, time)):
            held = sums.setdefault((batch, lane, signal), [0, 0, 0])
            net = gross - count * batches[batch].goods.tare(day)
            held[:] = [have + more for have, more in zip(held, (count, gross, net), strict=True)]
        return [
            {
                "batch": batches[batch].name,
                "product": batches[batch].goods.name,
                "lane": lane,
                "signal": SIGNALS[signal],
                "count": count,
                "gross": gross,
                "net": net,
            }
            for (batch, lane, signal), (count, gross, net) in sorted(sums.items())
        ]

    def sums(self, span: Span) -> list[tuple[int, ...]]:
        """Batch, day, lane, signal, number and gross of the packs of a span: whole blocks by their
        sums, and the rows before and behind them."""
        first = -(-span.after // BLOCK)
        last = max(first, min(span.upto, self.whole(span.book)) // BLOCK)
        found = self.ask(
            """SELECT batch, day, lane, signal, sum(count), sum(gross) FROM block
            WHERE book = :book AND block >= :first AND block < :last
            GROUP BY batch, day, lane, signal""",
            book=span.book,
            first=first,
            last=last,
        )
        for after, upto in (
            (span.after, min(first * BLOCK, span.upto)),
            (max(last * BLOCK, span.after), span.upto),
        ):
            found += self.ask(
                """SELECT batch, day, lane, signal, count(*), sum(gross) FROM pack
                WHERE book = :book AND row > :after AND row <= :upto
                GROUP BY batch, day, lane, signal""",
                book=span.book,
                after=after,
                upto=upto,
            )
        return [tuple(map(int, row)) for row in found]

    def alarms(self, hall: str) -> list[dict[str, Any]]:
        """What of the books of a hall isn't as it has to be, the newest first."""
        return [
            dict(row._mapping)
            for row in self.ask(
                """SELECT book.name AS book, alarm.moment, alarm.what FROM alarm
                JOIN book ON book.id = alarm.book WHERE book.hall = :hall
                ORDER BY alarm.id DESC LIMIT :page""",
                hall=hall,
                page=PAGE,
            )
        ]


def speaks_of(line: str, pack: int) -> bool:
    """Whether an act takes a pack back, or measures it."""
    act = read_line(line).act
    return isinstance(act, Void | Measure) and act.pack == pack
