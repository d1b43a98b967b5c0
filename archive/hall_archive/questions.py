"""Questions to the archive: packs, batches, acts and evidence, over all its books. Each is a few
statements that an index answers. Masses in mg, times in ms of UTC."""

from collections.abc import Iterable, Iterator
from typing import Any, NamedTuple

from sqlalchemy import text

from hall_archive import nets, rules
from hall_archive.keeping import KINDS
from hall_archive.nets import PILES, REGISTER_HEAD, Batch, Goods
from hall_archive.rows import (
    SIGNALS,
    Draw,
    Open,
    Product,
    Second,
    Tare,
    day_text,
    grams,
    read_line,
)
from hall_archive.store import CHUNK, reaching

# The most records of one answer.
PAGE = 1_000


class Hour(NamedTuple):
    """When a row came about: between `low` and `high`, ms of UTC."""

    low: int | None
    high: int
    kind: str


class Books:
    """What stands of all books."""

    def __init__(self, engine: Any) -> None:
        self.engine = engine
        self.is_sqlite = engine.dialect.name == "sqlite"

    def ask(self, statement: str, **values: Any) -> list[Any]:
        with reaching(self.engine.connect) as link:
            return list(link.execute(text(statement), values).all())

    def indexed(self, name: str) -> str:
        """Names the index of a table to SQLite, which would read all of a book by itself."""
        return f"INDEXED BY {name}" if self.is_sqlite else ""

    def number(self, hall: str, name: str) -> int | None:
        found = self.ask(
            "SELECT id FROM book WHERE name = :name AND (:hall = '' OR hall = :hall)",
            name=name,
            hall=hall,
        )
        return int(found[0][0]) if len(found) == 1 else None

    # ---- what nets rest on

    def goods(self, book: int) -> dict[str, Goods]:
        """The products of a book, with their tares as they now are."""
        goods: dict[str, Goods] = {}
        for (line,) in self.ask(
            f"""SELECT line FROM act {self.indexed("act_kind")}
            WHERE book = :book AND kind IN ('product', 'tare') ORDER BY row""",
            book=book,
        ):
            match read_line(line).act:
                case Product(name, nominal, is_volume):
                    goods[name] = Goods(name, nominal, is_volume)
                case Tare(product, day, tare):
                    goods[product].put(day, tare)
        return goods

    def batches_of(
        self, book: int, goods: dict[str, Goods], only: Iterable[int] = ()
    ) -> dict[int, Batch]:
        """The batches of a book without their packs, by the row of their opening: of all, or of
        some such rows."""
        batches: dict[int, Batch] = {}
        rows = ", ".join(map(str, only))
        of = f"row IN ({rows})" if rows else "kind = 'open'"
        hint = "" if rows else self.indexed("act_kind")
        for row, line in self.ask(
            f"SELECT row, line FROM act {hint} WHERE book = :book AND {of} ORDER BY row", book=book
        ):
            act = read_line(line).act
            assert isinstance(act, Open)
            batches[row] = Batch(row, act.batch, goods[act.product], act.density)
        return batches

    def names(self, book: int) -> list[str]:
        """The names of the batches of a book, in order of opening."""
        return [
            name
            for (name,) in self.ask(
                "SELECT name FROM batch WHERE book = :book ORDER BY row", book=book
            )
        ]

    def register(self, book: int) -> Iterator[str]:
        """The register of a book, line by line."""
        goods = self.goods(book)
        batches = self.batches_of(book, goods)
        known: dict[tuple[int, int], tuple[str, str, int, rules.Limits]] = {}
        yield REGISTER_HEAD
        statement = f"""
            SELECT p.row, p.batch, p.day, p.gross, p.lane, p.signal, m.pile
            FROM pack p LEFT JOIN move m ON m.book = p.book AND m.pack = p.row
            WHERE p.book = {book} ORDER BY p.row"""
        with reaching(self.engine.connect) as link:
            found = link.execution_options(stream_results=True, yield_per=CHUNK)
            for row, batch, day, gross, lane, signal, pile in found.exec_driver_sql(statement):
                if (batch, day) not in known:
                    of = batches[batch]
                    names = f"{of.name},{of.goods.name}"
                    known[batch, day] = names, day_text(day), of.goods.tare(day), of.limits
                names, date, tare, limits = known[batch, day]
                net, told = gross - tare, SIGNALS[signal]
                where = nets.first_pile(told) if pile is None else PILES[pile]
                yield (
                    f"{row},{names},{lane},{date},{grams(gross)},{grams(net)},"
                    f"{limits.class_of(net)},{told},{where}\n"
                )

    def batch(self, book: int, name: str) -> Batch | None:
        """A batch with its packs, samples and verdict, for its sheet."""
        found = self.ask(
            "SELECT row, first, last FROM batch WHERE book = :book AND name = :name",
            book=book,
            name=name,
        )
        if not found:
            return None
        row, first, last = found[0]
        batch = self.batches_of(book, self.goods(book))[row]
        self.add_packs(book, batch, first, last)
        self.add_acts(book, batch)
        return batch

    def add_packs(self, book: int, batch: Batch, first: int, last: int) -> None:
        for row, day, gross, lane, signal, pile in self.ask(
            """SELECT p.row, p.day, p.gross, p.lane, p.signal, m.pile
            FROM pack p LEFT JOIN move m ON m.book = p.book AND m.pack = p.row
            WHERE p.book = :book AND p.row >= :first AND p.row <= :last AND p.batch = :batch
            ORDER BY p.row""",
            book=book,
            first=first,
            last=last,
            batch=batch.row,
        ):
            told = SIGNALS[signal]
            where = nets.first_pile(told) if pile is None else PILES[pile]
            batch.packs[row] = nets.Pack(row, batch, day, gross, lane, told, where)

    def add_acts(self, book: int, batch: Batch) -> None:
        """Takes in what was done with a batch: its draws, what was measured, its verdict."""
        for (line,) in self.ask(
            f"""SELECT line FROM act {self.indexed("act_batch")} WHERE book = :book
            AND batch = :batch AND kind IN ('end', 'draw', 'second', 'measure', 'close')
            ORDER BY row""",
            book=book,
            batch=batch.row,
        ):
            entry = read_line(line)
            is_draw = isinstance(entry.act, Draw | Second)
            batch.take(entry, self.picks(book, batch, entry.row) if is_draw else [])

    def picks(self, book: int, batch: Batch, row: int) -> list[int]:
        """The packs that a draw moved, ascending."""
        moved = self.ask(
            "SELECT pack FROM move WHERE book = :book AND pack BETWEEN :first AND :last"
            " AND row = :row ORDER BY pack",
            book=book,
            row=row,
            first=min(batch.packs, default=0),
            last=max(batch.packs, default=0),
        )
        return [pack for (pack,) in moved]

    # ---- hours

    def hour(self, book: int, row: int) -> Hour | None:
        found = self.ask(
            "SELECT low, high, kind FROM answer WHERE book = :book AND upto >= :row"
            " ORDER BY upto LIMIT 1",
            book=book,
            row=row,
        )
        return Hour(found[0][0], found[0][1], KINDS[found[0][2]]) if found else None
