"""Keeps the sums of a book for reports (`sums`): behind the rows that are summed those that
came since, packs that were moved since, and batches whose tare was corrected since, anew. All
that is read stands for good, since rows are only added; what is written is one short commit.

A delta is made of the rows of one database, and may be kept in another, which has the same rows."""

import json
from collections.abc import Iterable
from dataclasses import dataclass, field
from typing import Any, NamedTuple

from hall_archive.keeping import Keeper
from hall_archive.nets import Batch
from hall_archive.questions import Books
from hall_archive.rows import Close, Day, Open, Tare, read_line
from hall_archive.sums import Hour, Packed, Sums, mass_of, quarter_of, with_quarters
from hall_archive.store import reaching

# Rows that are summed in one commit.
AT_ONCE = 65_536
ADD_CELL = """
    INSERT INTO quarter (book, quarter, batch, day, lane, signal, pile,
        count, gross, net, square, short, poor, first, last)
    VALUES (%s, %s, %s, %s, %s, %s, %s, %s, %s, %s, %s, %s, %s, %s, %s)
    ON CONFLICT (book, quarter, batch, day, lane, signal, pile) DO UPDATE SET
        count = quarter.count + excluded.count, gross = quarter.gross + excluded.gross,
        net = quarter.net + excluded.net, square = quarter.square + excluded.square,
        short = quarter.short + excluded.short, poor = quarter.poor + excluded.poor,
        first = {least}(quarter.first, excluded.first),
        last = {greatest}(quarter.last, excluded.last)"""
ADD_PACE = """
    INSERT INTO pace (book, quarter, batch, day, lane, running, stops, stopped)
    VALUES (%s, %s, %s, %s, %s, %s, %s, %s)
    ON CONFLICT (book, quarter, batch, day, lane) DO UPDATE SET
        running = pace.running + excluded.running, stops = pace.stops + excluded.stops,
        stopped = pace.stopped + excluded.stopped"""
ADD_CLOSING = "INSERT INTO closing (book, row, quarter, day, batch) VALUES (%s, %s, %s, %s, %s)"
ADD_OPENING = """
    INSERT INTO opening (book, batch, name, product, nominal, density, mass, day)
    VALUES (%s, %s, %s, %s, %s, %s, %s, %s)"""
BEGIN = """
    INSERT INTO summed (book, upto, state) VALUES (%s, 0, '{}') ON CONFLICT (book) DO NOTHING"""
MOVE_ON = """
    UPDATE summed SET upto = %s, state = %s, first_day = %s, last_day = %s
    WHERE book = %s AND upto = %s"""
FORGET = "DELETE FROM quarter WHERE book = %s AND batch = %s AND day = %s"
CLEAN = "DELETE FROM quarter WHERE book = %s AND count = 0"
TABLES = ("quarter", "pace", "closing", "opening", "summed")


class Summed(NamedTuple):
    """How far a book is summed: rows, its newest day there, the days of its packs and closings, and
    when each lane had its last pack (ms of UTC)."""

    upto: int = 0
    day: int | None = None
    first: int | None = None
    newest: int | None = None
    last: dict[int, int] = {}


@dataclass
class Delta:
    """What the rows behind `after` up to `upto` change of the sums."""

    after: int
    upto: int
    state: Summed
    anew: list[tuple[int, int]] = field(default_factory=list)
    cells: list[tuple[Any, ...]] = field(default_factory=list)
    paces: list[tuple[Any, ...]] = field(default_factory=list)
    closings: list[tuple[int, ...]] = field(default_factory=list)
    openings: list[tuple[Any, ...]] = field(default_factory=list)


class Rows(Books):
    """What sums are made of, of one book. `sums` is where they are kept, where that is another
    database than that of the rows."""

    def __init__(self, engine: Any, book: int, sums: "Rows | None" = None) -> None:
        super().__init__(engine)
        self.book = book
        self.sums = sums or self

    def all(self, statement: str, **values: Any) -> list[Any]:
        return self.ask(statement, book=self.book, **values)

    def upto(self) -> int:
        return int(self.all("SELECT upto FROM book WHERE id = :book")[0][0])

    def summed(self) -> Summed:
        found = self.all("SELECT upto, state FROM summed WHERE book = :book")
        if not found:
            return Summed()
        upto, text = found[0]
        state = json.loads(text)
        last = {int(lane): at for lane, at in state.get("last", {}).items()}
        days = (state.get("day"), state.get("first"), state.get("newest"))
        return Summed(int(upto), *days, last)

    def packs(self, after: int, upto: int, until: int, terms: str = "") -> list[Packed]:
        """Packs behind `after` up to `upto`, where they are behind row `until`."""
        statement = f"""SELECT p.row, p.batch, p.day, p.gross, p.lane, p.signal,
            coalesce(m.pile, CASE WHEN p.signal = 0 THEN 0 ELSE 1 END)
            FROM pack p LEFT JOIN move m
                ON m.book = p.book AND m.pack = p.row AND m.row <= {int(until)}
            WHERE p.book = {self.book} AND p.row > {int(after)} AND p.row <= {int(upto)} {terms}
            ORDER BY p.row"""
        # past sqlalchemy: these are all the rows of a book
        with reaching(self.engine.connect) as link:
            return list(map(Packed._make, link.exec_driver_sql(statement).cursor.fetchall()))

    def moved(self, after: int, upto: int) -> list[Packed]:
        """The packs up to `after` that a row behind it moved."""
        return [
            Packed(*row)
            for row in self.all(
                """SELECT p.row, p.batch, p.day, p.gross, p.lane, p.signal, m.pile
                FROM move m JOIN pack p ON p.book = m.book AND p.row = m.pack
                WHERE m.book = :book AND m.row > :after AND m.row <= :upto AND m.pack <= :after
                ORDER BY p.row""",
                after=after,
                upto=upto,
            )
        ]

    def hours(self, after: int, upto: int) -> list[Hour]:
        """The answers of rows behind `after` up to `upto`."""
        found = self.all(
            """SELECT upto, low, high, kind FROM answer WHERE book = :book AND upto > :after
            AND upto <= (SELECT min(upto) FROM answer WHERE book = :book AND upto >= :upto)
            ORDER BY upto""",
            after=after,
            upto=upto,
        )
        return [Hour(*row) for row in found]

    def hour_of(self, row: int) -> Hour:
        found = self.all(
            """SELECT upto, low, high, kind FROM answer WHERE book = :book AND upto >= :row
            ORDER BY upto LIMIT 1""",
            row=row,
        )
        return Hour(*found[0])

    def acts(self, after: int, upto: int) -> list[tuple[int, int | None, Any]]:
        """Rows, batches and acts of days, tares, openings and closings."""
        return [
            (row, batch, read_line(line).act)
            for row, batch, line in self.all(
                """SELECT row, batch, line FROM act WHERE book = :book AND row > :after
                AND row <= :upto AND kind IN ('day', 'tare', 'open', 'close') ORDER BY row""",
                after=after,
                upto=upto,
            )
        ]

    def summed_days(self, product: str, day: int) -> list[tuple[int, int]]:
        """The batches of a product with packs on a day or later that are summed, with those
        days."""
        found = self.sums.all(
            """SELECT DISTINCT q.batch, q.day FROM quarter q
            JOIN opening o ON o.book = q.book AND o.batch = q.batch
            WHERE q.book = :book AND o.product = :product AND q.day >= :day""",
            product=product,
            day=day,
        )
        return [(int(batch), int(day)) for batch, day in found]


class Maker:
    """Makes the delta of some rows."""

    def __init__(self, rows: Rows, state: Summed, upto: int) -> None:
        self.rows, self.state, self.upto = rows, state, upto
        goods = rows.goods(rows.book)
        self.batches: dict[int, Batch] = rows.batches_of(rows.book, goods)
        self.sums = Sums(self.batches, state.last)
        self.delta = Delta(state.upto, upto, state)

    def make(self) -> Delta:
        self.take_acts()
        self.take_packs()
        self.take_moves()
        self.sum_anew()
        delta = self.delta
        delta.cells = [(*key, *cell) for key, cell in self.sums.cells()]
        delta.paces = [(*key, *pace) for key, pace in self.sums.paces.items()]
        delta.state = self.next_state()
        return delta

    def take_acts(self) -> None:
        day = self.state.day
        for row, batch, act in self.rows.acts(self.state.upto, self.upto):
            match act:
                case Day(newest):
                    day = newest
                case Tare(product, begins):
                    self.delta.anew += self.rows.summed_days(product, begins)
                case Open(name):
                    self.delta.openings.append(self.opening(row, name, day or 0))
                case Close():
                    hour = quarter_of(self.rows.hour_of(row))
                    self.delta.closings.append((row, hour, day or 0, batch or 0))
        self.day = day
        self.delta.anew = sorted(set(self.delta.anew))

    def opening(self, row: int, name: str, day: int) -> tuple[Any, ...]:
        batch = self.batches[row]
        goods = batch.goods
        density = (batch.density or 1_000_000) if goods.is_volume else 0
        mass = mass_of(goods.nominal, density)
        return (row, name, goods.name, goods.nominal, density, mass, day)

    def take_packs(self) -> None:
        after = self.state.upto
        packs = self.rows.packs(after, self.upto, self.upto)
        hours = self.rows.hours(after, self.upto) if packs else []
        for pack, high, quarter in with_quarters(packs, hours):
            self.sums.run(pack, high, quarter)
            self.sums.add(pack, quarter)

    def take_moves(self) -> None:
        anew = set(self.delta.anew)
        for pack in self.rows.moved(self.state.upto, self.upto):
            if (pack.batch, pack.day) not in anew:
                self.sums.move(pack, quarter_of(self.rows.hour_of(pack.row)))

    def sum_anew(self) -> None:
        """The packs that were summed before of batches and days whose tare is another now."""
        for batch, day in self.delta.anew:
            terms = f"AND p.batch = {batch} AND p.day = {day}"
            packs = self.rows.packs(0, self.state.upto, self.upto, terms)
            if packs:
                hours = self.rows.hours(packs[0].row - 1, packs[-1].row)
                for pack, _, quarter in with_quarters(packs, hours):
                    self.sums.add(pack, quarter)

    def next_state(self) -> Summed:
        days = [key.day for key, _ in self.sums.cells()] + [one[2] for one in self.delta.closings]
        first = [day for day in (self.state.first, *days) if day is not None]
        ends = (min(first), max([*first, self.state.newest or 0])) if first else (None, None)
        return Summed(self.upto, self.day, *ends, self.sums.last)


def delta_of(rows: Rows, state: Summed, upto: int) -> Delta:
    return Maker(rows, state, upto).make()


def many(keeper: Keeper, cursor: Any, statement: str, rows: Iterable[tuple[Any, ...]]) -> None:
    rows = list(rows)
    if not rows:
        return
    if keeper.is_postgres:
        from psycopg2.extras import execute_batch

        execute_batch(cursor, statement, rows)
    else:
        cursor.executemany(statement.replace("%s", "?"), rows)


def keep(keeper: Keeper, cursor: Any, delta: Delta) -> bool:
    """Keeps a delta within a transaction; False where the sums are at another row, and nothing is
    done."""
    book, state = keeper.book, delta.state
    keeper.run(cursor, BEGIN, (book,))
    said = {"day": state.day, "first": state.first, "newest": state.newest, "last": state.last}
    moved = (delta.upto, json.dumps(said), state.first, state.newest, book, delta.after)
    if keeper.run(cursor, MOVE_ON, moved).rowcount != 1:
        return False
    words = ("least", "greatest") if keeper.is_postgres else ("min", "max")
    many(keeper, cursor, FORGET, ((book, *one) for one in delta.anew))
    add = ADD_CELL.format(least=words[0], greatest=words[1])
    many(keeper, cursor, add, ((book, *one) for one in delta.cells))
    keeper.run(cursor, CLEAN, (book,))
    many(keeper, cursor, ADD_PACE, ((book, *one) for one in delta.paces))
    many(keeper, cursor, ADD_OPENING, ((book, *one) for one in delta.openings))
    many(keeper, cursor, ADD_CLOSING, ((book, *one) for one in delta.closings))
    return True


class Summing:
    """Brings the sums of one book up to its newest row."""

    def __init__(self, engine: Any, reads: Any, book: int, name: str) -> None:
        self.rows = Rows(reads, book)
        self.keeper = Keeper(engine, reaching, book, name)

    def step(self) -> int:
        """Sums at most AT_ONCE rows; how many are left."""
        state, upto = self.rows.summed(), self.rows.upto()
        if upto == state.upto:
            return 0
        delta = delta_of(self.rows, state, min(upto, state.upto + AT_ONCE))
        with self.keeper.commit() as cursor:
            keep(self.keeper, cursor, delta)
        return upto - delta.upto

    def look(self) -> None:
        while self.step():
            pass

    def anew(self) -> None:
        """Makes the sums anew from the rows."""
        with self.keeper.commit() as cursor:
            for table in TABLES:
                self.keeper.run(cursor, f"DELETE FROM {table} WHERE book = %s", (self.keeper.book,))
        self.look()
