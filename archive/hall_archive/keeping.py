"""What a follower keeps of one book: each commit whole, or not at all. It goes past sqlalchemy,
over one connection that stays open: ten times a second its statements would cost more than the
rows."""

import io
from collections.abc import Callable, Iterator, Sequence
from contextlib import contextmanager
from typing import Any

from hall_archive import nets
from hall_archive.clock import Answer, Clock
from hall_archive.taking import Behind, PackRow, Taken, Unkept

KINDS = ("live", "late", "step")
# Rows of a block: when it is whole, the sums of its packs are kept.
BLOCK = 4_096
# The columns of a weighing, and its line as COPY of PostgreSQL reads it, where %d is the book.
PACK = 'row, batch, day, gross, "by", lane, prior, signal, book'
PACK_LINE = "%%d\t" * 8 + "%d\n"
# %s is the place of a value
MOVE_CURSOR = "UPDATE book SET upto = %s, asked = %s, clock = %s WHERE id = %s AND upto = %s"
FIND_CLOCK = 'SELECT id FROM clock WHERE boot = %s AND "offset" = %s'
ADD_CLOCK = 'INSERT INTO clock (boot, "offset") VALUES (%s, %s) RETURNING id'
PUT_BATCH = """
    INSERT INTO batch (book, row, name, product, state, verdict, first, last, closed)
    VALUES (%s, %s, %s, %s, %s, %s, %s, %s, %s)
    ON CONFLICT (book, row) DO UPDATE SET state = excluded.state, verdict = excluded.verdict,
    first = excluded.first, last = excluded.last, closed = excluded.closed"""
ADD_BLOCK = """
    INSERT INTO block (gross, batch, day, block, count, book, lane, signal)
    SELECT sum(gross), batch, day, %s, count(*), book, lane, signal FROM pack
    WHERE book = %s AND row > %s AND row <= %s GROUP BY book, batch, day, lane, signal"""


class Keeper:
    """Keeps commits by an engine's own driver. `reaching` makes the database's faults Unkept."""

    def __init__(self, engine: Any, reaching: Callable[[Any], Any], book: int, name: str) -> None:
        self.engine, self.reaching = engine, reaching
        self.book, self.name = book, name
        self.is_postgres = engine.dialect.name == "postgresql"
        self.link: Any = None
        # those that are there for good
        self.clocks: dict[Clock, int] = {}

    @contextmanager
    def commit(self) -> Iterator[Any]:
        """A transaction, by its cursor; behind a fault the next one has another connection."""
        with self.reaching(self.linked) as link:
            cursor = link.cursor()
            try:
                if not self.is_postgres:
                    cursor.execute("BEGIN IMMEDIATE")
                yield cursor
                link.commit()
            except self.engine.dialect.dbapi.Error as fault:
                link.invalidate()
                self.link = None
                raise Unkept(str(fault).strip()) from fault
            except BaseException:
                link.rollback()
                raise
            finally:
                if self.link:
                    cursor.close()

    @contextmanager
    def linked(self) -> Iterator[Any]:
        """The connection, which is made where there is none."""
        self.link = self.link or self.engine.raw_connection()
        yield self.link

    def keep(self, taken: Taken) -> None:
        """Keeps what was taken, all of it or nothing; Behind where the archive is at another
        row than this begins."""
        with self.commit() as cursor:
            clock = taken.clock and self.clock_number(cursor, taken.clock)
            moved = (taken.upto, taken.asked, clock, self.book, taken.after)
            if self.run(cursor, MOVE_CURSOR, moved).rowcount != 1:
                raise Behind(f"{self.name}: the archive isn't at row {taken.after}")
            self.add_packs(cursor, taken.packs)
            moves = [(m.pack, m.row, self.book, nets.PILES.index(m.pile)) for m in taken.moves]
            self.insert(cursor, "move", moves)
            acts = [(row, self.book, batch, *more) for row, batch, *more in taken.acts]
            self.insert(cursor, "act", acts)
            answers = [self.answer_row(cursor, one) for one in taken.answers]
            self.insert(cursor, "answer", answers)
            for batch in taken.batches:
                self.run(cursor, PUT_BATCH, (self.book, *batch))
            self.add_blocks(cursor, taken)

    def add_packs(self, cursor: Any, packs: list[PackRow]) -> None:
        """Adds weighings, which are most of all rows: each as it is, with the number of the
        book."""
        if not packs:
            return
        if self.is_postgres:
            line = PACK_LINE % self.book
            text = io.StringIO("".join([line % pack for pack in packs]))
            cursor.copy_expert(f"COPY pack ({PACK}) FROM STDIN", text)
        else:
            marks = f"{'?, ' * len(packs[0])}{self.book}"
            cursor.executemany(f"INSERT INTO pack ({PACK}) VALUES ({marks})", packs)

    def add_blocks(self, cursor: Any, taken: Taken) -> None:
        """Adds the sums of the blocks that became whole."""
        for block in range(taken.after // BLOCK, taken.upto // BLOCK):
            rows = (block * BLOCK, (block + 1) * BLOCK)
            self.run(cursor, ADD_BLOCK, (block, self.book, *rows))

    def run(self, cursor: Any, statement: str, values: tuple[Any, ...]) -> Any:
        cursor.execute(statement if self.is_postgres else statement.replace("%s", "?"), values)
        return cursor

    def clock_number(self, cursor: Any, clock: Clock) -> int:
        """The number of a clock here; it is put in where it is new."""
        if clock not in self.clocks:
            found = self.run(cursor, FIND_CLOCK, clock).fetchone()
            if found is None:
                return int(self.run(cursor, ADD_CLOCK, clock).fetchone()[0])
            self.clocks[clock] = int(found[0])
        return self.clocks[clock]

    def answer_row(self, cursor: Any, one: Answer) -> tuple[Any, ...]:
        clock = self.clock_number(cursor, one.clock)
        return one.low, one.high, one.upto, clock, self.book, KINDS.index(one.kind)

    def insert(self, cursor: Any, table: str, rows: Sequence[tuple[Any, ...]]) -> None:
        """Inserts rows whose values stand in the order of the table's columns."""
        if not rows:
            return
        if self.is_postgres:
            cursor.copy_expert(f"COPY {table} FROM STDIN", io.StringIO(copied(rows)))
        else:
            marks = ", ".join("?" * len(rows[0]))
            cursor.executemany(f"INSERT INTO {table} VALUES ({marks})", rows)


def copied(rows: Sequence[tuple[Any, ...]]) -> str:
    """Rows as COPY of PostgreSQL reads them. No text of a book has a tab, a line break or a
    backslash but the line of an act, whose tabs are escaped."""
    return "".join("\t".join(map(field, row)) + "\n" for row in rows)


def field(value: Any) -> str:
    if value is None:
        return "\\N"
    if isinstance(value, int):
        return str(value)
    return str(value).replace("\\", "\\\\").replace("\t", "\\t").replace("\n", "\\n")
