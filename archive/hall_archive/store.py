"""The archive's database: opened, migrated, and what a follower reads and keeps there. This module
and `questions` alone import sqlalchemy."""

import logging
import os
from collections.abc import Callable, Iterator
from contextlib import contextmanager
from typing import Any

from sqlalchemy import create_engine, event, func, inspect, select, text
from sqlalchemy.engine import make_url
from sqlalchemy.exc import DBAPIError, TimeoutError
from sqlalchemy.pool import QueuePool

from hall_archive import halls, nets, schema
from hall_archive.clock import Clock
from hall_archive.keeping import Keeper
from hall_archive.resuming import Resuming
from hall_archive.rows import (
    MAX_ROWS,
    PRIORS,
    SIGNALS,
    Entry,
    Weigh,
    bytes_of,
    line_of,
    read_line,
    weighing_bytes,
)
from hall_archive.standing import Standing
from hall_archive.taking import Cursor, Taken, Unkept

MIGRATIONS = os.path.join(os.path.dirname(os.path.abspath(__file__)), "migrations")
# Seconds that a writer of SQLite waits for another.
BUSY = 30
# Threads of SQLite that sort what a report adds up, beside the one that reads.
SORTERS = 3
# Rows that are read from the database at once.
CHUNK = 8_192
PackFields = tuple[int, int, int, int, int, int]
WEIGHINGS = """
    SELECT row, by, lane, gross, prior, signal FROM pack
    WHERE book = %d AND row > %d AND row <= %d ORDER BY row"""


def open_engine(url: Any, writes: bool = False) -> Any:
    """The database of a URL (`sqlite:////var/lib/hall-archive/archive.db`, `postgresql:///hall`).
    What writes takes its lock at once, so that two writers never meet half way."""
    if make_url(url).get_backend_name() == "sqlite":
        # kept open: each close of the last connection would write the whole log back
        engine = create_engine(
            url, future=True, poolclass=QueuePool, connect_args={"check_same_thread": False}
        )
        begin = "BEGIN IMMEDIATE" if writes else "BEGIN"

        @event.listens_for(engine, "connect")  # type: ignore[misc, no-untyped-call]
        def connected(link: Any, _: Any) -> None:
            link.isolation_level = None
            for pragma in (
                "journal_mode = WAL",
                "synchronous = FULL",
                f"busy_timeout = {BUSY}000",
                f"threads = {SORTERS}",
            ):
                link.execute(f"PRAGMA {pragma}")

        @event.listens_for(engine, "begin")  # type: ignore[misc, no-untyped-call]
        def began(link: Any) -> None:
            link.exec_driver_sql(begin)

        return engine
    return create_engine(url, future=True, pool_pre_ping=True)


def migrate(engine: Any) -> None:
    """Brings the tables to their newest form; alembic, whose parts take long to load, only where
    they haven't it."""
    if is_newest(engine):
        return
    from alembic import command
    from alembic.config import Config

    logging.getLogger("alembic").setLevel(logging.WARNING)
    config = Config()
    config.set_main_option("script_location", MIGRATIONS)
    with engine.begin() as link:
        config.attributes["connection"] = link
        command.upgrade(config, "head")


def is_newest(engine: Any) -> bool:
    """Whether the last migration was done: each begins with its number."""
    newest = max(name for name in os.listdir(f"{MIGRATIONS}/versions") if name.endswith(".py"))[:4]
    with reaching(engine.connect) as link:
        if not inspect(link).has_table("alembic_version"):
            return False
        return bool(
            link.execute(text("SELECT version_num FROM alembic_version")).scalar() == newest
        )


@contextmanager
def reaching(begin: Callable[[], Any]) -> Iterator[Any]:
    """A connection or a transaction; Unkept where the database fails, at its beginning too."""
    try:
        with begin() as link:
            yield link
    except DBAPIError as fault:
        raise Unkept(str(fault.orig).strip()) from fault
    except TimeoutError as fault:
        raise Unkept("all connections to the database are busy") from fault


class Store:
    """What the archive has of one book."""

    def __init__(self, engine: Any, hall: str, name: str) -> None:
        self.engine = engine
        # what reads never takes a writer's lock, however long it reads
        self.reads = open_engine(engine.url)
        self.hall = hall
        self.name = name
        self.book = self.number()
        self.keeper = Keeper(engine, reaching, self.book, name)

    def number(self) -> int:
        """The number of the book here; it is put in where it is new."""
        with reaching(self.engine.begin) as link:
            found = link.execute(
                select(schema.book.c.id).where(
                    schema.book.c.hall == self.hall, schema.book.c.name == self.name
                )
            ).scalar()
            if found is None:
                found = halls.new_book(link, self.hall, self.name)
        return int(found)

    # ---- what a follower begins with

    def cursor(self) -> Cursor:
        table = schema.book.c
        with reaching(self.reads.connect) as link:
            upto, asked, clock, refused = link.execute(
                select(table.upto, table.asked, table.clock, table.refused).where(
                    table.id == self.book
                )
            ).one()
            found = None
            if clock is not None:
                boot, offset = link.execute(
                    select(schema.clock.c.boot, schema.clock.c.offset).where(
                        schema.clock.c.id == clock
                    )
                ).one()
                found = Clock(boot, offset)
        return Cursor(int(upto), asked, found, refused)

    def refuse(self, why: str) -> None:
        """Takes down that the book at hand is another one."""
        with reaching(self.engine.begin) as link:
            link.execute(
                schema.book.update().where(schema.book.c.id == self.book).values(refused=why)
            )

    def standing(self, upto: int) -> Standing:
        """The book behind the rows that were taken."""
        return Resuming(self.reads, reaching, self.book).standing(upto)

    def entries(self, after: int = 0, upto: int = MAX_ROWS) -> Iterator[Entry]:
        """Rows behind `after` up to `upto`, in order."""
        return merged(self.acts(after, upto), self.weighings(after, upto))

    def lines(self, after: int, upto: int) -> list[str]:
        """The lines of some rows, as the book has them."""
        return [line_of(entry) for entry in self.entries(after, upto)]

    def acts(self, after: int = 0, upto: int = MAX_ROWS) -> Iterator[Entry]:
        """All rows but weighings, in order."""
        table = schema.act.c
        of = (table.book == self.book, table.row > after, table.row <= upto)
        wanted = select(table.line).where(*of)
        with reaching(self.reads.connect) as link:
            lines = [line for (line,) in link.execute(wanted.order_by(table.row))]
        return map(read_line, lines)

    def weighings(self, after: int = 0, upto: int = MAX_ROWS) -> Iterator[Entry]:
        """Weighings, in order."""
        for row, by, lane, gross, prior, signal in self.packs(after, upto):
            yield Entry(row, SIGNALS[signal], by, 0, 0, Weigh(lane, gross, PRIORS[prior]))

    def packs(self, after: int, upto: int) -> Iterator[PackFields]:
        """The same as they are kept: chunk by chunk by the driver itself, since each row of a
        million would cost as much again in sqlalchemy."""
        most = min(upto, self.cursor().upto)
        for begin in range(after, most, CHUNK):
            statement = WEIGHINGS % (self.book, begin, min(begin + CHUNK, most))
            with reaching(self.reads.connect) as link:
                cursor = link.connection.cursor()
                try:
                    cursor.execute(statement)
                    yield from cursor.fetchall()
                except self.reads.dialect.dbapi.Error as fault:
                    raise Unkept(str(fault).strip()) from fault
                finally:
                    cursor.close()

    def packed(self, after: int, upto: int) -> Iterator[bytes]:
        """The bytes of rows behind `after` up to `upto`, in order: past the entries of weighings,
        which are most of a book."""
        acts = self.acts(after, upto)
        act = next(acts, None)
        for row, by, lane, gross, prior, signal in self.packs(after, upto):
            while act and act.row < row:
                yield bytes_of(act)
                act = next(acts, None)
            yield weighing_bytes(row, by, lane, gross, prior, signal)
        if act:
            yield bytes_of(act)
            yield from map(bytes_of, acts)

    # ---- what a follower keeps

    def keep(self, taken: Taken) -> None:
        """Keeps what was taken, all of it or nothing; Behind where the archive is at another
        row than this begins."""
        self.keeper.keep(taken)

    # ---- alarms

    def alarm(self, moment: int, what: str) -> None:
        """Keeps an alarm, once for each text."""
        table = schema.alarm
        with reaching(self.engine.begin) as link:
            same = (table.c.book == self.book, table.c.what == what)
            if not link.execute(select(func.count()).select_from(table).where(*same)).scalar():
                link.execute(table.insert().values(book=self.book, moment=moment, what=what))


def merged(acts: Iterator[Entry], weighings: Iterator[Entry]) -> Iterator[Entry]:
    """Two lists of entries as one, in order of the rows."""
    act = next(acts, None)
    for weighing in weighings:
        while act and act.row < weighing.row:
            yield act
            act = next(acts, None)
        yield weighing
    if act:
        yield act
        yield from acts
