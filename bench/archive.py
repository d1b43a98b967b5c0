"""Run by bench/archive.sh: FOLDER ROWS BOOKS KIND. A book of so many rows is taken in, its register
is printed, and questions are asked over as many books like it. Prints seconds of the clock, and of
a processor, with what the server of PostgreSQL takes: where others take the machine's these
count."""

import os
import sys
import time
from collections.abc import Callable
from typing import Any

HERE = os.path.dirname(os.path.realpath(__file__))
sys.path[:0] = [f"{HERE}/../archive", f"{HERE}/../tests"]

from archive_books import copy_books, make_book, put_hours  # noqa: E402
from archive_asked import ask_all  # noqa: E402
from archive_room import Postgres  # noqa: E402

from hall_archive import store, witness  # noqa: E402
from hall_archive.following import Follower  # noqa: E402
from hall_archive.rows import PAGE_ROWS  # noqa: E402
from hall_archive.search import Search  # noqa: E402
from hall_archive.store import Store  # noqa: E402
from hall_archive.taking import Page  # noqa: E402


class Text:
    """A book as a source of rows, which come as a door has them."""

    is_new = False

    def __init__(self, lines: list[str]) -> None:
        self.lines = lines

    def ask(self, after: int) -> Page:
        return Page("".join(self.lines[after : after + PAGE_ROWS]), len(self.lines))

    def close(self) -> None:
        pass


class Costs:
    """Times work by the clock and by the processor, with that of a server where there is one."""

    def __init__(self, kind: str, server: Postgres | None) -> None:
        self.kind, self.server = kind, server

    def used(self) -> float:
        return time.process_time() + (self.server.seconds() if self.server else 0.0)

    def timed(self, said: str, work: Callable[[], Any]) -> None:
        began, used = time.monotonic(), self.used()
        work()
        took, used = time.monotonic() - began, self.used() - used
        print(
            f"archive: {self.kind}, {said}: {took:.2f} s, {used:.2f} of a processor; load"
            f" {os.getloadavg()[0]:.1f}",
            flush=True,
        )


def take(follower: Follower) -> None:
    while follower.step()[0]:
        pass
    if follower.upto > follower.waiting.after:
        follower.keep()


def measure(
    kind: str, url: str, lines: list[str], books: int, server: Postgres | None = None
) -> None:
    engine = store.open_engine(url, True)
    store.migrate(engine)
    kept, source = Store(engine, "main", "day"), Text(lines)
    costs = Costs(kind, server)
    costs.timed(f"{len(lines)} rows taken in", lambda: take(Follower("day", source, kept)))
    put_hours(kept, len(lines))
    size = sizes(kind, url, engine)
    print(f"archive: {kind}, {size / len(lines):.1f} bytes a row", flush=True)
    costs.timed("begun anew", lambda: Follower("day", source, kept))
    search = Search(store.open_engine(url))
    costs.timed("register", lambda: sum(1 for _ in search.register(kept.book)))
    held = witness.Held()
    costs.timed("rows read for the witness", lambda: held.add(kept.packed(0, len(lines))))
    costs.timed(f"{books} books of it", lambda: copy_books(kept, books))
    ask_all(kind, search, len(lines), costs.used)


def sizes(kind: str, url: str, engine: Any) -> int:
    """Bytes on the disk, behind a checkpoint."""
    if kind == "SQLite":
        with engine.connect() as link:
            link.exec_driver_sql("ROLLBACK")
            link.exec_driver_sql("PRAGMA wal_checkpoint(TRUNCATE)")
            link.exec_driver_sql("BEGIN")
        return os.path.getsize(url.removeprefix("sqlite:///"))
    with engine.connect() as link:
        found = link.exec_driver_sql("SELECT pg_database_size('archive')").scalar()
        empty = link.exec_driver_sql("SELECT pg_database_size('template1')").scalar()
    return int(found) - int(empty)


def main() -> None:
    folder, rows, books, kind = sys.argv[1], int(sys.argv[2]), int(sys.argv[3]), sys.argv[4]
    lines = make_book(rows)
    if kind == "sqlite":
        return measure("SQLite", f"sqlite:///{folder}/archive.db", lines, books)
    postgres = Postgres(folder)
    try:
        measure("PostgreSQL", postgres.url, lines, books, postgres)
    finally:
        postgres.kill()


main()
