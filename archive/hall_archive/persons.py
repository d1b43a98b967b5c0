"""Who acted in a book, in the database: the acts that lines of the front are tied to, the first
line of each row, and how far the front's log was read."""

from typing import Any

from sqlalchemy import select

from hall_archive import schema
from hall_archive.people import Hour, Place, Tied
from hall_archive.rows import Entry, read_line
from hall_archive.store import Store, reaching

# %s is the place of a value, as in `keeping`
FIND_HOUR = "SELECT low, high FROM answer WHERE book = %s AND upto >= %s ORDER BY upto LIMIT 1"
ADD_PERSON = """
    INSERT INTO person (row, book, name, reason, low, high) VALUES (%s, %s, %s, %s, %s, %s)
    ON CONFLICT (book, row) DO NOTHING"""
ADD_FAULT = "INSERT INTO refused_line (book, line, why) VALUES (%s, %s, %s)"
PUT_PLACE = """
    INSERT INTO front_log (path, file, place) VALUES (%s, %s, %s)
    ON CONFLICT (path) DO UPDATE SET file = excluded.file, place = excluded.place"""


class Persons:
    """Who acted in one book."""

    def __init__(self, store: Store) -> None:
        self.store = store

    def log(self, path: str) -> str:
        """How a log is named here; each book reads it for itself."""
        return f"{self.store.hall} {self.store.name} {path}"

    def place(self, path: str) -> Place:
        table = schema.front_log.c
        with reaching(self.store.reads.connect) as link:
            found = link.execute(
                select(table.file, table.place).where(table.path == self.log(path))
            ).one_or_none()
        return Place(*found) if found else Place(0, 0)

    # ---- the acts of the book

    def acts_at(self, rows: list[int]) -> dict[int, Entry]:
        """The acts of some rows; a row that is a weighing, or isn't here, has none."""
        table = schema.act.c
        wanted = select(table.row, table.line).where(
            table.book == self.store.book, table.row.in_(rows)
        )
        with reaching(self.store.reads.connect) as link:
            return {row: read_line(line) for row, line in link.execute(wanted)}

    def act_of(self, desk: int, request: int, upto: int) -> Entry | None:
        """The act of a desk and a request among the first `upto` rows. It is looked for backwards:
        an act is asked again soon."""
        table = schema.act.c
        of = (table.book == self.store.book, table.row <= upto)
        wanted = select(table.line).where(*of, table.line.contains(f"\t@{desk} {request} "))
        with reaching(self.store.reads.connect) as link:
            found = link.execute(wanted.order_by(table.row.desc()).limit(1)).scalar()
        return read_line(found) if found else None

    # ---- what is kept

    def keep(self, path: str, place: Place, tied: list[Tied]) -> None:
        """Keeps who acted, the first of each row, and how far the log was read."""
        keeper, book = self.store.keeper, self.store.book
        with keeper.commit() as cursor:
            for one in tied:
                if one.fault:
                    keeper.run(cursor, ADD_FAULT, (book, one.line, one.fault))
                    continue
                low, high = one.hour or self.hour(cursor, one.row)
                values = (one.row, book, one.person, one.reason, low, high)
                keeper.run(cursor, ADD_PERSON, values)
            keeper.run(cursor, PUT_PLACE, (self.log(path), *place))

    def hour(self, cursor: Any, row: int) -> Hour:
        """When a row came, where the front doesn't say when it was asked for first."""
        found = self.store.keeper.run(cursor, FIND_HOUR, (self.store.book, row)).fetchone()
        low, high = found
        return Hour(high if low is None else low, high)
