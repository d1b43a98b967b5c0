"""Halls of one archive. Over PostgreSQL the number of a book is that of its hall, times BOOKS,
and its own in the hall: so the tables of rows are partitioned by hall, each of its partitions
may stand elsewhere, and what is asked of a book reads those of its hall alone."""

from typing import Any

from sqlalchemy import create_engine, text

BOOKS = 1 << 16
TABLES: tuple[str, ...] = ("pack", "block", "move", "act", "batch", "answer", "person")
TABLES += ("quarter", "pace", "closing", "opening")
# Of a link to a database elsewhere: seconds until it is given up, so that a dead line is noticed.
PATIENCE = {
    "connect_timeout": 5,
    "keepalives": 1,
    "keepalives_idle": 5,
    "keepalives_interval": 5,
    "keepalives_count": 2,
    "tcp_user_timeout": 15_000,
}


def open_central(url: str) -> Any:
    """The database of several halls, over a line that may be cut."""
    return create_engine(
        url, future=True, pool_pre_ping=True, pool_size=1, connect_args=dict(PATIENCE)
    )


def new_book(link: Any, hall: str, name: str) -> int:
    """Puts a book in, and its hall where that is new; its number. Within a transaction."""
    values = {"hall": hall, "name": name}
    if link.engine.dialect.name != "postgresql":
        statement = "INSERT INTO book (hall, name, upto) VALUES (:hall, :name, 0) RETURNING id"
        return int(link.execute(text(statement), values).scalar())
    number = hall_number(link, hall)
    # another may have put it in while this waited
    find = text("SELECT id FROM book WHERE hall = :hall AND name = :name")
    if (found := link.execute(find, values).scalar()) is not None:
        return int(found)
    most = link.execute(
        text("SELECT max(id) FROM book WHERE id >= :low AND id < :high"),
        {"low": number * BOOKS, "high": (number + 1) * BOOKS},
    ).scalar()
    book = (most or number * BOOKS) + 1
    link.execute(
        text("INSERT INTO book (id, hall, name, upto) VALUES (:id, :hall, :name, 0)"),
        values | {"id": book},
    )
    return int(book)


def hall_number(link: Any, hall: str) -> int:
    """The number of a hall; a new one gets its partitions. One at a time."""
    link.execute(text("LOCK TABLE hall IN EXCLUSIVE MODE"))
    find = text("SELECT number FROM hall WHERE name = :name")
    if (found := link.execute(find, {"name": hall}).scalar()) is not None:
        return int(found)
    number = int(link.execute(text("SELECT coalesce(max(number), 0) + 1 FROM hall")).scalar())
    link.execute(
        text("INSERT INTO hall (number, name) VALUES (:number, :name)"),
        {"number": number, "name": hall},
    )
    for table in TABLES:
        link.exec_driver_sql(
            f"CREATE TABLE {table}_h{number} PARTITION OF {table}"
            f" FOR VALUES FROM ({number * BOOKS}) TO ({(number + 1) * BOOKS})"
        )
    return number
