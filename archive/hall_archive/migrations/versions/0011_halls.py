"""Numbers of halls. Over PostgreSQL the tables of rows are partitioned by hall: the number of a
book is that of its hall, times 65 536, and its own in the hall, so that a hall's books are one
range. What is there already is renumbered. A SQLite of one hall stays as it is."""

import sqlalchemy as sa
from alembic import op

revision = "0011"
down_revision = "0010"
BOOKS = 1 << 16
# The tables of rows, with their keys; each key has the book, by which they are partitioned.
KEYS = {
    "pack": "book, row",
    "block": "book, block, batch, day, lane, signal",
    "move": "book, pack",
    "act": "book, row",
    "batch": "book, row",
    "answer": "book, upto",
    "person": "book, row",
    "quarter": "book, quarter, batch, day, lane, signal, pile",
    "pace": "book, quarter, batch, day, lane",
    "closing": "book, row",
    "opening": "book, batch",
}
INDEXES = (
    "CREATE INDEX pack_rejected ON pack (book, row) WHERE signal > 0",
    "CREATE INDEX pack_signal ON pack (book, signal, row) WHERE signal > 0",
    "CREATE INDEX move_pile ON move (book, pile, pack)",
    "CREATE INDEX move_row ON move (book, row)",
    "CREATE UNIQUE INDEX batch_name_in_book ON batch (book, name)",
    "CREATE INDEX batch_name ON batch (name)",
    "CREATE INDEX answer_clock ON answer (book, clock, high)",
    "CREATE INDEX quarter_batch ON quarter (book, batch)",
    "CREATE INDEX person_acts ON person (book, name, row)",
)
# Tables whose book is no part of their key.
OTHERS = ("alarm", "refused_line", "refusal", "summed")


def upgrade() -> None:
    op.create_table(
        "hall",
        sa.Column("number", sa.Integer, primary_key=True, autoincrement=False),
        sa.Column("name", sa.Text, nullable=False, unique=True),
    )
    if op.get_bind().dialect.name == "postgresql":
        number_halls()
        for table, key in KEYS.items():
            partition(table, key)
        for table in OTHERS:
            op.execute(f"ALTER TABLE {table} ALTER COLUMN book TYPE integer")
            op.execute(f"UPDATE {table} SET book = (SELECT now FROM moved WHERE was = book)")
        op.execute("UPDATE book SET id = now FROM moved WHERE was = id")
        for statement in INDEXES:
            op.execute(statement)
        op.execute("DROP TABLE moved")


def number_halls() -> None:
    """Halls by their first books, and the new numbers of all books."""
    op.execute(
        """INSERT INTO hall (number, name) SELECT row_number() OVER (ORDER BY min(id)), hall
        FROM book GROUP BY hall"""
    )
    op.execute(
        f"""CREATE TEMPORARY TABLE moved AS SELECT id AS was, number * {BOOKS} +
        row_number() OVER (PARTITION BY hall ORDER BY id) AS now
        FROM book JOIN hall ON hall.name = book.hall"""
    )


def partition(table: str, key: str) -> None:
    """A table anew, in parts, with the rows that it has."""
    link = op.get_bind()
    found = link.exec_driver_sql(
        f"""SELECT column_name, data_type, is_nullable FROM information_schema.columns
        WHERE table_name = '{table}' AND table_schema = current_schema()
        ORDER BY ordinal_position"""
    ).all()
    columns = ", ".join(column(*one) for one in found)
    names = ", ".join(f'"{name}"' for name, _, _ in found)
    values = ", ".join("moved.now" if name == "book" else f'w."{name}"' for name, _, _ in found)
    op.execute(f"ALTER TABLE {table} RENAME TO {table}_was")
    op.execute(f"CREATE TABLE {table} ({columns}) PARTITION BY RANGE (book)")
    for (number,) in link.exec_driver_sql("SELECT number FROM hall").all():
        op.execute(
            f"CREATE TABLE {table}_h{number} PARTITION OF {table}"
            f" FOR VALUES FROM ({number * BOOKS}) TO ({(number + 1) * BOOKS})"
        )
    op.execute(
        f"INSERT INTO {table} ({names}) SELECT {values} FROM {table}_was w"
        " JOIN moved ON moved.was = w.book"
    )
    op.execute(f"DROP TABLE {table}_was")
    op.execute(f"ALTER TABLE {table} ADD CONSTRAINT {table}_key PRIMARY KEY ({key})")


def column(name: str, kind: str, nullable: str) -> str:
    kind = "integer" if name == "book" else kind
    return f'"{name}" {kind}{" NOT NULL" if nullable == "NO" else ""}'
