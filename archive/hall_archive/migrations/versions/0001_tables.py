"""The first tables: books, rows, hours, persons, evidence and alarms."""

import sqlalchemy as sa
from alembic import op

revision = "0001"
down_revision = None


def upgrade() -> None:
    books()
    rows()
    batches()
    hours()
    people()
    evidence()


def column(name: str, kind: object, **more: object) -> sa.Column:
    """A column; it has a value in each row unless it says otherwise."""
    return sa.Column(name, kind, **({"nullable": False} | more))


def books() -> None:
    op.create_table(
        "book",
        column("id", sa.Integer, primary_key=True),
        column("hall", sa.Text),
        column("name", sa.Text),
        column("upto", sa.Integer),
        column("asked", sa.BigInteger, nullable=True),
        column("clock", sa.Integer, nullable=True),
        column("refused", sa.Text, nullable=True),
        sa.UniqueConstraint("hall", "name", name="book_name"),
    )
    op.create_table(
        "alarm",
        column("id", sa.Integer, primary_key=True),
        column("book", sa.SmallInteger),
        column("moment", sa.BigInteger),
        column("what", sa.Text),
    )


def rows() -> None:
    op.create_table(
        "pack",
        column("row", sa.Integer),
        column("batch", sa.Integer),
        column("day", sa.Integer),
        column("gross", sa.Integer),
        column("by", sa.Integer),
        column("book", sa.SmallInteger),
        column("lane", sa.SmallInteger),
        column("prior", sa.SmallInteger),
        column("signal", sa.SmallInteger),
        sa.PrimaryKeyConstraint("book", "row", name="pack_key"),
        sqlite_with_rowid=False,
    )
    rejected = sa.text("signal > 0")
    op.create_index(
        "pack_rejected", "pack", ["book", "row"], sqlite_where=rejected, postgresql_where=rejected
    )
    op.create_table(
        "move",
        column("pack", sa.Integer),
        column("row", sa.Integer),
        column("book", sa.SmallInteger),
        column("pile", sa.SmallInteger),
        sa.PrimaryKeyConstraint("book", "pack", name="move_key"),
        sqlite_with_rowid=False,
    )
    op.create_table(
        "act",
        column("row", sa.Integer),
        column("book", sa.SmallInteger),
        column("batch", sa.Integer, nullable=True),
        column("product", sa.Text, nullable=True),
        column("kind", sa.Text),
        column("line", sa.Text),
        sa.PrimaryKeyConstraint("book", "row", name="act_key"),
        sqlite_with_rowid=False,
    )


def batches() -> None:
    op.create_table(
        "batch",
        column("row", sa.Integer),
        column("book", sa.SmallInteger),
        column("name", sa.Text),
        column("product", sa.Text),
        column("state", sa.Text),
        column("verdict", sa.Text),
        column("first", sa.Integer),
        column("last", sa.Integer),
        column("closed", sa.Integer, nullable=True),
        sa.PrimaryKeyConstraint("book", "row", name="batch_key"),
        sa.UniqueConstraint("book", "name", name="batch_name_in_book"),
    )
    op.create_index("batch_name", "batch", ["name"])


def hours() -> None:
    op.create_table(
        "clock",
        column("id", sa.Integer, primary_key=True),
        column("boot", sa.Text),
        column("offset", sa.BigInteger),
        sa.UniqueConstraint("boot", "offset", name="clock_stretch"),
    )
    op.create_table(
        "answer",
        column("low", sa.BigInteger, nullable=True),
        column("high", sa.BigInteger),
        column("upto", sa.Integer),
        column("clock", sa.Integer),
        column("book", sa.SmallInteger),
        column("kind", sa.SmallInteger),
        sa.PrimaryKeyConstraint("book", "upto", name="answer_key"),
        sqlite_with_rowid=False,
    )
    op.create_index("answer_high", "answer", ["book", "high"])


def people() -> None:
    op.create_table(
        "person",
        column("row", sa.Integer),
        column("book", sa.SmallInteger),
        column("name", sa.Text),
        column("reason", sa.Text, nullable=True),
        column("low", sa.BigInteger),
        column("high", sa.BigInteger),
        sa.PrimaryKeyConstraint("book", "row", name="person_key"),
    )
    op.create_index("person_name", "person", ["name", "high"])
    op.create_table(
        "refused_line",
        column("id", sa.Integer, primary_key=True),
        column("book", sa.SmallInteger),
        column("line", sa.Text),
        column("why", sa.Text),
    )
    op.create_table(
        "front_log",
        column("path", sa.Text, primary_key=True),
        column("file", sa.BigInteger),
        column("place", sa.BigInteger),
    )


def evidence() -> None:
    op.create_table(
        "evidence",
        column("id", sa.Integer, primary_key=True),
        column("hall", sa.Text),
        column("kind", sa.Text),
        column("subject", sa.Text),
        column("moment", sa.BigInteger),
        column("person", sa.Text),
        column("body", sa.Text),
        column("before", sa.Text),
        column("digest", sa.Text),
    )
    op.create_index("evidence_newest", "evidence", ["hall", "kind", "subject"])
