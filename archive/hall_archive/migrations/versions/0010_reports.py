"""Sums by quarter of an hour for reports: what was weighed, how lanes ran, closings, what
batches are of, and refused acts; how far each book is summed. Moves are found by the row that
moved a pack."""

import sqlalchemy as sa
from alembic import op

revision = "0010"
down_revision = "0003"
KEY = ("book", "quarter", "batch", "day", "lane")
# squares of masses in mg: the sum of an absurd quarter is beyond 64 bits
WIDE = sa.Numeric(30, 0).with_variant(sa.BigInteger(), "sqlite")  # type: ignore[no-untyped-call]


def columns(kind: object, *names: str) -> list[sa.Column]:
    return [sa.Column(name, kind, nullable=False) for name in names]


def upgrade() -> None:
    op.create_index("move_row", "move", ["book", "row"])
    op.create_table(
        "summed",
        sa.Column("book", sa.Integer, primary_key=True, autoincrement=False),
        *columns(sa.Integer, "upto"),
        sa.Column("first_day", sa.Integer),
        sa.Column("last_day", sa.Integer),
        *columns(sa.Text, "state"),
    )
    op.create_table(
        "quarter",
        *columns(sa.BigInteger, "gross", "net"),
        *columns(WIDE, "square"),
        *columns(sa.Integer, *KEY[:4], "count", "short", "poor", "first", "last"),
        *columns(sa.SmallInteger, "lane", "signal", "pile"),
        sa.PrimaryKeyConstraint(*KEY, "signal", "pile", name="quarter_key"),
        sqlite_with_rowid=False,
    )
    op.create_index("quarter_batch", "quarter", ["book", "batch"])
    op.create_table(
        "pace",
        *columns(sa.BigInteger, "running", "stopped"),
        *columns(sa.Integer, *KEY[:4], "stops"),
        *columns(sa.SmallInteger, "lane"),
        sa.PrimaryKeyConstraint(*KEY, name="pace_key"),
        sqlite_with_rowid=False,
    )
    op.create_table(
        "closing",
        *columns(sa.Integer, "book", "row", "quarter", "day", "batch"),
        sa.PrimaryKeyConstraint("book", "row", name="closing_key"),
        sqlite_with_rowid=False,
    )
    op.create_table(
        "opening",
        *columns(sa.BigInteger, "nominal", "mass"),
        *columns(sa.Integer, "book", "batch", "day", "density"),
        *columns(sa.Text, "name", "product"),
        sa.PrimaryKeyConstraint("book", "batch", name="opening_key"),
        sqlite_with_rowid=False,
    )
    op.create_table(
        "refusal",
        sa.Column("id", sa.Integer, primary_key=True),
        *columns(sa.BigInteger, "moment"),
        *columns(sa.Integer, "book"),
        *columns(sa.Text, "person", "act", "line"),
    )
    op.create_index("refusal_moment", "refusal", ["book", "moment"])
