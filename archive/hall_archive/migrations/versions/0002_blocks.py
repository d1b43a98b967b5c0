"""Sums of whole blocks of rows, and indexes by signal, by pile, by person and by the clock of an
hour."""

import sqlalchemy as sa
from alembic import op

revision = "0002"
down_revision = "0001"
BLOCK = 4_096


def upgrade() -> None:
    columns = [sa.Column("gross", sa.BigInteger, nullable=False)]
    columns += [
        sa.Column(name, sa.Integer, nullable=False) for name in ("batch", "day", "block", "count")
    ]
    columns += [
        sa.Column(name, sa.SmallInteger, nullable=False) for name in ("book", "lane", "signal")
    ]
    key = sa.PrimaryKeyConstraint(
        "book", "block", "batch", "day", "lane", "signal", name="block_key"
    )
    op.create_table("block", *columns, key, sqlite_with_rowid=False)
    op.execute(
        f"""
        INSERT INTO block (gross, batch, day, block, count, book, lane, signal)
        SELECT sum(gross), batch, day, (row - 1) / {BLOCK}, count(*), book, lane, signal
        FROM pack JOIN book ON book.id = pack.book
        WHERE (row - 1) / {BLOCK} < book.upto / {BLOCK}
        GROUP BY book, batch, day, (row - 1) / {BLOCK}, lane, signal"""
    )
    rejected = sa.text("signal > 0")
    op.create_index(
        "pack_signal",
        "pack",
        ["book", "signal", "row"],
        sqlite_where=rejected,
        postgresql_where=rejected,
    )
    op.create_index("move_pile", "move", ["book", "pile", "pack"])
    op.drop_index("answer_high", "answer")
    op.drop_index("person_name", "person")
    op.create_index("person_acts", "person", ["book", "name", "row"])
    op.create_index("answer_clock", "answer", ["book", "clock", "high"])
