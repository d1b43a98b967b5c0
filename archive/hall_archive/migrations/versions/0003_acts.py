"""Indexes of acts by kind, batch and product: of what is rare a question read all acts of each
book."""

import sqlalchemy as sa
from alembic import op

revision = "0003"
down_revision = "0002"


def upgrade() -> None:
    op.create_index("act_kind", "act", ["book", "kind", "row"])
    for column in ("batch", "product"):
        there = sa.text(f"{column} IS NOT NULL")
        columns = ["book", column, "row"]
        op.create_index(f"act_{column}", "act", columns, sqlite_where=there, postgresql_where=there)
