"""Indexes of acts by kind, batch and product, over PostgreSQL: the step before made its tables anew
without them, so that a question of acts read all those of each book."""

from alembic import op

revision = "0012"
down_revision = "0011"


def upgrade() -> None:
    if op.get_bind().dialect.name != "postgresql":
        return
    op.execute("CREATE INDEX IF NOT EXISTS act_kind ON act (book, kind, row)")
    for column in ("batch", "product"):
        op.execute(
            f"CREATE INDEX IF NOT EXISTS act_{column} ON act (book, {column}, row)"
            f" WHERE {column} IS NOT NULL"
        )
