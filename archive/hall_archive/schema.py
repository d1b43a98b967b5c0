"""The tables of the archive, for SQLite and PostgreSQL. Masses in mg, times in ms of UTC since
1970-01-01, days since then; `book` is the number of a row of `book`. Codes are the places in
`rows.PRIORS`, `rows.SIGNALS` and `nets.PILES`. Rows of `pack`, `block`, `act`, `move`, `answer`,
`person`, `refused_line` and `evidence` are only ever inserted."""

from sqlalchemy import (
    BigInteger,
    Column,
    Index,
    Integer,
    MetaData,
    PrimaryKeyConstraint,
    SmallInteger,
    Table,
    Text,
    UniqueConstraint,
)

metadata = MetaData()

book = Table(
    "book",
    metadata,
    Column("id", Integer, primary_key=True),
    Column("hall", Text, nullable=False),
    Column("name", Text, nullable=False),
    # how many rows were taken, and when the last request was sent whose answer wasn't full
    Column("upto", Integer, nullable=False),
    Column("asked", BigInteger),
    Column("clock", Integer),
    # why it isn't followed any more, where it is another book
    Column("refused", Text),
    UniqueConstraint("hall", "name", name="book_name"),
)

clock = Table(
    "clock",
    metadata,
    Column("id", Integer, primary_key=True),
    Column("boot", Text, nullable=False),
    Column("offset", BigInteger, nullable=False),
    UniqueConstraint("boot", "offset", name="clock_stretch"),
)

# wide columns stand first, so that PostgreSQL pads none
pack = Table(
    "pack",
    metadata,
    Column("row", Integer, nullable=False),
    Column("batch", Integer, nullable=False),
    Column("day", Integer, nullable=False),
    Column("gross", Integer, nullable=False),
    Column("by", Integer, nullable=False),
    Column("book", SmallInteger, nullable=False),
    Column("lane", SmallInteger, nullable=False),
    Column("prior", SmallInteger, nullable=False),
    Column("signal", SmallInteger, nullable=False),
    PrimaryKeyConstraint("book", "row", name="pack_key"),
    sqlite_with_rowid=False,
)
for name, columns in (
    ("pack_rejected", (pack.c.book, pack.c.row)),
    ("pack_signal", (pack.c.book, pack.c.signal, pack.c.row)),
):
    rejects = pack.c.signal > 0
    Index(name, *columns, sqlite_where=rejects, postgresql_where=rejects)

# the sums of `keeping.BLOCK` rows each, of those that are whole
block = Table(
    "block",
    metadata,
    Column("gross", BigInteger, nullable=False),
    Column("batch", Integer, nullable=False),
    Column("day", Integer, nullable=False),
    Column("block", Integer, nullable=False),
    Column("count", Integer, nullable=False),
    Column("book", SmallInteger, nullable=False),
    Column("lane", SmallInteger, nullable=False),
    Column("signal", SmallInteger, nullable=False),
    PrimaryKeyConstraint("book", "block", "batch", "day", "lane", "signal", name="block_key"),
    sqlite_with_rowid=False,
)

move = Table(
    "move",
    metadata,
    Column("pack", Integer, nullable=False),
    Column("row", Integer, nullable=False),
    Column("book", SmallInteger, nullable=False),
    Column("pile", SmallInteger, nullable=False),
    PrimaryKeyConstraint("book", "pack", name="move_key"),
    sqlite_with_rowid=False,
)

Index("move_pile", move.c.book, move.c.pile, move.c.pack)

act = Table(
    "act",
    metadata,
    Column("row", Integer, nullable=False),
    Column("book", SmallInteger, nullable=False),
    # the row that opened the batch that it speaks of, and the product, where it speaks of one
    Column("batch", Integer),
    Column("product", Text),
    Column("kind", Text, nullable=False),
    Column("line", Text, nullable=False),
    PrimaryKeyConstraint("book", "row", name="act_key"),
    sqlite_with_rowid=False,
)

Index("act_kind", act.c.book, act.c.kind, act.c.row)
for column in (act.c.batch, act.c.product):
    there = column.isnot(None)
    columns = (act.c.book, column, act.c.row)
    Index(f"act_{column.name}", *columns, sqlite_where=there, postgresql_where=there)

batch = Table(
    "batch",
    metadata,
    Column("row", Integer, nullable=False),
    Column("book", SmallInteger, nullable=False),
    Column("name", Text, nullable=False),
    Column("product", Text, nullable=False),
    Column("state", Text, nullable=False),
    Column("verdict", Text, nullable=False),
    # its first and last weighing, 0 without one, and the row of its closing
    Column("first", Integer, nullable=False),
    Column("last", Integer, nullable=False),
    Column("closed", Integer),
    PrimaryKeyConstraint("book", "row", name="batch_key"),
    UniqueConstraint("book", "name", name="batch_name_in_book"),
)
Index("batch_name", batch.c.name)

answer = Table(
    "answer",
    metadata,
    Column("low", BigInteger),
    Column("high", BigInteger, nullable=False),
    Column("upto", Integer, nullable=False),
    Column("clock", Integer, nullable=False),
    Column("book", SmallInteger, nullable=False),
    Column("kind", SmallInteger, nullable=False),
    PrimaryKeyConstraint("book", "upto", name="answer_key"),
    sqlite_with_rowid=False,
)
Index("answer_clock", answer.c.book, answer.c.clock, answer.c.high)

# who an act is of: the first line of the front with its row
person = Table(
    "person",
    metadata,
    Column("row", Integer, nullable=False),
    Column("book", SmallInteger, nullable=False),
    Column("name", Text, nullable=False),
    Column("reason", Text),
    # from when the front had the request to when it had answered
    Column("low", BigInteger, nullable=False),
    Column("high", BigInteger, nullable=False),
    PrimaryKeyConstraint("book", "row", name="person_key"),
)
Index("person_acts", person.c.book, person.c.name, person.c.row)

# lines of the front that name a row which is another act, or none
refused_line = Table(
    "refused_line",
    metadata,
    Column("id", Integer, primary_key=True),
    Column("book", SmallInteger, nullable=False),
    Column("line", Text, nullable=False),
    Column("why", Text, nullable=False),
)

# how far a log of the front was read: its file, by inode, and the place in it
front_log = Table(
    "front_log",
    metadata,
    Column("path", Text, primary_key=True),
    Column("file", BigInteger, nullable=False),
    Column("place", BigInteger, nullable=False),
)

evidence = Table(
    "evidence",
    metadata,
    Column("id", Integer, primary_key=True),
    Column("hall", Text, nullable=False),
    Column("kind", Text, nullable=False),
    Column("subject", Text, nullable=False),
    Column("moment", BigInteger, nullable=False),
    Column("person", Text, nullable=False),
    # what was entered and what it comes to, as JSON
    Column("body", Text, nullable=False),
    Column("before", Text, nullable=False),
    Column("digest", Text, nullable=False),
)
Index("evidence_newest", evidence.c.hall, evidence.c.kind, evidence.c.subject)

alarm = Table(
    "alarm",
    metadata,
    Column("id", Integer, primary_key=True),
    Column("book", SmallInteger, nullable=False),
    Column("moment", BigInteger, nullable=False),
    Column("what", Text, nullable=False),
)
