"""The table of evidence: records that are only ever added, each chained to the one before of its
hall."""

from typing import Any

from sqlalchemy import select

from hall_archive import evidence, schema
from hall_archive.evidence import Record
from hall_archive.store import reaching

FIELDS = [schema.evidence.c[name] for name in Record._fields]


class Records:
    """The evidence of all halls."""

    def __init__(self, engine: Any) -> None:
        self.engine = engine

    def add(
        self, hall: str, kind: str, subject: str, moment: int, person: str, body: str
    ) -> Record:
        """Adds a record behind the last one of its hall."""
        table = schema.evidence
        with reaching(self.engine.begin) as link:
            if self.engine.dialect.name == "postgresql":
                link.exec_driver_sql("LOCK TABLE evidence IN EXCLUSIVE MODE")
            before = link.execute(
                select(table.c.digest)
                .where(table.c.hall == hall)
                .order_by(table.c.id.desc())
                .limit(1)
            ).scalar()
            record = evidence.chained(
                hall, kind, subject, moment, person, body, before or evidence.FIRST
            )
            link.execute(table.insert().values(record._asdict()))
        return record

    def all(
        self,
        hall: str,
        given: dict[str, str] | None = None,
        low: int | None = None,
        high: int | None = None,
    ) -> list[Record]:
        """Records of a hall, the oldest first; `given` are values of columns, where they aren't
        empty. From `low` on and before `high`, in ms of UTC."""
        table = schema.evidence.c
        wanted = select(*FIELDS).where(table.hall == hall).order_by(table.id)
        for column, value in (given or {}).items():
            if value:
                wanted = wanted.where(table[column] == value)
        if low is not None:
            wanted = wanted.where(table.moment >= low)
        if high is not None:
            wanted = wanted.where(table.moment < high)
        with reaching(self.engine.connect) as link:
            return [Record(*row) for row in link.execute(wanted)]

    def newest(self, hall: str) -> list[Record]:
        """The newest record of each kind and subject."""
        found = {(one.kind, one.subject): one for one in self.all(hall)}
        return list(found.values())
