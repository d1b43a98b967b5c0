"""For bench/archive.py: the plans of the statements that questions ask, as the database explains
them: which of them read all rows of a table, or of a book."""

import re
from typing import Any

from sqlalchemy import event

# Tables that grow with the rows of a book, with the letters that statements call them by.
TABLES = {"pack": "p", "block": "p", "move": "m", "act": "a", "answer": "h", "person": "p"}
NAMES = "|".join({*TABLES, *TABLES.values()})
# All rows: of a table or a book of SQLite by its letter, of a partition of PostgreSQL by its name.
WHOLE = {
    "sqlite": re.compile(rf"^(SCAN ({NAMES})\b.*|SEARCH ({NAMES})\b.*\(book=\?\))$"),
    "postgresql": re.compile(rf"Seq Scan on ({'|'.join(TABLES)})\w*\b.*"),
}
HIGHEST = re.compile(r"SELECT max\(\w+\) FROM \w+ WHERE book = \S+$")
EXPLAIN = {"sqlite": "EXPLAIN QUERY PLAN", "postgresql": "EXPLAIN"}


class Plans:
    """The statements that an engine was asked, each once with the values that it had first."""

    def __init__(self, engine: Any) -> None:
        self.engine, self.kind = engine, engine.dialect.name
        self.asked: dict[str, Any] = {}
        event.listen(engine, "before_cursor_execute", self.note)

    def note(self, _: Any, __: Any, statement: str, values: Any, *___: Any) -> None:
        # (the highest of a key is found at its end)
        if "SELECT" in statement and not HIGHEST.match(statement):
            self.asked.setdefault(re.sub(r"\d+", "0", statement), (statement, values))

    def whole(self) -> list[str]:
        """What of the plans reads all rows, with the statement."""
        event.remove(self.engine, "before_cursor_execute", self.note)
        found = []
        with self.engine.connect() as link:
            for statement, values in self.asked.values():
                for row in link.exec_driver_sql(f"{EXPLAIN[self.kind]} {statement}", values):
                    if read := WHOLE[self.kind].search(str(row[-1])):
                        found.append(f"{read[0]} in {' '.join(statement.split())[:400]}")
        return found
