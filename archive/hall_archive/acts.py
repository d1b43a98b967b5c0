"""Acts with their persons, reasons and hours, over the books of a hall. The hour of an act of a
desk is the front's; of each other that of its row."""

from typing import Any

from hall_archive.questions import PAGE
from hall_archive.spans import EVER, FIRST, Behind, Span, Spans, Time

# How far, in ms, the hour of the front may lie beside that of the row.
MARGIN = 60_000
# The words of a question, and what has to hold of them. That of most rows comes last: the first one
# that is given has an index that finds its acts.
TERMS = {
    "batch": "a.batch = (SELECT row FROM batch WHERE book = :book AND name = :batch)",
    "product": "a.product = :product",
    "kind": "a.kind = :kind",
    "person": "p.name = :person",
}
INDEXES = ("batch", "product", "kind")
# A page of acts first: the hours of their rows are looked up for them alone, each by the key of
# the answers (a join would let PostgreSQL read all answers of a book).
HOUR = """(SELECT {column} FROM answer WHERE book = :book AND upto >= f.row
        ORDER BY upto LIMIT 1)"""
ACTS = f"""
    SELECT f.row, f.kind, f.batch, f.product, f.line, f.person, f.reason,
    coalesce(f.low, {HOUR.format(column="low")}) AS low,
    coalesce(f.high, {HOUR.format(column="high")}) AS high
    FROM (
        SELECT a.row, a.kind, b.name AS batch, a.product, a.line, p.name AS person, p.reason,
        p.low, p.high FROM {{acts}}
        LEFT JOIN batch b ON b.book = a.book AND b.row = a.batch
        WHERE {{terms}} ORDER BY a.row LIMIT :page
    ) AS f
    ORDER BY f.row"""
# Where acts come from: all of them, or those of a person.
ALL = "act a {hint} LEFT JOIN person p ON p.book = a.book AND p.row = a.row"
OF_ONE = "person p {first} JOIN act a ON a.book = p.book AND a.row = p.row"


class Acts(Spans):
    """Questions for acts."""

    def acts(
        self,
        hall: str,
        book: str = "",
        given: dict[str, str] | None = None,
        time: Time = EVER,
        behind: Behind = FIRST,
    ) -> list[dict[str, Any]]:
        """At most PAGE acts, in order of books and rows; `given` are words of TERMS."""
        found: list[dict[str, Any]] = []
        for span in self.spans(hall, book, widened(time), behind):
            while len(found) < PAGE and span.after < span.upto:
                page = self.page(span, given or {})
                found += [one for one in page if is_within(one, time)]
                span = span._replace(after=page[-1]["row"] if len(page) == PAGE else span.upto)
        return found[:PAGE]

    def all_acts(self, hall: str, book: str, given: dict[str, str]) -> list[dict[str, Any]]:
        """All acts of a book, page by page."""
        found = page = self.acts(hall, book, given)
        while len(page) == PAGE:
            page = self.acts(hall, book, given, behind=Behind("", page[-1]["row"]))
            found = found + page
        return found

    def page(self, span: Span, given: dict[str, str]) -> list[dict[str, Any]]:
        terms = ["a.book = :book", "a.row > :after", "a.row <= :upto"]
        values: dict[str, Any] = {"book": span.book, "after": span.after, "upto": span.upto}
        for word, value in given.items():
            if value:
                terms.append(TERMS[word])
                values[word] = value
        acts = ALL.format(hint=self.hint(values))
        if "person" in values:
            # SQLite, which counts no rows, would begin with the acts of a book
            first = "INDEXED BY person_acts CROSS" if self.is_sqlite else ""
            acts = OF_ONE.format(first=first)
            terms += ["p.book = :book", "p.row > :after", "p.row <= :upto"]
        statement = ACTS.format(acts=acts, terms=" AND ".join(terms))
        found = self.ask(statement, **values, page=PAGE)
        return [{"book": span.name} | dict(row._mapping) for row in found]

    def hint(self, values: dict[str, Any]) -> str:
        """The index of acts that SQLite takes: by itself it would read all of a book."""
        words = [word for word in INDEXES if word in values]
        return self.indexed(f"act_{words[0]}") if words else ""


def widened(time: Time) -> Time:
    low = None if time.low is None else time.low - MARGIN
    return Time(low, None if time.high is None else time.high + MARGIN)


def is_within(act: dict[str, Any], time: Time) -> bool:
    return (time.low is None or (act["high"] or 0) >= time.low) and (
        time.high is None or (act["low"] or 0) < time.high
    )
