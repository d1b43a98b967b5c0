"""Search over all books: batches by the beginning of their names, product, verdict, days and
persons who acted on them; and packs by their number. Each answer has at most MOST records."""

from typing import Any

from hall_archive.batch_nets import batch_nets
from hall_archive.periods import Period
from hall_archive.questions import Books
from hall_archive.rows import MAX_ROWS, SIGNALS, day_text

MOST = 200
FOUND = """
    SELECT k.hall, k.name AS book, k.id, o.batch, o.name, o.product, o.nominal, o.density, o.day,
    b.state, b.verdict
    FROM opening o JOIN book k ON k.id = o.book
    JOIN batch b ON b.book = o.book AND b.row = o.batch
    WHERE {terms} ORDER BY o.day DESC, k.hall, k.name DESC, o.batch DESC LIMIT {most}"""
# of one book at a time, so that the newest are found without all that a person ever did
ACTED = """k.id = :id AND o.batch IN (SELECT a.batch FROM person p
    JOIN act a ON a.book = p.book AND a.row = p.row WHERE p.book = :id AND p.name = :person)"""
# the books in which a person acted: a look at an index for each, in one statement
NEWEST = """
    SELECT s.book FROM summed s JOIN book k ON k.id = s.book WHERE {terms} AND (
        SELECT p.row FROM person p WHERE p.book = s.book AND p.name = :person LIMIT 1) > 0
    ORDER BY s.last_day DESC, k.hall, k.name DESC"""


class Finding(Books):
    """Searches the books of some halls."""

    def batches(
        self, halls: tuple[str, ...], text: str, given: dict[str, str], period: Period | None
    ) -> list[dict[str, Any]]:
        """Batches whose names begin so, the newest first; `given` has product, verdict, person and
        book."""
        terms, values = self.terms(halls, text, given, period)
        statement = FOUND.format(terms=" AND ".join(terms), most=MOST)
        if given.get("person"):
            found = self.acted(statement, terms[0], values)
        else:
            found = self.ask(statement, **values)
        nets = batch_nets(self, ((row.id, row.batch) for row in found))
        return [shown(row._mapping, nets.get((row.id, row.batch), (0, 0))) for row in found]

    def acted(self, statement: str, of_halls: str, values: dict[str, Any]) -> list[Any]:
        """Book by book, the newest first, until there are enough."""
        halls = {
            key: value for key, value in values.items() if key.startswith("hall") or key == "person"
        }
        found: list[Any] = []
        for (book,) in self.ask(NEWEST.format(terms=of_halls), **halls):
            if len(found) < MOST:
                found += self.ask(statement, id=book, **values)
        return found[:MOST]

    def terms(
        self, halls: tuple[str, ...], text: str, given: dict[str, str], period: Period | None
    ) -> tuple[list[str], dict[str, Any]]:
        values: dict[str, Any] = {f"hall{at}": hall for at, hall in enumerate(halls)}
        terms = [f"k.hall IN ({', '.join(f':{key}' for key in values) or 'NULL'})"]
        if text:
            terms.append("substr(o.name, 1, :long) = :text")
            values |= {"text": text, "long": len(text)}
        for word, term in (
            ("product", "o.product = :product"),
            ("book", "k.name = :book"),
            ("verdict", "substr(b.verdict, 1, :wide) = :verdict"),
            ("person", ACTED),
        ):
            if given.get(word):
                terms.append(term)
                values[word] = given[word]
        if given.get("verdict"):
            values["wide"] = len(given["verdict"])
        if period:
            # a batch is of the day on which it was opened
            terms.append("o.day >= :first AND o.day <= :last")
            values |= period._asdict()
        return terms, values

    def packs(self, halls: tuple[str, ...], number: int) -> list[dict[str, Any]]:
        """The packs of a number, one of each book that has one."""
        if not 0 < number <= MAX_ROWS:
            return []
        values = {f"hall{at}": hall for at, hall in enumerate(halls)}
        found = self.ask(
            f"""SELECT k.hall, k.name AS book, p.day, p.lane, p.gross, p.signal, b.name AS batch,
            b.product FROM book k JOIN pack p ON p.book = k.id AND p.row = :number
            JOIN batch b ON b.book = p.book AND b.row = p.batch
            WHERE k.hall IN ({', '.join(f':{key}' for key in values) or 'NULL'})
            ORDER BY p.day DESC, k.hall, k.name DESC LIMIT {MOST}""",
            number=number,
            **values,
        )
        return [
            dict(row._mapping) | {"day": day_text(row.day), "signal": SIGNALS[row.signal]}
            for row in found
        ]


def shown(row: Any, sums: tuple[int, int]) -> dict[str, Any]:
    count, net = sums
    nominal = row["nominal"] * (row["density"] or 1_000_000) // 1_000_000
    return {
        "hall": row["hall"],
        "book": row["book"],
        "batch": row["name"],
        "product": row["product"],
        "day": day_text(row["day"]),
        "state": row["state"],
        "verdict": row["verdict"],
        "packs": count,
        "over": round(net / count - nominal, 3) if count else None,
    }
