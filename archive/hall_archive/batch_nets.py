"""How many packs of batches count, and the sum of their nets in mg, of the sums that are kept."""

from collections.abc import Iterable

from hall_archive.questions import Books

NETS = """
    WITH wanted(book, batch) AS (VALUES {wanted})
    SELECT q.book, q.batch, sum(CASE WHEN q.pile IN (0, 2) THEN q.count ELSE 0 END),
    sum(CASE WHEN q.pile IN (0, 2) THEN q.net ELSE 0 END)
    FROM wanted JOIN quarter q ON q.book = wanted.book AND q.batch = wanted.batch
    GROUP BY q.book, q.batch"""


def batch_nets(
    books: Books, batches: Iterable[tuple[int, int]]
) -> dict[tuple[int, int], tuple[int, int]]:
    """By book and batch."""
    wanted = ", ".join(f"({int(book)}, {int(batch)})" for book, batch in sorted(set(batches)))
    if not wanted:
        return {}
    found = books.ask(NETS.format(wanted=wanted))
    return {(book, batch): (int(count), int(net)) for book, batch, count, net in found}
