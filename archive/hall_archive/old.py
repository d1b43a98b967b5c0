"""What a hall's office answered of a book that may be at rest long since: sheets, packs,
samples, acts, its summary and papers, as docs/FORMATS.md has them. So the pages of a batch show
it as it was."""

from collections import Counter
from typing import Any

from hall_archive import nets
from hall_archive.nets import PILES, Batch, Pack
from hall_archive.papers import Drawn, in_order, paper
from hall_archive.questions import Books
from hall_archive.rows import PAGE_ROWS, SIGNALS, Draw, Second, grams, read_line
from hall_archive.spans import BadQuestion

STATES = ("running", "ended", "drawn", "closed")


class Old(Books):
    """The office of books."""

    def whole(self, book: int, name: str) -> Batch:
        """A batch with its samples in drawing order."""
        batch = self.batch(book, name)
        if batch is None:
            raise BadQuestion(f"there is no batch {name!r}")
        moved = {
            pack: row
            for pack, row in self.ask(
                "SELECT pack, row FROM move WHERE book = :book AND pack BETWEEN :first AND :last",
                book=book,
                first=min(batch.packs, default=0),
                last=max(batch.packs, default=0),
            )
        }
        draws = []
        for row, line in self.of_batch(book, batch.row, ("draw", "second")):
            act = read_line(line).act
            assert isinstance(act, Draw | Second)
            draws.append(Drawn(row, act.word))
        batch.samples = in_order(batch, moved, draws)
        return batch

    def of_batch(self, book: int, batch: int, kinds: tuple[str, ...]) -> list[Any]:
        words = ", ".join(f"'{kind}'" for kind in kinds)
        return self.ask(
            f"""SELECT row, line FROM act {self.indexed("act_batch")}
            WHERE book = :book AND batch = :batch AND kind IN ({words}) ORDER BY row""",
            book=book,
            batch=batch,
        )

    def sheet(self, book: int, name: str) -> str:
        return nets.sheet(self.whole(book, name))

    def paper(self, book: int, name: str) -> str:
        """The paper of a closed batch."""
        batch = self.whole(book, name)
        closed = self.of_batch(book, batch.row, ("close",))
        if not closed:
            raise BadQuestion(f"batch {name!r} isn't closed")
        return paper(batch, int(closed[0][0]))

    def sample(self, book: int, name: str) -> str:
        batch = self.whole(book, name)
        if not batch.samples:
            raise BadQuestion(f"nothing was drawn of {name!r}")
        parts = [f"sample {name} first", *map(str, batch.samples[0])]
        if len(batch.samples) > 1:
            parts += ["second", *map(str, batch.samples[1])]
        return " ".join(parts) + "\n"

    def packs(self, book: int, name: str, above: int) -> str:
        """The packs of a batch above a number, a page of them."""
        found = self.ask(
            "SELECT row, last FROM batch WHERE book = :book AND name = :name", book=book, name=name
        )
        if not found:
            raise BadQuestion(f"there is no batch {name!r}")
        row, last = found[0]
        batch = self.batches_of(book, self.goods(book))[row]
        packs = self.ask(
            f"""SELECT p.row, p.day, p.gross, p.lane, p.signal, m.pile
            FROM pack p LEFT JOIN move m ON m.book = p.book AND m.pack = p.row
            WHERE p.book = :book AND p.row > :above AND p.row <= :last AND p.batch = :batch
            ORDER BY p.row LIMIT {PAGE_ROWS}""",
            book=book,
            above=max(above, row),
            last=last,
            batch=row,
        )
        return "".join(pack_line(pack_of(batch, one)) for one in packs)

    def rows(self, book: int) -> int:
        return int(self.ask("SELECT upto FROM book WHERE id = :book", book=book)[0][0])

    def summary(self, book: int) -> str:
        """The balance of a book, of its sums."""
        counts: Counter[str] = Counter()
        grosses: Counter[str] = Counter()
        for pile, count, gross in self.ask(
            "SELECT pile, sum(count), sum(gross) FROM quarter WHERE book = :book GROUP BY pile",
            book=book,
        ):
            counts[PILES[pile]], grosses[PILES[pile]] = int(count), int(gross)
        states = dict(
            self.ask(
                "SELECT state, count(*) FROM batch WHERE book = :book GROUP BY state", book=book
            )
        )
        lines = [f"rows {self.rows(book)}"]
        lines.append(f"readings {counts.total()} gross {grams(grosses.total())}")
        lines += [f"{pile} {counts[pile]} gross {grams(grosses[pile])}" for pile in PILES]
        lines.append("batches " + " ".join(f"{one} {states.get(one, 0)}" for one in STATES))
        return "".join(f"{line}\n" for line in lines)


def pack_of(batch: Batch, found: Any) -> Pack:
    row, day, gross, lane, signal, pile = found
    told = SIGNALS[signal]
    where = nets.first_pile(told) if pile is None else PILES[pile]
    return Pack(row, batch, day, gross, lane, told, where)


def pack_line(pack: Pack) -> str:
    batch, net = pack.batch, pack.net
    return (
        f"pack {pack.row} batch {batch.name} lane {pack.lane} gross {grams(pack.gross)}"
        f" net {grams(net)} {batch.limits.class_of(net)} {pack.signal} {pack.pile}\n"
    )
