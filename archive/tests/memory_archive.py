"""An archive in memory, for tests of what follows a book."""

from collections.abc import Iterable

from hall_archive import nets
from hall_archive.clock import Answer
from hall_archive.following import Follower
from hall_archive.standing import Standing
from hall_archive.taking import Behind, Cursor, Page, Taken, Unkept
from hall_archive.rows import PAGE_ROWS, PRIORS, SIGNALS, Entry, Tare, Weigh, line_of, read_line


class Text:
    """A book as text, as a source of rows."""

    is_new = False

    def __init__(self, text: str) -> None:
        self.lines = text.splitlines(keepends=True)

    def ask(self, after: int) -> Page:
        return Page("".join(self.lines[after : after + PAGE_ROWS]), len(self.lines))

    def close(self) -> None:
        pass


class MemoryArchive:
    """Keeps what a follower hands in; `fails` makes so many of the next commits fail, `lost` so
    many of the next ones stand though their answer doesn't come."""

    def __init__(self) -> None:
        self.kept: list[Taken] = []
        self.refused: str | None = None
        self.fails = 0
        self.lost = 0

    def cursor(self) -> Cursor:
        if not self.kept:
            return Cursor(0, None, None, self.refused)
        last = self.kept[-1]
        return Cursor(last.upto, last.asked, last.clock, self.refused)

    def refuse(self, why: str) -> None:
        self.refused = why

    def keep(self, taken: Taken) -> None:
        if self.fails:
            self.fails -= 1
            raise Unkept("the database is gone")
        if taken.after != self.cursor().upto:
            raise Behind("another row")
        self.kept.append(taken)
        if self.lost:
            self.lost -= 1
            raise Unkept("the answer is lost")

    def entries(self) -> list[Entry]:
        """All rows, from what was kept."""
        found = [read_line(line) for taken in self.kept for *_, line in taken.acts]
        for taken in self.kept:
            for row, _, _, gross, by, lane, prior, signal in taken.packs:
                weighed = Weigh(lane, gross, PRIORS[prior])
                found.append(Entry(row, SIGNALS[signal], by, 0, 0, weighed))
        return sorted(found)

    def lines(self, after: int, upto: int) -> list[str]:
        return [line_of(entry) for entry in self.entries()[after:upto]]

    def text(self) -> str:
        return "".join(f"{line}\n" for line in self.lines(0, 1 << 30))

    # ---- how it stands, and the packs of before

    def standing(self, upto: int) -> Standing:
        """The book without its packs and its closed batches, as the tables would have it."""
        standing = Standing(self)
        for entry in self.entries():
            standing.take(entry)
        standing.absent = upto
        for name, batch in list(standing.batches.items()):
            batch.passed, batch.moved, batch.sampled = [], set(), set()
            if batch.state == "closed":
                standing.forget(name)
        return standing

    def let_out(self, batch: int, first: int, last: int) -> tuple[list[int], list[int]]:
        moved = {move.pack: move.pile for taken in self.kept for move in taken.moves}
        packs = [pack for taken in self.kept for pack in taken.packs]
        rows = [pack[0] for pack in packs if pack[1] == batch and pack[7] == 0]
        rows = [row for row in rows if first <= row <= last]
        sampled = [row for row in rows if moved.get(row) == "sampled"]
        return [row for row in rows if row not in moved], sampled

    def batch_at(self, pack: int) -> int | None:
        found = {one[0]: one[1] for taken in self.kept for one in taken.packs}
        return found.get(pack)

    def batch(self, name: str) -> nets.Batch:
        """A batch of small_book, by what was kept alone."""
        batches = {batch.name: batch for taken in self.kept for batch in taken.batches}
        acts = [read_line(line) for taken in self.kept for *_, line in taken.acts]
        goods = nets.Goods("rice250", 250_000, False)
        for entry in acts:
            if isinstance(entry.act, Tare):
                goods.put(entry.act.day, entry.act.tare)
        found = nets.Batch(batches[name].row, name, goods, 0)
        moves = [move for taken in self.kept for move in taken.moves]
        piles = {move.pack: move.pile for move in moves}
        for taken in self.kept:
            for row, batch, day, gross, _, lane, _, signal in taken.packs:
                if batch == found.row:
                    told = SIGNALS[signal]
                    pile = piles.get(row, nets.first_pile(told))
                    found.packs[row] = nets.Pack(row, found, day, gross, lane, told, pile)
        for entry in acts:
            found.take(entry, sorted(move.pack for move in moves if move.row == entry.row))
        return found

    def answers(self) -> list[Answer]:
        return [answer for taken in self.kept for answer in taken.answers]


def kept(text: str, parts: Iterable[int] = ()) -> MemoryArchive:
    """An archive that took a book in, begun anew behind each of some rows."""
    archive, lines = MemoryArchive(), text.splitlines(keepends=True)
    for part in (*parts, len(lines)):
        follower = Follower("day", Text("".join(lines[:part])), archive)
        while follower.step()[0]:
            pass
    return archive
