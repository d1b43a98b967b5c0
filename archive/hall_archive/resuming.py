"""How a book stands, read from the tables: where a follower that is begun anew goes on. A few
statements that an index answers, so that a million rows of before cost next to nothing."""

from typing import Any

from sqlalchemy import text

from hall_archive.keeping import BLOCK
from hall_archive.nets import PILES
from hall_archive.rows import Day, Draw, Start, read_line
from hall_archive.standing import Last, Running, Standing

ACTS = """
    SELECT row, kind, product, line FROM act WHERE book = :book
    AND kind IN ('day', 'product', 'start', 'stop', 'draw') ORDER BY row"""
OPEN = """
    SELECT row, name, product, state, first, last FROM batch
    WHERE book = :book AND state <> 'closed' ORDER BY row"""
LAST = """
    SELECT row, signal FROM pack WHERE book = :book AND lane = :lane AND row > :after
    AND row <= :upto ORDER BY row DESC LIMIT 1"""


class Resuming:
    """What the tables have of one book. `reaching` makes the database's faults Unkept."""

    def __init__(self, engine: Any, reaching: Any, book: int) -> None:
        self.engine, self.reaching, self.book = engine, reaching, book

    def ask(self, statement: str, **values: Any) -> list[Any]:
        with self.reaching(self.engine.connect) as link:
            return list(link.execute(text(statement), {"book": self.book, **values}).all())

    # ---- the packs of before

    def let_out(self, batch: int, first: int, last: int) -> tuple[list[int], list[int]]:
        """Of a batch's rows those in the pile of passed packs, ascending, and the sampled ones."""
        moved = dict(
            self.ask(
                "SELECT pack, pile FROM move WHERE book = :book AND pack BETWEEN :first AND :last",
                first=first,
                last=last,
            )
        )
        passes = self.ask(
            "SELECT row FROM pack WHERE book = :book AND row BETWEEN :first AND :last"
            " AND batch = :batch AND signal = 0 ORDER BY row",
            first=first,
            last=last,
            batch=batch,
        )
        sampled = PILES.index("sampled")
        rows = [row for (row,) in passes]
        return [row for row in rows if row not in moved], [
            row for row in rows if moved.get(row) == sampled
        ]

    def batch_at(self, pack: int) -> int | None:
        """The row of the opening of a pack's batch."""
        found = self.ask("SELECT batch FROM pack WHERE book = :book AND row = :row", row=pack)
        return int(found[0][0]) if found else None

    # ---- where it stands

    def standing(self, upto: int) -> Standing:
        """The book behind row `upto`, up to which the archive has it."""
        standing = Standing(self, upto)
        for row, name, product, state, first, last in self.ask(OPEN):
            batch = standing.batches[name] = Running(row, name, product)
            batch.state, batch.first, batch.last = state, first, last
        newest = self.newest_of_lanes(standing)
        for lane, (row, line) in newest.items():
            act = read_line(line).act
            if isinstance(act, Start):
                standing.lanes[lane] = batch = standing.batches[act.batch]
                self.add_last(standing, lane, batch, row)
        return standing

    def newest_of_lanes(self, standing: Standing) -> dict[int, tuple[int, str]]:
        """Notes the day, the products and the modes of draws; the last start or stop of each lane,
        with its row."""
        day, newest = "", {}
        for row, kind, product, line in self.ask(ACTS):
            if kind in ("start", "stop"):
                newest[lane_of(line)] = (row, line)
            elif kind == "product":
                standing.products.add(product)
            elif kind == "day":
                day = line
            else:
                note_draw(standing, line)
        act = read_line(day).act if day else None
        standing.day = act.day if isinstance(act, Day) else None
        return newest

    def add_last(self, standing: Standing, lane: int, batch: Running, start: int) -> None:
        """The last weighing of a lane since its start: of the rows behind the last whole block, or
        of the last block in which the lane weighed."""
        upto = standing.absent
        whole = upto // BLOCK * BLOCK
        found = self.ask(LAST, lane=lane, after=max(start, whole), upto=upto)
        if not found and start < whole:
            [(block,)] = self.ask(
                "SELECT max(block) FROM block WHERE book = :book AND lane = :lane", lane=lane
            )
            if block is not None:
                after, end = max(start, block * BLOCK), (block + 1) * BLOCK
                found = self.ask(LAST, lane=lane, after=after, upto=end)
        for row, signal in found:
            standing.last[lane] = Last(row, batch, signal == 0)


def lane_of(line: str) -> int:
    """The lane of a start or a stop."""
    words = line.rpartition("\t")[2].split(" ")
    return int(words[3] if words[0].startswith("@") else words[1])


def note_draw(standing: Standing, line: str) -> None:
    act = read_line(line).act
    if isinstance(act, Draw) and act.batch in standing.batches:
        standing.batches[act.batch].mode = act.mode
