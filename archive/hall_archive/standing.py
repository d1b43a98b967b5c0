"""How a book stands, as far as a follower needs it: what runs on each lane, which pack a gate has
yet to settle, and of each open batch which packs passed. What the book was told stands in its rows
and isn't judged again.

A follower that is begun anew reads this from the tables (`Kept`), without the packs: those of rows
up to `absent` are asked for when an act speaks of them or draws from them."""

import bisect
from collections.abc import Iterable
from typing import NamedTuple, Protocol

from hall_archive import rules
from hall_archive.rows import (
    Close,
    Day,
    Draw,
    End,
    Entry,
    Measure,
    Open,
    Product,
    Second,
    Start,
    Stop,
    Tare,
    Void,
    Weigh,
)


class WrongBook(ValueError):
    """Rows that can't follow those before them, so that they are of no book, or of another."""


class Move(NamedTuple):
    """A pack that came into another pile than its signal says, by this row."""

    pack: int
    pile: str
    row: int


class Running:
    """A batch, from its opening to its closing: its first and last weighing, 0 without one, and the
    row of its closing. `passed` are the packs behind `absent` that were let out, ascending; `moved`
    those that left their first pile since, with those in `sampled`."""

    def __init__(self, row: int, name: str, product: str) -> None:
        self.row, self.name, self.product = row, name, product
        self.state, self.mode, self.verdict = "running", "", ""
        self.first, self.last = 0, 0
        self.closed: int | None = None
        self.passed: list[int] = []
        self.moved: set[int] = set()
        self.sampled: set[int] = set()

    def has_passed(self, pack: int) -> bool:
        place = bisect.bisect_left(self.passed, pack)
        return place < len(self.passed) and self.passed[place] == pack


class Last(NamedTuple):
    """The last weighing of a lane."""

    row: int
    batch: Running
    is_pass: bool


class Kept(Protocol):
    """The packs of before, as the archive has them."""

    def let_out(self, batch: int, first: int, last: int) -> tuple[list[int], list[int]]:
        """Of a batch's rows those in the pile of passed packs, ascending, and the sampled ones."""

    def batch_at(self, pack: int) -> int | None:
        """The row of the opening of a pack's batch."""


Told = tuple[list[Move], Running | None]
NO_MOVES: list[Move] = []


class Standing:
    """A book, taken in row by row."""

    def __init__(self, kept: Kept, absent: int = 0) -> None:
        self.kept = kept
        self.absent = absent
        self.day: int | None = None
        self.products: set[str] = set()
        self.batches: dict[str, Running] = {}
        self.lanes: dict[int, Running] = {}
        self.last: dict[int, Last] = {}

    def take(self, entry: Entry) -> Told:
        """Takes a row in: the packs that it moves, and the batch that it speaks of. WrongBook where
        no such row can come."""
        act = entry.act
        try:
            if isinstance(act, Weigh):
                return self.weigh(entry.row, act, entry.told)
            return self.act(entry)
        except KeyError as fault:
            raise WrongBook(f"row {entry.row} speaks of {fault}, which isn't there") from fault

    def forget(self, name: str) -> None:
        """Lets go of a batch, which is closed."""
        del self.batches[name]

    # ---- lanes

    def weigh(self, row: int, act: Weigh, told: str) -> Told:
        if self.day is None:
            raise WrongBook(f"row {row} weighs without a day")
        moves = self.settle(act.lane, act.prior, row)
        batch = self.lanes[act.lane]
        is_pass = told == "pass"
        if is_pass:
            batch.passed.append(row)
        batch.first, batch.last = batch.first or row, row
        self.last[act.lane] = Last(row, batch, is_pass)
        return moves, batch

    def settle(self, lane: int, prior: str, row: int) -> list[Move]:
        """What the gate did at the pack before on this lane."""
        last = self.last.pop(lane, None)
        if prior in ("none", "opened"):
            return NO_MOVES
        if last is None or not last.is_pass:
            raise WrongBook(f"row {row} says {prior} of no pack")
        last.batch.moved.add(last.row)
        return [Move(last.row, "rejected" if prior == "stayed" else "voided", row)]

    # ---- acts

    def act(self, entry: Entry) -> Told:
        row, act = entry.row, entry.act
        match act:
            case Stop(lane, prior):
                return self.settle(lane, prior, row), self.lanes.pop(lane)
            case Start(lane, name):
                self.lanes[lane] = self.batches[name]
                self.last.pop(lane, None)
                return NO_MOVES, self.lanes[lane]
            case Void(pack):
                batch = self.batch_at(pack, row)
                batch.moved.add(pack)
                return [Move(pack, "voided", row)], batch
            case Measure(pack):
                return NO_MOVES, self.batch_at(pack, row)
            case Open(name, product):
                need_product(self.products, product)
                batch = self.batches[name] = Running(row, name, product)
                return NO_MOVES, batch
            case End(name) | Draw(name) | Second(name) | Close(name):
                return self.of_batch(self.batches[name], entry)
        self.note(entry)
        return NO_MOVES, None

    def note(self, entry: Entry) -> None:
        """Takes in an act that speaks of no batch."""
        match entry.act:
            case Day(day):
                self.day = day
            case Product(name):
                self.products.add(name)
            case Tare(product):
                need_product(self.products, product)

    def of_batch(self, batch: Running, entry: Entry) -> Told:
        """What ends, samples or closes a batch."""
        moves = NO_MOVES
        match entry.act:
            case End():
                batch.state = "ended"
            case Draw(_, mode, word):
                moves = self.draw(batch, mode, word, entry.row)
            case Second(_, word):
                moves = self.draw_more(batch, word, entry.row)
            case Close():
                batch.state, batch.verdict, batch.closed = "closed", entry.told, entry.row
        return moves, batch

    def batch_at(self, pack: int, row: int) -> Running:
        """The open batch of a pack that was let out."""
        opened = None if pack > self.absent else self.kept.batch_at(pack)
        for batch in self.batches.values():
            if batch.row == opened or batch.has_passed(pack):
                return batch
        raise WrongBook(f"row {row} speaks of pack {pack}, which isn't there")

    # ---- draws

    def draw(self, batch: Running, mode: str, word: int, row: int) -> list[Move]:
        packs, _ = self.let_out(batch)
        size, _ = rules.sample_sizes(len(packs), mode)
        batch.state, batch.mode = "drawn", mode
        return sampled(batch, rules.draw(packs, size, word), row)

    def draw_more(self, batch: Running, word: int, row: int) -> list[Move]:
        packs, drawn = self.let_out(batch)
        _, size = rules.sample_sizes(len(packs) + len(drawn), batch.mode)
        return sampled(batch, rules.draw(packs, size, word), row)

    def let_out(self, batch: Running) -> tuple[list[int], set[int]]:
        """The packs of a batch that passed, ascending, and those that were sampled."""
        before: list[int] = []
        drawn: set[int] = set()
        if 0 < batch.first <= self.absent:
            last = min(batch.last, self.absent)
            before, sample = self.kept.let_out(batch.row, batch.first, last)
            drawn.update(sample)
        moved = batch.moved
        return [pack for pack in (*before, *batch.passed) if pack not in moved], (
            drawn | batch.sampled
        )


def sampled(batch: Running, picks: Iterable[int], row: int) -> list[Move]:
    batch.sampled.update(picks)
    batch.moved.update(picks)
    return [Move(pack, "sampled", row) for pack in picks]


def need_product(products: set[str], name: str) -> None:
    if name not in products:
        raise KeyError(name)
