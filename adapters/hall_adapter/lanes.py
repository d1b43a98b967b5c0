"""Packs on their way from a weighing device to the gate of a lane, beside a hall that is reached
over its port (`--remote`). No part of it reads or writes: each call says what is to be done.

One weight is sent at a time, and the next one once it is acknowledged. The hall writes `open ROW`
into the lane's gate before it acknowledges, so an opening belongs to the weight that is out, and an
acknowledgement without one says that the pack was rejected. So no gate opens for another pack.

A hall numbers weights from 1. On a new connection the hall may be a new one, so the weight that is
out has the number 1 there: a new hall takes it, and one that goes on says how many it has taken.
Where that is one, the number 2 is said before the number 1: a hall that goes on takes it, and a new
one passes it over. Where this began anew beside a hall that goes on, it hears how many weights that
has taken.

A weight that waits for longer than the pack takes to the gate isn't sent: the gate stayed shut, the
pack was turned aside, and that is reported. An opening that comes too late isn't carried out. Where
the hall is gone, the weight that is out is sent to the next one: the book has voided its row, or
never had it.
"""

from collections import deque
from dataclasses import dataclass

from hall_adapter.readings import Note, Reading, spell


@dataclass
class Pack:
    """A pack that was weighed: its number on this line, and when its weight came, in seconds."""

    number: int
    reading: Reading
    at: float
    row: int | None = None
    let_out: bool = False


@dataclass(frozen=True)
class Send:
    """Send a line to the hall."""

    line: bytes


@dataclass(frozen=True)
class Open:
    """Open the gate for a pack."""

    pack: Pack


@dataclass(frozen=True)
class Settle:
    """The book has judged a pack. `passed` is what the book says; the gate opened if it is so and
    `pack.let_out`."""

    pack: Pack
    passed: bool


@dataclass(frozen=True)
class Drop:
    """A pack that isn't sent any more: the gate stayed shut, and the book hasn't it."""

    pack: Pack


@dataclass(frozen=True)
class Void:
    """The book says that this row passed, and its pack was turned aside."""

    row: int


Action = Send | Open | Settle | Drop | Void | Note


class Lane:
    """The packs of a lane, in their order."""

    def __init__(self, within: float) -> None:
        self.within = within
        self.waiting: deque[Pack] = deque()
        self.out: Pack | None = None
        # how many weights the hall has taken, and whether it is known to be the same hall
        self.taken = 0
        self.is_in_step = False
        # the numbers under which the weight that is out was said
        self.said: set[int] = set()
        self.packs = 0
        self.is_linked = False
        self.is_stopped = False
        self.newest: Pack | None = None

    def weigh(self, reading: Reading, now: float) -> tuple[Pack, list[Action]]:
        """A weight came: it is sent, or waits."""
        self.packs += 1
        pack = Pack(self.packs, reading, now)
        self.waiting.append(pack)
        return pack, self.send(now)

    def is_late(self, pack: Pack, now: float) -> bool:
        """Whether a pack has gone by the gate."""
        return self.within < now - pack.at

    def send(self, now: float) -> list[Action]:
        """Sends the next weight where none is out; drops those whose packs have gone by."""
        actions = self.drop_late(now)
        if self.is_linked and self.out is None and self.waiting:
            self.out, self.said = self.waiting.popleft(), set()
            actions.append(self.lines())
        return actions

    def drop_late(self, now: float) -> list[Action]:
        """Drops the weights whose packs have gone by a shut gate."""
        actions: list[Action] = []
        while self.waiting and self.is_late(self.waiting[0], now):
            # a pack that was let out goes into the book, whenever that is
            if self.waiting[0].let_out:
                break
            pack = self.waiting.popleft()
            text = f"pack {pack.number}, {spell(pack.reading.mass)} g: the hall didn't take it"
            actions += [Note("unheard", f"{text} within {self.within} s"), Drop(pack)]
        return actions

    def lines(self) -> Send:
        """The lines of the weight that is out: one, where its number is known."""
        if self.is_in_step or self.taken == 0:
            return self.line(self.taken + 1)
        first = self.line(2).line if self.taken == 1 else b""
        return Send(first + self.line(1).line)

    def line(self, number: int) -> Send:
        """The line of the weight that is out, under a number."""
        assert self.out is not None
        self.said.add(number)
        return Send(f"{number} {spell(self.out.reading.mass)}\n".encode())

    def linked(self, now: float) -> list[Action]:
        """There is a new connection: the weight that is out is said again."""
        self.is_linked, self.is_in_step = True, False
        return [self.lines()] if self.out else self.send(now)

    def unlinked(self) -> None:
        """The connection is gone; the hall may still be there."""
        self.is_linked = False

    def hall_gone(self) -> list[Action]:
        """The hall is gone: the next one counts from 1. A weight that is out is weighed by it."""
        self.is_linked = self.is_in_step = False
        self.taken = 0
        out, self.out = self.out, None
        notes = self.hall_gone_by(out)
        if out:
            self.waiting.appendleft(out)
            out.row = None
        return notes

    def hall_gone_by(self, out: Pack | None) -> list[Action]:
        """What is to be reported of the row that was the newest one, before the weight that is out:
        the next hall voids a row that it finds unsettled."""
        newest, self.newest = self.newest, None
        is_settled = self.is_stopped or (out is not None and out.row is not None)
        if newest is None or not newest.let_out or is_settled:
            return []
        text = f"the hall ended: its next start may void row {newest.row}, whose pack was let out"
        return [Note("voided", text)]

    def opened(self, row: int, now: float) -> list[Action]:
        """The hall opened the gate for a row."""
        pack = self.out
        if pack is None or (pack.row is not None and self.is_in_step):
            return [Note("opening", f"row {row} was let out, and no weight is out for it")]
        pack.row = row
        if pack.let_out:
            return []
        if self.is_stopped or self.is_late(pack, now):
            why = "the gate is stopped" if self.is_stopped else "it came too late"
            text = f"row {row} passed, and its gate stayed shut: {why}"
            return [Note("shut", text), Void(row)]
        pack.let_out = True
        return [Open(pack)]

    def acknowledged(self, number: int, now: float) -> list[Action]:
        """The hall says how many weights it has taken."""
        if self.out is None:
            return []
        if number in self.said:
            return self.settle(number, now)
        if number == self.taken:
            was_in_step, self.is_in_step = self.is_in_step, True
            return [] if was_in_step else [self.line(number + 1)]
        if number < self.taken:
            return []
        if self.taken == 0 and not self.is_in_step:
            # this began anew, and the hall goes on
            self.taken, self.is_in_step, self.said = number, True, set()
            return [self.line(number + 1)]
        return [
            Note("ahead", f"the hall has taken {number} weights, and {self.taken} were its own")
        ]

    def settle(self, number: int, now: float) -> list[Action]:
        """The weight that is out was taken under this number."""
        pack = self.out
        assert pack is not None
        is_new_hall = number == 1 and self.taken > 0
        actions: list[Action] = []
        if is_new_hall:
            actions += self.hall_gone_by(None)
        if self.taken == 0 and pack.number == 1 and pack.row is None and not pack.let_out:
            text = "pack 1 is rejected, unless the hall had one weight before this began"
            actions.append(Note("unsure", text))
        self.out, self.newest = None, pack
        self.taken, self.is_in_step = number, True
        actions.append(Settle(pack, pack.row is not None))
        if pack.let_out and pack.row is None:
            text = f"pack {pack.number} was let out, and the book, asked again, rejects it"
            actions.append(Note("escaped", text))
        return [*actions, *self.send(now)]

    def unjudged(self) -> int:
        """How many weights the hall hasn't judged."""
        return len(self.waiting) + (self.out is not None)

    def stop(self) -> None:
        """Stops the gate: it opens no more."""
        self.is_stopped = True
