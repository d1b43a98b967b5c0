"""Reject confirmation: what a photocell or a counter behind the reject says, beside what the book
decided. Nothing here reads or writes.

A pack is turned aside unless its gate opens, so each is expected behind the reject, at `earliest`
to `latest` seconds after its weight, until it is let out. What is reported:

- `escaped`: a pack wasn't let out, and wasn't seen behind the reject in its time
- `wrong`: a pack was let out, and was seen behind the reject
- `unexpected`: something was seen, and no pack was due

The first two stop the gate. Two packs whose times overlap can't be told apart: then a pack that
should have been turned aside is taken to be the one that was seen. So the span from `earliest` to
`latest` has to be shorter than the time between two packs.
"""

from collections import deque
from dataclasses import dataclass

from hall_adapter.readings import Note

STOPPING = {"escaped", "wrong"}


@dataclass
class Due:
    """A pack that is on its way; `is_sure` where it was weighed, so that it has to be there."""

    number: int
    at: float
    is_sure: bool
    row: int | None = None
    is_seen: bool = False


class Confirmation:
    """Which packs have been seen behind the reject."""

    def __init__(self, earliest: float, latest: float) -> None:
        self.earliest = earliest
        self.latest = latest
        self.due: deque[Due] = deque()
        self.confirmed = 0

    def weighed(self, number: int, at: float) -> None:
        """A pack was weighed, and is turned aside unless it is let out."""
        self.due.append(Due(number, at, True))

    def unweighed(self, at: float) -> None:
        """The device said something of a pack and no weight: one may come, or none."""
        self.due.append(Due(0, at, False))

    def let_out(self, number: int, row: int) -> None:
        """The gate opened for a pack."""
        for one in self.due:
            if one.number == number:
                one.row = row

    def stayed(self, number: int) -> None:
        """The gate didn't open for a pack after all."""
        for one in self.due:
            if one.number == number:
                one.row = None

    def seen(self, now: float) -> list[Note]:
        """Something was seen behind the reject."""
        within = [
            one
            for one in self.due
            if not one.is_seen and self.earliest <= now - one.at <= self.latest
        ]
        turned = [one for one in within if one.row is None and one.is_sure]
        for one in turned or [one for one in within if not one.is_sure] or within:
            one.is_seen = True
            if one.row is None:
                self.confirmed += one.is_sure
                return []
            text = f"row {one.row} passed, and was seen behind the reject"
            return [Note("wrong", text, row=one.row)]
        return [Note("unexpected", "something was seen behind the reject, and no pack was due")]

    def tick(self, now: float) -> list[Note]:
        """Time has gone on: which packs should have been seen by now."""
        notes = []
        while self.due and self.latest < now - self.due[0].at:
            one = self.due.popleft()
            if one.is_sure and one.row is None and not one.is_seen:
                text = f"pack {one.number} was turned aside, and wasn't seen behind the reject"
                notes.append(Note("escaped", text))
        return notes

    def next_time(self) -> float | None:
        """When the next pack is overdue."""
        return self.due[0].at + self.latest if self.due else None
