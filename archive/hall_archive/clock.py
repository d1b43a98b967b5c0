"""The hour of a row, as an interval of UTC in milliseconds since 1970-01-01.

A row was weighed after the request was sent whose answer was the last without it and wasn't full,
and before the first answer with it had come. A full answer says nothing of what stood behind it. A
step of the machine's clock begins a new clock; it is kept as it is, and never smoothed: after one
an interval may end before it begins."""

import time
from typing import NamedTuple

from hall_archive.rows import PAGE_ROWS

# How far, in ms, UTC may go from the steady clock before it counts as a step.
STEP = 50
# An interval longer than this, in ms, wasn't followed as it came about.
LONG = 1_000
BOOT_ID = "/proc/sys/kernel/random/boot_id"


class Moment(NamedTuple):
    """UTC and the steady clock of one boot of the machine, both in ms."""

    utc: int
    steady: int
    boot: str


class Clock(NamedTuple):
    """A stretch in which UTC went on with the steady clock: `offset` is UTC less that, in ms."""

    boot: str
    offset: int


class Answer(NamedTuple):
    """The hour of the rows behind the answer before, up to `upto`.

    `low` and `high` in ms of UTC; `low` is None where nothing was asked before. `kind` is `live`,
    `late` where rows were caught up with, and `step` where the clock was put between the two."""

    upto: int
    low: int | None
    high: int
    kind: str
    clock: Clock


def read_boot() -> str:
    with open(BOOT_ID, encoding="ascii") as file:
        return file.read().strip()


def now(boot: str) -> Moment:
    return Moment(time.time_ns() // 1_000_000, time.monotonic_ns() // 1_000_000, boot)


def clock_of(moment: Moment, before: Clock | None) -> Clock:
    """The clock that a moment is of: the one before, unless UTC was put or the machine began
    anew."""
    offset = moment.utc - moment.steady
    if before and before.boot == moment.boot and abs(offset - before.offset) <= STEP:
        return before
    return Clock(moment.boot, offset)


class Hours:
    """Gives the rows of each answer their interval. Begins behind the last request of before whose
    answer wasn't full, where one is known, with the clock that it was sent by."""

    def __init__(self, asked: int | None = None, clock: Clock | None = None) -> None:
        self.asked = asked
        self.clock = clock
        self.newest = clock

    def answered(self, sent: Moment, came: Moment, rows: int, upto: int) -> Answer | None:
        """Takes an answer of so many rows down; its interval, where it has rows. `upto` is the
        number of its last row."""
        before = clock_of(sent, self.newest)
        self.newest = clock_of(came, before)
        answer = None
        if rows:
            answer = Answer(upto, self.asked, came.utc, self.kind(came), self.newest)
        if rows < PAGE_ROWS:
            self.asked, self.clock = sent.utc, before
        return answer

    def kind(self, came: Moment) -> str:
        if self.asked is None:
            return "late"
        if self.clock != self.newest:
            return "step"
        return "live" if came.utc - self.asked <= LONG else "late"


def fits(row_low: int | None, row_high: int, low: int | None, high: int | None) -> bool:
    """Whether an interval meets a span from `low` to `high`, both in ms and each perhaps open.
    After a step an interval may end before it begins: then it is taken the other way round."""
    begins = row_high if row_low is None else min(row_low, row_high)
    ends = row_high if row_low is None else max(row_low, row_high)
    return (high is None or begins < high) and (low is None or ends >= low)
