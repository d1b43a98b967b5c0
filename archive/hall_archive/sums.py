"""Sums of packs by quarter of an hour, batch, day, lane, signal and pile, and how lanes ran:
pure. Masses in mg, times in ms of UTC, days since 1970-01-01; a quarter is the number of
quarter hours since then, 0 where the hour of a row isn't known. Codes of signals and piles are
places in their lists."""

from collections.abc import Iterable, Iterator
from typing import NamedTuple

from hall_archive.nets import PILES, Batch
from hall_archive.rows import SIGNALS

QUARTER = 900_000
# A lane that has no pack for longer, in ms, has stopped; for longer than a break nobody is at it.
STOP, BREAK = 120_000, 4 * 3_600_000
UNKNOWN = 0
STEP = 2
UNIT = 1_000_000
FIRST_PILE = [PILES.index("passed" if said == "pass" else "rejected") for said in SIGNALS]


class Packed(NamedTuple):
    """A pack as it is kept; `pile` is where it now is."""

    row: int
    batch: int
    day: int
    gross: int
    lane: int
    signal: int
    pile: int


class Hour(NamedTuple):
    """The answer of rows up to `upto`; `kind` is a place in `keeping.KINDS`."""

    upto: int
    low: int | None
    high: int
    kind: int


class Key(NamedTuple):
    quarter: int
    batch: int
    day: int
    lane: int
    signal: int
    pile: int


class Cell(NamedTuple):
    """The sums of a key: packs, grosses, nets, squares of nets less the nominal mass, nets below T1
    and T2, and between which rows the packs are."""

    number: int
    gross: int
    net: int
    square: int
    short: int
    poor: int
    first: int
    last: int


# How a lane ran: ms that it ran, how often it stopped, and for how many ms.
Pace = tuple[int, int, int]
NONE: Pace = (0, 0, 0)
PaceKey = tuple[int, int, int, int]


def quarter_of(hour: Hour) -> int:
    """The quarter of an answer's rows: of when it came, where that is known within a quarter."""
    if hour.low is None or hour.kind == STEP or not 0 <= hour.high - hour.low <= QUARTER:
        return UNKNOWN
    return hour.high // QUARTER


def mass_of(nominal: int, density: int) -> int:
    """The nominal mass in micrograms: of goods by volume at their density in mg a litre."""
    return nominal * (density or UNIT) // 1_000


class Known(NamedTuple):
    """What the packs of a batch and day are judged by, in mg."""

    tare: int
    nominal: int
    t1: int
    t2: int


class Sums:
    """Sums in the making: rows are added in order, with the quarters of their hours."""

    def __init__(self, batches: dict[int, Batch], last: dict[int, int]) -> None:
        self.batches = batches
        # when the last pack of each lane came, where that is known
        self.last = dict(last)
        self.sums: dict[tuple[int, ...], list[int]] = {}
        self.paces: dict[PaceKey, Pace] = {}
        self.known: dict[tuple[int, int], Known] = {}

    def cells(self) -> Iterator[tuple[Key, Cell]]:
        for key, sums in self.sums.items():
            yield Key(*key), Cell(*sums)

    def know(self, number: int, day: int) -> Known:
        batch = self.batches[number]
        nominal = mass_of(batch.goods.nominal, batch.density) // 1_000
        found = Known(batch.goods.tare(day), nominal, *batch.limits)
        self.known[number, day] = found
        return found

    def add(self, pack: Packed, quarter: int, sign: int = 1) -> None:
        """Adds a pack; -1 takes it back."""
        row, batch, day, gross, lane, signal, pile = pack
        tare, nominal, t1, t2 = self.known.get((batch, day)) or self.know(batch, day)
        net = gross - tare
        key = (quarter, batch, day, lane, signal, pile)
        held = self.sums.get(key)
        if held is None:
            held = self.sums[key] = [0, 0, 0, 0, 0, 0, row, row]
        held[0] += sign
        held[1] += sign * gross
        held[2] += sign * net
        held[3] += sign * (net - nominal) ** 2
        if net < t1:
            held[4] += sign
            held[5] += sign * (net < t2)
        if row > held[7]:
            held[7] = row
        elif row < held[6]:
            held[6] = row

    def move(self, pack: Packed, quarter: int) -> None:
        """A pack that was summed in its first pile, and is now in another."""
        self.add(pack._replace(pile=FIRST_PILE[pack.signal]), quarter, -1)
        self.add(pack, quarter)

    def run(self, pack: Packed, high: int, quarter: int) -> None:
        """The time since the pack before on this lane, which came at `high`."""
        lane = pack[4]
        before = self.last.get(lane)
        if quarter == UNKNOWN:
            self.last.pop(lane, None)
            return
        self.last[lane] = high
        if before is None or not 0 <= (gap := high - before) <= BREAK:
            return
        key = (quarter, pack[1], pack[2], lane)
        running, stops, stopped = self.paces.get(key, NONE)
        if gap <= STOP:
            self.paces[key] = (running + gap, stops, stopped)
        else:
            self.paces[key] = (running, stops + 1, stopped + gap)


def with_quarters(
    packs: Iterable[Packed], hours: Iterable[Hour]
) -> Iterator[tuple[Packed, int, int]]:
    """Each pack with when the first answer with its row came, and its quarter; both ascend."""
    rest = iter(hours)
    upto = high = quarter = 0
    for pack in packs:
        while upto < pack[0]:
            hour = next(rest)
            upto, high, quarter = hour.upto, hour.high, quarter_of(hour)
        yield pack, high, quarter
