"""The mean of the last packs beside what they should weigh, as advice to a filler. Nothing here
reads or writes, and nobody has to follow it.

The advice is how much the mean is above the target, in milligrams, below 0 where it is short; and 0
where it is off by no more than the dead band. It is said after each so many packs.
"""

from collections import deque


class Mean:
    """The mean of the last packs."""

    def __init__(self, packs: int, target: int, band: int, every: int) -> None:
        self.target = target
        self.band = band
        self.every = every
        self.masses: deque[int] = deque(maxlen=packs)
        self.since = 0

    def weigh(self, mass: int) -> int | None:
        """Takes a pack in. The advice, where it is time for one."""
        self.masses.append(mass)
        self.since += 1
        if len(self.masses) < (self.masses.maxlen or 0) or self.since < self.every:
            return None
        self.since = 0
        off = round(sum(self.masses) / len(self.masses)) - self.target
        return off if abs(off) > self.band else 0


def spell_advice(advice: int) -> str:
    """Advice as grams with a sign: `+0.250`, `-1.500`, `+0.000`."""
    sign, size = "-" if advice < 0 else "+", abs(advice)
    return f"{sign}{size // 1000}.{size % 1000:03}"
