"""Rules of docs/RULES.md that nets, sheets and samples rest on: errors and limits, classes, plans
of the reference test, and draws. Masses are in mg, volumes in microlitres, densities in mg a litre;
what is said of a nominal quantity holds of both."""

from typing import NamedTuple

UNIT_DENSITY = 1_000_000
# Errors that are a percentage are rounded up to the next 0.1 g or 0.1 ml.
ERROR_STEP = 100
# Up to which nominal quantity an error holds: a percentage in tenths, or a fixed one.
ERRORS = (
    (50_000, 90, 0),
    (100_000, 0, 4_500),
    (200_000, 45, 0),
    (300_000, 0, 9_000),
    (500_000, 30, 0),
    (1_000_000, 0, 15_000),
    (10_000_000, 15, 0),
)
MULTIPLIER = 6364136223846793005
INCREMENT = 1442695040888963407
WORD = 1 << 64
# The low bits of a word that a draw passes over.
PASSED_OVER = 33


class Limits(NamedTuple):
    """T1 and T2 of a batch in mg, at its density: what is below them isn't standard, or is
    inadequate."""

    t1: int
    t2: int

    def class_of(self, net: int) -> str:
        if net < self.t2:
            return "inadequate"
        return "nonstandard" if net < self.t1 else "standard"


def tne(nominal: int) -> int:
    """The tolerable negative error, in the unit of the nominal quantity."""
    for most, tenths, fixed in ERRORS:
        if nominal <= most:
            return fixed or -(-nominal * tenths // (1000 * ERROR_STEP)) * ERROR_STEP
    raise ValueError(f"{nominal} is no nominal quantity")


def limits(nominal: int, density: int) -> Limits:
    """T1 and T2 in mg, rounded up; a density of 0 is that of goods by mass."""
    error, of = tne(nominal), density or UNIT_DENSITY
    t1, t2 = (-(-of * volume // UNIT_DENSITY) for volume in (nominal - error, nominal - 2 * error))
    return Limits(t1, t2)


def sample_sizes(count: int, mode: str) -> tuple[int, int]:
    """How many packs the first sample has, and the second, of so many packs."""
    if mode == "destroy":
        return 20, 0
    if count < 100:
        return count, 0
    size = 30 if count <= 500 else 50 if count <= 3_200 else 80
    return size, size


def draw(packs: list[int], size: int, word: int) -> list[int]:
    """So many packs of an ascending list, drawn by a word of 64 bits, in drawing order."""
    left, picks = list(packs), []
    for _ in range(size):
        word = (word * MULTIPLIER + INCREMENT) % WORD
        picks.append(left.pop((word >> PASSED_OVER) % len(left)))
    return picks
