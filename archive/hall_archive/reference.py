"""The reference test of a drawn batch in figures: its plan by Annex II, the defective packs of both
samples, and mean, standard deviation and limit of the mean check. Masses are in mg; what is shown
is in the unit of the label, rounded to a thousandth as it is shown and not as it is compared."""

import math
from fractions import Fraction
from typing import NamedTuple

from hall_archive import rules
from hall_archive.nets import Batch
from hall_archive.rows import grams

# Of mass: that of goods by mass, which count at 1 kg a litre.
UNIT_DENSITY = 1_000_000
SHOWN_ROOT = 10**6


class Plan(NamedTuple):
    """A row of Annex II: both samples with what they accept, of how many packs the mean is, and the
    factor of s in thousandths."""

    first: int
    c1: int
    r1: int
    second: int
    c2: int
    mean_of: int
    k: int


DESTROYS = Plan(20, 1, 2, 0, 0, 20, 640)
KEEPS = (
    (500, Plan(30, 1, 3, 30, 4, 30, 503)),
    (3_200, Plan(50, 2, 5, 50, 6, 50, 379)),
    (1_000_000, Plan(80, 3, 7, 80, 8, 50, 379)),
)
# Under so many packs no row of the annex holds, and all are measured; one in so many may be short.
LEAST, ONE_IN = 100, 40


def plan_of(count: int, mode: str) -> Plan:
    """The plan for so many packs."""
    if mode == "destroy":
        return DESTROYS
    if count < LEAST:
        return Plan(count, count // ONE_IN, count // ONE_IN + 1, 0, 0, count, 0)
    return next(plan for most, plan in KEEPS if count <= most)


def samples_of(batch: Batch) -> list[list[int]]:
    """The samples in the order in which they were drawn."""
    left = [pack.row for pack in batch.population()]
    found = []
    for word, picks in zip(batch.words, batch.samples, strict=True):
        drawn = rules.draw(left, len(picks), word)
        found.append(drawn)
        gone = set(drawn)
        left = [pack for pack in left if pack not in gone]
    return found


def shown(thousandths: Fraction) -> str:
    """Thousandths as a number with three decimals, rounded half up."""
    return grams(math.floor(thousandths + Fraction(1, 2)))


def mean_line(contents: list[int], nominal: int, density: int, k: int) -> str:
    """Mean, s and limit of the contents, at a density in mg a litre."""
    scale, count = Fraction(UNIT_DENSITY, density or UNIT_DENSITY), len(contents)
    mean = Fraction(sum(contents), count)
    squares = sum((each - mean) ** 2 for each in contents) / max(count - 1, 1)
    root = Fraction(math.isqrt(int(squares * SHOWN_ROOT**2)), SHOWN_ROOT) * scale
    limit = nominal - Fraction(k, 1000) * root
    return f"mean {shown(mean * scale)} s {shown(root)} limit {shown(limit)}"


def lines_of(batch: Batch) -> list[str]:
    """The plan, the defective packs and the mean of a batch; that it has no test, where it has
    none."""
    samples = samples_of(batch)
    if not samples:
        return ["plan none"]
    count = len(batch.population())
    plan = plan_of(count, batch.mode)
    parts = [[batch.contents(pack) for pack in sample] for sample in samples]
    short = [sum(each < batch.limits.t1 for each in part) for part in parts]
    defective = " ".join(f"d{place} {each}" for place, each in enumerate(short, 1))
    goods = batch.goods
    return [
        f"plan {batch.mode} population {count} first {plan.first} c1 {plan.c1} r1 {plan.r1}"
        f" second {plan.second} c2 {plan.c2} mean-of {plan.mean_of} k 0.{plan.k:03}",
        f"contents {defective}",
        mean_line(parts[0][: plan.mean_of], goods.nominal, batch.density, plan.k),
    ]
