"""A book of one batch by docs/RULES.md alone: limits, plans, signals, draws, and the packers' part
of the verdict. Used by tests/forecast.py to draw books whose ends it knows."""

from dataclasses import dataclass, field
from decimal import ROUND_HALF_UP, Decimal, localcontext

MULTIPLIER, INCREMENT = 6364136223846793005, 1442695040888963407
UNIT_DENSITY = 1_000_000
MILLION = 10**6


def error_of(nominal: int) -> int:
    """The tolerable negative error of a nominal quantity, both in mg or microlitres."""
    grams = nominal / 1000
    if grams <= 50:
        exact = Decimal(nominal) * 9 / 100
    elif grams <= 100:
        return 4_500
    elif grams <= 200:
        exact = Decimal(nominal) * 45 / 1000
    elif grams <= 300:
        return 9_000
    elif grams <= 500:
        exact = Decimal(nominal) * 3 / 100
    elif grams <= 1000:
        return 15_000
    else:
        exact = Decimal(nominal) * 15 / 1000
    return int((exact / 100).to_integral_value("ROUND_CEILING")) * 100


@dataclass
class Plan:
    """A row of the table of plans."""

    first: int
    c1: int
    r1: int
    second: int
    c2: int
    means: int
    k: Decimal


def plan_of(packs: int, mode: str) -> Plan:
    if packs < 100:
        return Plan(packs, packs // 40, packs // 40 + 1, 0, 0, packs, Decimal(0))
    if mode == "destroy":
        return Plan(20, 1, 2, 0, 0, 20, Decimal("0.640"))
    if packs <= 500:
        return Plan(30, 1, 3, 30, 4, 30, Decimal("0.503"))
    if packs <= 3200:
        return Plan(50, 2, 5, 50, 6, 50, Decimal("0.379"))
    return Plan(80, 3, 7, 80, 8, 50, Decimal("0.379"))


def drawn(word: int, packs: list[int], count: int) -> list[int]:
    """The packs that a word draws, in drawing order."""
    left, state, picks = list(packs), word, []
    for _ in range(count):
        state = (state * MULTIPLIER + INCREMENT) % 2**64
        picks.append(left.pop((state >> 33) % len(left)))
    return picks


@dataclass
class Goods:
    """A nominal quantity in mg or microlitres, and the density in mg a litre."""

    quantity: int
    density: int = UNIT_DENSITY

    def is_below(self, mass: int, quantity: int) -> bool:
        return MILLION * mass < self.density * quantity

    def kind(self, net: int) -> str:
        error = error_of(self.quantity)
        if self.is_below(net, self.quantity - 2 * error):
            return "inadequate"
        return "nonstandard" if self.is_below(net, self.quantity - error) else "standard"

    def mass(self) -> int:
        """The least mass that isn't below the nominal quantity."""
        return -(-self.density * self.quantity // MILLION)


@dataclass
class Batch:
    """The packs of a batch on one lane whose gate always opens: number and gross of those that
    count."""

    goods: Goods
    tare: int
    packs: dict[int, int] = field(default_factory=dict)

    def nets(self) -> list[int]:
        return [gross - self.tare for gross in self.packs.values()]

    def counts(self) -> tuple[int, int, int]:
        """How many packs count, how many of them aren't standard, how many are inadequate."""
        kinds = [self.goods.kind(net) for net in self.nets()]
        return len(kinds), len(kinds) - kinds.count("standard"), kinds.count("inadequate")

    def weigh(self, number: int, gross: int) -> None:
        count, light, inadequate = self.counts()
        kind = self.goods.kind(gross - self.tare)
        is_out = kind == "inadequate" or (kind == "nonstandard" and 40 * light > count)
        if not (inadequate or is_out):
            self.packs[number] = gross

    def lack(self) -> int:
        """What the nets lack in all, in millionths of a mg; below 0 where they have more."""
        return len(self.packs) * self.goods.density * self.goods.quantity - MILLION * sum(
            self.nets()
        )

    def fails(self) -> list[str]:
        """The packers' part of the verdict: what fails, in its order."""
        count, light, inadequate = self.counts()
        held = [("average", self.lack() > 0), ("allowance", 40 * light > count)]
        held.append(("inadequate", inadequate > 0))
        return [name for name, fails in held if fails and count]


@dataclass
class Figures:
    """Mean, standard deviation and limit, each rounded to the mg, and whether the mean accepts."""

    mean: int
    s: int
    limit: int
    accepts: bool


def figures_of(contents: list[int], goods: Goods, k: Decimal) -> Figures:
    """With 80 digits, and the decision without a root."""
    with localcontext() as context:
        context.prec = 80
        count, masses = len(contents), [Decimal(mass) for mass in contents]
        mean = sum(masses, Decimal(0)) / count
        squares = sum(((mass - mean) ** 2 for mass in masses), Decimal(0))
        s = (squares / (count - 1)).sqrt() if count > 1 else Decimal(0)
        nominal = Decimal(goods.quantity) * goods.density / MILLION
        whole = [
            int(value.quantize(Decimal(1), ROUND_HALF_UP)) for value in (mean, s, nominal - k * s)
        ]
    total, thousandths = sum(contents), int(k * 1000)
    lack = count * goods.density * goods.quantity - MILLION * total
    spread = sum((count * mass - total) ** 2 for mass in contents)
    is_within = (count - 1) * lack**2 <= MILLION * thousandths**2 * spread
    accepts = lack <= 0 or (count >= 2 and thousandths > 0 and is_within)
    return Figures(whole[0], whole[1], whole[2], accepts)
