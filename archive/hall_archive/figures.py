"""The figures of a report, added up of sums of packs: pure. Masses in mg but where it says
otherwise, times in ms; money is decimal, in whole cents once it is shown."""

from collections import Counter
from dataclasses import dataclass, field
from decimal import Decimal
from typing import Any, NamedTuple

from hall_archive.nets import PILES
from hall_archive.rows import SIGNALS

CAUSES = tuple(said.removeprefix("reject ") for said in SIGNALS[1:])
POPULATION = (PILES.index("passed"), PILES.index("sampled"))
REJECTED, PASS = PILES.index("rejected"), SIGNALS.index("pass")
CENT = Decimal("0.01")
MINUTE, MICRO = 60_000, 1_000
KILOGRAM = 1_000_000


class Goods(NamedTuple):
    """What sums of packs are of: `nominal` in mg or microlitres, `density` in mg a litre (0: goods
    by mass)."""

    product: str
    nominal: int
    density: int


class Packs(NamedTuple):
    """Sums of packs of one kind; `mass` is that of what is declared, in micrograms."""

    hall: str
    book: str
    day: int
    goods: Goods
    lane: int
    signal: int
    pile: int
    number: int
    gross: int
    net: int
    square: int
    short: int
    poor: int
    mass: int
    # of so many the hour is known
    timed: int
    first: int
    last: int


class Ran(NamedTuple):
    """How a lane ran, with the goods that it weighed."""

    hall: str
    book: str
    day: int
    goods: Goods
    lane: int
    running: int
    stops: int
    stopped: int


@dataclass
class Line:
    """A line of a report."""

    piles: Counter[int] = field(default_factory=Counter)
    grosses: Counter[int] = field(default_factory=Counter)
    causes: Counter[int] = field(default_factory=Counter)
    verdicts: Counter[str] = field(default_factory=Counter)
    goods: set[Goods] = field(default_factory=set)
    rows: dict[tuple[str, str], tuple[int, int]] = field(default_factory=dict)
    stayed: int = 0
    timed: int = 0
    net: int = 0
    square: int = 0
    short: int = 0
    poor: int = 0
    mass: int = 0
    running: int = 0
    stops: int = 0
    stopped: int = 0
    refused: int = 0
    money: Decimal = Decimal(0)
    # whether a product that is in it has no price
    unpriced: bool = False

    def add(self, packs: Packs, price: Decimal | None) -> None:
        self.piles[packs.pile] += packs.number
        self.grosses[packs.pile] += packs.gross
        self.causes[packs.signal] += packs.number
        self.timed += packs.timed
        book = (packs.hall, packs.book)
        first, last = self.rows.get(book, (packs.first, packs.last))
        self.rows[book] = min(first, packs.first), max(last, packs.last)
        if packs.signal == PASS and packs.pile == REJECTED:
            self.stayed += packs.number
        if packs.pile in POPULATION:
            self.count_in(packs, price)

    def count_in(self, packs: Packs, price: Decimal | None) -> None:
        """Packs that count: what they have, and what of it is given away."""
        self.goods.add(packs.goods)
        self.net += packs.net
        self.square += packs.square
        self.short += packs.short
        self.poor += packs.poor
        self.mass += packs.mass
        if price is None:
            self.unpriced = True
        else:
            over = Decimal(packs.net * MICRO - packs.mass) / MICRO
            self.money += over * price / (packs.goods.density or KILOGRAM)

    def run(self, ran: Ran) -> None:
        self.running += ran.running
        self.stops += ran.stops
        self.stopped += ran.stopped

    # ---- what is shown

    @property
    def population(self) -> int:
        return sum(self.piles[pile] for pile in POPULATION)

    @property
    def over(self) -> float:
        """What is given away, in mg; below 0 where less is in the packs than is declared."""
        return (self.net * MICRO - self.mass) / MICRO

    def spread(self) -> tuple[float | None, float | None]:
        """Mean and standard deviation (divisor n - 1) of the nets, of one kind of goods."""
        count = self.population
        if len(self.goods) != 1 or not count:
            return None, None
        [goods] = self.goods
        nominal = goods.nominal * (goods.density or KILOGRAM) // KILOGRAM
        off = self.net - nominal * count
        if count < 2:
            return self.net / count, None
        variance = (self.square * count - off * off) / (count * (count - 1))
        return self.net / count, max(0.0, variance) ** 0.5

    def shown(self) -> dict[str, Any]:
        """The figures by their names, as docs/FORMATS.md has them."""
        count, (mean, deviation) = self.population, self.spread()
        figures: dict[str, Any] = {"readings": sum(self.piles.values())}
        figures |= {name: self.piles[at] for at, name in enumerate(PILES)}
        figures |= {f"{name}_gross": self.grosses[at] for at, name in enumerate(PILES)}
        figures |= {f"told_{name}": self.causes[at] for at, name in enumerate(CAUSES, 1)}
        figures |= {
            "stayed": self.stayed,
            "population": count,
            "net": self.net,
            "declared": round(self.mass / MICRO),
            "over": round(self.over),
            "share": round(100 * self.over * MICRO / self.mass, 4) if self.mass else None,
            "each": round(self.over / count, 3) if count else None,
            "mean": rounded(mean),
            "deviation": rounded(deviation),
            "nonstandard": self.short,
            "inadequate": self.poor,
            "money": None if self.unpriced else str(self.money.quantize(CENT)),
            "running": self.running,
            "rate": self.rate(),
            "stops": self.stops,
            "stopped": self.stopped,
            "refused": self.refused,
        }
        figures |= {word: self.verdicts[word] for word in ("released", "withheld", "empty")}
        return figures | {"rows": self.sources()}

    def rate(self) -> float | None:
        """Packs a minute of a running lane, of those whose hour is known."""
        return round(self.timed * MINUTE / self.running, 2) if self.running else None

    def sources(self) -> list[dict[str, Any]]:
        return [
            {"hall": hall, "book": book, "first": first, "last": last}
            for (hall, book), (first, last) in sorted(self.rows.items())
        ]


def rounded(value: float | None) -> float | None:
    return None if value is None else round(value, 3)
