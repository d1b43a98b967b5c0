"""What reports have to say, reckoned from what the program itself prints of a book: `export`,
`list` and `report`; nothing of the archive is used. For tests/months.py."""

import csv
import io
import math
from collections import Counter, defaultdict
from collections.abc import Callable, Iterable
from datetime import date
from decimal import Decimal
from fractions import Fraction
from typing import Any, NamedTuple

COUNTED = ("passed", "sampled")
PILES = ("passed", "rejected", "sampled", "voided")
CAUSES = ("held", "full", "inadequate", "allowance")


class Goods(NamedTuple):
    """The nominal mass of a pack in mg, exactly; the density in mg a litre, 0 of goods by mass."""

    mass: Fraction
    density: int


class Pack(NamedTuple):
    hall: str
    book: str
    row: int
    batch: str
    product: str
    lane: int
    day: str
    gross: int
    net: int
    kind: str
    signal: str
    pile: str
    goods: Goods


def milligrams(text: str) -> int:
    return round(Decimal(text) * 1000)


def goods_of(report: str) -> dict[str, Goods]:
    """By batch, of the first lines of the sheets."""
    found = {}
    for line in report.splitlines():
        words = line.split(" ")
        if words[0] == "batch":
            nominal = milligrams(words[5])
            density = milligrams(words[-1]) if "density" in words else 0
            found[words[1]] = Goods(Fraction(nominal * (density or 10**6), 10**6), density)
    return found


def packs_of(hall: str, book: str, export: str, report: str) -> list[Pack]:
    goods = goods_of(report)
    return [
        Pack(hall, book, int(one["pack"]), one["batch"], one["product"], int(one["lane"]),
             one["day"], milligrams(one["gross"]), milligrams(one["net"]), one["class"],
             one["signal"], one["pile"], goods[one["batch"]])
        for one in csv.DictReader(io.StringIO(export))
    ]  # fmt: skip


def verdicts_of(report: str) -> dict[str, str]:
    """By batch, the verdicts of the sheets."""
    found, batch = {}, ""
    for line in report.splitlines():
        word, _, rest = line.partition(" ")
        if word == "batch":
            batch = rest.split(" ")[0]
        elif word == "verdict":
            found[batch] = rest
    return found


def figures(packs: Iterable[Pack], prices: dict[str, Decimal]) -> dict[str, Any]:
    """The figures of some packs, by the names of a report."""
    packs = list(packs)
    counted = [one for one in packs if one.pile in COUNTED]
    piles, signals = Counter(one.pile for one in packs), Counter(one.signal for one in packs)
    found: dict[str, Any] = {"readings": len(packs), "population": len(counted)}
    for pile in PILES:
        found[pile] = piles[pile]
        found[f"{pile}_gross"] = sum(one.gross for one in packs if one.pile == pile)
    for cause in CAUSES:
        found[f"told_{cause}"] = signals[f"reject {cause}"]
    found["stayed"] = sum(one.signal == "pass" and one.pile == "rejected" for one in packs)
    found["net"] = sum(one.net for one in counted)
    found["nonstandard"] = sum(one.kind != "standard" for one in counted)
    found["inadequate"] = sum(one.kind == "inadequate" for one in counted)
    found["over"] = float(sum((one.net - one.goods.mass for one in counted), Fraction(0)))
    found |= spread(counted)
    found["money"] = money(counted, prices)
    return found


def spread(counted: list[Pack]) -> dict[str, float | None]:
    """Mean and standard deviation, where all are of one kind of goods."""
    kinds = {(one.product, one.goods) for one in counted}
    if len(kinds) != 1:
        return {"mean": None, "deviation": None}
    mean = Fraction(sum(one.net for one in counted), len(counted))
    if len(counted) < 2:
        return {"mean": float(mean), "deviation": None}
    squares = sum(((one.net - mean) ** 2 for one in counted), Fraction(0))
    return {"mean": float(mean), "deviation": math.sqrt(squares / (len(counted) - 1))}


def money(counted: list[Pack], prices: dict[str, Decimal]) -> float | None:
    if any(one.product not in prices for one in counted):
        return None
    parts = (
        (one.net - one.goods.mass) * Fraction(prices[one.product]) / (one.goods.density or 10**6)
        for one in counted
    )
    return float(sum(parts, Fraction(0)))


def week(day: str) -> str:
    year, number, _ = date.fromisoformat(day).isocalendar()
    return f"{year}-W{number:02}"


# By which name a pack is in a report.
NAMES: dict[str, Callable[[Pack], str]] = {
    "day": lambda one: one.day,
    "week": lambda one: week(one.day),
    "month": lambda one: one.day[:7],
    "product": lambda one: one.product,
    "lane": lambda one: f"{one.lane:02}",
    "hall": lambda one: one.hall,
    "book": lambda one: f"{one.hall} {one.book}",
}


def grouped(packs: list[Pack], name: Callable[[Pack], str]) -> dict[str, list[Pack]]:
    found: dict[str, list[Pack]] = defaultdict(list)
    for one in packs:
        found[name(one)].append(one)
    return found


def differences(line: dict[str, Any], packs: list[Pack], prices: dict[str, Decimal]) -> list[str]:
    """What a line of a report has otherwise than its packs."""
    wanted = figures(packs, prices)
    found = []
    for name, value in wanted.items():
        told = line[name]
        if name == "money":
            is_same = is_near(told and float(told), value, 0.0051)
        elif name in ("mean", "deviation"):
            is_same = is_near(told, value, 0.00051)
        elif name == "over":
            # declared masses are rounded to a microgram a pack
            is_same = is_near(told, value, 0.51 + 0.001 * len(packs))
        else:
            is_same = told == value
        if not is_same:
            found.append(f"{name} is {told}, reckoned {value}")
    rows = {(one["hall"], one["book"]): (one["first"], one["last"]) for one in line["rows"]}
    for book, own in grouped(packs, lambda one: f"{one.hall}/{one.book}").items():
        hall, _, name = book.partition("/")
        ends = (min(one.row for one in own), max(one.row for one in own))
        if rows.pop((hall, name), None) != ends:
            found.append(f"{book}: rows aren't {ends}")
    return found + [f"rows of {book} too" for book in rows]


def is_near(told: float | None, value: float | None, within: float) -> bool:
    if told is None or value is None:
        return told is value
    return abs(told - value) <= within
