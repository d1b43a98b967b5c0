"""What reports need of the settings, the table `[reports]` of /etc/hall/archive.toml; each key
may be absent.

    [reports]
    zone = "Europe/Berlin"     # the hall's clock; without it that of the machine
    currency = "€"
    aim = 0.8                  # percent given away that is aimed at
    database = "postgresql://replica/hall_archive"   # who answers reports and searches instead
    all_halls = true           # its pages show every hall of the database

    [reports.shifts]           # when each begins, on a quarter of an hour
    early = "06:00"
    late = "14:00"
    night = "22:00"

    [reports.prices]           # of a kilogram or a litre; or from days on
    rice250 = 1.89
    oil500 = {"2026-11-01" = 2.10, "2027-01-01" = 2.20}
"""

import bisect
import re
from dataclasses import dataclass, field
from datetime import UTC, tzinfo
from decimal import Decimal
from typing import Any
from zoneinfo import ZoneInfo

from hall_archive.rows import day_of

CLOCK = re.compile(r"([01]\d|2[0-3]):(00|15|30|45)")
WORD = re.compile(r"[^\s,;\"']{1,32}")
LOCAL = "/etc/localtime"
KEYS = {"zone", "currency", "aim", "database", "all_halls", "shifts", "prices"}
SHIFTS = {"early": "06:00", "late": "14:00", "night": "22:00"}


class BadReports(ValueError):
    """The settings of reports can't be used; the text says why."""


@dataclass(frozen=True)
class Shift:
    """A shift, from which minute of the day on."""

    name: str
    minute: int


@dataclass(frozen=True)
class Prices:
    """What a kilogram or a litre of each product costs, from days on."""

    tables: dict[str, tuple[tuple[int, ...], tuple[Decimal, ...]]] = field(default_factory=dict)

    def of(self, product: str, day: int) -> Decimal | None:
        days, prices = self.tables.get(product, ((), ()))
        place = bisect.bisect_right(days, day)
        return prices[place - 1] if place else None


@dataclass(frozen=True)
class ReportSettings:
    zone: tzinfo
    currency: str
    aim: float
    database: str
    all_halls: bool
    shifts: tuple[Shift, ...]
    prices: Prices


def need(holds: bool, said: str) -> None:
    if not holds:
        raise BadReports(f"[reports]: {said}")


def read_reports(table: dict[str, Any]) -> ReportSettings:
    """The settings that a table has; BadReports where it isn't one."""
    need(isinstance(table, dict), "it is a table")
    unknown = sorted(set(table) - KEYS)
    need(not unknown, f"it knows no `{', '.join(unknown)}`")
    aim = table.get("aim", 0)
    need(isinstance(aim, int | float) and 0 <= aim <= 100, "`aim` is percent, 0 to 100")
    for key in ("currency", "database"):
        need(isinstance(table.get(key, ""), str), f"`{key}` is a text")
    return ReportSettings(
        zone=zone_of(table.get("zone", "")),
        currency=str(table.get("currency", "€")),
        aim=float(aim),
        database=str(table.get("database", "")),
        all_halls=table.get("all_halls") is True,
        shifts=shifts_of(table.get("shifts", SHIFTS)),
        prices=prices_of(table.get("prices", {})),
    )


def zone_of(name: Any) -> tzinfo:
    if not name:
        return local()
    try:
        return ZoneInfo(str(name))
    except (OSError, ValueError, KeyError) as fault:
        raise BadReports(f"[reports]: there is no zone {name!r}") from fault


def local() -> tzinfo:
    """The zone of this machine; UTC where it has none."""
    try:
        with open(LOCAL, "rb") as file:
            return ZoneInfo.from_file(file, "local")
    except (OSError, ValueError):
        return UTC


def shifts_of(table: Any) -> tuple[Shift, ...]:
    need(isinstance(table, dict) and bool(table), "`shifts` has one at least")
    found = []
    for name, begins in table.items():
        clock = CLOCK.fullmatch(str(begins))
        need(bool(WORD.fullmatch(name)), f"{name!r} is no name of a shift")
        need(clock is not None, f"shift {name} begins at {begins!r}: HH:00, HH:15, HH:30, HH:45")
        assert clock
        found.append(Shift(name, int(clock[1]) * 60 + int(clock[2])))
    found.sort(key=lambda shift: shift.minute)
    need(len({shift.minute for shift in found}) == len(found), "two shifts begin at once")
    return tuple(found)


def prices_of(table: Any) -> Prices:
    need(isinstance(table, dict), "`prices` is a table")
    return Prices({product: price_table(product, said) for product, said in table.items()})


def price_table(product: str, said: Any) -> tuple[tuple[int, ...], tuple[Decimal, ...]]:
    days = said if isinstance(said, dict) else {"1970-01-01": said}
    found = []
    for begins, price in days.items():
        is_number = isinstance(price, int | float) and not isinstance(price, bool)
        need(is_number and 0 <= price <= 1_000_000, f"{product} costs {price!r}")
        try:
            found.append((day_of(begins), Decimal(str(price))))
        except ValueError as fault:
            raise BadReports(f"[reports]: {product} costs from {begins!r} on, no day") from fault
    found.sort()
    return tuple(day for day, _ in found), tuple(price for _, price in found)
