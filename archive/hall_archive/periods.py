"""Shifts, days, weeks and months of reports. Days are counted from 1970-01-01, quarters are quarter
hours since then, in UTC; the hall's clock has a zone."""

from datetime import datetime, timedelta, tzinfo
from itertools import accumulate, islice
from typing import NamedTuple

from hall_archive.report_settings import Shift
from hall_archive.rows import FIRST_DAY, day_of, day_text
from hall_archive.sums import QUARTER

# What a report may be over.
BY = ("shift", "day", "week", "month", "product", "lane", "hall", "book")
# The longest report, in days.
MOST_DAYS = 1_100
DAY_MINUTES = 1_440


class BadPeriod(ValueError):
    """No such period can be asked for; the text says why."""


class Period(NamedTuple):
    """Days from one to another, both of them in it."""

    first: int
    last: int

    def __str__(self) -> str:
        return f"{day_text(self.first)} to {day_text(self.last)}"


class Span(NamedTuple):
    """A shift on a day: quarters from `low` on and before `high`."""

    key: str
    low: int
    high: int


def period_of(first: str, last: str = "") -> Period:
    """From one day to another, as 2026-12-01; or a whole month, as 2026-12."""
    try:
        if len(first) == 7:
            begins = day_of(f"{first}-01")
            date = datetime.fromordinal(FIRST_DAY + begins)
            ends = (date.replace(day=28) + timedelta(4)).replace(day=1).toordinal() - FIRST_DAY - 1
            last = last or day_text(ends)
            first = day_text(begins)
        found = Period(day_of(first), day_of(last or first))
    except ValueError as fault:
        raise BadPeriod(f"{first!r} to {last!r} are no days") from fault
    if not 0 <= found.last - found.first < MOST_DAYS:
        raise BadPeriod(f"{first} to {last}: at most {MOST_DAYS} days, the first one first")
    return found


def week_of(day: int) -> str:
    year, week, _ = datetime.fromordinal(FIRST_DAY + day).isocalendar()
    return f"{year}-W{week:02}"


def key_of(by: str, day: int) -> str:
    """The name of the day, week or month of a day."""
    if by == "week":
        return week_of(day)
    return day_text(day)[:7] if by == "month" else day_text(day)


def quarter_at(day: int, minute: int, zone: tzinfo) -> int:
    """The quarter at which a minute of the hall's day begins. A minute that a changing clock leaves
    out is that of the clock before."""
    local = datetime.fromordinal(FIRST_DAY + day) + timedelta(minutes=minute)
    return round(local.replace(tzinfo=zone).timestamp() * 1000) // QUARTER


def ends(period: Period, zone: tzinfo) -> tuple[int, int]:
    """From when on and before when the period is, in ms of UTC."""
    low, high = (quarter_at(day, 0, zone) for day in (period.first, period.last + 1))
    return low * QUARTER, high * QUARTER


def spans(period: Period, shifts: tuple[Shift, ...], zone: tzinfo) -> list[Span]:
    """The shifts that begin on the days of a period, each up to the next one. One whose hours a
    changing clock leaves out is empty."""
    days = range(period.first, period.last + 2)
    keys = [f"{day_text(day)} {shift.name}" for day in days for shift in shifts]
    lows = [quarter_at(day, shift.minute, zone) for day in days for shift in shifts]
    # none begins after the next one
    ordered = list(accumulate(reversed(lows), lambda after, low: min(after, low)))[::-1]
    wanted = (period.last - period.first + 1) * len(shifts)
    found = zip(keys, ordered, ordered[1:], strict=False)
    return [Span(key, low, high) for key, low, high in islice(found, wanted)]
