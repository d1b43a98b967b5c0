"""Periods, shifts over changes of the clock, and the settings of reports."""

import unittest
from datetime import UTC
from decimal import Decimal
from typing import Any
from zoneinfo import ZoneInfo

from hall_archive import periods
from hall_archive.periods import BadPeriod, Period, key_of, period_of, spans
from hall_archive.report_settings import BadReports, Shift, read_reports
from hall_archive.rows import day_of
from hall_archive.settings import BadSettings, read_settings

SHIFTS = (Shift("early", 360), Shift("late", 840), Shift("night", 1_320))
BERLIN = ZoneInfo("Europe/Berlin")


class Periods(unittest.TestCase):
    def test_months_and_days(self) -> None:
        self.assertEqual(str(period_of("2026-12")), "2026-12-01 to 2026-12-31")
        self.assertEqual(str(period_of("2024-02")), "2024-02-01 to 2024-02-29")
        self.assertEqual(str(period_of("2026-12-05")), "2026-12-05 to 2026-12-05")
        self.assertEqual(str(period_of("2026-12-05", "2027-01-02")), "2026-12-05 to 2027-01-02")
        for first, last in (("2026-13", ""), ("", ""), ("2026-12-05", "2026-12-04"),
                            ("2000-01-01", "2026-01-01"), ("yesterday", "")):  # fmt: skip
            with self.assertRaises(BadPeriod):
                period_of(first, last)

    def test_keys(self) -> None:
        day = day_of("2027-01-02")
        self.assertEqual(key_of("day", day), "2027-01-02")
        self.assertEqual(key_of("week", day), "2026-W53")
        self.assertEqual(key_of("month", day), "2027-01")


class Shifts(unittest.TestCase):
    def test_a_day(self) -> None:
        day = day_of("2026-12-01")
        found = spans(Period(day, day), SHIFTS, UTC)
        self.assertEqual([one.key for one in found],
                         [f"2026-12-01 {name}" for name in ("early", "late", "night")])  # fmt: skip
        begins = day * 96
        self.assertEqual([one.low - begins for one in found], [24, 56, 88])
        # the night ends as the next day's early shift begins
        self.assertEqual(found[-1].high - begins, 96 + 24)

    def test_a_clock_that_is_changed(self) -> None:
        for text, hours in (("2026-03-28", 7), ("2026-10-24", 9), ("2026-06-01", 8)):
            day = day_of(text)
            night = spans(Period(day, day), SHIFTS, BERLIN)[-1]
            self.assertEqual(night.high - night.low, hours * 4, text)

    def test_a_shift_that_the_clock_leaves_out(self) -> None:
        # at two the clock goes to three, so half past two isn't there
        shifts = (Shift("early", 0), Shift("short", 150), Shift("late", 180))
        day = day_of("2026-03-29")
        early, short, late = spans(Period(day, day), shifts, BERLIN)
        self.assertEqual((early.high - early.low, short.high - short.low), (2 * 4, 0))
        self.assertEqual((short.high, late.low), (late.low, day * 96 + 4))

    def test_no_gap(self) -> None:
        found = spans(Period(day_of("2026-03-01"), day_of("2026-04-30")), SHIFTS, BERLIN)
        self.assertEqual(len(found), 61 * 3)
        for one, other in zip(found, found[1:], strict=False):
            self.assertEqual(one.high, other.low)

    def test_ends(self) -> None:
        day = day_of("2026-12-01")
        low, high = periods.ends(Period(day, day), BERLIN)
        self.assertEqual((low, high - low), (day * 86_400_000 - 3_600_000, 86_400_000))


class Settings(unittest.TestCase):
    def test_prices_by_day(self) -> None:
        found = read_reports(
            {"prices": {"rice": 1.89, "oil": {"2026-12-01": 2, "2027-01-01": 2.2}}}
        )
        of = found.prices.of
        self.assertEqual(of("rice", 1), Decimal("1.89"))
        self.assertIsNone(of("oil", day_of("2026-11-30")))
        self.assertEqual(of("oil", day_of("2026-12-31")), Decimal("2"))
        self.assertEqual(of("oil", day_of("2027-01-01")), Decimal("2.2"))
        self.assertIsNone(of("salt", 1))

    def test_what_cant_be(self) -> None:
        tables: tuple[dict[str, Any], ...] = (
            {"shifts": {"early": "06:10"}},
            {"shifts": {"early": "06:00", "late": "06:00"}},
            {"shifts": {}},
            {"shifts": {"a b": "06:00"}},
            {"prices": {"rice": -1}},
            {"prices": {"rice": {"soon": 1}}},
            {"zone": "Nowhere/At-all"},
            {"aim": 101},
            {"colour": "red"},
        )
        for table in tables:
            with self.assertRaises(BadReports, msg=str(table)):
                read_reports(table)

    def test_in_the_archives_settings(self) -> None:
        text = 'database = "sqlite://"\nfolder = "/"\nprogram = "hall"\n[reports]\naim = 0.8\n'
        found = read_settings(text)
        self.assertEqual((found.reports.aim, found.central), (0.8, ""))
        self.assertEqual([one.name for one in found.reports.shifts], ["early", "late", "night"])
        with self.assertRaises(BadSettings):
            read_settings(text + 'zone = "Nowhere"\n')


if __name__ == "__main__":
    unittest.main()
