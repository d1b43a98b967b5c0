"""What rows come to: piles, nets, sheets, the register, draws, limits."""

import unittest

from memory_archive import kept
from small_book import LINES, REGISTER, SHEET

from hall_archive import nets, rules
from hall_archive.standing import WrongBook


class Books(unittest.TestCase):
    """A small book, worked out by hand, by what a follower keeps of it."""

    def test_register_and_sheet(self) -> None:
        batch = kept(LINES).batch("A")
        self.assertEqual("".join(nets.register(batch.packs.values())), REGISTER)
        self.assertEqual(nets.sheet(batch), SHEET)

    def test_a_tare_holds_up_to_the_next_day_with_one(self) -> None:
        goods = nets.Goods("rice", 250_000, False)
        for day, tare in ((10, 100), (20, 200), (15, 150), (10, 110)):
            goods.put(day, tare)
        found = [goods.tare(day) for day in (10, 14, 15, 19, 20, 999)]
        self.assertEqual(found, [110, 110, 150, 150, 200, 200])
        with self.assertRaises(WrongBook):
            goods.tare(9)


class Rules(unittest.TestCase):
    """The table of errors in docs/RULES.md, and limits by volume."""

    def test_errors(self) -> None:
        for nominal, error in (
            (5_000, 500),
            (50_000, 4_500),
            (50_001, 4_500),
            (100_000, 4_500),
            (100_001, 4_600),
            (200_000, 9_000),
            (250_000, 9_000),
            (300_001, 9_100),
            (500_000, 15_000),
            (1_000_000, 15_000),
            (1_000_001, 15_100),
            (10_000_000, 150_000),
        ):
            self.assertEqual(rules.tne(nominal), error, nominal)

    def test_limits_by_volume_round_up(self) -> None:
        # 485 and 470 ml at 998.2 g a litre
        self.assertEqual(rules.limits(500_000, 998_200), (484_127, 469_154))
        self.assertEqual(rules.limits(250_000, 0), (241_000, 232_000))
        self.assertEqual(rules.limits(5_000, 500_001), (2_251, 2_001))

    def test_the_draw_that_the_package_test_works_out(self) -> None:
        # word 1, four packs: the third is taken (tests/package.sh)
        self.assertEqual(rules.draw([5, 6, 9, 12], 1, 1), [9])

    def test_sizes_of_samples(self) -> None:
        for count, mode, sizes in (
            (99, "keep", (99, 0)),
            (100, "keep", (30, 30)),
            (500, "keep", (30, 30)),
            (501, "keep", (50, 50)),
            (3_200, "keep", (50, 50)),
            (3_201, "keep", (80, 80)),
            (100, "destroy", (20, 0)),
        ):
            self.assertEqual(rules.sample_sizes(count, mode), sizes)
