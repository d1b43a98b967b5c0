"""Sums by quarter of an hour, how lanes ran, and the figures of reports, worked out by hand."""

import unittest
from decimal import Decimal

from memory_archive import kept
from small_book import LINES

from hall_archive import nets
from hall_archive.figures import Goods, Line, Packs, Ran
from hall_archive.nets import PILES
from hall_archive.rows import SIGNALS
from hall_archive.sums import (
    QUARTER,
    Hour,
    Packed,
    Sums,
    mass_of,
    quarter_of,
    with_quarters,
)

RICE = Goods("rice250", 250_000, 0)


def small() -> nets.Batch:
    return kept(LINES).batch("A")


def packed(pack: nets.Pack, pile: str = "") -> Packed:
    signal = SIGNALS.index(pack.signal)
    where = PILES.index(pile or pack.pile)
    return Packed(pack.row, pack.batch.row, pack.day, pack.gross, pack.lane, signal, where)


def summed(packs: list[Packed], quarters: list[int]) -> Sums:
    batch = small()
    sums = Sums({batch.row: batch}, {})
    for pack, quarter in zip(packs, quarters, strict=True):
        sums.add(pack, quarter)
    return sums


class Quarters(unittest.TestCase):
    """Of which quarter rows are."""

    def test_known(self) -> None:
        self.assertEqual(quarter_of(Hour(9, 900_100, 900_200, 0)), 1)
        # a minute over the border: of when they came
        self.assertEqual(quarter_of(Hour(9, 1_790_000, 1_800_000, 1)), 2)

    def test_unknown(self) -> None:
        for hour in (
            Hour(9, None, 900_200, 1),
            Hour(9, 1_000, 1_000 + QUARTER + 1, 1),
            Hour(9, 900_100, 900_200, 2),
            Hour(9, 900_300, 900_200, 0),
        ):
            self.assertEqual(quarter_of(hour), 0)

    def test_each_pack_has_the_first_answer_with_it(self) -> None:
        packs = [Packed(row, 1, 1, 1, 1, 0, 0) for row in (3, 4, 7)]
        hours = [Hour(3, 0, 900_000, 0), Hour(5, 900_000, 900_001, 0), Hour(9, 0, 1_900_000, 2)]
        found = [(pack.row, high, quarter) for pack, high, quarter in with_quarters(packs, hours)]
        self.assertEqual(found, [(3, 900_000, 1), (4, 900_001, 1), (7, 1_900_000, 0)])


class Cells(unittest.TestCase):
    """Sums of the small book, whose nets stand in its register."""

    def test_sums(self) -> None:
        packs = small().packs
        sums = summed([packed(packs[6]), packed(packs[9]), packed(packs[11])], [7, 7, 7])
        [(key, cell)] = sums.cells()
        self.assertEqual(tuple(key)[0], 7)
        # 251.8, 240.9 and 249.8 g: 1.8, -9.1 and -0.2 g off; one below T1
        squares = 1_800**2 + 9_100**2 + 200**2
        self.assertEqual(tuple(cell), (3, 773_100, 742_500, squares, 1, 0, 6, 11))

    def test_a_pack_that_is_moved(self) -> None:
        packs = small().packs
        sums = summed([packed(packs[10], "passed")], [7])
        sums.move(packed(packs[10]), 7)
        found = {PILES[key.pile]: cell.number for key, cell in sums.cells()}
        self.assertEqual(found, {"passed": 0, "voided": 1})

    def test_how_a_lane_ran(self) -> None:
        packs = [packed(pack) for pack in small().packs.values()]
        sums = summed([], [])
        for pack, high in zip(packs, (0, 5_000, 65_000, 400_000, 400_000), strict=False):
            sums.run(pack, 900_000 + high, 1)
        # 65 s, then a stop of 335 s; a lane that was left for a night has neither
        self.assertEqual(list(sums.paces.values()), [(65_000, 1, 335_000)])
        sums.run(packs[5], 900_000 + 400_000 + 5 * 3_600_000, 20)
        self.assertEqual(len(sums.paces), 1)
        # what has no hour ends it
        sums.run(packs[5], 0, 0)
        self.assertEqual(sums.last, {})

    def test_mass(self) -> None:
        self.assertEqual(mass_of(250_000, 0), 250_000_000)
        # 330.5 ml at 1.0345 g a ml: 341.902250 g
        self.assertEqual(mass_of(330_500, 1_034_500), 341_902_250)


def sums_of(pile: str, number: int, net: int, square: int, signal: int = 0) -> Packs:
    mass = number * 250_000_000
    gross = net + number * 10_000
    return Packs("main", "day", 1, RICE, 1, signal, PILES.index(pile), number, gross, net, square,
                 0, 0, mass, number, 6, 11)  # fmt: skip


class Figures(unittest.TestCase):
    """The figures of a line."""

    def test_mean_deviation_and_what_is_given_away(self) -> None:
        line = Line()
        # nets of 251, 253 and 255 g, and one of 249 g that was sampled
        line.add(sums_of("passed", 3, 759_000, 1_000**2 + 3_000**2 + 5_000**2), Decimal("2"))
        line.add(sums_of("sampled", 1, 249_000, 1_000**2), Decimal("2"))
        line.add(sums_of("rejected", 2, 400_000, 0, 3), Decimal("2"))
        told = line.shown()
        self.assertEqual((told["readings"], told["population"], told["rejected"]), (6, 4, 2))
        self.assertEqual((told["mean"], told["over"], told["each"]), (252_000.0, 8_000, 2_000.0))
        # deviations of -1, 1, 3 and -3 g: 20 / 3
        self.assertAlmostEqual(told["deviation"], 2_581.989, 3)
        self.assertEqual((told["share"], told["money"]), (0.8, "0.02"))
        self.assertEqual(told["told_inadequate"], 2)
        self.assertEqual(told["rows"], [{"hall": "main", "book": "day", "first": 6, "last": 11}])

    def test_what_isnt_known(self) -> None:
        line = Line()
        line.add(sums_of("passed", 1, 251_000, 1_000_000), None)
        told = line.shown()
        self.assertIsNone(told["money"])
        self.assertIsNone(told["deviation"])
        self.assertIsNone(told["rate"])
        line.add(
            sums_of("passed", 1, 251_000, 1_000_000)._replace(goods=Goods("oil", 5_000, 900_000)),
            None,
        )
        self.assertIsNone(line.shown()["mean"])

    def test_rate(self) -> None:
        line = Line()
        line.add(sums_of("passed", 90, 1, 1), None)
        line.run(Ran("main", "day", 1, RICE, 1, 60_000, 2, 300_000))
        told = line.shown()
        self.assertEqual((told["rate"], told["stops"], told["stopped"]), (90.0, 2, 300_000))


if __name__ == "__main__":
    unittest.main()
