"""Reject confirmation and the mean, by hand."""

import unittest

from hall_adapter.filler import Mean, spell_advice
from hall_adapter.readings import Note
from hall_adapter.reject import Confirmation


def kinds(notes: list[Note]) -> list[str]:
    """What is reported."""
    return [note.kind for note in notes]


class Rejects(unittest.TestCase):
    """Packs that are due behind the reject from 0.2 to 0.4 s after their weight."""

    def setUp(self) -> None:
        self.watch = Confirmation(0.2, 0.4)

    def test_turned_aside_and_seen(self) -> None:
        self.watch.weighed(1, 0)
        self.assertEqual(self.watch.seen(0.3), [])
        self.assertEqual(self.watch.tick(1), [])
        self.assertEqual(self.watch.confirmed, 1)

    def test_turned_aside_and_not_seen(self) -> None:
        self.watch.weighed(1, 0)
        self.assertEqual(self.watch.tick(0.4), [])
        self.assertEqual(kinds(self.watch.tick(0.41)), ["escaped"])
        self.assertEqual(self.watch.tick(1), [])

    def test_let_out_and_not_seen(self) -> None:
        self.watch.weighed(1, 0)
        self.watch.let_out(1, 8)
        self.assertEqual(self.watch.tick(1), [])

    def test_let_out_and_seen(self) -> None:
        self.watch.weighed(1, 0)
        self.watch.let_out(1, 8)
        self.assertEqual(kinds(self.watch.seen(0.3)), ["wrong"])

    def test_seen_too_early_or_twice(self) -> None:
        self.watch.weighed(1, 0)
        self.assertEqual(kinds(self.watch.seen(0.1)), ["unexpected"])
        self.assertEqual(self.watch.seen(0.2), [])
        self.assertEqual(kinds(self.watch.seen(0.3)), ["unexpected"])

    def test_one_that_should_be_there_is_taken_first(self) -> None:
        self.watch.weighed(1, 0)
        self.watch.let_out(1, 8)
        self.watch.weighed(2, 0.05)
        self.assertEqual(self.watch.seen(0.3), [])
        self.assertEqual(self.watch.tick(1), [])

    def test_one_that_the_device_couldnt_weigh(self) -> None:
        self.watch.unweighed(0)
        self.assertEqual(self.watch.seen(0.3), [])
        self.watch.unweighed(1)
        self.assertEqual(self.watch.tick(2), [])

    def test_a_gate_that_failed(self) -> None:
        self.watch.weighed(1, 0)
        self.watch.let_out(1, 8)
        self.watch.stayed(1)
        self.assertEqual(self.watch.seen(0.3), [])


class Means(unittest.TestCase):
    """The mean of four packs beside 260 g, with a dead band of 1 g."""

    def told(self, masses: list[int], every: int = 1) -> list[int | None]:
        mean = Mean(4, 260_000, 1_000, every)
        return [mean.weigh(mass) for mass in masses]

    def test_off_and_within_the_dead_band(self) -> None:
        # means of four: 261, 260.5, 263, 258
        masses = [261_000] * 4 + [259_000, 271_000]
        self.assertEqual(self.told(masses)[:4], [None, None, None, 0])
        self.assertEqual(self.told(masses)[4:], [0, 3_000])
        self.assertEqual(self.told([258_000] * 4), [None, None, None, -2_000])

    def test_every_so_many(self) -> None:
        self.assertEqual(
            self.told([265_000] * 9, 4), [None] * 3 + [5_000] + [None] * 3 + [5_000, None]
        )

    def test_spelling(self) -> None:
        self.assertEqual(
            [spell_advice(one) for one in (250, -1_500, 0)], ["+0.250", "-1.500", "+0.000"]
        )


if __name__ == "__main__":
    unittest.main()
