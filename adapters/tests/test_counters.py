"""The counter of a device: what is handed on, and what is reported."""

import random
import unittest

from hall_adapter.counters import PackCounter
from hall_adapter.devices import Range
from hall_adapter.readings import Note, Reading

LIMITS = Range(1, 999_999)


def told_of(pairs: list[tuple[int, int]], limits: Range = LIMITS) -> tuple[list[int], list[str]]:
    """The numbers that are handed on of numbers with masses, and the kinds of the notes."""
    counter = PackCounter(limits)
    told = [one for number, mass in pairs for one in counter.take(Reading(mass, number))]
    numbers = [one.counter for one in told if isinstance(one, Reading)]
    notes = [f"{one.kind} {one.count}" for one in told if isinstance(one, Note)]
    return [number for number in numbers if number is not None], notes


class Counters(unittest.TestCase):
    """A device that counts its packs."""

    def told(self, pairs: list[tuple[int, int]], numbers: list[int], notes: list[str]) -> None:
        self.assertEqual(told_of(pairs), (numbers, notes))

    def test_one_after_another(self) -> None:
        self.told([(7, 5), (8, 5), (9, 5)], [7, 8, 9], [])

    def test_a_skip_is_reported_and_the_pack_counts(self) -> None:
        self.told([(7, 5), (11, 6), (12, 7)], [7, 11, 12], ["skip 3"])

    def test_a_repeat_is_dropped(self) -> None:
        self.told([(7, 5), (7, 5), (8, 6), (7, 5)], [7, 8], ["repeat 1", "repeat 1"])
        self.told([(7, 5), (8, 9), (8, 6), (9, 6)], [7, 8, 9], ["stray 1"])

    def test_a_repeat_of_the_one_behind_a_skip(self) -> None:
        self.told([(6, 1), (8, 2), (8, 3), (9, 4)], [6, 8, 9], ["skip 1", "stray 1"])

    def test_a_late_one_is_dropped(self) -> None:
        late = [(7, 5), (11, 6), (8, 1), (9, 2), (10, 3), (12, 7)]
        self.told(late, [7, 11, 12], ["skip 3", "late 1", "late 1", "late 1"])

    def test_begins_anew_at_its_first(self) -> None:
        self.told([(500, 5), (501, 6), (1, 7), (2, 8)], [500, 501, 1, 2], ["anew 1"])

    def test_begins_anew_where_the_first_was_lost(self) -> None:
        pairs = [(500, 5), (501, 6), (3, 7), (4, 8), (5, 9), (6, 1)]
        self.told(pairs, [500, 501, 5, 6], ["stray 1", "stray 1", "anew 1"])

    def test_a_misread_number(self) -> None:
        self.told(
            [(5, 1), (6, 2), (207, 3), (8, 4), (9, 5)], [5, 6, 207, 8, 9], ["skip 200", "misread 1"]
        )
        self.told(
            [(5, 1), (6, 2), (1, 3), (8, 4), (9, 5)], [5, 6, 1, 8, 9], ["anew 1", "misread 1"]
        )

    def test_behind_its_greatest_comes_the_first(self) -> None:
        pairs = [(999_998, 1), (999_999, 2), (1, 3), (2, 4)]
        self.told(pairs, [999_998, 999_999, 1, 2], [])
        self.told([(999_998, 1), (2, 4)], [999_998, 2], ["skip 2"])

    def test_a_small_range_goes_round(self) -> None:
        pairs = [(number % 100, 5) for number in range(1000)]
        self.assertEqual(told_of(pairs, Range(0, 99)), ([number for number, _ in pairs], []))

    def test_counted_and_not_weighed(self) -> None:
        counter = PackCounter(LIMITS)
        self.assertEqual(len(counter.take(Reading(5, 7))), 1)
        counter.pass_over(8)
        self.assertEqual(counter.take(Reading(6, 9)), [Reading(6, 9)])
        counter.pass_over(10)
        self.assertEqual(counter.take(Reading(6, 10)), [Reading(6, 10)])

    def test_drawn_losses_and_repeats(self) -> None:
        draw = random.Random(74)
        for _ in range(50):
            sent: list[tuple[int, int]] = []
            lost = 0
            first = last = draw.randrange(1, 1000)
            for number in range(first, first + 400):
                mass = draw.randrange(260_000, 270_000)
                if draw.random() < 0.1:
                    lost += 1
                    continue
                sent.append((number, mass))
                last = number
                while draw.random() < 0.1:
                    sent.append(draw.choice(sent[-50:]))
            numbers, notes = told_of(sent)
            self.assertEqual(numbers, sorted(set(numbers)))
            self.assertEqual(set(numbers), {number for number, _ in sent})
            skipped = sum(int(note.split()[1]) for note in notes if note.startswith("skip"))
            self.assertEqual(skipped, last - sent[0][0] + 1 - len(numbers))


if __name__ == "__main__":
    unittest.main()
