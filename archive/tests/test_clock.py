"""The hours of rows."""

import unittest

from hall_archive.clock import Answer, Clock, Hours, Moment, fits
from hall_archive.rows import PAGE_ROWS

BOOT = "one"
FIRST = Clock(BOOT, 1_000_000)


def at(steady: int, put: int = 0, boot: str = BOOT) -> Moment:
    """A moment of the steady clock, with UTC put on by so many ms."""
    return Moment(steady + 1_000_000 + put, steady, boot)


class Intervals(unittest.TestCase):
    """From which request to which answer a row's hour goes."""

    def test_rows_that_were_there_before(self) -> None:
        answer = Hours().answered(at(0), at(5), 3, 3)
        self.assertEqual(answer, Answer(3, None, 1_000_005, "late", FIRST))

    def test_an_answer_without_rows_has_no_hour(self) -> None:
        self.assertIsNone(Hours().answered(at(0), at(5), 0, 0))

    def test_from_the_sending_of_the_request_before(self) -> None:
        hours = Hours()
        hours.answered(at(0), at(5), 0, 0)
        hours.answered(at(100), at(109), 0, 0)
        answer = hours.answered(at(200), at(203), 2, 2)
        self.assertEqual(answer, Answer(2, 1_000_100, 1_000_203, "live", FIRST))

    def test_a_full_answer_says_nothing_of_what_comes(self) -> None:
        hours = Hours()
        hours.answered(at(0), at(5), 0, 0)
        for place in (1, 2):
            answer = hours.answered(at(100 * place), at(100 * place + 5), PAGE_ROWS, 128 * place)
            self.assertEqual(answer and answer.low, 1_000_000)
        answer = hours.answered(at(300), at(305), 4, 260)
        self.assertEqual(answer and (answer.low, answer.high), (1_000_000, 1_000_305))
        answer = hours.answered(at(400), at(405), 4, 264)
        self.assertEqual(answer and answer.low, 1_000_300)

    def test_an_outage_is_wide_and_late(self) -> None:
        hours = Hours()
        hours.answered(at(0), at(5), 0, 0)
        answer = hours.answered(at(60_000), at(60_005), 7, 7)
        self.assertEqual(answer, Answer(7, 1_000_000, 1_060_005, "late", FIRST))

    def test_goes_on_where_it_was(self) -> None:
        hours = Hours(1_000_040, FIRST)
        answer = hours.answered(at(100), at(105), 1, 9)
        self.assertEqual(answer, Answer(9, 1_000_040, 1_000_105, "live", FIRST))

    def test_a_step_is_kept_as_it_is(self) -> None:
        for put in (30_000, -30_000):
            hours = Hours()
            hours.answered(at(0), at(5), 0, 0)
            answer = hours.answered(at(100), at(105, put), 1, 1)
            clock = Clock(BOOT, 1_000_000 + put)
            self.assertEqual(answer, Answer(1, 1_000_000, 1_000_105 + put, "step", clock))
            answer = hours.answered(at(200, put), at(205, put), 1, 2)
            self.assertEqual(answer and (answer.low, answer.kind), (1_000_100, "step"))
            answer = hours.answered(at(300, put), at(305, put), 1, 3)
            self.assertEqual(answer and (answer.low, answer.kind), (1_000_200 + put, "live"))

    def test_a_drift_is_no_step(self) -> None:
        hours = Hours()
        hours.answered(at(0), at(5), 0, 0)
        answer = hours.answered(at(100, 40), at(105, 40), 1, 1)
        self.assertEqual(answer and (answer.kind, answer.clock), ("live", FIRST))

    def test_another_boot_is_another_clock(self) -> None:
        hours = Hours(1_000_040, FIRST)
        answer = hours.answered(at(100, 0, "two"), at(105, 0, "two"), 1, 9)
        self.assertEqual(answer and (answer.kind, answer.clock.boot), ("step", "two"))


class Spans(unittest.TestCase):
    """Whether an interval meets a span."""

    def test_spans(self) -> None:
        for low, high, begin, end, wanted in (
            (10, 20, 0, 10, False),
            (10, 20, 0, 11, True),
            (10, 20, 20, 30, True),
            (10, 20, 21, None, False),
            (10, 20, None, None, True),
            (None, 20, None, 20, False),
            (None, 20, 5, None, True),
            (50, 20, 30, 40, True),
        ):
            self.assertEqual(fits(low, high, begin, end), wanted, (low, high, begin, end))
