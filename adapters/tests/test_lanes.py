"""Packs on their way to the gate, step by step."""

import unittest

from hall_adapter.lanes import Action, Drop, Lane, Open, Send, Settle, Void
from hall_adapter.readings import Note, Reading


def words(actions: list[Action]) -> list[str]:
    """Each action in a word or two."""
    said = []
    for one in actions:
        match one:
            case Send(line):
                said.append(f"send {line.decode().strip()}")
            case Open(pack):
                said.append(f"open {pack.row}")
            case Settle(pack, passed):
                said.append(f"settle {pack.number} {'pass' if passed else 'reject'}")
            case Drop(pack):
                said.append(f"drop {pack.number}")
            case Void(row):
                said.append(f"void {row}")
            case Note(kind):
                said.append(kind)
    return said


class Lanes(unittest.TestCase):
    """A lane beside a hall."""

    def setUp(self) -> None:
        self.lane = Lane(within=0.5)

    def said(self, actions: list[Action], *expected: str) -> None:
        self.assertEqual(words(actions), list(expected))

    def weigh(self, mass: int, now: float, *expected: str) -> None:
        self.said(self.lane.weigh(Reading(mass), now)[1], *expected)

    def test_passed_and_rejected(self) -> None:
        self.said(self.lane.linked(0))
        self.weigh(262_000, 0, "send 1 262.000")
        self.weigh(230_500, 0.1)
        self.said(self.lane.opened(8, 0.1), "open 8")
        self.said(self.lane.acknowledged(1, 0.1), "settle 1 pass", "send 2 230.500")
        self.said(self.lane.acknowledged(1, 0.1))
        self.said(self.lane.acknowledged(2, 0.2), "settle 2 reject")

    def test_a_weight_that_waits_too_long_isnt_sent(self) -> None:
        self.weigh(262_000, 0)
        self.weigh(263_000, 0.4)
        self.said(self.lane.linked(0.6), "unheard", "drop 1", "send 1 263.000")

    def test_an_opening_that_comes_too_late(self) -> None:
        self.lane.linked(0)
        self.weigh(262_000, 0, "send 1 262.000")
        self.said(self.lane.opened(8, 0.6), "shut", "void 8")
        self.said(self.lane.acknowledged(1, 0.6), "settle 1 pass")

    def test_an_opening_for_no_weight(self) -> None:
        self.lane.linked(0)
        self.said(self.lane.opened(8, 0), "opening")

    def test_a_cut_connection(self) -> None:
        self.lane.linked(0)
        self.weigh(262_000, 0, "send 1 262.000")
        self.lane.unlinked()
        self.said(self.lane.linked(0.1), "send 1 262.000")
        self.said(self.lane.acknowledged(1, 0.1), "unsure", "settle 1 reject")

    def two_taken(self) -> None:
        self.lane.linked(0)
        self.weigh(262_000, 0, "send 1 262.000")
        self.lane.acknowledged(1, 0)
        self.weigh(263_000, 0, "send 2 263.000")
        self.lane.acknowledged(2, 0)
        self.weigh(264_000, 0, "send 3 264.000")
        self.lane.unlinked()

    def test_a_new_connection_to_the_same_hall(self) -> None:
        self.two_taken()
        self.said(self.lane.linked(0.1), "send 1 264.000")
        self.said(self.lane.acknowledged(2, 0.1), "send 3 264.000")
        self.said(self.lane.acknowledged(3, 0.1), "settle 3 reject")

    def test_a_new_connection_to_a_hall_that_has_the_weight(self) -> None:
        self.two_taken()
        self.said(self.lane.linked(0.1), "send 1 264.000")
        self.said(self.lane.acknowledged(3, 0.1), "settle 3 reject")
        self.weigh(265_000, 0.2, "send 4 265.000")

    def test_a_new_connection_to_a_new_hall(self) -> None:
        self.two_taken()
        self.said(self.lane.linked(0.1), "send 1 264.000")
        self.said(self.lane.opened(12, 0.2), "open 12")
        self.said(self.lane.acknowledged(1, 0.2), "settle 3 pass")
        self.weigh(265_000, 0.2, "send 2 265.000")

    def test_a_new_connection_behind_one_weight(self) -> None:
        for is_new in (False, True):
            self.lane = Lane(within=0.5)
            self.lane.linked(0)
            self.weigh(262_000, 0, "send 1 262.000")
            self.lane.opened(8, 0)
            self.lane.acknowledged(1, 0)
            self.weigh(263_000, 0, "send 2 263.000")
            self.lane.unlinked()
            self.said(self.lane.linked(0.1), "send 2 263.000\n1 263.000")
            if is_new:
                self.said(self.lane.acknowledged(1, 0.2), "voided", "settle 2 reject")
            else:
                self.said(self.lane.acknowledged(2, 0.2), "settle 2 reject")
                self.said(self.lane.acknowledged(2, 0.2))
            self.weigh(264_000, 0.2, f"send {2 if is_new else 3} 264.000")

    def test_a_hall_that_ends_before_it_opened(self) -> None:
        self.lane.linked(0)
        self.weigh(262_000, 0, "send 1 262.000")
        self.said(self.lane.acknowledged(1, 0.0), "unsure", "settle 1 reject")
        self.weigh(263_000, 0.1, "send 2 263.000")
        self.said(self.lane.hall_gone())
        self.said(self.lane.linked(0.3), "send 1 263.000")
        self.said(self.lane.opened(12, 0.3), "open 12")

    def test_a_hall_that_ends_once_it_opened(self) -> None:
        self.lane.linked(0)
        self.weigh(262_000, 0, "send 1 262.000")
        self.said(self.lane.opened(8, 0.1), "open 8")
        self.said(self.lane.hall_gone())
        # the pack is out, so the next hall has to weigh it, and no gate opens for it again
        self.said(self.lane.linked(30), "send 1 262.000")
        self.said(self.lane.opened(12, 30))
        self.said(self.lane.acknowledged(1, 30), "settle 1 pass")

    def test_a_pack_that_is_out_and_then_rejected(self) -> None:
        self.lane.linked(0)
        self.weigh(262_000, 0, "send 1 262.000")
        self.lane.opened(8, 0.1)
        self.lane.hall_gone()
        self.lane.linked(1)
        self.said(self.lane.acknowledged(1, 1), "settle 1 reject", "escaped")

    def test_the_row_that_a_start_voids_is_reported(self) -> None:
        self.lane.linked(0)
        self.weigh(262_000, 0, "send 1 262.000")
        self.lane.opened(8, 0.1)
        self.lane.acknowledged(1, 0.1)
        self.said(self.lane.hall_gone(), "voided")
        self.said(self.lane.hall_gone())

    def test_a_stopped_gate(self) -> None:
        self.lane.linked(0)
        self.weigh(262_000, 0, "send 1 262.000")
        self.lane.stop()
        self.said(self.lane.opened(8, 0.1), "shut", "void 8")

    def test_a_line_that_begins_anew_beside_a_hall(self) -> None:
        self.lane.linked(0)
        self.weigh(262_000, 0, "send 1 262.000")
        self.said(self.lane.acknowledged(7, 0.1), "send 8 262.000")
        self.said(self.lane.opened(20, 0.1), "open 20")
        self.said(self.lane.acknowledged(8, 0.1), "settle 1 pass")

    def test_a_hall_that_another_speaks_to(self) -> None:
        self.two_taken()
        self.lane.linked(0.1)
        self.said(self.lane.acknowledged(7, 0.1), "ahead")


if __name__ == "__main__":
    unittest.main()
