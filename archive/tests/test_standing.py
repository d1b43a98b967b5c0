"""How a book stands: moves of packs, rows that can't follow, and a follower that is begun anew."""

import unittest

from memory_archive import MemoryArchive, kept
from small_book import LINES

from hall_archive import rules
from hall_archive.rows import read_text
from hall_archive.standing import Move, Standing, WrongBook

DAY = """\
1 ok\tscript\tday 2025-03-03
2 ok\tscript\tproduct rice250 250.000
3 ok\tscript\ttare rice250 2025-03-03 10.000
4 ok\tdoor 1\t@101 1 open A rice250
5 ok\tlane 1\tstart 1 A
"""


def moves_of(archive: MemoryArchive) -> list[Move]:
    return [move for taken in archive.kept for move in taken.moves]


def two_samples() -> tuple[str, list[int]]:
    """A book of 120 packs, of which one is voided, with both samples drawn, and its passed
    packs."""
    lines = DAY.splitlines()
    for row in range(6, 126):
        prior = "none" if row == 6 else "opened"
        lines.append(f"{row} pass\tlane 1\tweigh 1 262.000 {prior}")
    for told in (
        "lane 1\tstop 1 opened",
        "door 1\t@101 2 void 40",
        "door 1\t@101 3 end A",
        "door 1\t@101 4 draw A keep 7",
        "door 1\t@101 5 second A 9",
    ):
        lines.append(f"{len(lines) + 1} ok\t{told}")
    return "".join(f"{line}\n" for line in lines), [row for row in range(6, 126) if row != 40]


class Moves(unittest.TestCase):
    """Packs that come into another pile."""

    def test_moves(self) -> None:
        told = moves_of(kept(LINES))
        self.assertEqual(told[:2], [(7, "rejected", 8), (10, "voided", 13)])
        self.assertEqual(sorted(told[2:]), [(pack, "sampled", 16) for pack in (6, 9, 11)])

    def test_begun_anew_behind_each_row(self) -> None:
        text, passed = two_samples()
        first = rules.draw(passed, 30, 7)
        second = rules.draw([pack for pack in passed if pack not in first], 30, 9)
        due = [(40, "voided", 127)]
        due += [(pack, "sampled", 129) for pack in first]
        due += [(pack, "sampled", 130) for pack in second]
        for parts in ([], range(1, 130), [125], [126], [127, 128], [129], [60, 129]):
            self.assertEqual(moves_of(kept(text, parts)), due, parts)

    def test_what_cant_follow(self) -> None:
        for lines in (
            "1 ok\tscript\tvoid 5\n",
            "1 ok\tscript\ttare rice 2025-03-03 10.000\n",
            "1 ok\tlane 1\tstop 1 none\n",
            "1 ok\tscript\topen A rice250\n",
            DAY + "6 ok\tlane 1\tstop 1 stayed\n",
            DAY + "6 reject held\tlane 1\tweigh 1 262.000 none\n7 ok\tdoor 1\t@101 2 void 6\n",
            DAY + "6 ok\tdoor 1\t@101 2 measure 4 262.000\n",
        ):
            with self.assertRaises(WrongBook, msg=lines):
                standing = Standing(MemoryArchive())
                for entry in read_text(lines, 0):
                    standing.take(entry)
