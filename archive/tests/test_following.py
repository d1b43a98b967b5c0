"""Following a book at a door: gapless, each row once, whatever is cut, and refused by name where it
is another book."""

import itertools
import os
import tempfile
import time
import unittest
from unittest import mock

from doors import FakeDoor
from memory_archive import MemoryArchive
from small_book import LINES, long_book

from hall_archive import following
from hall_archive.clock import Moment
from hall_archive.door import Door
from hall_archive.following import Follower, Spool
from hall_archive.rows import PAGE_ROWS
from hall_archive.taking import Behind, OtherBook, Unanswered


class Following(unittest.TestCase):
    """A follower, a door and an archive in memory."""

    def setUp(self) -> None:
        self.door = FakeDoor()
        self.archive = MemoryArchive()
        self.sources: list[Door] = []
        self.folder = tempfile.TemporaryDirectory()
        self.spool = f"{self.folder.name}/hours"

    def tearDown(self) -> None:
        self.folder.cleanup()
        for source in self.sources:
            source.close()
        self.door.end()

    def follower(self) -> Follower:
        for source in self.sources:
            source.close()
        ticks = itertools.count(1_000_000)
        self.sources.append(Door(self.door.port))
        return Follower(
            "day",
            self.sources[-1],
            self.archive,
            Spool(self.spool),
            "boot",
            lambda boot: Moment(tick := next(ticks), tick - 1_000, boot),
        )

    def test_rows_come_once_and_in_order(self) -> None:
        text = long_book(1_000)
        follower = self.follower()
        for part in (0, 5, 6, 300, 301, 700, 1_005):
            self.door.set("".join(text.splitlines(keepends=True)[:part]))
            while follower.step()[0]:
                pass
        self.assertEqual(self.archive.text(), text)

    def test_what_comes_of_the_rows(self) -> None:
        self.door.set(LINES)
        self.follower().step()
        [taken] = self.archive.kept
        self.assertEqual((taken.after, taken.upto), (0, 17))
        self.assertEqual(taken.packs[2], (8, 4, 20_150, 241_900, 1, 1, 2, 3))
        [batch] = taken.batches
        self.assertEqual(batch, (4, "A", "rice250", "drawn", "", 6, 11, None))
        self.assertEqual(taken.acts[4][:4], (5, 4, None, "start"))
        voided = taken.acts[6]
        self.assertEqual(voided, (13, 4, None, "void", "13 ok\tdoor 1\t@101 2 void 10"))

    def test_full_answers_are_kept_together(self) -> None:
        self.door.set(long_book(1_000))
        follower = self.follower()
        while follower.step()[0]:
            pass
        self.assertEqual([(one.after, one.upto) for one in self.archive.kept], [(0, 1_005)])
        self.assertEqual(len(self.archive.answers()), 8)

    def test_a_connection_is_renewed_in_time(self) -> None:
        self.door.set(LINES)
        follower = self.follower()
        for _ in range(1_001):
            follower.step()
        self.assertLess(self.door.most, 1_000)
        self.assertEqual(self.door.links, 2)

    def test_faults_of_the_link(self) -> None:
        text = long_book(500)
        self.door.set(text)
        for fault in ("cut", "503", "half"):
            for place in range(4):
                self.archive = MemoryArchive()
                follower = self.follower()
                self.door.faults = [""] * place + [fault]
                failed = 0
                for _ in range(12):
                    try:
                        follower.step()
                    except Unanswered:
                        failed += 1
                self.assertEqual((failed, self.archive.text()), (1, text), (fault, place))

    def test_nobody_listens(self) -> None:
        follower = self.follower()
        follower.source = Door(1)
        with self.assertRaises(Unanswered):
            follower.step()

    def test_a_new_follower_goes_on(self) -> None:
        text = long_book(600).splitlines(keepends=True)
        for part in (3, 7, 140, 141, 500, 605):
            self.door.set("".join(text[:part]))
            follower = self.follower()
            while follower.step()[0]:
                pass
        self.assertEqual(self.archive.text(), "".join(text))

    def test_goes_on_behind_a_closed_batch(self) -> None:
        more = [
            "18 ok\tdoor 2\t@102 4 measure 9 262.000",
            "19 ok\tdoor 2\t@102 5 measure 11 262.000",
            "20 released\tdoor 2\t@102 6 close A",
            "21 ok\tdoor 2\t@102 7 open B rice250",
            "22 ok\tlane 1\tstart 1 B",
            "23 pass\tlane 1\tweigh 1 262.000 none",
            "24 pass\tlane 1\tweigh 1 262.000 stayed",
        ]
        text = LINES + "".join(f"{line}\n" for line in more)
        lines = text.splitlines(keepends=True)
        follower = None
        for part in range(len(lines) + 1):
            self.door.set("".join(lines[:part]))
            follower = self.follower()
            while follower.step()[0]:
                pass
        self.assertEqual(self.archive.text(), text)
        assert follower
        self.assertEqual(list(follower.standing.batches), ["B"])
        moves = [move for taken in self.archive.kept for move in taken.moves]
        self.assertEqual(len({move.pack for move in moves}), len(moves))

    def test_a_commit_that_failed(self) -> None:
        text = long_book(300)
        self.door.set(text)
        for lost in (0, 1):
            self.archive = MemoryArchive()
            follower = self.follower()
            self.archive.fails, self.archive.lost = 1 - lost, lost
            behind = 0
            for _ in range(9):
                follower.tried = 0.0
                try:
                    follower.step()
                except Behind:
                    behind += 1
                    follower.begin()
            self.assertEqual((behind, self.archive.text()), (lost, text))
            self.assertFalse(os.path.exists(self.spool))

    def test_hours_of_an_outage_are_kept(self) -> None:
        lines = long_book(100).splitlines(keepends=True)
        follower = self.follower()
        follower.step()
        self.archive.fails = 100
        for part in (20, 60, 61):
            self.door.set("".join(lines[:part]))
            follower.tried = 0.0
            follower.step()
        hours = list(follower.waiting.answers)
        self.assertEqual([answer.upto for answer in hours], [20, 60, 61])
        # killed, and begun again with the database: the rows come again, with their own hours
        self.archive.fails = 0
        self.door.set("".join(lines[:70]))
        self.follower().step()
        self.assertEqual(self.archive.answers()[:3], hours)
        self.assertEqual(self.archive.answers()[3].upto, 70)
        self.assertEqual(self.archive.text(), "".join(lines[:70]))
        self.assertFalse(os.path.exists(self.spool))

    def test_hours_wait_where_their_file_has_no_room_either(self) -> None:
        lines = long_book(100).splitlines(keepends=True)
        follower = self.follower()
        self.archive.fails = 2
        full = mock.patch.object(following, "append", side_effect=OSError("no room"))
        with full:
            for part in (20, 60):
                self.door.set("".join(lines[:part]))
                follower.tried = 0.0
                follower.step()
        follower.tried = 0.0
        follower.step()
        self.assertEqual([one.upto for one in self.archive.answers()], [20, 60])
        self.assertEqual(self.archive.text(), "".join(lines[:60]))

    def test_hours_in_the_file_stay_until_their_rows_are_kept(self) -> None:
        lines = long_book(300).splitlines(keepends=True)
        follower = self.follower()
        self.archive.fails = 100
        for part in (100, 200, 250):
            self.door.set("".join(lines[:part]))
            follower.tried = 0.0
            follower.step()
        hours = list(follower.waiting.answers)
        # some of their rows are kept, and the next follower is killed too
        self.archive.fails = 0
        for part in (150, 250):
            self.follow("".join(lines[:part]))
        found = {one.upto: one._replace(upto=0) for one in self.archive.answers()}
        due = {one.upto: one._replace(upto=0) for one in hours}
        self.assertEqual(found, due | {128: due[200], 150: due[200]})
        self.assertFalse(os.path.exists(self.spool))

    def test_polls_go_on_in_an_outage(self) -> None:
        lines = long_book(100).splitlines(keepends=True)
        follower = self.follower()
        self.archive.fails = 1
        for part in (20, 60, 61):
            self.door.set("".join(lines[:part]))
            follower.step()
        self.assertEqual((self.archive.text(), follower.upto), ("", 61))
        follower.tried = 0.0
        follower.step()
        self.assertEqual(self.archive.text(), "".join(lines[:61]))

    def refused(self, text: str, said: str) -> None:
        """The book of this text is refused, now and by the next follower too."""
        self.door.set(text)
        before = self.archive.text()
        with self.assertRaisesRegex(OtherBook, f"book day .*{said}"):
            self.follower().step()
        with self.assertRaisesRegex(OtherBook, "book day "):
            self.follower().step()
        self.assertEqual(self.archive.text(), before)

    def follow(self, text: str) -> None:
        self.door.set(text)
        follower = self.follower()
        while follower.step()[0]:
            pass

    def test_another_row_is_refused(self) -> None:
        text = long_book(200)
        self.follow(text)
        self.refused(
            text.replace("150 pass\tlane 1\tweigh 1 260", "150 pass\tlane 1\tweigh 1 261"),
            "another row 150",
        )

    def test_a_cut_book_is_refused(self) -> None:
        text = long_book(200)
        self.follow(text)
        self.refused("".join(text.splitlines(keepends=True)[:-1]), "204 rows, 205 were taken")

    def test_a_cut_book_that_grew_again_is_refused(self) -> None:
        text = long_book(200)
        self.follow(text)
        lines = text.splitlines(keepends=True)
        lines[204] = lines[204].replace(" opened", " stayed")
        self.refused("".join(lines) + "206 ok\tlane 1\tstop 1 opened\n", "another row 205")

    def test_a_book_that_is_cut_while_it_is_followed(self) -> None:
        text = long_book(200)
        self.door.set(text)
        follower = self.follower()
        while follower.step()[0]:
            pass
        self.door.set(LINES)
        with self.assertRaisesRegex(OtherBook, "book day isn't .* 17 rows, 205 were taken"):
            follower.step()

    def test_rows_that_cant_follow_are_refused(self) -> None:
        self.follow(long_book(3))
        self.refused(long_book(3) + "9 ok\tscript\tvoid 4711\n", "can't follow")


class Waiting(unittest.TestCase):
    """Ten requests a second, and none waits behind a full answer."""

    def test_wait(self) -> None:
        slept: list[float] = []
        with mock.patch("time.sleep", slept.append):
            following.wait(PAGE_ROWS, 0.0)
            following.wait(1, time.monotonic() + 1)
            following.wait(0, time.monotonic() - 1)
        self.assertAlmostEqual(slept[0], 1 + following.EVERY, delta=0.5)
        self.assertEqual(slept[1:], [0.0])
