"""Names of batches and the file that keeps one; a scanner's lines."""

import os
import tempfile
import unittest

from hall_adapter.batches import BadKept, KeptBatch, batch_of, line_of
from hall_adapter.lane import Scans


class Names(unittest.TestCase):
    """What says a batch, as the hall reads it."""

    def test_names(self) -> None:
        for name in (b"A", b"MORNING-1", b"x" * 32, b"\xff\x00", b"batch"):
            self.assertEqual(batch_of(b"batch " + name), name)
            self.assertEqual(line_of(name), b"batch " + name + b"\n")

    def test_no_names(self) -> None:
        for line in (b"", b"batch", b"batch ", b"batch  A", b"batch A ", b"batch A B", b"Batch A",
                     b" batch A", b"batch A\r", b"batch A\n", b"batch\tA", b"batch A\tB", b"262",
                     b"batch " + b"x" * 33):  # fmt: skip
            self.assertIsNone(batch_of(line), line)


class Kept(unittest.TestCase):
    """The batch that was said last."""

    def setUp(self) -> None:
        room = tempfile.TemporaryDirectory()
        self.addCleanup(room.cleanup)
        self.folder = room.name

    def test_none_yet(self) -> None:
        self.assertIsNone(KeptBatch(self.folder).name)

    def test_the_last_one(self) -> None:
        kept = KeptBatch(self.folder)
        kept.keep(b"A")
        kept.keep(b"B")
        self.assertEqual((kept.name, KeptBatch(self.folder).name), (b"B", b"B"))
        self.assertEqual(os.listdir(self.folder), ["batch"])

    def test_what_a_cut_left(self) -> None:
        KeptBatch(self.folder).keep(b"A")
        with open(f"{self.folder}/batch.new", "wb") as file:
            file.write(b"bat")
        self.assertEqual(KeptBatch(self.folder).name, b"A")

    def test_another_file(self) -> None:
        with open(f"{self.folder}/batch", "wb") as file:
            file.write(b"A\n")
        with self.assertRaises(BadKept):
            KeptBatch(self.folder)

    def test_where_it_cant_be_kept(self) -> None:
        kept = KeptBatch(self.folder)
        kept.keep(b"A")
        os.rename(self.folder, f"{self.folder}.away")
        self.addCleanup(os.rename, f"{self.folder}.away", self.folder)
        with self.assertRaises(OSError):
            kept.keep(b"B")
        self.assertEqual(kept.name, b"A")


class ScannerLines(unittest.TestCase):
    """Lines that end in CR, LF or both, in pieces."""

    def test_ends(self) -> None:
        scans = Scans()
        self.assertEqual(scans.feed(b"batch A\rbatch B\r\nbatch C\n"), [b"batch A", b"batch B",
                                                                        b"batch C"])  # fmt: skip

    def test_pieces(self) -> None:
        scans = Scans()
        self.assertEqual([scans.feed(piece) for piece in (b"ba", b"tch A", b"\r")],
                         [[], [], [b"batch A"]])  # fmt: skip

    def test_cut(self) -> None:
        scans = Scans()
        self.assertEqual((scans.feed(b"batch MO"), scans.cut()), ([], [b"batch MO"]))
        self.assertEqual(scans.feed(b"batch B\n"), [b"batch B"])

    def test_too_long(self) -> None:
        scans = Scans()
        self.assertEqual(scans.feed(b"batch " + b"x" * 32 + b"yyyyyyyyy"), [])
        found = scans.feed(b"zzz\nbatch B\n")
        self.assertIsNone(batch_of(found[0]))
        self.assertEqual(found[1:], [b"batch B"])


if __name__ == "__main__":
    unittest.main()
