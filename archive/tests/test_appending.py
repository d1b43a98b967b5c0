"""Files that are appended to, where there is no room, and where a kill has cut a line."""

import os
import resource
import tempfile
import unittest

from hall_archive.appending import append, whole_lines


class Appending(unittest.TestCase):
    """A file in a folder of its own."""

    def setUp(self) -> None:
        self.folder = tempfile.TemporaryDirectory()
        self.path = f"{self.folder.name}/lines"

    def tearDown(self) -> None:
        self.folder.cleanup()

    def test_lines(self) -> None:
        self.assertEqual(whole_lines(self.path), "")
        append(self.path, "a\nä\n")
        append(self.path, "b\n")
        self.assertEqual(whole_lines(self.path), "a\nä\nb\n")

    def test_a_cut_line_is_taken_off(self) -> None:
        append(self.path, "ä\nbc\nd")
        self.assertEqual(whole_lines(self.path), "ä\nbc\n")
        append(self.path, "e\n")
        self.assertEqual(whole_lines(self.path), "ä\nbc\ne\n")

    def test_without_room_the_file_is_as_it_was(self) -> None:
        append(self.path, "first\n")
        soft, hard = resource.getrlimit(resource.RLIMIT_FSIZE)
        # the first bytes of the next line have room, the last ones don't
        for room in (6, 9):
            resource.setrlimit(resource.RLIMIT_FSIZE, (room, hard))
            try:
                with self.assertRaises(OSError):
                    append(self.path, "second\n")
            finally:
                resource.setrlimit(resource.RLIMIT_FSIZE, (soft, hard))
            self.assertEqual(whole_lines(self.path), "first\n")
        append(self.path, "third\n")
        self.assertEqual(whole_lines(self.path), "first\nthird\n")
        self.assertEqual(os.stat(self.path).st_mode & 0o7, 0)
