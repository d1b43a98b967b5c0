"""Settings, and what may be asked of the program."""

import io
import os
import tempfile
import unittest
from unittest import mock

from hall_archive.reading import NotRead, Program, Socket, at_rest, options_of, pack, unpack
from hall_archive.settings import BadSettings, read_settings

GOOD = """
database = "sqlite:////tmp/a.db"
folder = "/tmp"
read = "/run/read"
[days]
scale = 2
[[book]]
hall = 1
name = "day"
door = 8473
[[book]]
hall = "juice"
name = "day"
[[book]]
hall = 1
name = "night"
"""


class Settings(unittest.TestCase):
    """What settings say, and what are none."""

    def test_good(self) -> None:
        found = read_settings(GOOD)
        self.assertEqual((found.port, found.days["scale"], found.days["tare"]), (8490, 2, 90))
        self.assertEqual(
            [(one.hall, one.name, one.door) for one in found.followed],
            [("1", "day", 8473), ("juice", "day", 0), ("1", "night", 0)],
        )
        self.assertEqual(found.book("night").hall, "1")
        self.assertEqual(found.book("day", "juice").door, 0)
        self.assertEqual(found.witness(found.book("night")), "/tmp/1.night.witness")
        self.assertIsInstance(found.reader(), Socket)
        by_program = GOOD.replace('read = "/run/read"', 'program = "/usr/bin/hall"')
        self.assertIsInstance(read_settings(by_program).reader(), Program)
        for name in ("day", "other"):
            with self.assertRaises(BadSettings):
                found.book(name)

    def test_bad(self) -> None:
        for old, new in (
            ('folder = "/tmp"', ""),
            ('folder = "/tmp"', "folder = 7"),
            ('folder = "/tmp"', "folder ="),
            ('folder = "/tmp"', 'folder = "/tmp"\nfolders = "x"'),
            ('read = "/run/read"', ""),
            ('read = "/run/read"', 'read = "/run/read"\nprogram = "x"'),
            ("scale = 2", "scales = 2"),
            ("scale = 2", "scale = -2"),
            ("door = 8473", "door = 65536"),
            ("door = 8473", "port = 8473"),
            ('name = "night"', 'name = "../night"'),
            ('name = "night"', 'name = "day"'),
            ("hall = 1", ""),
        ):
            with self.assertRaises(BadSettings, msg=new):
                read_settings(GOOD.replace(old, new))


class Questions(unittest.TestCase):
    """Nothing but a question of the table reaches the program."""

    def test_options(self) -> None:
        self.assertEqual(options_of("acts", "12"), ["--after", "12"])
        self.assertEqual(options_of("report", "A-1"), ["--batch", "A-1"])
        self.assertEqual(options_of("export", ""), [])
        for command, word in (
            ("run", ""),
            ("acts", "-1"),
            ("acts", "12345678"),
            ("export", "x"),
            ("report", "--book=x"),
            ("report", "a b"),
            ("audit", "1;2"),
        ):
            with self.assertRaises(NotRead, msg=(command, word)):
                options_of(command, word)

    def test_books_of_the_folder_alone(self) -> None:
        for name in ("../day", "", "-x", "a/b", "a b", "a\nb"):
            with self.assertRaises(NotRead, msg=name):
                list(Program("/bin/true", "/tmp").ask(name, "export"))

    def test_answers(self) -> None:
        out = io.BytesIO()
        pack(Program("", ""), iter([b"ab", b"c" * 3]), out)
        self.assertEqual(list(unpack(io.BytesIO(out.getvalue()), "q")), [b"ab", b"ccc"])
        for size in range(len(out.getvalue())):
            with self.assertRaises(NotRead):
                list(unpack(io.BytesIO(out.getvalue()[:size]), "q"))
        out, reader = io.BytesIO(), Program("/bin/false", "/tmp")
        pack(reader, reader.ask("day", "export"), out)
        with self.assertRaisesRegex(NotRead, "ends with 1"):
            list(unpack(io.BytesIO(out.getvalue()), "q"))

    def test_a_book_in_use_is_told_behind_the_socket_too(self) -> None:
        reader = Program("", "")
        for in_use in (False, True):
            reader.in_use, answer = in_use, io.BytesIO()
            pack(reader, iter([b"ab"]), answer)
            pieces = unpack(io.BytesIO(answer.getvalue()), "q")
            self.assertEqual(next(pieces), b"ab")
            with self.assertRaises(StopIteration) as end:
                next(pieces)
            self.assertIs(end.exception.value, in_use)

    def test_in_use_by_what_the_program_says(self) -> None:
        with tempfile.TemporaryDirectory() as folder:
            for said, in_use in (("it is in use; 7 rows were read", True), ("other", False)):
                path = f"{folder}/program"
                with open(path, "w", encoding="ascii") as script:
                    script.write(f"#!/bin/sh\necho text\necho 'hall: b.book: {said}' >&2\n")
                os.chmod(path, 0o755)
                reader = Program(path, folder)
                self.assertEqual(list(reader.ask("b", "export")), [b"text\n"])
                self.assertIs(reader.in_use, in_use)

    def test_what_is_found_at_rest(self) -> None:
        reader, uses = Program("", ""), iter([True, True, False])

        def find() -> str:
            reader.in_use = next(uses)
            return "lacks" if reader.in_use else "whole"

        with mock.patch("hall_archive.reading.time.sleep"):
            self.assertEqual(at_rest(reader, find), "whole")
            uses = iter([True] * 99)
            with self.assertRaisesRegex(NotRead, "in use"):
                at_rest(reader, find)
