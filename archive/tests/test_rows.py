"""The lines of a book, and the bytes of its rows."""

import unittest

from small_book import LINES

from hall_archive.rows import (
    BadRow,
    Draw,
    Entry,
    Measure,
    Open,
    Product,
    Weigh,
    bytes_of,
    line_of,
    read_line,
    read_text,
)


class Lines(unittest.TestCase):
    """Lines are read as they are spelled."""

    def test_each_line_comes_back(self) -> None:
        for line in LINES.splitlines():
            self.assertEqual(line_of(read_line(line)), line)

    def test_what_lines_say(self) -> None:
        for line, entry in (
            (
                "11 reject inadequate\tlane 3\tweigh 3 0.500 unknown",
                Entry(11, "reject inadequate", 3, 0, 0, Weigh(3, 500, "unknown")),
            ),
            (
                "2 ok\tdoor 16\t@164 9 product j 330.500 ml",
                Entry(2, "ok", 32, 164, 9, Product("j", 330_500, True)),
            ),
            (
                "4 ok\tcaller 300\topen B j 998.200",
                Entry(4, "ok", 300, 0, 0, Open("B", "j", 998_200)),
            ),
            (
                "9 ok\tscript\tdraw B destroy 18446744073709551615",
                Entry(9, "ok", 0, 0, 0, Draw("B", "destroy", 2**64 - 1)),
            ),
            (
                "10 ok\tdoor 1\t@101 2 measure 7 262.000 11.250",
                Entry(10, "ok", 17, 101, 2, Measure(7, 262_000, 11_250)),
            ),
        ):
            self.assertEqual(read_line(line), entry)
            self.assertEqual(line_of(entry), line)

    def test_what_is_no_line(self) -> None:
        for line in (
            "",
            "6 pass",
            "6 pass\tlane 1\tweigh 1 262.0 none",
            "6 pass\tlane 1\tweigh 1 262.000",
            "6 pass\tlane 1\tweigh 1 262.000 none ",
            "6 pass\tlane 01\tstop 1 none",
            "06 ok\tscript\tday 2025-03-03",
            "6 ok\tscript\tday 2025-3-3",
            "6 ok\tscript\tday  2025-03-03",
            "6 ok\tnobody\tday 2025-03-03",
            "6 ok\tscript\t@0 0 day 2025-03-03",
            "6 ok\tscript\tdance 1",
            "6 ok\tscript\tvoid 5\tmore",
        ):
            with self.assertRaises(BadRow, msg=line):
                read_line(line)

    def test_rows_have_no_gap(self) -> None:
        self.assertEqual(len(read_text(LINES, 0)), 17)
        for text, after in (
            (LINES, 1),
            (LINES.replace("7 pass", "8 pass"), 0),
            (LINES[:-1], 0),
            ("\n", 0),
        ):
            with self.assertRaises(BadRow):
                read_text(text, after)


class Bytes(unittest.TestCase):
    """Rows in bytes: the two that FORMATS spells out, and fields by its table."""

    def same(self, line: str, begin: str) -> None:
        self.assertEqual(bytes_of(read_line(line)), bytes.fromhex(begin).ljust(96, b"\0"))

    def test_rows_of_formats(self) -> None:
        self.same("1 ok\tscript\tday 2025-03-03", "01 01 01000000 0000 0000 00000000 b64e0000")
        self.same(
            "6 pass\tscript\tweigh 1 251.000 none",
            "01 06 06000000 0000 0000 00000000 01 78d40300 00 00",
        )

    def test_other_rows(self) -> None:
        self.same(
            "4 ok\tscript\topen A rice 1000.000",
            "01 04 04000000 0000 0000 00000000 01 41"
            + "00" * 31
            + "04 72696365"
            + "00" * 28
            + "40420f00",
        )
        self.same(
            "9 reject allowance\tlane 2\tweigh 2 251.000 unknown",
            "01 06 09000000 0200 0000 00000000 02 78d40300 03 04",
        )
        self.same(
            "12 ok\tdoor 1\t@101 7 draw A destroy 258",
            "01 0a 0c000000 1100 6500 07000000 01 41" + "00" * 31 + "02 0201000000000000",
        )
        self.same(
            "12 ok\tdoor 1\t@101 7 measure 6 0.258 0.001",
            "01 0b 0c000000 1100 6500 07000000 06000000 02010000 01000000",
        )
