"""The witness: lines that are chained, and hold against a book's shipment."""

import hashlib
import io
import os
import tempfile
import unittest

from small_book import LINES

from hall_archive.rows import bytes_of, read_text
from hall_archive.witness import (
    Differs,
    Held,
    Running,
    Witness,
    check,
    fingerprint,
    fingerprinted,
    read_lines,
    read_shipment,
    without_newest,
)

ROWS = [bytes_of(entry) for entry in read_text(LINES, 0)]
BODY = b"".join(ROWS)
MOMENT = 1_764_585_125_250
UTC = "2025-12-01T10:32:05Z"


class Lines(unittest.TestCase):
    """A file of lines."""

    def setUp(self) -> None:
        self.folder = tempfile.TemporaryDirectory()
        self.path = f"{self.folder.name}/witness"
        self.addCleanup(self.folder.cleanup)

    def write(self) -> list[str]:
        """Three lines, of 5, 12 and 17 rows, the second by a witness that was begun again."""
        witness, running, said = Witness(self.path), Running(), []
        for place, rows in enumerate((5, 12, 17)):
            running.add(ROWS[running.rows : rows])
            audit = fingerprint(rows, ROWS[:rows]) if rows == 12 else ""
            said.append(witness.append(MOMENT + 60_000 * place, rows, running.hex(), audit))
            witness = Witness(self.path)
        return said

    def test_held_rows(self) -> None:
        held, running = Held(), Running()
        for rows in (5, 5, 12, 17):
            held.add(ROWS[held.rows : rows])
            held.go_on(running, rows)
            self.assertEqual(running.hex(), hashlib.sha256(BODY[: rows * 96]).hexdigest())
            self.assertEqual((held.rows, running.rows), (rows, rows))
        for rows in (1, 12, 17):
            head = b"AQHSHIP2" + rows.to_bytes(4, "little") + bytes(4)
            due = hashlib.sha256(head + BODY[: rows * 96]).hexdigest()
            self.assertEqual(held.fingerprint(rows), due)

    def test_the_line_with_a_fingerprint_of_a_row(self) -> None:
        self.assertIsNone(fingerprinted(self.path, 1))
        said = self.write()
        with open(self.path, "a", encoding="ascii") as file:
            file.write("2025-12-01T")
        for row, line in ((1, said[1]), (12, said[1])):
            self.assertEqual(str(fingerprinted(self.path, row)), line)
        self.assertIsNone(fingerprinted(self.path, 13))
        with open(self.path, "a", encoding="ascii") as file:
            file.write("\n")
        self.assertRaises(Differs, fingerprinted, self.path, 1)

    def test_what_a_line_says(self) -> None:
        first, second, _ = self.write()
        digest = hashlib.sha256(BODY[: 5 * 96]).hexdigest()
        self.assertEqual(first, f"{UTC} 5 {digest} {'0' * 64}")
        before = hashlib.sha256(first.encode()).hexdigest()
        head = b"AQHSHIP2" + bytes([12, 0, 0, 0, 0, 0, 0, 0])
        audit = hashlib.sha256(head + BODY[: 12 * 96]).hexdigest()
        digest = hashlib.sha256(BODY[: 12 * 96]).hexdigest()
        self.assertEqual(second, f"2025-12-01T10:33:05Z 12 {digest} {before} {audit}")

    def text(self) -> str:
        with open(self.path, encoding="ascii") as file:
            return file.read()

    def test_it_holds(self) -> None:
        self.write()
        self.assertEqual(check(read_lines(self.text()), BODY), 1)

    def test_a_cut_last_line_is_taken_off(self) -> None:
        self.write()
        text = self.text()
        os.truncate(self.path, len(text) - 9)
        witness = Witness(self.path)
        self.assertEqual([line.rows for line in witness.lines], [5, 12])
        witness.append(MOMENT, 17, hashlib.sha256(BODY).hexdigest())
        self.assertEqual(check(read_lines(self.text()), BODY), 1)

    def test_each_changed_row_is_found(self) -> None:
        self.write()
        lines = read_lines(self.text())
        for row in range(17):
            for place in (1, 14, 95):
                spoiled = bytearray(BODY)
                spoiled[96 * row + place] ^= 1
                number = 1 if row < 5 else 2 if row < 12 else 3
                with self.assertRaisesRegex(Differs, f"^line {number} "):
                    check(lines, bytes(spoiled))

    def test_a_cut_book_and_rows_in_another_order(self) -> None:
        self.write()
        lines = read_lines(self.text())
        for rows in (0, 4, 11, 16):
            with self.assertRaisesRegex(Differs, f"the book {rows}$"):
                check(lines, BODY[: 96 * rows])
        with self.assertRaises(Differs):
            check(lines, b"".join([ROWS[1], ROWS[0], *ROWS[2:]]))
        self.assertEqual(check(lines, BODY + bytes(96)), 1)

    def test_the_newest_row_of_a_book_in_use_waits(self) -> None:
        self.write()
        lines = read_lines(self.text())
        for rows, due in ((16, 2), (17, 3), (15, 3)):
            self.assertEqual(len(without_newest(lines, BODY[: 96 * rows])), due)

    def test_changed_lines_are_found(self) -> None:
        self.write()
        good = self.text()
        first, second, third = good.splitlines()
        other = second[:-1] + ("0" if second[-1] != "0" else "1")
        for text in (
            good.replace("10:32:05", "10:32:06"),
            f"{second}\n{third}\n",
            f"{first}\n{third}\n",
            f"{first}\n{third}\n{second}\n",
            good.replace(" 12 ", " 11 "),
            f"{first}\n{other}\n{third}\n",
            good + "no line\n",
        ):
            with self.assertRaises(Differs, msg=text):
                read_lines(text)
        # the last line alone can be changed under its chain: then the book contradicts it
        for text in (f"{first}\n{other}\n", good.replace(" 17 ", " 16 ")):
            with self.assertRaises(Differs):
                check(read_lines(text), BODY)

    def test_shipments(self) -> None:
        head = b"AQHSHIP2" + bytes([17, 0, 0, 0, 0, 0, 0, 0])
        self.assertEqual(read_shipment(io.BytesIO(head + BODY)), BODY)
        for bad in (
            head,
            head + BODY[:-1],
            head + BODY + b"0",
            BODY,
            b"",
            head[:12] + b"\1" + BODY,
        ):
            with self.assertRaises(Differs):
                read_shipment(io.BytesIO(bad))
