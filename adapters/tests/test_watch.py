"""Numbers of a hall: texts as docs/FORMATS.md has them, slots spelled by hand, metrics, alarms."""

import contextlib
import http.server
import io
import os
import tempfile
import threading
import time
import unittest
from typing import Any

from hall_adapter.alarms import Bound
from hall_adapter.book_rows import SLOT, BookRows
from hall_adapter.followers import ArchiveFollower
from hall_adapter.hall_texts import (
    Followed,
    batch_of_lane,
    behind_of,
    connections_of,
    followed_of,
    rows_of_list,
    sheet_of,
    summary_of,
)
from hall_adapter.lanes import Pack
from hall_adapter.messages import pack_message
from hall_adapter.metrics import Metrics, family_of, merged
from hall_adapter.readings import Note, Reading
from hall_adapter.watch import Watch
from hall_adapter.watch_settings import watched_of

SUMMARY = """rows 17
readings 5 gross 1253.900
passed 2 gross 522.000
rejected 3 gross 731.900
sampled 0 gross 0.000
voided 0 gross 0.000
batches running 1 ended 0 drawn 2 closed 0
"""
# 80 packs with 20 070 g of contents are 0.875 g above the nominal 250 g; two may lack something
SHEET = """batch MORNING product rice250 nominal 250.000 g tne 9.000
state running
readings 81 gross 21000.000
passed 80 gross 20870.000
rejected 1 gross 130.000
sampled 0 gross 0.000
voided 0 gross 0.000
population 80 net 20070.000 nonstandard 1 inadequate 0
held no
"""
# 40 packs of 9 800 g at 980 g a litre are 10 000 ml, 250 ml each: as much as the nominal
VOLUME = """batch J product juice nominal 250.000 ml tne 9.000 ml density 980.000
state running
readings 40 gross 1.000
population 40 net 9800.000 nonstandard 2 inadequate 1
held yes
"""
SOCKETS = """  sl  local_address rem_address   st tx_queue rx_queue tr tm->when
   0: 0100007F:2117 00000000:0000 0A 00000000:00000000 00:00000000 00000000     0        0 1
   1: 0100007F:2117 0100007F:D2F0 01 00000000:00000000 00:00000000 00000000     0        0 2
   2: 0100007F:D2F0 0100007F:2117 01 00000000:00000000 00:00000000 00000000     0        0 3
"""


# what the archive answers at /books
BOOKS = """[{"name": "main", "rows": 9, "asked": 1764642600500, "refused": null, "batches": 1,
"closed": 0}, {"name": "other", "rows": 5, "asked": null, "refused": "row 3 differs",
"batches": 1, "closed": 0}]"""


def slot(number: int, kind: int, lane: int = 0, signal: int = 0, gate: int = 1) -> bytes:
    """A row in its slot: its gate, kind, number, lane and signal, and zeros."""
    row = bytearray(SLOT)
    row[0], row[1], row[14], row[20] = gate, kind, lane, signal
    row[2:6] = number.to_bytes(4, "little")
    return bytes(row)


class Texts(unittest.TestCase):
    """What the office says."""

    def test_a_summary(self) -> None:
        counts, states = summary_of(SUMMARY)
        self.assertEqual((counts["rows"], counts["passed"], counts["rejected"]), (17, 2, 3))
        self.assertEqual(states, {"running": 1, "ended": 0, "drawn": 2, "closed": 0})

    def test_sheets(self) -> None:
        sheet = sheet_of(SHEET)
        self.assertEqual((sheet.population, sheet.allowance_left, sheet.inadequate), (80, 1, 0))
        self.assertAlmostEqual(sheet.margin or 0, 0.875)
        self.assertEqual(set(sheet.forecast().values()), {True})
        volume = sheet_of(VOLUME)
        self.assertAlmostEqual(volume.margin or 0, 0)
        said = {"average": True, "allowance": False, "inadequate": False}
        self.assertEqual((volume.forecast(), volume.is_held), (said, True))

    def test_lanes_copies_and_connections(self) -> None:
        self.assertEqual(batch_of_lane("lane 1 batch MORNING unsettled 9\n"), "MORNING")
        self.assertIsNone(batch_of_lane("lane 1 idle\n"))
        self.assertEqual(behind_of("book 9 rows, copy 8\nbook 12 rows, copy 8\nbook 13 r"), 4)
        self.assertIsNone(behind_of("the copy doesn't answer\n"))
        self.assertEqual(connections_of(SOCKETS, [8471, 8472]), {8471: 1, 8472: 0})

    def test_those_who_follow(self) -> None:
        self.assertEqual(rows_of_list("day 2026-12-02\nlane 1 batch A\nrows 17 left 9983\n"), 17)
        self.assertIsNone(rows_of_list("no book\n"))
        self.assertEqual(followed_of(BOOKS, "other"), Followed(5, None, True))
        self.assertEqual(followed_of(BOOKS, "main"), Followed(9, 1_764_642_600.5, False))
        self.assertIsNone(followed_of(BOOKS, "third"))


# What a book begins with.
HEADER = b"AQHBOOK2\x08" + bytes(SLOT - 9)


class Rows(unittest.TestCase):
    """A book's file."""

    def test_a_file_that_is_no_book(self) -> None:
        with tempfile.TemporaryDirectory() as folder:
            path = os.path.join(folder, "book")
            for content in (b"row,act\n", bytes(SLOT), b"AQHBOOK1" + bytes(88)):
                with open(path, "wb") as book:
                    book.write(content)
                with self.subTest(content=content), self.assertRaises(ValueError) as caught:
                    BookRows(path).read()
                self.assertIn("is no book", str(caught.exception))
            for content in (b"", HEADER[:4], HEADER):
                with open(path, "wb") as book:
                    book.write(content)
                rows = BookRows(path)
                rows.read()
                self.assertEqual(rows.rows, 0)

    def test_rows_as_they_come(self) -> None:
        with tempfile.TemporaryDirectory() as folder:
            path = os.path.join(folder, "book")
            slots = [slot(1, 1), slot(2, 6, 1, 0), slot(3, 6, 2, 3), slot(4, 6, 1, 0)]
            rows = BookRows(path)
            for count in range(1, 5):
                with open(path, "wb") as book:
                    book.write(HEADER + b"".join(slots[:count]) + slot(count + 1, 6, gate=0))
                rows.read()
                # the last open one may still be replaced
                self.assertEqual(rows.rows, count - 1)
            self.assertEqual(rows.packs, {(1, "pass"): 1, (2, "inadequate"): 1})
            rows.read()
            self.assertEqual(rows.rows, 3)

    def test_what_stands_behind_the_rows_isnt_read(self) -> None:
        with tempfile.TemporaryDirectory() as folder:
            path = os.path.join(folder, "book")
            with open(path, "wb") as book:
                book.write(HEADER + slot(1, 1) + slot(2, 1) + slot(9, 6, 1) + b"\x01cut")
            rows = BookRows(path)
            rows.read()
            self.assertEqual((rows.rows, rows.packs), (1, {}))


class Numbers(unittest.TestCase):
    """The text for Prometheus."""

    def test_text(self) -> None:
        metrics = Metrics(book='a"b')
        metrics.set("hall_rows", 17)
        metrics.add("hall_packs_total", signal="pass", lane="1")
        metrics.add("hall_packs_total", 2, signal="pass", lane="1")
        metrics.observe("hall_line_answer_seconds", 0.5)
        said = [line for line in metrics.text().splitlines() if not line.startswith("# HELP")]
        self.assertEqual(
            said,
            [
                "# TYPE hall_line_answer_seconds summary",
                'hall_line_answer_seconds_count{book="a\\"b"} 1',
                'hall_line_answer_seconds_sum{book="a\\"b"} 0.5',
                "# TYPE hall_packs_total counter",
                'hall_packs_total{book="a\\"b",lane="1",signal="pass"} 3',
                "# TYPE hall_rows gauge",
                'hall_rows{book="a\\"b"} 17',
            ],
        )

    def test_the_first_that_has_a_number(self) -> None:
        one = "# HELP hall_rows Rows.\n# TYPE hall_rows gauge\nhall_rows 1\n"
        other = "# TYPE hall_rows gauge\nhall_rows 2\nhall_up 1\nnonsense\n"
        self.assertEqual(merged([one, other]), one + "hall_up 1\nnonsense\n")
        self.assertEqual(family_of('a_sum{b="c"} 1'), "a")


class Answering(http.server.BaseHTTPRequestHandler):
    """An archive behind its front: it wants a login, and names the books."""

    login = "Basic d2F0Y2g6c2VjcmV0"

    def do_GET(self) -> None:
        is_known = self.headers["Authorization"] == self.login and self.path == "/archive/books"
        self.send_response(200 if is_known else 401)
        self.end_headers()
        if is_known:
            self.wfile.write(BOOKS.encode())

    def log_message(self, format: str, *args: object) -> None:
        """Says nothing."""


class Following(unittest.TestCase):
    """How far those who follow a book are behind."""

    def setUp(self) -> None:
        self.server = http.server.ThreadingHTTPServer(("127.0.0.1", 0), Answering)
        threading.Thread(target=self.server.serve_forever, daemon=True).start()
        self.addCleanup(self.server.server_close)
        self.addCleanup(self.server.shutdown)
        folder = tempfile.TemporaryDirectory()
        self.addCleanup(folder.cleanup)
        self.folder = folder.name
        self.write("login", "watch:secret\n")
        self.table: dict[str, Any] = {
            "book": "main",
            "listen": "127.0.0.1:1",
            "archive": {
                "url": f"http://127.0.0.1:{self.server.server_port}/archive/",
                "login": f"{self.folder}/login",
            },
        }

    def write(self, name: str, text: str) -> str:
        """A file of the folder."""
        path = os.path.join(self.folder, name)
        with open(path, "w", encoding="ascii") as file:
            file.write(text)
        return path

    def numbers(self, text: str) -> dict[str, float]:
        """The numbers of a text without their labels."""
        lines = [line for line in text.splitlines() if not line.startswith("#")]
        return {line.partition("{")[0]: float(line.split()[-1]) for line in lines}

    def test_the_archive(self) -> None:
        metrics = Metrics(book="main")
        ArchiveFollower(watched_of(self.table)).tell(metrics, 12)
        said = self.numbers(metrics.text())
        self.assertEqual((said["hall_archive_rows_behind"], said["hall_archive_answers"]), (3, 1))
        self.assertEqual(said["hall_archive_refused"], 0)
        age = time.time() - 1_764_642_600.5
        self.assertAlmostEqual(said["hall_archive_asked_age_seconds"], age, delta=5)

    def test_an_archive_that_lets_nobody_in(self) -> None:
        self.write("login", "watch:another\n")
        metrics = Metrics(book="main")
        with self.assertRaises(OSError):
            ArchiveFollower(watched_of(self.table)).tell(metrics, 12)
        self.assertEqual(self.numbers(metrics.text()), {"hall_archive_answers": 0})

    def test_each_follower_by_itself(self) -> None:
        self.table["list"] = self.write("list", "lane 1 batch A\nrows 2 left 8\n")
        self.table["file"] = os.path.join(self.folder, "book")
        self.table["copy"] = [
            {"name": "gone", "said": f"{self.folder}/nothing"},
            {"name": "there", "said": self.write("said", "book 9 rows, copy 7\n")},
        ]
        rows = b"".join(slot(number, 1) for number in range(1, 6))
        with open(str(self.table["file"]), "wb") as book:
            book.write(HEADER + rows)
        watch = Watch(watched_of(self.table))
        with contextlib.redirect_stderr(io.StringIO()) as errors:
            said = self.numbers(watch.take())
            watch.take()
        # a fault is told once, as long as it is the same
        self.assertEqual(errors.getvalue().count("copy gone"), 1)
        self.assertEqual(said["hall_copy_rows_behind"], 2)
        self.assertEqual((said["hall_rows"], said["hall_list_rows_behind"]), (4, 2))
        # the archive is ahead of what is known of the file
        self.assertEqual(said["hall_archive_rows_behind"], 0)
        self.assertEqual(list(watch.told), ["copy gone"])


class Alarming(unittest.TestCase):
    """How often an alarm is said."""

    def test_at_most_once_in_a_minute(self) -> None:
        bound = Bound(60)
        said = [bound.take(Note("gate", f"n{now}"), now) for now in (0, 10, 59, 60, 61)]
        self.assertEqual(said, ["n0", None, None, "n60 (and 2 more of gate before)", None])
        self.assertEqual(bound.take(Note("escaped", "e"), 1), "e")


class Messaging(unittest.TestCase):
    """What is said of a pack."""

    def test_a_pack(self) -> None:
        pack = Pack(3, Reading(262_500, 7, "RICE"), 0.0, row=9, let_out=True)
        said = {"pack": 3, "row": 9, "gross": 262.5, "signal": "pass", "opened": True}
        self.assertEqual(pack_message(pack, True), {**said, "counter": 7, "article": "RICE"})


if __name__ == "__main__":
    unittest.main()
