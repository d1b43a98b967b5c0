#!/usr/bin/env python3
"""Tests of `inspector/hall-count`: books and logs whose gaps were worked out by hand, and input
that is refused. No program is needed.

usage: tests/openings.py
"""

import os
import subprocess
import sys
import tempfile
import unittest

TOP = os.path.join(os.path.dirname(os.path.abspath(__file__)), "..")
COUNT = f"{TOP}/inspector/hall-count"


def book(*acts: tuple[str, str]) -> str:
    """A book as text: the answer and the line of each row."""
    rows = enumerate(acts, 1)
    return "".join(f"{row} {answer}\tlane 1\t{line}\n" for row, (answer, line) in rows)


GOOD = book(
    ("ok", "start 1 A"),
    ("pass", "weigh 1 260.000 none"),
    ("pass", "weigh 1 260.000 opened"),
    ("reject inadequate", "weigh 1 200.000 opened"),
    ("pass", "weigh 1 260.000 none"),
    ("ok", "stop 1 opened"),
)
BROKEN = book(
    ("pass", "weigh 1 260.000 none"),
    ("pass", "weigh 1 260.000 stayed"),
    ("pass", "weigh 2 260.000 none"),
    ("ok", "stop 1 unknown"),
    ("ok", "@101 1 void 1"),
    ("pass", "weigh 2 261.000 opened"),
)


class Openings(unittest.TestCase):
    def count(self, text: str, *words: str, log: str | None = None) -> tuple[list[str], int]:
        """What it prints of a book, with a log of the gates, and its status."""
        with tempfile.NamedTemporaryFile("w", encoding="utf-8") as file:
            file.write(log or "")
            file.flush()
            given = [*words, "--gate", file.name] if log is not None else [*words]
            ran = subprocess.run(
                [sys.executable, COUNT, *given], input=text, capture_output=True, text=True
            )
        return ran.stdout.splitlines() or ran.stderr.splitlines(), ran.returncode

    def test_all_left(self) -> None:
        line = "lane 1 passed 3 opened 3 stayed 0 unknown 0 unsettled 0"
        log = "10:00:01 open 2\nopen 3\n2026-12-01 10:00:03.250 open 5\n"
        self.assertEqual(self.count(GOOD), ([line], 0))
        self.assertEqual(self.count(GOOD, "--counter", "1=3", log=log), ([line], 0))

    def test_gaps_of_the_book(self) -> None:
        lines = [
            "lane 1 passed 2 opened 0 stayed 1 unknown 1 unsettled 0",
            "lane 2 passed 2 opened 1 stayed 0 unknown 0 unsettled 1",
            "pack 1 lane 1 stayed",
            "pack 2 lane 1 unknown",
            "pack 6 lane 2 unsettled",
        ]
        self.assertEqual(self.count(BROKEN), (lines, 1))

    def test_a_log_that_differs(self) -> None:
        log = "open 2\nopen 2\nopen 4\nopen 5\n"
        gaps = [
            "pack 3 lane 1 opened, not in the log",
            "pack 2 in the log 2 times",
            "pack 4 in the log, not passed",
        ]
        self.assertEqual(self.count(GOOD, log=log)[0][1:], gaps)
        self.assertIn("pack 2 lane 1 unknown, opened", self.count(BROKEN, log="open 2\n")[0])

    def test_counters(self) -> None:
        for seen, gaps in ((0, 0), (1, 0), (2, 1)):
            found = self.count(BROKEN, "--counter", f"1={seen}")[0][5:]
            self.assertEqual(found, [f"lane 1 counter {seen}, of 0 to 1"] * gaps)
        found = self.count(GOOD, "--counter", "1=2", "--counter", "7=1")[0]
        self.assertEqual(found[2:], ["lane 1 counter 2, of 3", "lane 7 counter 1, of 0"])

    def test_refused(self) -> None:
        faulty = ["--counter 0=1", "--counter 17=1", "--counter 1", "--gate /nowhere", "--other"]
        for words in faulty:
            self.assertEqual(self.count(GOOD, *words.split())[1], 2, words)
        for text in ("1 pass weigh 1 2 none\n", "x\n", "1 pass\tlane 1\tweigh 1 2.000 ajar\n"):
            self.assertEqual(self.count(text)[1], 2, text)
        self.assertEqual(self.count(GOOD, log="close 3\n")[1], 2)


if __name__ == "__main__":
    unittest.main()
