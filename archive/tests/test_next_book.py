"""What hall-next carries into the next book, its name, its plan and settings."""

import os
import sys
import unittest

HERE = os.path.dirname(os.path.realpath(__file__))
sys.path.insert(0, f"{HERE}/../../deploy")

import next_book  # noqa: E402
from next_book import Lane, Unfit  # noqa: E402

# as `hall list` printed it
LIST = """\
day 2026-12-01
product rice250 nominal 250.000 g tare 10.000
product oil nominal 500.000 ml tare 20.000
product new nominal 100.000 g tare none
tare rice250 from 2027-01-01 10.500
batch A product rice250 state drawn population 1
batch B product oil state closed population 7
lane 1 batch A
desk 101 request 4
rows 12 left 999988
"""
ARCHIVE = """\
database = "sqlite:////var/lib/hall-archive/archive.db"

# those that are followed
[[book]]
hall = "main"
name = "2026-11"

[[book]]
hall = "main"
name = "2026-12"
door = 8475
"""


class Carried(unittest.TestCase):
    def test_script(self) -> None:
        self.assertEqual(
            next_book.script_of(LIST),
            "day 2026-12-01\nproduct rice250 250.000\ntare rice250 2026-12-01 10.000\n"
            "product oil 500.000 ml\ntare oil 2026-12-01 20.000\nproduct new 100.000\n"
            "tare rice250 2027-01-01 10.500\n",
        )
        self.assertEqual(next_book.script_of("day none\nrows 0 left 9\n"), "")

    def test_difference(self) -> None:
        other = LIST.replace("rows 12", "rows 7").replace("desk 101 request 4\n", "")
        self.assertEqual(next_book.difference(LIST, other), "")
        self.assertIn("10.500", next_book.difference(LIST, LIST.replace("10.500", "10.600")))
        gone = LIST.replace("tare rice250 from 2027-01-01 10.500\n", "")
        self.assertIn("lacks", next_book.difference(LIST, gone))

    def test_open_batches(self) -> None:
        self.assertEqual(next_book.still_open(LIST), ["A"])
        summary = "rows 5\nbatches running 1 ended 0 drawn 2 closed 9\n"
        self.assertEqual(next_book.open_in(summary), 3)


class Names(unittest.TestCase):
    def test_names(self) -> None:
        name = next_book.next_name
        self.assertEqual(name("2026-12", "2027-01", set()), "2027-01")
        self.assertEqual(name("2026-12", "2026-12", set()), "2026-12b")
        self.assertEqual(name("2026-12c", "2026-12", set()), "2026-12d")
        self.assertEqual(name("2026-12c", "2027-01", {"2027-01"}), "2026-12d")
        self.assertEqual(name("juice", "2027-01", set()), "juice-2")
        self.assertEqual(name("juice-2", "2027-01", {"juice-3"}), "juice-4")
        self.assertEqual(name("2026-12z", "2026-12", set()), "2026-12zb")
        self.assertEqual(name("2026-12zz", "2026-12", {"2026-12zzb"}), "2026-12zzc")
        with self.assertRaises(Unfit):
            name("x", "2026-12", {f"x-{at}" for at in range(2, 2_000)})


class Plans(unittest.TestCase):
    def test_plan(self) -> None:
        lanes = next_book.lanes_of("1 batch MORNING\n2 changes\n3 batch MORNING\n")
        self.assertEqual(lanes, [Lane(1, "MORNING"), Lane(2, ""), Lane(3, "MORNING")])
        self.assertEqual(
            next_book.plan_of(lanes, {"MORNING": "oil 912.500"}, "1000"),
            'setup = """\n@164 1 open MORNING oil 912.500\n"""\nreserve = 1000\n'
            '\n[[lane]]\nnumber = 1\nbatch = "MORNING"\n'
            "\n[[lane]]\nnumber = 2\nchanges = true\n"
            '\n[[lane]]\nnumber = 3\nbatch = "MORNING"\n',
        )
        self.assertEqual(next_book.plan_of([], {}, ""), "")
        self.assertEqual(next_book.reserve_of("setup = ''\nreserve = 5_000\n"), "5_000")

    def test_settings(self) -> None:
        text = 'gate = "/run/hall-2026-12/gate-1.txt"\nother = "/run/hall-2026-12b/gate-1.txt"\n'
        wanted = 'gate = "/run/hall-N/gate-1.txt"\nother = "/run/hall-2026-12b/gate-1.txt"\n'
        self.assertEqual(next_book.moved(text, "2026-12", "N"), wanted)
        self.assertEqual(next_book.moved("a = '/run/hall/x/s'", "x", "y"), "a = '/run/hall/y/s'")
        self.assertEqual(next_book.setting("LANES=1\nDOORS=3\n", "DOORS", 2), 3)
        self.assertEqual(next_book.setting("LANES=1\n", "DOORS", 2), 2)

    def test_numbers(self) -> None:
        text = (
            'book = "2026-12"\nfile = "/var/lib/hall/2026-12.book"\nother = "/x/2026-12b.book"\n'
            "list = '/run/hall/2026-12/list.txt'\nstatus = ['hall-status', '2026-12']\n"
        )
        wanted = (
            'book = "N"\nfile = "/var/lib/hall/N.book"\nother = "/x/2026-12b.book"\n'
            "list = '/run/hall/N/list.txt'\nstatus = ['hall-status', 'N']\n"
        )
        self.assertEqual(next_book.metrics_moved(text, "2026-12", "N"), wanted)

    def test_archive(self) -> None:
        found = next_book.archive_moved(ARCHIVE, "2026-12", "2027-01")
        self.assertTrue(
            found.endswith('\n[[book]]\nhall = "main"\nname = "2027-01"\ndoor = 8475\n')
        )
        self.assertEqual(found.count("door"), 1)
        self.assertEqual(found.count('"2026-12"'), 1)
        self.assertEqual(next_book.archive_moved(found, "2026-12", "2027-01"), found)
        self.assertEqual(next_book.archive_moved(ARCHIVE, "2025-01", "2027-01"), ARCHIVE)

    def test_address(self) -> None:
        conf = (
            "# The hall of the book day at the front, as hall-site wrote it: hall-site day a.b\nx\n"
        )
        self.assertEqual(next_book.address_of(conf, "day"), "a.b")
        self.assertEqual(next_book.address_of(conf, "da"), "")


if __name__ == "__main__":
    unittest.main()
