"""The appendix to a paper: a test in figures, hours and reasons of rows, which evidence is its."""

import json
import unittest
from typing import Any

from memory_archive import kept
from small_book import LINES

from hall_archive import appendix, evidence, reference
from hall_archive.appendix import Facts, Hour, Hours
from hall_archive.evidence import Record
from hall_archive.reference import Plan, lines_of, mean_line, plan_of

MORE = """\
18 ok\tdoor 2\t@102 4 measure 9 262.000
19 ok\tdoor 2\t@102 5 measure 11 250.900
20 released\tdoor 2\t@102 6 close A
"""


class Figures(unittest.TestCase):
    """Plans by the tables of docs/RULES.md; means worked out by hand."""

    def test_plans(self) -> None:
        for count, mode, plan in (
            (39, "keep", Plan(39, 0, 1, 0, 0, 39, 0)),
            (99, "keep", Plan(99, 2, 3, 0, 0, 99, 0)),
            (100, "keep", Plan(30, 1, 3, 30, 4, 30, 503)),
            (501, "keep", Plan(50, 2, 5, 50, 6, 50, 379)),
            (3_201, "keep", Plan(80, 3, 7, 80, 8, 50, 379)),
            (3_201, "destroy", Plan(20, 1, 2, 0, 0, 20, 640)),
        ):
            self.assertEqual(plan_of(count, mode), plan, (count, mode))

    def test_means(self) -> None:
        # 249, 251, 250, 250: the squares add to 2, s is the root of 2/3
        contents = [249_000, 251_000, 250_000, 250_000]
        said = mean_line(contents, 250_000, 0, 503)
        self.assertEqual(said, "mean 250.000 s 0.816 limit 249.589")
        # 515 and 516.03 g at 1.03 kg a litre are 500 and 501 ml
        said = mean_line([515_000, 516_030], 500_000, 1_030_000, 0)
        self.assertEqual(said, "mean 500.500 s 0.707 limit 500.000")
        self.assertEqual(mean_line([7], 5_000, 0, 0), "mean 0.007 s 0.000 limit 5.000")

    def test_a_batch(self) -> None:
        # contents by 10.2 g: 251.8, 251.8 and 240.7, of which the last is short; in drawing order
        # of word 1 the mean is the same
        batch = kept(LINES + MORE).batch("A")
        plan, contents, mean = lines_of(batch)
        self.assertEqual(
            plan,
            "plan keep population 3 first 3 c1 0 r1 1 second 0 c2 0 mean-of 3 k 0.000",
        )
        self.assertEqual((contents, mean), ("contents d1 1", "mean 248.100 s 6.409 limit 250.000"))

    def test_an_undrawn_batch(self) -> None:
        text = "".join(LINES.splitlines(keepends=True)[:5])
        self.assertEqual(lines_of(kept(text).batch("A")), ["plan none"])


class Rows(unittest.TestCase):
    """Hours, persons and reasons."""

    def test_hours(self) -> None:
        persons: dict[int, list[Any]] = {
            4: ["anna", 'a "torn" bag\n', 1_000, 1_040],
            5: ["ben", None, 2_000, 2_001],
        }
        answers = [(5, None, 900, 1), (8, 900, 1_050, 0)]
        hours = Hours(answers, persons)
        self.assertEqual(hours.of(3), Hour(None, 900, "late"))
        self.assertEqual(hours.of(8), Hour(900, 1_050, "live"))
        self.assertEqual(hours.of(9), Hour(None, None, "-"))
        utc = "1970-01-01T00:00:0"
        self.assertEqual(
            str(hours.of(4)), f'{utc}1.000Z {utc}1.040Z front "anna" "a \\"torn\\" bag\\n"'
        )
        self.assertEqual(str(hours.of(5)), f'{utc}2.000Z {utc}2.001Z front "ben" -')

    def test_the_whole(self) -> None:
        archive = kept(LINES + MORE)
        batch = archive.batch("A")
        facts = Facts("main", "day", ["program hall - -"], "p", "a", None, [])
        text = appendix.compose(batch, facts, archive.entries()[3:], Hours([], {}))
        lines = text.splitlines()
        self.assertEqual((lines[0], lines[-1]), ("appendix 1", f"end {len(lines) - 1}"))
        rows = [line.partition("\t")[2] for line in lines if line.startswith("row ")]
        self.assertEqual(
            "".join(f"{row}\n" for row in rows), (LINES + MORE).partition("10.000\n")[2]
        )
        out = [line.split(",")[0] for line in lines if line.startswith("out ")]
        self.assertEqual(out, ["out 7", "out 8", "out 10"])
        self.assertIn("limits tne 9.000 t1 241.000 t2 232.000", lines)
        self.assertIn("witness -", lines)


def record(kind: str, subject: str, moment: int) -> Record:
    return evidence.chained("main", kind, subject, moment, "ben", '{"result": "good"}', "0" * 64)


class Evidence(unittest.TestCase):
    """The newest of before, and all up to the closing."""

    def test_of_a_batch(self) -> None:
        due = [record("scale", "two", 20), record("scale", "one", 90), record("tare", "rice", 50)]
        due += [record("scale", "one", 110), record("density", "rice", 200)]
        others = [
            record("scale", "one", 10),
            record("tare", "rice", 5),
            record("tare", "oats", 120),
        ]
        others += [record("scale", "one", 201)]
        records = sorted([*due, *others], key=lambda one: one.moment)
        found = appendix.of_batch(records, "rice", 100, 200)
        self.assertEqual(sorted(found), sorted(due))

    def test_a_line(self) -> None:
        one = record("scale", "two", 20)
        head, _, said = appendix.evidence_line(one).partition(" {")
        self.assertEqual(head, 'evidence scale two 1970-01-01T00:00:00.020Z good "ben"')
        self.assertEqual(json.loads("{" + said), one._asdict())
        self.assertEqual(reference.ONE_IN, 40)
