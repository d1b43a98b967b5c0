"""Who acted: lines of the front, tied to rows by the row that was answered."""

import json
import os
import tempfile
import unittest

from small_book import LINES

from hall_archive.people import Log, Place, Tied, read_line, tie, tie_lines
from hall_archive.rows import Entry, read_text

ENTRIES = {entry.row: entry for entry in read_text(LINES, 0)}


def line(row: int, request: int, **more: object) -> str:
    """A line as nginx writes it, of desk 101 and an act `void`."""
    body = {"act": "void", "desk": 101, "request": request, "pack": 10} | more
    said = {"time": "1764590000.250", "took": "0.012", "book": "day", "person": "anna"}
    return json.dumps(said | {"status": "200", "row": str(row), "body": json.dumps(body)})


def changed(text: str, **more: object) -> str:
    return json.dumps(json.loads(text) | more)


class Lines(unittest.TestCase):
    """What a line says."""

    def test_an_act_with_its_reason(self) -> None:
        reason = 'the "bag" \\ is torn\n\u00e4\U0001f35a'
        found = read_line(line(13, 2, reason=reason), "day")
        assert found
        self.assertEqual((found.row, found.person, found.desk), (13, "anna", 101))
        self.assertEqual((found.request, found.act, found.reason), (2, "void", reason))
        self.assertEqual((found.low, found.high), (1764590000238, 1764590000250))

    def test_what_is_no_accepted_act_of_the_book(self) -> None:
        good = line(13, 2)
        for text in (
            changed(good, status="409"),
            changed(good, status="401", body=""),
            changed(good, book="other"),
            changed(good, row=""),
            changed(good, body="{"),
            changed(good, body="[]"),
            good[:-2],
            "",
            "[]",
            "7",
        ):
            self.assertIsNone(read_line(text, "day"), text)

    def test_reasons(self) -> None:
        for given, kept in (("", None), ("  ", None), (7, None), (["x"], None), ("a", "a")):
            found = read_line(line(13, 2, reason=given), "day")
            self.assertEqual(found and found.reason, kept)
        found = read_line(line(13, 2, reason="a" * 900), "day")
        self.assertEqual(found and found.reason, "a" * 500)


class Acts:
    """The acts of the small book."""

    def acts_at(self, rows: list[int]) -> dict[int, Entry]:
        return {row: ENTRIES[row] for row in rows if row in ENTRIES}

    def act_of(self, desk: int, request: int, upto: int) -> Entry | None:
        of = (desk, request)
        found = [
            one for row, one in ENTRIES.items() if (one.desk, one.request) == of and row <= upto
        ]
        return found[0] if found else None


class Ties(unittest.TestCase):
    """Row, desk, request and act have to be one."""

    def tied(self, row: int, request: int, **more: object) -> Tied:
        found = read_line(line(row, request, **more), "day")
        assert found
        return tie(found, ENTRIES.get(row), Acts())

    def test_ties(self) -> None:
        first = self.tied(13, 2)
        self.assertEqual(
            (first.row, first.hour, first.fault), (13, (1764590000238, 1764590000250), "")
        )
        self.assertEqual(self.tied(4, 1, act="open_at").fault, "")
        cases: list[tuple[int, int, dict[str, object]]] = [
            (13, 3, {}),
            (13, 2, {"desk": 102}),
            (13, 2, {"act": "tare"}),
            (12, 2, {}),
            (400, 9, {}),
        ]
        for row, request, more in cases:
            self.assertNotEqual(self.tied(row, request, **more).fault, "")

    def test_a_repeat_is_answered_with_the_length_of_the_book(self) -> None:
        for row in (14, 15, 400):
            again = self.tied(row, 2)
            self.assertEqual((again.row, again.hour, again.fault), (13, None, ""))

    def test_rows_that_arent_taken_yet_wait(self) -> None:
        lines = [line(13, 2), "no line", line(14, 3, act="tare"), line(13, 2)]
        tied, waiting = tie_lines(lines, "day", 13, Acts())
        self.assertEqual([one.row for one in tied], [13, 13])
        self.assertEqual(waiting, [lines[2]])


class Logs(unittest.TestCase):
    """A log that grows, is cut in the midst of a line, and is turned."""

    def test_a_log(self) -> None:
        with tempfile.TemporaryDirectory() as folder:
            path = f"{folder}/acts.log"
            log = Log(path, Place(0, 0))
            self.assertEqual(log.lines(), ([], Place(0, 0)))
            found = []
            for text in ("a\nb", "c\n", "", "d\n"):
                with open(path, "a", encoding="utf-8") as file:
                    file.write(text)
                lines, log.place = log.lines()
                found += lines
            self.assertEqual(found, ["a", "bc", "d"])
            with open(path, "a", encoding="utf-8") as file:
                file.write("e\n")
            os.rename(path, f"{path}.1")
            with open(path, "w", encoding="utf-8") as file:
                file.write("f\n")
            for _ in range(3):
                lines, log.place = log.lines()
                found += lines
            self.assertEqual(found, ["a", "bc", "d", "e", "f"])
            with open(path, "w", encoding="utf-8") as file:
                file.write("")
            log.place = log.lines()[1]
            with open(path, "a", encoding="utf-8") as file:
                file.write("g\n")
            self.assertEqual(log.lines()[0], ["g"])
