"""Papers, refused acts, and a month that was kept, spoiled in each of its parts."""

import json
import os
import shutil
import tempfile
import unittest

from memory_archive import kept
from small_book import LINES

from hall_archive import evidence, kept_folder, nets, papers, witness
from hall_archive.evidence import chained
from hall_archive.kept_folder import Differs
from hall_archive.papers import Drawn, NotDrawn, in_order, paper
from hall_archive.refused_lines import read_refused
from hall_archive.rows import bytes_of, read_text

MORE = """\
18 ok\tscript\t@102 4 measure 9 251.100
19 ok\tscript\t@102 5 measure 11 260.000
20 withheld contents mean average allowance\tscript\t@102 6 close A
"""
# as `hall paper` printed it of these rows
PAPER = """\
paper 1
batch A product rice250 nominal 250.000 unit g density 1000.000 row 20
tare 2025-03-03 10.200
pack 6 2025-03-03 262.000
pack 9 2025-03-03 251.100
pack 11 2025-03-03 260.000
mode keep word 1
first 11 gross 260.000 empty 0.000
first 9 gross 251.100 empty 0.000
first 6 gross 262.000 empty 0.000
verdict withheld contents mean average allowance
"""
# rows that moved packs of the book
MOVED = {7: 8, 10: 13, 6: 16, 9: 16, 11: 16}


def batch() -> nets.Batch:
    found = kept(LINES + MORE).batch("A")
    found.samples = [sorted(found.samples[0])]
    return found


class Papers(unittest.TestCase):
    def test_paper(self) -> None:
        found = batch()
        found.samples = in_order(found, MOVED, [Drawn(16, 1)])
        self.assertEqual(paper(found, 20), PAPER)

    def test_another_word(self) -> None:
        # all three packs are drawn by any word, in another order
        found = batch()
        self.assertNotEqual(in_order(found, MOVED, [Drawn(16, 2)]), [[11, 9, 6]])
        found.samples = [[6, 9, 10]]
        with self.assertRaises(NotDrawn):
            in_order(found, MOVED, [Drawn(16, 1)])

    def test_unmeasured(self) -> None:
        found = batch()
        del found.measured[9]
        self.assertEqual(papers.measured(found, "second", 9), "second 9 unmeasured")


class Refused(unittest.TestCase):
    def line(self, **more: object) -> str:
        body = {"act": "void", "desk": 101, "request": 4, "pack": 9}
        said = {"time": "1764585125.250", "took": "0.004", "book": "day", "person": "anna",
                "status": "409", "row": "17", "body": json.dumps(body)}  # fmt: skip
        return json.dumps(said | more)

    def test_refused(self) -> None:
        found = read_refused(self.line(), "day")
        assert found
        self.assertEqual(found[:3], (1_764_585_125_250, "anna", "void"))

    def test_others(self) -> None:
        number = json.dumps({"act": "void", "desk": 101, "request": 0})
        for line in (
            self.line(status="200"),
            self.line(book="other"),
            self.line(body=number),
            self.line(body="{"),
            "{}",
            "[]",
            "no line",
        ):
            self.assertIsNone(read_refused(line, "day"))


class Folder(unittest.TestCase):
    """A month that was kept."""

    def setUp(self) -> None:
        self.room = tempfile.mkdtemp()
        self.addCleanup(shutil.rmtree, self.room)
        self.folder = f"{self.room}/2025-03"
        body = b"".join(bytes_of(entry) for entry in read_text(LINES + MORE, 0))
        self.write("books/main.day.ship", b"AQHSHIP2" + b"\x14\0\0\0" + bytes(4) + body)
        digest = kept_folder.digest_of(f"{self.folder}/books/main.day.ship")
        self.write("books/main.day.audit", f"rows 20 whole\nsnapshot same\nsha256 {digest}\n")
        self.write("papers/main.day/A.txt", PAPER)
        os.makedirs(f"{self.folder}/witness")
        kept = witness.Witness(f"{self.folder}/witness/main.day.witness")
        running = witness.Running()
        for upto in (12, 20):
            running.add([body[running.rows * 96 : upto * 96]])
            kept.append(1_764_585_125_250, upto, running.hex())
        said = evidence.evaluate("scale", {"weights": [5], "shown": [5], "limit": 1})
        record = chained("main", "scale", "1", 9, "anna", said, evidence.FIRST)
        self.write("evidence/main.jsonl", json.dumps(record._asdict()) + "\n")
        kept_folder.write_digests(self.folder)

    def write(self, path: str, said: str | bytes) -> None:
        os.makedirs(os.path.dirname(f"{self.folder}/{path}"), exist_ok=True)
        with open(f"{self.folder}/{path}", "wb") as file:
            file.write(said.encode() if isinstance(said, str) else said)

    def test_holds(self) -> None:
        held = kept_folder.verify(self.folder)
        self.assertEqual(tuple(held), (5, 1, 20, 1, 2, 1))

    def differs(self, said: str) -> None:
        with self.assertRaisesRegex(Differs, said):
            kept_folder.verify(self.folder)

    def test_files(self) -> None:
        self.write("papers/main.day/B.txt", PAPER)
        self.differs("B.txt was added")
        os.remove(f"{self.folder}/papers/main.day/B.txt")
        os.remove(f"{self.folder}/papers/main.day/A.txt")
        self.differs("A.txt is gone")
        self.write("papers/main.day/A.txt", PAPER.replace("262", "263"))
        self.differs("A.txt was changed")
        os.remove(f"{self.folder}/DIGESTS")
        self.differs("can't be read")

    def spoil(self, path: str, said: str | bytes) -> None:
        """A change with its digest put right."""
        self.write(path, said)
        kept_folder.write_digests(self.folder)

    def test_what_is_in_them(self) -> None:
        with open(f"{self.folder}/books/main.day.ship", "rb") as file:
            shipped = file.read()
        self.spoil("books/main.day.ship", shipped[:22] + b"\x01" + shipped[23:])
        self.differs("rows are others")
        self.spoil("books/main.day.ship", shipped[:-96])
        self.differs("rows were to come")
        self.spoil("books/main.day.ship", shipped)
        self.spoil("papers/main.day/A.txt", PAPER.replace("row 20", "row 19"))
        self.differs("the paper of A is another's")
        os.rename(f"{self.folder}/papers/main.day/A.txt", f"{self.folder}/papers/main.day/B.txt")
        kept_folder.write_digests(self.folder)
        self.differs("1 papers of 1 closed")
        self.spoil("papers/main.day/A.txt", PAPER)
        os.remove(f"{self.folder}/papers/main.day/B.txt")
        with open(f"{self.folder}/evidence/main.jsonl", encoding="utf-8") as file:
            text = file.read()
        self.spoil("evidence/main.jsonl", text.replace("anna", "carl"))
        self.differs("record 1 isn't chained")

    def test_an_audit_of_another_book(self) -> None:
        self.spoil("books/main.day.audit", f"rows 20 whole\nsnapshot same\nsha256 {'0' * 64}\n")
        self.differs("aren't those that were audited")


if __name__ == "__main__":
    unittest.main()
