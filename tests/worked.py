#!/usr/bin/env python3
"""Runs worked days, and tables of words, lines, books, journals, imports, reports, trials and
plans, through the program: what it prints, its status, the rows of its book and the bytes of its
file. All of it was worked out by hand from docs/RULES.md and docs/FORMATS.md, the masses of the
trials by another program.

usage: tests/worked.py      (HALL names another program than the one that `./hall` builds)
"""

import os
import shutil
import signal
import socket
import subprocess
import sys
import tempfile
import time

from book_texts import ACTS_OF_FIVE, BOOK_TEXTS
from day_texts import read_days
from rows import rows_behind
from worked_tables import (
    BOOK, BOOK_PLACES, COPIES, DAMAGED, EMPTY_BATCH, EMPTY_PAPER, FIVE_ROWS, FOLLOWED, FOREIGN,
    GATE_PRIORS, GATES, IMPORTS, JOURNAL, JOURNALS, LANES, LINES, NEXT_DAY, OPENING, PACKS, PAPER,
    PATHS, PIPED, PLANS, PORTS, PRINTED, PROVED, REFUSED_PAPERS, RIGHT_WORDS, SETUPS, SHIPPED,
    SIXTH_ROW, Step, TRIALS, TRIAL_OF_TWO, USAGE, WRONG_WORDS)

HERE = os.path.dirname(os.path.realpath(__file__))
SECONDS = 120
wrong = []
compared = 0


def compare(what, found, wanted):
    """Takes down what differs."""
    global compared
    compared += 1
    if found != wanted:
        wrong.append(what)
        print(f"{what}:\n  found  {found!r}\n  wanted {wanted!r}", flush=True)


class Hall:
    """The program over a book in a folder."""

    def __init__(self, program, folder):
        self.program = program
        self.folder = folder
        self.book = f"{folder}/book"

    def ask(self, words, given=b"", book=True):
        """What a run says, and its status."""
        told = subprocess.run(
            [self.program, *words, *([f"--book={self.book}"] if book else [])], input=given,
            stdout=subprocess.PIPE, stderr=subprocess.PIPE, timeout=SECONDS, cwd=self.folder,
            check=False)
        return told.stdout.decode(), told.returncode

    def do(self, step):
        """One step: what it prints, how it ends, and how many rows there are then."""
        what = f"{' '.join(step.words)}, {step.given[:60]!r}"
        compare(what, self.ask(step.words, step.given), (step.printed, step.status))
        if step.rows is not None:
            compare(f"{what}, then check", self.ask(["check"]), (f"rows {step.rows} whole\n", 0))

    def bytes(self):
        with open(self.book, "rb") as book:
            return book.read()

    def put(self, content):
        with open(self.book, "wb") as book:
            book.write(content)

    def anew(self):
        """Takes the book away."""
        if os.path.exists(self.book):
            os.remove(self.book)


def changed(content, changes, length):
    """The front of some bytes, of which some are changed."""
    found = bytearray(content)
    for place, value in changes:
        found[place] = value
    return bytes(found[:length])


def days(hall):
    for day in read_days(f"{HERE}/days"):
        compare(day.title, hall.ask(day.words, day.script.encode(), book=False), (day.printed, 0))


def words(hall):
    """At wrong words one line goes out, and nothing is opened."""
    for words in WRONG_WORDS:
        compare(f"words {words}", hall.ask(words, NEXT_DAY.given, book=False), (USAGE, 2))
    for words in RIGHT_WORDS:
        hall.anew()
        two = NEXT_DAY.given + NEXT_DAY.given
        said, status = hall.ask(words, two, book=False)
        compare(f"words {words}", (said.split("rows")[0], status),
                ("1 ok\nrefused 5 BookFull 1 at 1\n", 0))


def lines(hall):
    for step in [*LINES, *PACKS]:
        hall.anew()
        hall.do(step)


def gates(hall):
    """What the rows say of the gate where the lines say nothing: it opened where the lane's last
    pack was passed since its last stop, whatever came on the other lane in between."""
    hall.anew()
    hall.do(GATES)
    told = {row.number: row for row in rows_behind(hall.book, 0)}
    for number, prior in GATE_PRIORS.items():
        compare(f"the gate in row {number}", told[number].act["prior"], prior)


def books(hall):
    """A book that is opened again; and its disk with bytes changed."""
    hall.anew()
    for step, places in zip(BOOK, BOOK_PLACES):
        hall.do(step._replace(rows=None))
        content = hall.bytes()
        for place, piece in places:
            compare(f"byte {place}", content[place : place + len(piece)], piece)
    six = hall.bytes()
    compare("bytes", len(six), 1152)
    for before, step, after in DAMAGED:
        hall.put(changed(six, *before))
        hall.do(step)
        compare(f"bytes behind {step.printed}", hall.bytes(), changed(six, *after))


def held(hall):
    """While a hall has the file, others write nothing: what adds rows fails, what adds none reads
    all rows but the newest."""
    hall.anew()
    hall.do(FIVE_ROWS)
    five = hall.bytes()
    first = subprocess.Popen([hall.program, "run", f"--book={hall.book}"], stdin=subprocess.PIPE,
                             stdout=subprocess.PIPE)
    first.stdin.write(SIXTH_ROW.given)
    first.stdin.flush()
    compare("the first hall", first.stdout.readline(), b"6 pass\n")
    written = hall.bytes()
    for command in ("run", "migrate", "serve", "import", "follow"):
        compare(f"{command} of a held book", hall.ask([command], SIXTH_ROW.given),
                ("disk fault\n", 6))
    compare("check of a held book", hall.ask(["check"]), ("rows 5 whole\n", 0))
    compare("acts of a held book", hall.ask(["acts"]), (ACTS_OF_FIVE, 0))
    for command in ("report", "export", "list"):
        compare(f"{command} of a held book", hall.ask([command])[1], 0)
    compare("a held book", hall.bytes(), written)
    first.stdin.close()
    compare("the first hall", first.wait(SECONDS), 0)
    first.stdout.close()
    hall.put(five)
    hall.do(SIXTH_ROW)


def paths(hall):
    """What is no file."""
    os.mkdir(f"{hall.folder}/folder")
    for path, why in PATHS:
        told = subprocess.run([hall.program, "run", "--book", path], input=b"", check=False,
                              capture_output=True, timeout=SECONDS, cwd=hall.folder)
        compare(f"the book {path!r}", (told.stdout, told.returncode, told.stderr.decode()),
                (b"disk fault\n", 6, f"hall: can't open {path}: {why}\n"))


def journals(hall):
    """A journal of version 1 is carried, as the script of its rows leaves a book; carried again it
    is the same, and a longer book stays as it is."""
    hall.anew()
    hall.do(FIVE_ROWS)
    five = hall.bytes()
    hall.anew()
    carried = Step(["migrate"], JOURNAL, "rows 5 whole\n", 0, 5)
    for _ in range(2):
        hall.do(carried)
        compare("the journal's book", hall.bytes(), five)
    hall.do(Step(["acts"], b"", ACTS_OF_FIVE))
    hall.do(SIXTH_ROW)
    six = hall.bytes()
    hall.do(carried._replace(printed="rows 6 whole\n", rows=6))
    compare("the longer book", hall.bytes(), six)
    for changes, length, step in JOURNALS:
        hall.anew()
        hall.do(step._replace(words=["migrate"], given=changed(JOURNAL, changes, length)))
    hall.anew()
    hall.do(NEXT_DAY)
    hall.do(carried._replace(printed="bad line 1\n", status=3, rows=1))
    hall.put(JOURNAL)
    compare("a journal as a book", hall.ask(["run"]), ("not a journal at 7\n", 8))
    compare("the journal", hall.bytes(), JOURNAL)


def ask_bytes(hall, words, given=b""):
    """What a run writes, and its status."""
    told = subprocess.run([hall.program, *words, f"--book={hall.book}"], input=given,
                          capture_output=True, timeout=SECONDS, cwd=hall.folder, check=False)
    return told.stdout, told.returncode


def copies(hall):
    """Shipments of a book, which stays as it is; and copies that follow them, whole or spoiled. A
    copy that followed is the book to the last byte, and goes on."""
    hall.anew()
    hall.do(FIVE_ROWS)
    five = hall.bytes()
    shipments = {}
    for words, head, length in SHIPPED:
        shipment, status = ask_bytes(hall, ["ship", *words])
        compare(f"ship {words}", (shipment[:16], len(shipment), status), (head, length, 0))
        compare(f"the rows of ship {words}", shipment[16:], five[96 * 6 - length + 16 : 96 * 6])
        shipments[int.from_bytes(head[12:16], "little")] = shipment
    compare("a book that was shipped", hall.bytes(), five)
    for held, after, changes, length, more, step in FOLLOWED:
        hall.anew()
        hall.ask(["run"], COPIES[held])
        shipment = shipments[after]
        kept = len(shipment) if length is None else length
        hall.do(step._replace(given=changed(shipment, changes, kept) + more))
    hall.anew()
    hall.ask(["run"], OPENING)
    hall.do(Step(["follow"], shipments[3][:207], "bad line 5\n", 3, 4))
    for shipment in (shipments[3], shipments[3], shipments[0]):
        hall.do(Step(["follow"], shipment, "rows 5 whole\n", 0, 5))
    compare("the copy", hall.bytes(), five)
    again = shipments[3] + shipments[0]
    hall.do(Step(["follow", "--shipments", "2"], again, "rows 5 whole\n", 0, 5))
    hall.do(Step(["follow"], again, "bad line 6\n", 3, 5))
    hall.do(Step(["follow", "--shipments=2"], again[:-1], "bad line 5\n", 3, 5))
    compare("the copy, again", hall.bytes(), five)
    hall.do(SIXTH_ROW)
    hall.do(Step(["follow"], shipments[0], "rows 6 whole\n", 0, 6))
    hall.anew()
    hall.do(NEXT_DAY)
    hall.do(Step(["follow"], shipments[0], "bad line 1\n", 3, 1))
    hall.anew()
    hall.do(Step(["follow", "--shipments=3"], shipments[0] + shipments[3], "rows 5 whole\n", 0, 5))
    compare("a copy of shipments that came at once", hall.bytes(), five)


def papers(hall):
    """Papers of closed batches, the refusals of others, and what is proved of papers."""
    for script, batch, paper in ((TRIAL_OF_TWO, "T1", PAPER), (EMPTY_BATCH, "A", EMPTY_PAPER)):
        hall.anew()
        hall.ask(["run"], script)
        before = hall.bytes()
        compare(f"the paper of {batch}", ask_bytes(hall, ["paper", "--batch", batch]), (paper, 0))
        compare("a book with a paper", hall.bytes(), before)
    for script, batch, refusal in REFUSED_PAPERS:
        hall.anew()
        hall.ask(["run"], script)
        hall.do(Step(["paper", f"--batch={batch}"], b"", refusal, 0))
    for step in PROVED:
        compare(f"prove {step.given!r}", hall.ask(step.words, step.given, book=False),
                (step.printed, step.status))
    long = PAPER.ljust(16_777_217, b"x")
    compare("a longer paper", hall.ask(["prove"], long, book=False), ("bad line 0\n", 3))
    compare("one as long as may be", hall.ask(["prove"], long[:-1], book=False),
            ("bad line 10\n", 3))


def printed(hall):
    """Reports, registers and texts, which leave the book as it was to the last byte."""
    for steps, questions in PRINTED + BOOK_TEXTS:
        hall.anew()
        for step in steps:
            hall.do(step)
        before = hall.bytes() if steps else None
        for step in questions:
            hall.do(step)
            if steps:
                compare(f"the book behind {step.words}", hall.bytes(), before)


def imports(hall):
    for steps in IMPORTS:
        hall.anew()
        for step in steps:
            hall.do(step)


def trials(hall):
    """A trial has a book of its own, in memory."""
    for step in TRIALS:
        compare(f"{step.words}", hall.ask(step.words, book=False), (step.printed, step.status))


def foreign(hall):
    """A file that is no book is left as it was."""
    for step in FOREIGN:
        content = bytes([0] * 3 + [ord("X")] + [0] * 125)
        hall.put(content)
        hall.do(step)
        compare(f"the file behind {step.words}", hall.bytes(), content)


def lanes(hall):
    """Lanes over files: the second pack is rejected; a gate writes behind what its file has; the
    second lane has no file for its cell."""
    hall.anew()
    hall.do(FIVE_ROWS)
    for cell, step, gate in LANES:
        if cell is not None:
            with open(f"{hall.folder}/cell-1.txt", "wb") as lines:
                lines.write(cell)
        hall.do(step._replace(words=[*step.words, f"--cells={hall.folder}"]))
        with open(f"{hall.folder}/gate-1.txt", "rb") as lines:
            compare(f"the gate behind {cell}", lines.read(), gate)


def pipes(hall):
    """A weight counts as soon as its line is there, though the pipe stays open; a bad line ends the
    work, and the next one goes on behind it."""
    hall.anew()
    hall.do(FIVE_ROWS)
    cell, gate = f"{hall.folder}/cell-1.txt", f"{hall.folder}/gate-1.txt"
    for path in (cell, gate):
        os.remove(path)
        os.mkfifo(path)
    told = subprocess.Popen([hall.program, "run", f"--book={hall.book}", "--lanes=1",
                             f"--cells={hall.folder}"], stdin=subprocess.PIPE,
                            stdout=subprocess.PIPE, stderr=subprocess.DEVNULL)
    told.stdin.write(b"work 1 A\nwork 1 A\n")
    told.stdin.close()
    opened = None
    with open(cell, "wb", buffering=0) as scale:
        for text, line in PIPED:
            for place in range(len(text)):
                scale.write(text[place : place + 1])
            # The hall opens its gate at the first pack that passes.
            opened = opened or open(gate, "rb", buffering=0)
            if line:
                compare(f"the gate behind {text}", opened.readline(), line)
        compare("the lane", told.stdout.readline(), b"lane 1 opened 3 bad 4\n")
        compare("the gate behind a bad line", opened.readline(), b"open 13\n")
    compare("the lane again", told.stdout.readline(), b"lane 1 opened 1 done\n")
    told.stdout.read()
    compare("its status", told.wait(SECONDS), 10)
    told.stdout.close()
    opened.close()


def said_at(port, text):
    """What a hall writes to a scale that says this at a port and sends no more."""
    for _ in range(100 * SECONDS):
        try:
            link = socket.create_connection(("127.0.0.1", port), timeout=SECONDS)
            break
        except ConnectionRefusedError:
            time.sleep(0.01)
    with link:
        link.sendall(text)
        link.shutdown(socket.SHUT_WR)
        return b"".join(iter(lambda: link.recv(4096), b""))


def ports(hall):
    """Lanes whose scale sends over a port, connection by connection."""
    gate = f"{hall.folder}/gate-1.txt"
    for links, line, status, opened in PORTS:
        hall.anew()
        hall.do(FIVE_ROWS)
        if os.path.exists(gate):
            os.remove(gate)
        with socket.create_server(("127.0.0.1", 0)) as door:
            port = door.getsockname()[1]
        told = subprocess.Popen([hall.program, "run", f"--book={hall.book}", "--lanes=1",
                                 f"--remote={port}", f"--cells={hall.folder}"],
                                stdin=subprocess.PIPE, stdout=subprocess.PIPE,
                                stderr=subprocess.DEVNULL)
        told.stdin.write(b"work 1 A\n")
        told.stdin.close()
        for text, heard in links:
            compare(f"what {text} is answered", said_at(port, text), heard)
        compare(f"the lane behind {links}", told.stdout.readline(), line)
        told.stdout.read()
        compare("its status", told.wait(SECONDS), status)
        told.stdout.close()
        with open(gate, "rb") as lines:
            compare(f"the gate behind {links}", lines.read(), opened)


def plans(hall):
    for words, step in PLANS:
        hall.anew()
        hall.do(step._replace(words=[*step.words, *words]))


def setups(hall):
    """What is said of acts of a setup that have no desk, and of those that are refused."""
    for word, given, why in SETUPS:
        told = subprocess.run([hall.program, word], input=given, check=False, capture_output=True,
                              timeout=SECONDS, cwd=hall.folder)
        compare(f"standard error of {given!r}", told.stderr.decode(), why)


def main():
    program = os.environ.get("HALL") or f"{HERE}/../crates/hall_cli/out/hall_cli"
    if "HALL" not in os.environ:
        subprocess.run([f"{HERE}/../hall", "run"], input=b"", stdout=subprocess.DEVNULL, check=True)
    folder = tempfile.mkdtemp(prefix="hall_worked.")
    signal.alarm(5 * SECONDS)
    hall = Hall(os.path.realpath(program), folder)
    for table in (days, words, lines, gates, books, held, paths, journals, copies, papers, printed,
                  imports, trials, foreign, lanes, pipes, ports, plans, setups):
        table(hall)
    shutil.rmtree(folder)
    print(f"worked: {compared} comparisons, {len(wrong)} came out otherwise")
    return 1 if wrong else 0


if __name__ == "__main__":
    sys.exit(main())
