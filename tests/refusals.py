"""Runs of a program with one call for memory refused, and what each left. For tests/memory.sh.

Which call it is tests/refuse.c counts, which is loaded before the C library.
"""

import os
import shutil
import struct
import subprocess
from concurrent.futures import ThreadPoolExecutor
from typing import NamedTuple

from clients import Wrong, need
from rows import SLOT, rows_behind, slots_behind

# Kinds of calls: those that the program makes, those that the C library makes for it, and threads.
PROGRAM, LIBRARY, THREAD = range(3)

# Seconds that a run may take before it counts as one that doesn't return.
LONGEST = 60

NO_MEMORY = "no memory\n"

# How a run may end.
UNOPENED = "a book that can't be opened (status 7)"
ASKED_AGAIN = "whole, since the program asked again (status 0)"


class Told(NamedTuple):
    """What tests/refuse.c tells of a run."""

    calls: tuple
    refused: int
    most: int


class Place:
    """A folder of a run's own: its book, and a call for memory that is refused."""

    def __init__(self, program, shim, folder):
        self.program, self.shim, self.folder = program, shim, folder
        self.book = f"{folder}/book"
        self.errors = ""
        os.makedirs(folder)

    def refusing(self, kind, number, count=1):
        """The environment in which so many calls of this kind are refused, from this number on; 0
        refuses none."""
        with open(f"{self.folder}/told", "wb") as told:
            told.truncate(4096)
        return {"LD_PRELOAD": self.shim, "REFUSE_TOLD": f"{self.folder}/told",
                "REFUSE_KIND": str(kind), "REFUSE_NUMBER": str(number),
                "REFUSE_COUNT": str(count)}

    def remove(self):
        shutil.rmtree(self.folder)

    def told(self):
        with open(f"{self.folder}/told", "rb") as told:
            *calls, refused, most = struct.unpack("5Q", told.read(40))
        return Told(tuple(calls), refused, most)

    def run(self, *words, script="", env=None):
        """The status of a command over the book, and what it printed."""
        try:
            ran = subprocess.run([self.program, *words, f"--book={self.book}"], input=script,
                                 env=env, capture_output=True, text=True, timeout=LONGEST)
        except subprocess.TimeoutExpired:
            raise Wrong(f"{words} doesn't return in {LONGEST} s") from None
        self.errors = ran.stderr
        need(self.is_unopened(ran.returncode, ran.stdout) or ran.stderr == "",
             f"{words} says on standard error: {ran.stderr}")
        return ran.returncode, ran.stdout

    def is_unopened(self, status, said):
        """Whether the file couldn't be opened for want of memory: standard error says so."""
        why = f"hall: can't open {self.book}: out of memory\n"
        return (status, said, self.errors) == (7, NO_MEMORY, why)

    def slots(self):
        """The bytes of the rows of the book; none where no file was made."""
        return slots_behind(self.book, 0) if os.path.exists(self.book) else b""

    def rows(self):
        """The rows of the book, which `check` has to find whole; none where no file was made."""
        if not os.path.exists(self.book):
            return []
        rows = rows_behind(self.book, 0)
        said = self.run("check")
        need(said == (0, f"rows {len(rows)} whole\n"),
             f"the file has {len(rows)} rows, check says {said}")
        return rows


class Counts:
    """What came of the runs of a day."""

    def __init__(self):
        self.ways = {}
        self.faults = []

    def add(self, way):
        self.ways[way] = self.ways.get(way, 0) + 1

    def __str__(self):
        return ", ".join(f"{self.ways[way]} {way}" for way in sorted(self.ways))


def each_number(first, last, workers, attempt):
    """Makes a run for each of these numbers, some at once; names each that came out otherwise."""
    counts = Counts()

    def one(number):
        try:
            return attempt(number)
        except Exception as fault:
            return fault

    with ThreadPoolExecutor(workers) as pool:
        for number, way in enumerate(pool.map(one, range(first, last + 1)), first):
            if isinstance(way, str):
                counts.add(way)
            else:
                counts.add("otherwise")
                counts.faults.append(f"number {number}: {type(way).__name__}: {way}")
    return counts


class ScriptDay:
    """The runs of a day that is a script; of one with a desk, what that is told again is given."""

    def __init__(self, program, shim, folder, day, again=None):
        self.program, self.shim, self.folder, self.day = program, shim, folder, day
        self.name = day.name
        self.again = again
        self.whole = b""

    def place(self, name):
        return Place(self.program, self.shim, f"{self.folder}/{name}")

    def count(self):
        """A run with ample memory, which has to say what was worked out; tells of its calls."""
        place = self.place("whole")
        status, said = place.run("run", script=self.day.lines(), env=place.refusing(PROGRAM, 0))
        need((status, said) == (0, self.day.answers() + self.day.summary),
             f"{self.day.name} with ample memory ends with {status}: {said}")
        self.whole = place.slots()
        kinds = [row.act["act"] for row in place.rows()]
        verbs = [line.split()[2 if line[0] == "@" else 0] for line, _ in self.day.told]
        new = [at for at in range(len(verbs)) if self.day.rows(at + 1) > self.day.rows(at)]
        need(kinds == [verbs[at] for at in new], f"{self.name}: other rows {kinds}")
        return place.told()

    def refuse(self, kind, number):
        """A run in which this call is refused; tells how it ended, where that is right. Where the
        program then asks for the same in another way, that is refused too in a second run."""
        way = self.attempt(kind, number, 1)
        if way == ASKED_AGAIN:
            need(self.attempt(kind, number, 2) != ASKED_AGAIN, "whole also where two are refused")
        return way

    def attempt(self, kind, number, count):
        place = self.place(f"{number}-{count}")
        env = place.refusing(kind, number, count)
        status, said = place.run("run", script=self.day.lines(), env=env)
        need(place.told().refused == count, "it didn't come in this run")
        answered, way = self.ended(place, status, said)
        rows = self.day.rows(answered)
        need(place.slots() == self.whole[: SLOT * rows],
             f"{rows} rows were answered, the book has others: {len(place.slots()) // SLOT}")
        need(len(place.rows()) == rows, f"{rows} rows were answered, and they aren't there")
        self.go_on(place, answered, rows)
        place.remove()
        return way

    def ended(self, place, status, said):
        """How many lines were answered, and how the run ended."""
        if place.is_unopened(status, said):
            return 0, UNOPENED
        if (status, said) == (0, self.day.answers() + self.day.summary):
            return len(self.day.told), ASKED_AGAIN
        need(status == 7 and said.endswith(NO_MEMORY), f"status {status}: {said[-200:]!r}")
        answered = self.day.answered(said[: -len(NO_MEMORY)])
        need(answered is not None, f"printed was no beginning of the day: {said[-200:]!r}")
        if answered == 0:
            return 0, "no memory before the first answer (status 7)"
        behind = answered == len(self.day.told)
        where = "behind the last answer" if behind else "between two answers"
        return answered, f"no memory {where} (status 7)"

    def go_on(self, place, answered, rows):
        """The rest of the day over that book, and all that a desk asked, ends as the whole day."""
        begin = min(answered, 1) if self.again else answered
        again = self.again and rows == self.day.rows(len(self.day.told))
        day = self.again if again else self.day
        ended = place.run("run", script=self.day.lines(begin))
        told = day.answers(0 if again else begin) + self.day.summary
        need(ended == (0, told), f"behind {answered} answers the rest of the day ends with {ended}")
        need(place.slots() == self.whole, "the rest of the day leaves other rows")
