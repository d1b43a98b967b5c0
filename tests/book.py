"""A book's file beside what its clients sent and were answered."""

import csv
import subprocess
import time

from clients import need, spell_grams
from rows import digest, rows_behind


class Book:
    """A book in a file, and what was acknowledged of it so far."""

    def __init__(self, program, path, desks):
        self.program = program
        self.path = path
        self.desks = {desk.number: desk for desk in desks}
        # the row of each request of a desk
        self.acts = {}
        # the number, the gross and the signal of each weighing, and how many were there at the last
        # look
        self.weighed = []
        self.looked = 0
        self.rows = 0
        self.stood = ""
        # seconds that the last check took
        self.opening = 0
        # packs that a gate let out, and passed packs whose line it hadn't got
        self.gates = self.unheard = 0

    def ask(self, *words, script=""):
        """The lines that a command prints over the book, which has to end well."""
        ran = subprocess.run([self.program, *words, f"--book={self.path}"], input=script,
                             capture_output=True, text=True)
        need(ran.returncode == 0, f"{words} ends with {ran.returncode}: {ran.stdout[-300:]}")
        return ran.stdout.splitlines()

    def new_rows(self):
        """The rows since the last look. The book has to be whole, with what stood before."""
        began = time.monotonic()
        said = self.ask("check")
        self.opening = time.monotonic() - began
        rows = rows_behind(self.path, self.rows)
        need(self.rows == 0 or digest(self.path, self.rows) == self.stood,
             f"the first {self.rows} rows aren't what they were")
        self.rows += len(rows)
        self.stood = digest(self.path, self.rows)
        need(said == [f"rows {self.rows} whole"],
             f"check says {said}, the file has {self.rows} rows")
        self.looked = len(self.weighed)
        self.weighed += [(row.number, spell_grams(row.act["gross"]), row.signal)
                         for row in rows if row.act["act"] == "weigh"]
        return rows

    def compare(self, lanes, killed):
        """Compares the rows that a hall left with what its clients sent and were answered."""
        rows = self.new_rows()
        for lane in lanes:
            self.compare_lane(lane, rows, killed)
        self.take_acts(rows, {lane.number for lane in lanes})
        for desk in self.desks.values():
            self.compare_desk(desk)
        return rows

    def compare_lane(self, lane, rows, killed):
        """The lane's rows are the first of the weights that were sent, in their order; its gate got
        a line for each that passed, but for the last where the hall was killed."""
        own = [row for row in rows if row.by == lane.number]
        need(all(row.act.get("lane") == lane.number and row.desk == 0 for row in own),
             f"lane {lane.number} has rows of others")
        weighed = [row for row in own if row.act["act"] == "weigh"]
        grosses = [row.act["gross"] for row in weighed]
        need(grosses == lane.sent[: len(grosses)], f"lane {lane.number}: other weights than sent")
        need(killed or len(grosses) == len(lane.sent), f"lane {lane.number}: weights are missing")
        passed = [row.number for row in weighed if row.signal == "pass"]
        need(lane.opened == passed[: len(lane.opened)],
             f"lane {lane.number}: the gate opened for {lane.opened[-9:]}, passed {passed[-9:]}")
        unheard = len(passed) - len(lane.opened)
        need(unheard <= killed, f"lane {lane.number}: {unheard} passed packs without their line")
        self.unheard += unheard
        self.gates += len(lane.opened)

    def take_acts(self, rows, lanes):
        """Takes in the rows of desks: each is an act that was sent, under the next number of its
        desk. All others are of these lanes, or of the setup."""
        for row in rows:
            if row.desk == 0:
                need(row.by == 0 or row.by in lanes, f"a row of nobody: {row}")
                continue
            desk = self.desks[row.desk]
            need((row.desk, row.request) not in self.acts, f"twice in the book: {row}")
            need(row.request == 1 or (row.desk, row.request - 1) in self.acts,
                 f"a request is left out before {row}")
            need(row.by == desk.by, f"by another door: {row}")
            need(row.act in desk.sent.get(row.request, []), f"never sent: {row}")
            self.acts[row.desk, row.request] = row

    def compare_desk(self, desk):
        """Each act that was answered 200 is in the book, at the row that was told."""
        for request, number, act in desk.fresh:
            row = self.acts.get((desk.number, request))
            need(row and (row.number, row.act) == (number, act),
                 f"desk {desk.number}: request {request}, {act} was told row {number}, but is"
                 f" {row}")
        desk.fresh = []

    def compare_script(self, lines, answers, killed):
        """Compares the rows that a script left with its answers: these, and at most one row more
        where it was killed. Says how many rows were acknowledged."""
        before = self.rows
        rows = self.new_rows()
        accepted = [(line.split(), told.split()) for line, told in zip(lines, answers)
                    if not told.startswith("refused")]
        need([int(told[0]) for _, told in accepted]
             == list(range(before + 1, before + 1 + len(accepted))), "a row isn't the next")
        more = len(rows) - len(accepted)
        need(0 <= more <= killed, f"{len(accepted)} rows were acknowledged, {len(rows)} are there")
        for row, (line, told) in zip(rows, accepted):
            need(row.act["act"] == line[0] and row.by == row.desk == 0, f"{line} is the row {row}")
            need(line[0] != "weigh" or spell_grams(row.act["gross"]) == f"{line[2]}\n"
                 and row.signal.split() == told[1:], f"{line}, {told} is the row {row}")
        return len(accepted)

    def compare_packs(self, packs):
        """Asks `hall run` for packs that were let out since the last look: their grosses and
        signals are those sent."""
        told = self.ask("run", script="".join(f"pack {pack}\n" for pack in packs))
        need(f"rows {self.rows}" in told, f"the summary doesn't say rows {self.rows}")
        grosses = {pack: gross for pack, gross, _ in self.weighed[self.looked :]}
        for pack, line in zip(packs, told):
            words = line.split()
            need(words[:2] == ["pack", str(pack)] and f"{words[7]}\n" == grosses[pack]
                 and words[11] == "pass", f"pack {pack} of {grosses[pack]} is told as {line}")

    def compare_register(self):
        """The register has a record for each weighing, in order, with its gross and its signal."""
        told = [(int(record["pack"]), record["gross"] + "\n", record["signal"])
                for record in csv.DictReader(self.ask("export"))]
        need(told == self.weighed, "the register has other packs than the rows")
