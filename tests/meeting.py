"""Lanes and a door of a `hall serve` that wait for each other, and what each was answered. For
tests/memory.sh.

Lane L gives its next weight only once the gates of the others have opened as often as it has given
weights, and the door as many answers; the door is asked again only once all gates have opened as
often as it was asked. Who waits in vain, since another ended or was never begun, ends: a cell by a
line that is no weight, a connection by its end.
"""

import os
import select
import time

from clients import Gone, Link, need, spell_grams
from refusals import LONGEST

# Seconds for which nothing comes before it is looked whether the hall sleeps, and how many looks in
# a row have to find it asleep: a door that waits for its client wakes for a moment each 20 ms.
QUIET = 0.2
LOOKS = 3

IN_VAIN = b"in vain\n"


class Pipes:
    """A scale and a gate."""

    def __init__(self, folder, number, grosses):
        self.number, self.grosses = number, grosses
        self.given = 0
        self.opened = []
        # for both ways, so that neither end waits for the other
        self.cell = os.open(f"{folder}/cell-{number}.txt", os.O_RDWR)
        self.gate = os.open(f"{folder}/gate-{number}.txt", os.O_RDWR | os.O_NONBLOCK)

    def give(self):
        os.write(self.cell, spell_grams(self.grosses[self.given]).encode())
        self.given += 1

    def end(self, met):
        """Ends the cell. Where all met, its file is open at the other end, so it can be closed."""
        if met:
            os.close(self.cell)
            self.cell = None
        else:
            os.write(self.cell, IN_VAIN)

    def close(self):
        os.close(self.gate)
        if self.cell is not None:
            os.close(self.cell)

    def take(self):
        """The lines of the gate; each is written at once."""
        for line in os.read(self.gate, 65536).splitlines():
            word, pack = line.split(b" ")
            need(word == b"open", f"gate {self.number} got {line}")
            self.opened.append(int(pack))


class Meeting:
    """What the lanes and a desk at the door send to a hall, and what they are answered."""

    def __init__(self, hall, lanes, requests):
        self.hall = hall
        self.lanes = [Pipes(hall.folder, number, grosses) for number, grosses in lanes]
        self.requests = requests
        # the answer to each request; for want of memory it is asked again
        self.answers = []
        self.lacks = 0
        self.waits = False
        self.link = None

    def hold(self):
        """Goes to the hall's end; says whether nobody waited in vain."""
        self.connect()
        met = self.link is not None and self.meet()
        for lane in self.lanes:
            lane.end(met)
        if self.link:
            self.hush()
        until = time.monotonic() + LONGEST
        while not self.hall.ended():
            need(time.monotonic() < until, f"the hall doesn't end in {LONGEST} s")
            self.hear(0.02)
        while self.hear(0):
            pass
        return met

    def connect(self):
        """The connection to the door, as soon as it listens; none where the hall ends before."""
        until = time.monotonic() + LONGEST
        while not self.link and not self.hall.ended():
            need(time.monotonic() < until, f"the door doesn't listen within {LONGEST} s")
            try:
                self.link = Link(self.hall.ports[0])
            except OSError:
                time.sleep(0.001)

    def hush(self):
        """Sends no more. The empty line has the connection be one, also where nothing was asked."""
        try:
            self.link.send(b"\n")
            self.link.hush()
        except OSError:
            self.leave()

    def leave(self):
        self.link.socket.close()
        self.link = None

    def meet(self):
        while not self.is_done():
            self.send_due()
            if not self.hear_in_time():
                return False
        return True

    def is_done(self):
        return len(self.answers) == len(self.requests) and all(
            len(lane.opened) == len(lane.grosses) for lane in self.lanes)

    def send_due(self):
        """Sends what nobody has to be waited for any more."""
        opened = [len(lane.opened) for lane in self.lanes]
        for at, lane in enumerate(self.lanes):
            others = opened[:at] + opened[at + 1 :] + [len(self.answers)]
            if lane.given < len(lane.grosses) and lane.given <= min(others):
                lane.give()
        asked = len(self.answers)
        left = asked < len(self.requests) and asked <= min(opened, default=asked)
        if self.link and left and not self.waits:
            self.waits = True
            self.ask(self.requests[asked])

    def ask(self, request):
        try:
            self.link.send(request)
        except OSError:
            self.leave()

    def hear_in_time(self):
        """Whether anything came before the hall ended, or slept with nothing to do."""
        until = time.monotonic() + LONGEST
        asleep = 0
        while asleep < LOOKS:
            need(time.monotonic() < until,
                 f"nothing comes in {LONGEST} s, and the hall doesn't sleep")
            if self.hear(QUIET):
                return True
            if self.hall.ended():
                return False
            asleep = asleep + 1 if self.sleeps() else 0
        return False

    def sleeps(self):
        """Whether each thread of the hall sleeps."""
        folder = f"/proc/{self.hall.process.pid}/task"
        try:
            for task in os.listdir(folder):
                with open(f"{folder}/{task}/status", encoding="ascii") as status:
                    fields = dict(line.split(":\t", 1) for line in status)
                if not fields["State"].startswith("S"):
                    return False
        except (OSError, KeyError):
            return False
        return True

    def hear(self, seconds):
        """Takes in what comes first within these seconds; whether anything came."""
        ears = {lane.gate: lane.take for lane in self.lanes}
        if self.link:
            ears[self.link.socket.fileno()] = self.take_answer
        ready = select.select(list(ears), [], [], seconds)[0]
        for ear in ready:
            ears[ear]()
        return bool(ready)

    def take_answer(self):
        try:
            answer = self.link.response()
        except (Gone, OSError):
            self.leave()
            return
        self.waits = False
        if answer.status == 503:
            need(answer.body == b'{"bad":"memory"}' and not answer.last, f"an answer is {answer}")
            self.lacks += 1
        else:
            self.answers.append(answer)

    def close(self):
        for lane in self.lanes:
            lane.close()
        if self.link:
            self.leave()
