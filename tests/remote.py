"""Lanes whose scales send over lines that lose, repeat, cut and hold back, for tests/remote.sh:
PROGRAM FOLDER WEIGHTS SEED."""

import csv
import os
import random
import re
import socket
import subprocess
import sys
import threading
import time
from concurrent.futures import ThreadPoolExecutor

from clients import OPENING, Hall, free_ports, need, plan
from remote_ports import (
    PAUSE, deaf, end, in_use, no_end, nonsense, pause, silent, turns, wait_for_port,
)  # fmt: skip

HERE = os.path.dirname(os.path.abspath(__file__))
SENDER = os.path.join(os.path.dirname(HERE), "examples", "scale_sender.py")
LANES = 2
# How long a scale waits for an acknowledgement, in seconds; the line holds one back no longer.
SECONDS = 0.25
# How long a hall is left to itself between two kills, in seconds.
SHORTEST, LONGEST = 0.2, 8.0
# The least weight of the scales, in mg. All are good packs of 250 g; no two of a lane are alike.
LEAST = 262_000

# How often in a thousand lines, or acknowledgements, the line does each of these.
DROPS, REPEATS, CUTS, DELAYS, PIECES, OLDS = 8, 20, 4, 30, 50, 10
# How many old lines a new connection brings first, at most, and how long a delay is, in seconds.
MOST_OLD = 3
LONGEST_DELAY = 0.01


def grams(weight):
    return f"{weight // 1000}.{weight % 1000:03d}"


# ---- the line


class Cut(Exception):
    """The line is cut."""


class Line:
    """A line to a hall's port, which is open while the hall is there.

    Of the lines of a scale, and of what acknowledges them, some are dropped, given again, held back
    for a moment, handed on a byte at a time or cut at a drawn byte, and then both ends are closed.
    Lines that were said before come again, on the same connection and on later ones, whether they
    came before or not; but none comes to the next hall.
    """

    def __init__(self, port, draw):
        self.target = port
        self.draw = draw
        self.port = None
        self.door = None
        self.links = set()
        self.said = []
        self.counts = dict.fromkeys(("connections", "dropped", "repeated", "cut", "old"), 0)
        self.lock = threading.Lock()

    def open(self):
        """Takes connections, at the same port each time."""
        self.said = []
        self.door = socket.create_server(("127.0.0.1", self.port or 0))
        self.port = self.door.getsockname()[1]
        threading.Thread(target=self.take_all, args=(self.door,), daemon=True).start()

    def close(self):
        """Cuts all connections and takes no more."""
        self.door.shutdown(socket.SHUT_RDWR)
        self.door.close()
        with self.lock:
            links, self.links = self.links, set()
        for link in links:
            end(link)

    def take_all(self, door):
        while True:
            try:
                scale = door.accept()[0]
            except OSError:
                return
            try:
                hall = socket.create_connection(("127.0.0.1", self.target), timeout=60)
            except OSError:
                end(scale)
                continue
            for link in (scale, hall):
                link.settimeout(None)
                link.setsockopt(socket.IPPROTO_TCP, socket.TCP_NODELAY, 1)
            with self.lock:
                self.links |= {scale, hall}
                self.counts["connections"] += 1
            # the draws of a connection follow from the seed and its number
            draw = random.Random(self.draw.random())
            threading.Thread(target=self.say, args=(scale, hall, draw), daemon=True).start()
            back = random.Random(draw.random())
            threading.Thread(target=self.acknowledge, args=(hall, scale, back),
                             daemon=True).start()

    def say(self, scale, hall, draw):
        """Hands on the lines of a scale, and old ones."""
        try:
            for _ in range(draw.randint(0, MOST_OLD)):
                self.say_old(hall, draw)
            for line in lines(scale):
                self.said.append(line)
                if draw.random() * 1000 < OLDS:
                    self.say_old(hall, draw)
                self.hand_on(line, hall, draw)
        except (OSError, Cut):
            pass
        end(scale)
        end(hall)

    def say_old(self, hall, draw):
        if self.said:
            self.counts["old"] += 1
            hall.sendall(draw.choice(self.said))

    def acknowledge(self, hall, scale, draw):
        """Hands on what a hall writes."""
        try:
            for line in lines(hall):
                self.hand_on(line, scale, draw)
        except (OSError, Cut):
            pass
        end(scale)
        end(hall)

    def hand_on(self, line, link, draw):
        chance = draw.random() * 1000
        if chance < DROPS:
            self.counts["dropped"] += 1
            return
        chance -= DROPS
        if chance < CUTS:
            self.counts["cut"] += 1
            link.sendall(line[:draw.randrange(len(line))])
            raise Cut
        chance -= CUTS
        if chance < DELAYS:
            time.sleep(draw.uniform(0, LONGEST_DELAY))
        elif chance < DELAYS + PIECES:
            for byte in line:
                link.sendall(bytes([byte]))
            return
        elif chance < DELAYS + PIECES + REPEATS:
            self.counts["repeated"] += 1
            line *= draw.randint(2, 3)
        link.sendall(line)


def lines(link):
    """The whole lines that come on a link, until its end."""
    held = b""
    while came := link.recv(4096):
        *whole, held = (held + came).split(b"\n")
        for line in whole:
            yield line + b"\n"


# ---- the lanes


class Scale:
    """A scale: the program of examples/ over a line, and what it was acknowledged."""

    def __init__(self, folder, lane, weights, line):
        self.path = f"{folder}/acknowledged-{lane}"
        self.weights = weights
        with open(f"{folder}/weights-{lane}", "w", encoding="ascii") as text:
            text.writelines(f"{grams(weight)}\n" for weight in weights)
        with open(f"{folder}/weights-{lane}", "rb") as given, open(self.path, "wb") as told:
            self.process = subprocess.Popen(
                [sys.executable, SENDER, str(line.port), f"--seconds={SECONDS}"], stdin=given,
                stdout=told)

    def ended(self):
        return self.process.poll() is not None

    def told(self):
        """How many weights were acknowledged by each hall that acknowledged one, in order."""
        counts, heard = [], []
        with open(self.path, encoding="ascii") as told:
            # the last line may be there in part
            for line in told.read().split("\n")[:-1]:
                number, what = line.split()
                if number == "1":
                    counts.append(0)
                if what != "end":
                    counts[-1] += 1
                    need(int(number) == counts[-1], f"the scale told {line!r} out of turn")
                    heard.append(what)
        need(heard == [grams(weight) for weight in self.weights[:len(heard)]],
             "a scale was acknowledged other weights than its own")
        return [count for count in counts if count]


class Storm:
    """Two lanes over bad lines, with a hall that is killed again and again."""

    def __init__(self, program, folder, seed, count):
        self.program = program
        self.folder = folder
        self.draw = random.Random(seed)
        self.count = count
        self.port = free_ports()
        self.book = f"{folder}/book"
        self.halls = 0
        self.hall = None
        self.lines = [Line(self.port + lane, random.Random(self.draw.random()))
                      for lane in range(LANES)]
        for line in self.lines:
            line.open()
            line.close()
        self.scales = []

    def batch(self, hall, lane):
        return f"H{hall}L{lane}"

    def begin(self):
        """A hall over the book, whose lanes weigh for batches of their own."""
        self.halls += 1
        batches = [self.batch(self.halls, lane) for lane in range(1, LANES + 1)]
        setup = OPENING + "".join(f"open {batch} P\n" for batch in batches)
        self.hall = Hall(self.program, self.folder, plan(setup, batches), self.book, lanes=LANES,
                         pipes=False, remote=self.port)
        for lane in range(LANES):
            wait_for_port(self.hall, self.port + lane)
        for line in self.lines:
            line.open()

    def kill(self):
        """Kills it, and cuts its lines with it, for long enough that the scales see it."""
        self.hall.kill()
        for line in self.lines:
            line.close()
        time.sleep(2 * SECONDS + 0.5)

    def run(self):
        self.begin()
        for lane in range(1, LANES + 1):
            weights = [LEAST + at for at in range(self.count)]
            self.draw.shuffle(weights)
            self.scales.append(Scale(self.folder, lane, weights, self.lines[lane - 1]))
        while not any(scale.ended() for scale in self.scales):
            until = time.monotonic() + self.draw.uniform(SHORTEST, LONGEST)
            while time.monotonic() < until and not any(scale.ended() for scale in self.scales):
                need(not self.hall.ended(), f"the hall ended by itself: {self.hall.said()}")
                time.sleep(0.02)
            if any(scale.ended() for scale in self.scales) or self.is_near_end():
                break
            self.kill()
            self.begin()
        self.finish()

    def is_near_end(self):
        """Whether a scale is about to say its end: no hall is killed behind that."""
        return any(self.count - 100 < sum(scale.told()) for scale in self.scales)

    def finish(self):
        for scale in self.scales:
            status = scale.process.wait(600)
            need(status in (0, 1), f"a scale ended with the status {status}")
        need(self.hall.wait(600) == 0, f"the hall ended with {self.hall.process.returncode}")
        lines = self.hall.said()
        for lane in range(1, LANES + 1):
            need(any(re.fullmatch(rf"lane {lane} opened \d+ done", line) for line in lines),
                 str(lines))
        for line in self.lines:
            line.close()

    # -- what is compared

    def rows(self):
        """The packs of each lane, in the order of their rows."""
        said = subprocess.run([self.program, "check", "--book", self.book], stdout=subprocess.PIPE,
                              check=False).stdout.decode()
        need(re.fullmatch(r"rows \d+ whole\n", said), said)
        with subprocess.Popen([self.program, "export", "--book", self.book], stdout=subprocess.PIPE,
                              encoding="ascii") as export:
            packs = list(csv.DictReader(export.stdout))
        return [[pack for pack in packs if pack["lane"] == str(lane)]
                for lane in range(1, LANES + 1)]

    def compare(self):
        unheard = unopened = 0
        for lane, packs in enumerate(self.rows(), 1):
            scale = self.scales[lane - 1]
            unheard += self.compare_scale(scale, lane, packs)
            unopened += self.compare_gate(lane, packs)
        return unheard, unopened

    def compare_scale(self, scale, lane, packs):
        """Each hall weighed on where the last acknowledged weight was, in order, and at most one
        weight more than it acknowledged. Says how many such there are."""
        places = {grams(weight): place for place, weight in enumerate(scale.weights)}
        halls = [[places[pack["gross"]] for pack in packs
                  if pack["batch"] == self.batch(hall, lane)]
                 for hall in range(1, self.halls + 1)]
        halls = [own for own in halls if own]
        heard = [then[0] - own[0] for own, then in zip(halls, halls[1:] + [[self.count]])]
        need(halls[0][0] == 0
             and all(own == list(range(own[0], own[0] + len(own))) for own in halls),
             f"lane {lane} has other packs than the next ones, one behind the other")
        need(all(len(own) - count in (0, 1) for own, count in zip(halls, heard)),
             f"lane {lane}: halls weighed {[len(own) for own in halls]}, of which {heard} were"
             " next")
        need([count for count in heard if count] == scale.told(),
             f"lane {lane}: the scale was told {scale.told()}, and weighed on behind {heard}")
        voided = sum(pack["pile"] != "passed" for pack in packs)
        lasts = {pack["batch"]: pack for pack in packs}.values()
        need(voided == sum(pack["pile"] == "voided" for pack in lasts),
             f"lane {lane} has packs that aren't passed, with others behind them")
        return sum(len(own) - count for own, count in zip(halls, heard))

    def compare_gate(self, lane, packs):
        """Each line of the gate is a pack of the lane that passed, in order; of each hall the last
        alone may be without one. Says how many are."""
        passed = [pack for pack in packs if pack["signal"] == "pass"]
        rows = [int(pack["pack"]) for pack in passed]
        lasts = {pack["batch"]: int(pack["pack"]) for pack in passed}
        with open(f"{self.folder}/gate-{lane}.txt", encoding="ascii") as gate:
            opened = [int(line.removeprefix("open ")) for line in gate]
        need(opened == sorted(set(opened)) and set(opened) <= set(rows),
             f"gate {lane} has a line that is no passed row, or has one twice")
        missing = set(rows) - set(opened)
        need(missing <= set(lasts.values()), f"gate {lane} lacks {sorted(missing)[:5]}")
        return len(missing)


def main():
    program, folder, weights, seed = sys.argv[1:]
    print(f"seed {seed}", flush=True)
    port = free_ports() + 10
    paused = ThreadPoolExecutor().submit(pause, program, folder, port + 6)
    os.mkdir(f"{folder}/storm")
    began = time.monotonic()
    storm = Storm(program, f"{folder}/storm", int(seed), int(weights))
    storm.run()
    seconds = time.monotonic() - began
    unheard, unopened = storm.compare()
    for lane, line in enumerate(storm.lines, 1):
        print(f"line {lane}:", ", ".join(f"{count} {what}" for what, count in line.counts.items()))
    print(f"{LANES} lanes of {weights} weights, {storm.halls - 1} halls killed, {seconds:.0f} s:"
          f" each stands once, in order; {unheard} more were weighed and not acknowledged,"
          f" {unopened} passed without a line of the gate", flush=True)

    paused.result()
    print(f"a scale that is silent for {PAUSE} s: it goes on over its connection")
    in_use(program, folder, port)
    print("a port that another has: the hall ends before anything is done, status 6")
    print(f"one who is silent, and one who stops in mid-line: the next was heard after"
          f" {silent(program, folder, port + 1):.1f} s", flush=True)
    said, seconds = deaf(program, folder, port + 2)
    print(f"one who never reads: heard for {said} lines, and the next after {seconds:.1f} s",
          flush=True)
    nonsense(program, folder, port + 3)
    print("a line that is none: the lane ends, status 10")
    no_end(program, folder, port + 4)
    print("a thousand connections without an end: the lane ends, status 10", flush=True)
    print(f"a million lines that are ahead: the lane gives up after"
          f" {turns(program, folder, port + 5):.0f} s, status 12")


if __name__ == "__main__":
    main()
