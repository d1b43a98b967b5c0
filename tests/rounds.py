"""Rounds of `hall` over one book, each killed at a drawn moment or brought to its end, and what
they left compared with what was sent and answered. For tests/kill.sh and tests/soak.sh."""

import random
import subprocess
import time

from book import Book
from clients import (FIRST_DESK, FIRST_DOOR, OPENING, Client, Curl, Desk, Hall, Lane, Link,
                     drawn_act, drawn_gross, free_ports, need, plan, post, spell_grams)

LANES = 3
# A desk at each door: the first asks by connections that stay, the second by curl.
WAYS = (Link, Curl)
# Connections that each door serves, and how many of them its desk makes.
CONNECTIONS = 2000
DESK_LINKS = 1900
# The most packs that a lane weighs in a round, and in a piece.
LANE_PACKS = 3000
MOST_AT_ONCE = 40
# The lane that scripts of `run` weigh on, and how many packs they weigh.
SCRIPT_LANE = 16
SCRIPT_PACKS = 5000


class DeskWork(Client):
    """A desk at a door, which asks drawn acts until it is told to end."""

    def __init__(self, hall, desk, way, port, draw, packs):
        super().__init__(hall)
        self.desk = desk
        self.way = way
        self.port = port
        self.draw = draw
        self.packs = packs

    def work(self):
        self.hall.wait_for_door(self.port)
        with self.way(self.port) as link:
            self.desk.catch_up(link)
        for _ in range(DESK_LINKS):
            if self.ending.is_set():
                return
            with self.way(self.port) as link:
                self.ask_some(link)

    def ask_some(self, link):
        for _ in range(link.ACTS):
            if self.ending.is_set():
                return
            if link.ACTS > 1 and self.draw.random() < 0.2:
                self.ask_together(link)
            else:
                request, act = self.desk.last + 1, self.drawn()
                self.desk.hear(request, act, link.act(self.desk.note(request, act)))

    def ask_together(self, link):
        """Sends some acts at once, as if each were accepted, and hears the answers."""
        first = self.desk.last + 1
        asked = [(request, self.drawn())
                 for request in range(first, first + self.draw.randint(2, 6))]
        link.send(b"".join(post(self.desk.note(request, act)) for request, act in asked))
        for request, act in asked:
            self.desk.hear(request, act, link.response())

    def drawn(self):
        return drawn_act(self.draw, self.desk.number, self.packs())


class Rounds:
    """Rounds over one book, and how they went."""

    def __init__(self, program, folder, seed):
        self.program = program
        self.folder = folder
        self.draw = random.Random(seed)
        self.port = free_ports()
        self.desks = [Desk(FIRST_DESK + at, FIRST_DOOR + at) for at in range(len(WAYS))]
        self.book = Book(program, f"{folder}/book", self.desks)
        self.round = self.kills = self.early = 0

    def serve(self, load, killed=True):
        """A round of `serve` under load, killed at a drawn moment of its opening and so many
        seconds behind it, or brought to its end then."""
        hall, lanes, desks = self.start()
        if killed:
            hall.wait_or_kill(self.draw.uniform(0, self.book.opening + load))
            need(hall.process.returncode == -9, f"the hall ended: {hall.said()}")
        else:
            time.sleep(self.book.opening + load)
            self.end(hall, lanes, desks)
        for client in lanes + desks:
            client.finish()
        heard = any(client.opened for client in lanes) or any(desk.fresh for desk in self.desks)
        self.count(killed, heard)
        self.book.compare(lanes, killed)
        self.book.compare_packs([pack for lane in lanes for pack in lane.opened])

    def start(self):
        """A hall with its clients at work, each lane with a batch of its own."""
        self.round += 1
        batches = [f"R{self.round}-{lane}" for lane in range(1, LANES + 1)]
        setup = OPENING * (self.book.rows == 0) + "".join(f"open {batch} P\n" for batch in batches)
        hall = Hall(self.program, self.folder, plan(setup, batches), book=self.book.path,
                    lanes=LANES, doors=len(WAYS), port=self.port, connections=CONNECTIONS)
        lanes = [Lane(hall, lane, pieces(random.Random(self.draw.random())))
                 for lane in range(1, LANES + 1)]
        desks = [DeskWork(hall, desk, way, port, random.Random(self.draw.random()),
                          lambda: [pack for lane in lanes for pack in lane.opened[-100:]])
                 for desk, way, port in zip(self.desks, WAYS, hall.ports)]
        for client in lanes + desks:
            client.start()
        return hall, lanes, desks

    def end(self, hall, lanes, desks):
        """Brings a hall to its end: the cells end, and its doors have their connections."""
        for client in lanes + desks:
            client.ending.set()
        for desk in desks:
            desk.finish()
        status = hall.drain(60)
        need(status == 0, f"a hall that was brought to its end has status {status}: {hall.said()}")
        for lane in lanes:
            lane.finish()
            line = f"lane {lane.number} opened {len(lane.opened)} done"
            need(line in hall.said(), f"there is no line {line} in {hall.said()}")

    def run(self, load, killed=True):
        """A round of `run` over a script of weighings, killed at a drawn moment of its opening and
        so many seconds behind it, or to its end."""
        lines = self.script()
        with open(f"{self.folder}/script", "rb") as script, \
                open(f"{self.folder}/answers", "wb") as answers:
            hall = subprocess.Popen([self.program, "run", f"--book={self.book.path}"], stdin=script,
                                    stdout=answers)
        Hall.running.append(hall)
        try:
            hall.wait(self.draw.uniform(0, self.book.opening + load) if killed else 600)
        except subprocess.TimeoutExpired:
            hall.kill()
        need(hall.wait() in (0, -9), f"a run ended with status {hall.returncode}")
        with open(f"{self.folder}/answers", encoding="ascii") as answers:
            whole = answers.read().split("\n")[:-1]
        heard = self.book.compare_script(lines, whole, hall.returncode != 0)
        self.count(hall.returncode != 0, heard > 0)

    def script(self, packs=SCRIPT_PACKS):
        """Writes a script of a batch of its own, and gives its lines."""
        self.round += 1
        lines = OPENING.splitlines(True) * (self.book.rows == 0)
        lines += [f"stop {SCRIPT_LANE}\n", f"open R{self.round} P\n",
                  f"start {SCRIPT_LANE} R{self.round}\n"]
        lines += [f"weigh {SCRIPT_LANE} {spell_grams(drawn_gross(self.draw))}"
                  for _ in range(packs)]
        with open(f"{self.folder}/script", "w", encoding="ascii") as script:
            script.writelines(lines)
        return lines

    def count(self, killed, heard):
        self.kills += killed
        self.early += killed and not heard


def pieces(draw):
    """Pieces of weights, some thousands of them."""
    for _ in range(LANE_PACKS // MOST_AT_ONCE):
        yield [drawn_gross(draw) for _ in range(draw.randint(1, MOST_AT_ONCE))]
