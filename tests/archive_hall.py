"""A hall that is at work for tests/archive.py: the program over a book, four lanes over pipes that
know when they sent each pack, and desks of two persons behind the front that is shipped."""

import json
import os
import random
import subprocess
import sys
import threading
import time
from collections.abc import Iterator
from contextlib import contextmanager
from typing import Any, NamedTuple

HERE = os.path.dirname(os.path.realpath(__file__))
sys.path.insert(0, f"{HERE}/../archive")

from clients import Hall, Lane, OPENING, Wrong, need, plan  # noqa: E402
from front_clients import Person  # noqa: E402
from front_room import BOOK, DOORS, FIRST_PORT, Front, run, wait_until  # noqa: E402

LANES = 4
# The door of the archive is behind those that the front knows.
ARCHIVE_PORT = FIRST_PORT + DOORS
# Packs a second of all lanes.
RATE = 140
# Desks with their persons; the third asks again what the others asked.
DESKS = {101: "anna", 102: "ben"}
PEOPLE = {"anna": [101], "ben": [102], "carl": [101, 102], "wall": []}
REASONS = ('it said "10.1" \\ twice\n', "Tür klemmte – Gebinde leer", "first delivery", "{}\t'`$x")
FAILED = (500, 502, 503, 504)
# What the program says where somebody else has a book open, and how often it is asked again.
IN_USE, TRIES = ": it is in use; ", 40


def now() -> int:
    """ms of UTC."""
    return time.time_ns() // 1_000_000


class Known(NamedTuple):
    """What a sender knows of a row: it came behind `low` and before `high`, ms of UTC."""

    low: int
    high: int


class Act(NamedTuple):
    """An act that a person was answered."""

    person: str
    reason: str | None
    known: Known


class TimedLane(Lane):  # type: ignore[misc]
    """A lane that sends a pack at a time, at a rate, and knows when."""

    def __init__(self, hall: Any, number: int, seed: str, pause: float) -> None:
        self.chance = random.Random(seed)
        self.pause = pause
        self.times: list[int] = []
        self.heard: list[int] = []
        super().__init__(hall, number, self.paced())

    def paced(self) -> Any:
        due = time.monotonic()
        while True:
            due = max(due + self.pause, time.monotonic() - self.pause)
            time.sleep(max(0.0, due - time.monotonic()))
            gross = (
                241_000 if self.chance.random() < 0.02 else self.chance.randint(258_000, 266_000)
            )
            self.times.append(now())
            yield [gross]

    def take_lines(self, wait: float) -> None:
        super().take_lines(wait)
        self.heard += [now()] * (len(self.opened) - len(self.heard))


class Desk(threading.Thread):
    """A desk that asks one act after the other through the front, each until it is answered."""

    def __init__(self, work: "Work", number: int, seed: str) -> None:
        super().__init__(daemon=True)
        self.work, self.number = work, number
        self.chance = random.Random(seed)
        self.person = Person(work.front, DESKS[number])
        self.other = Person(work.front, "carl")
        self.request = 0
        self.ending = threading.Event()
        self.turn = threading.Lock()
        self.fault: Exception | None = None
        self.repeats = self.refused = 0
        self.todo: list[str] = []

    def run(self) -> None:
        try:
            while not self.ending.wait(self.chance.uniform(0.05, 0.3)):
                with self.turn:
                    self.some_act()
        except Exception as fault:
            self.fault = fault

    def some_act(self) -> None:
        """What a person does at work: corrects a tare, voids a pack, tests a batch that ended."""
        if self.todo:
            self.test(self.todo.pop(0))
        elif self.number == 102:
            tare = self.chance.randint(9_900, 10_100)
            reason = self.chance.choice(REASONS)
            self.ask(reason, act="tare", product="P", day="2025-03-03", tare=tare)
        elif packs := self.work.opened():
            self.ask(self.chance.choice(REASONS), act="void", pack=self.chance.choice(packs))

    def test(self, batch: str) -> None:
        """Ends a batch, draws and measures its sample, and closes it."""
        self.ask(None, act="end", batch=batch)
        reply = self.ask(None, act="draw", batch=batch, mode="keep", word=self.chance.randrange(99))
        if not reply:
            return
        for pack in self.sample(batch):
            self.ask(
                None, act="measure", pack=int(pack), gross=self.chance.randint(259_000, 264_000)
            )
        self.ask("asked for", act="close", batch=batch)

    def sample(self, batch: str) -> list[str]:
        """The packs that were drawn, by a hall that answers again where it was killed."""
        path = f"/hall/batches/{batch}/sample"
        while (reply := self.send(self.person, b"", "GET", path)) is None:
            need(not self.work.is_over.wait(0.1), f"no answer to {path}")
        need(reply.status == 200, f"{path}: {reply.status} {reply.body[:200]!r}")
        words: list[str] = reply.body.decode().split()
        return words[3:]

    def ask(self, reason: str | None, **members: Any) -> dict[str, Any] | None:
        """Asks an act until it is answered; what it was told, or None where it is refused."""
        body = {"desk": self.number, "request": self.request + 1} | members
        if reason is not None:
            body["reason"] = reason
        text, before = json.dumps(body).encode(), now()
        while (reply := self.send(self.person, text)) is None:
            need(not self.work.is_over.wait(0.1), f"no answer to {body}")
        if reply.status == 409:
            self.refused += 1
            return None
        need(reply.status == 200, f"{body}: {reply.status} {reply.body[:200]!r}")
        told: dict[str, Any] = json.loads(reply.body)
        self.request += 1
        self.work.acts[told["row"]] = Act(DESKS[self.number], reason, Known(before, now()))
        if self.chance.random() < 0.3:
            again = self.send(self.other, text)
            need(again is None or json.loads(again.body) == told, f"{body} is told otherwise again")
            self.repeats += again is not None
        return told

    def send(self, person: Any, text: bytes, method: str = "POST", path: str = "/hall/acts") -> Any:
        try:
            reply = person.send(method, path, text)
        except (OSError, AssertionError):
            return None
        return None if reply.status in FAILED else reply


class Round(NamedTuple):
    """A hall from its beginning to its end, with a batch of its own, and its lanes."""

    batch: str
    began: int
    lanes: list[TimedLane]


class Work:
    """A hall at work: begun, killed and begun again, each time with a batch of its own."""

    def __init__(self, program: str, folder: str, front: Front, seed: str) -> None:
        self.program, self.folder, self.front, self.seed = program, folder, front, seed
        self.path = f"{folder}/{BOOK}.book"
        self.rounds: list[Round] = []
        self.acts: dict[int, Act] = {}
        self.is_over = threading.Event()
        self.desks = [Desk(self, number, f"{seed} {number}") for number in DESKS]
        self.hall: Any = None
        self.pause = LANES / RATE

    def begin(self, lanes: int = LANES) -> None:
        batch = f"R{len(self.rounds) + 1}"
        setup = OPENING * (not self.rounds) + f"open {batch} P\n" * bool(lanes)
        before = now()
        for _ in range(TRIES):
            self.hall = Hall(
                self.program,
                self.folder,
                plan(setup, [batch] * lanes),
                book=self.path,
                lanes=lanes,
                doors=DOORS + 1,
                port=FIRST_PORT,
                connections=999_999,
            )
            wait_until(lambda: self.listens() or self.hall.ended(), "the doors listen", 60)
            if self.listens():
                break
            # the archive had the book open, for its fingerprint: begun again, as the service does
            time.sleep(0.2)
        need(self.listens(), f"no hall begins: {self.hall.said()}")
        seeds = [f"{self.seed} {batch} {lane}" for lane in range(1, lanes + 1)]
        timed = [TimedLane(self.hall, at, one, self.pause) for at, one in enumerate(seeds, 1)]
        for lane in timed:
            lane.start()
        if lanes:
            self.rounds.append(Round(batch, before, timed))

    def listens(self) -> bool:
        return f":{ARCHIVE_PORT} " in run("ss", "-ltn")

    def work(self) -> None:
        for desk in self.desks:
            if not desk.is_alive():
                desk.start()

    @contextmanager
    def still(self) -> Iterator[None]:
        """The desks have been answered, and ask nothing."""
        with self.desks[0].turn, self.desks[1].turn:
            yield
        self.look()

    def look(self) -> None:
        for desk in self.desks:
            if desk.fault:
                raise desk.fault

    def opened(self) -> list[int]:
        """The packs that the gates let out a moment ago."""
        return [pack for lane in self.rounds[-1].lanes for pack in lane.opened[-20:-2]]

    def kill(self) -> None:
        """Kills the hall; the batch is left to a desk."""
        self.hall.kill()
        for lane in self.rounds[-1].lanes:
            lane.finish()
        self.hand_on()

    def end(self) -> None:
        """Brings the hall to its good end."""
        for lane in self.rounds[-1].lanes:
            lane.ending.set()
        open(f"{self.folder}/stop", "w", encoding="ascii").close()
        status = self.hall.wait(60)
        os.remove(f"{self.folder}/stop")
        need(status == 0, f"the hall ends with {status}: {self.hall.said()}")
        for lane in self.rounds[-1].lanes:
            lane.finish()
        self.hand_on()

    def hand_on(self) -> None:
        if self.rounds[-1].batch not in [batch for desk in self.desks for batch in desk.todo]:
            self.desks[len(self.rounds) % 2].todo.append(self.rounds[-1].batch)

    def rest(self) -> None:
        """Waits until the desks are done with the batches of before, and lets them go home."""
        wait_until(lambda: not any(desk.todo for desk in self.desks), "batches are tested", 120)
        for desk in self.desks:
            desk.ending.set()
            desk.join(60)
            need(not desk.is_alive(), f"desk {desk.number} isn't done")
        self.look()

    # ---- what is known of the rows

    def text(self, path: str = "") -> str:
        """The rows of the book at rest, as the program prints them: all of them, so again where the
        archive reads it at the same time, for its fingerprint."""
        words = [self.program, "acts", "--book", path or self.path]
        for _ in range(TRIES):
            done = subprocess.run(words, capture_output=True, text=True, check=True)
            if IN_USE not in done.stderr:
                return done.stdout
            time.sleep(0.5)
        raise Wrong(f"the book stays in use: {done.stderr}")

    def replay(self, script: list[str]) -> None:
        """Makes a book of a script's lines; what is refused of it isn't in the book."""
        words = [self.program, "run", "--book", self.path]
        lines = "".join(f"{line}\n" for line in script)
        subprocess.run(words, input=lines, text=True, capture_output=True, check=False)

    def known(self, text: str) -> dict[int, Known]:
        """What the senders know of rows: the lanes of packs that they sent, the desks of acts."""
        found = {row: act.known for row, act in self.acts.items()}
        batches = {one.batch: one for one in self.rounds}
        places: dict[tuple[str, int], int] = {}
        weighs_for: dict[int, str] = {}
        for line in text.splitlines():
            row, words = int(line.split(" ")[0]), line.split("\t")[2].split(" ")
            if words[0] == "start":
                weighs_for[int(words[1])] = words[2]
            elif words[0] == "weigh":
                number = int(words[1])
                batch = weighs_for[number]
                place = places.setdefault((batch, number), 0)
                places[batch, number] += 1
                lane = batches[batch].lanes[number - 1]
                need(spelled(lane.sent[place]) == words[2], f"row {row} isn't what was sent")
                found[row] = Known(lane.times[place], heard(lane, row))
        return found


def spelled(gross: int) -> str:
    return f"{gross // 1000}.{gross % 1000:03}"


def heard(lane: TimedLane, row: int) -> int:
    """When the gate let a pack out that is this row; the end of time where it didn't."""
    try:
        return lane.heard[lane.opened.index(row)]
    except ValueError:
        return 1 << 52
