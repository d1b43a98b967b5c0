"""Lanes that change their batch while they weigh, by tests/changes.sh: PROGRAM FOLDER CHANGES SEED.

Four lanes at 100 packs a second each, over pipes and then over ports; what is compared stands in
changes_compare.py.
"""

# mypy: allow-untyped-calls

import os
import random
import statistics
import subprocess
import sys
import threading
import time

from changes_compare import (
    LaneRows, Session, check_voided, compare_pipes, compare_ports, compare_record, piles_of,
    read_record, sessions_of,
)  # fmt: skip
from changing_lane import ChangingLane, Gate
from clients import Hall, free_ports, make_pipes, need
from rows import rows_behind

LANES = 4
EVERY = 0.01
KILLS = 6
# Seconds on average between two changes, over all lanes, and between a kill and the next hall.
CHANGE_EVERY, AWAY = 0.25, 0.5
FIRST = 262_000
ENDED = 20
# What a change is, by weight: another batch, the same again, one that is unknown or was ended, two
# at once, and lines of a scanner that are none.
KINDS = {"good": 60, "again": 6, "unknown": 8, "ended": 8, "both": 10, "cut": 4, "nonsense": 4}
# How long nothing is written before all is in the book, and how long that is waited for, in seconds.
STILL, PATIENCE = 2.0, 300.0
# What is promised: seconds from a change to the first pack behind it, and how far the other lanes'
# rate may go from that before it.
MOST_CHANGE, MOST_SLOWER = 0.05, 0.05
# Seconds behind the beginning of a hall until what waited for it is weighed.
CALM = 4.0
# Seconds before and behind a change in which the other lanes are counted.
COUNTED = 0.1


def plan_text() -> str:
    return "".join(f"[[lane]]\nnumber = {lane}\nchanges = true\n" for lane in range(1, LANES + 1))


def opening(batches: int) -> str:
    """A day, a product, open batches, and some that were ended."""
    lines = ["day 2025-03-03", "product P 250", "tare P 2025-03-03 10"]
    lines += [f"open B{at} P" for at in range(batches)]
    for at in range(ENDED):
        lines += [f"open E{at} P", f"end E{at}"]
    return "".join(f"{line}\n" for line in lines)


class Day:
    """A hall and its lanes, from the first weight to the last."""

    def __init__(self, program: str, folder: str, remote: int | None, changes: int, seed: int):
        self.program, self.folder, self.remote, self.changes = program, folder, remote, changes
        self.draw = random.Random(seed)
        os.mkdir(folder)
        self.book = f"{folder}/book"
        subprocess.run([program, "run", "--book", self.book], input=opening(2 * changes + LANES),
                       text=True, check=True, stdout=subprocess.DEVNULL)  # fmt: skip
        make_pipes(folder, LANES)
        devices = free_ports() + 20
        self.lanes = [ChangingLane(folder, at, devices, remote and remote + at - 1)
                      for at in range(1, LANES + 1)]  # fmt: skip
        self.gate = Gate(folder, LANES)
        self.gate.start()
        self.next_batch = 0
        self.kinds: dict[str, int] = dict.fromkeys(KINDS, 0)
        self.kills: list[float] = []
        self.ending = threading.Event()
        self.hall = self.begin()

    def begin(self) -> Hall:
        return Hall(self.program, self.folder, plan_text(), self.book, lanes=LANES,
                    remote=self.remote, pipes=False)  # fmt: skip

    def weigh(self) -> None:
        """The scales, each at its own moment of a hundredth of a second."""
        at, began = 0, time.monotonic()
        while not self.ending.is_set():
            self.lanes[at % LANES].weigh(FIRST + at)
            at += 1
            left = began + at * EVERY / LANES - time.monotonic()
            if left > 0:
                time.sleep(left)

    def fresh(self) -> str:
        self.next_batch += 1
        return f"B{self.next_batch - 1}"

    def say(self, lane: ChangingLane, batch: str) -> None:
        """By the scanner or by a page."""
        (lane.scan if self.draw.random() < 0.5 else lane.page)(batch)

    def change(self) -> None:
        """A change of a drawn kind at a drawn lane."""
        lane = self.draw.choice(self.lanes)
        kind = self.draw.choices(list(KINDS), list(KINDS.values()))[0]
        self.kinds[kind] += 1
        if kind == "both":
            other = threading.Thread(target=lane.page, args=(self.fresh(),))
            other.start()
            lane.scan(self.fresh())
            other.join()
        elif kind == "again" and lane.batches:
            self.say(lane, lane.batches[-1].what)
        elif kind == "cut":
            lane.scanner.cut(b"batch B")
            lane.scan(self.fresh())
        elif kind == "nonsense":
            lane.scanner.say(
                self.draw.choice([b"batch B1 B2\r", b"BATCH B1\r", b"batch\r", b"4\r"])
            )
            lane.scan(self.fresh())
        else:
            names = {
                "unknown": f"X{self.draw.randrange(99)}",
                "ended": f"E{self.draw.randrange(ENDED)}",
            }
            self.say(lane, names.get(kind) or self.fresh())

    def kill(self) -> None:
        """Kills the hall, and begins it anew."""
        self.hall.kill()
        self.kills.append(time.time())
        time.sleep(AWAY)
        self.hall = self.begin()

    def wait_until_still(self) -> None:
        """Waits until what was said is in the book."""
        until = time.monotonic() + PATIENCE
        before = -1
        while (now := os.stat(self.book).st_mtime_ns) != before:
            need(
                time.monotonic() < until, f"the hall isn't done {PATIENCE} s behind the last weight"
            )
            before = now
            time.sleep(STILL)

    def run(self) -> None:
        """All of it, to a good end."""
        for lane in self.lanes:
            lane.page(self.fresh())
        scales = threading.Thread(target=self.weigh)
        scales.start()
        time.sleep(1)
        killed = set(self.draw.sample(range(1, self.changes), KILLS))
        for at in range(self.changes):
            need(not self.hall.ended(), f"the hall ended by itself: {self.hall.said()}")
            time.sleep(self.draw.expovariate(1 / CHANGE_EVERY))
            if at in killed:
                self.kill()
                time.sleep(self.draw.uniform(0, 1))
            self.change()
        time.sleep(2)
        self.ending.set()
        scales.join()
        self.wait_until_still()
        with open(f"{self.folder}/stop", "wb"):
            pass
        self.hall.wait(60)
        for lane in self.lanes:
            need(lane.end() == 0, f"the adapter of lane {lane.number} ended by a fault")


class Compared:
    """What a day left, compared."""

    def __init__(self, day: Day):
        self.day = day
        self.rows = rows_behind(day.book, 0)
        self.sessions: list[list[Session]] = []
        self.found = [LaneRows(self.rows, lane.number) for lane in day.lanes]
        self.voided = {number for number, pile in piles_of(self.rows).items() if pile == "voided"}
        self.dropped = self.lost = self.gone = 0
        # when the gate opened for each weight
        self.opened = [
            {pack.gross: gate[row] for pack, row in zip(lane.packs, lane.numbers) if row in gate}
            for lane, gate in zip(self.found, day.gate.opened)
        ]

    def compare(self) -> None:
        day = self.day
        said = subprocess.run([day.program, "check", "--book", day.book], capture_output=True,
                              text=True, check=False).stdout  # fmt: skip
        need(said == f"rows {len(self.rows)} whole\n", f"check says {said}")
        for lane, found in zip(day.lanes, self.found):
            lines = read_record(lane.record)
            self.dropped += compare_record(lane, lines, day.remote is not None)
            sessions = sessions_of(lines)
            self.sessions.append(sessions)
            self.gone += check_voided(lane.number, found, self.voided, len(day.kills))
            if day.remote is None:
                self.lost += compare_pipes(lane.number, found, sessions)
            else:
                wanted = [pack for session in sessions for pack in session.packs]
                compare_ports(lane.number, found, wanted, self.voided)

    def tell(self, way: str) -> list[str]:
        """Prints the figures, and gives those that are worse than is promised."""
        packs = sum(len(lane.packs) for lane in self.found)
        without = sum(session.without for lane in self.sessions for session in lane)
        kinds = ", ".join(f"{count} {kind}" for kind, count in self.day.kinds.items())
        print(f"changes: over {way}: {packs} packs, each under the batch that was said last before"
              f" it; {kinds}; {len(self.day.kills)} kills, {self.gone} packs voided by them,"
              f" {self.lost} weights on their way to a killed hall, {self.dropped} dropped while"
              f" none read, {without} without a batch", flush=True)  # fmt: skip
        took, share = self.tell_times(way), self.tell_rates(way)
        slow = [f"over {way} a change took {took * 1000:.1f} ms"] * (took > MOST_CHANGE)
        odd = f"over {way} the other lanes' rate is {share:.3f} of that before"
        return slow + [odd] * (abs(share - 1) > MOST_SLOWER)

    def is_calm(self, at: float) -> bool:
        """Whether no hall was killed near a moment: what waited for the next one comes before."""
        return all(not -1 < at - kill < AWAY + CALM for kill in self.day.kills)

    def tell_times(self, way: str) -> float:
        """How long a change takes, from its line to the first pack that its gate let out; the
        longest."""
        took = sorted(
            opened[weight] - at
            for sessions, opened in zip(self.sessions, self.opened)
            for session in sessions
            for at, weight in session.changes
            if weight in opened and self.is_calm(at)
        )
        median, late = statistics.median(took), took[int(0.95 * len(took))]
        print(f"changes: over {way}: from the line of {len(took)} changes to the first pack let out"
              f" {median * 1000:.1f} ms, 95 % within {late * 1000:.1f} ms, the longest"
              f" {took[-1] * 1000:.1f} ms", flush=True)  # fmt: skip
        return took[-1]

    def tell_rates(self, way: str) -> float:
        """How many packs the other lanes let out just behind a change, beside just before it."""
        counts = [0, 0]
        changes = [(lane, at) for lane, sessions in enumerate(self.sessions)
                   for session in sessions for at, _ in session.changes]  # fmt: skip
        for lane, at in changes:
            for other in range(LANES):
                near = any(one == other and abs(when - at) < 1 for one, when in changes)
                if other != lane and not near and self.is_calm(at):
                    moments = self.opened[other].values()
                    counts[0] += sum(at - COUNTED < moment <= at for moment in moments)
                    counts[1] += sum(at < moment <= at + COUNTED for moment in moments)
        share = counts[1] / counts[0]
        print(f"changes: over {way}: beside a change the other lanes let out {counts[1]} packs in"
              f" {COUNTED} s, and {counts[0]} before it: {share:.3f}", flush=True)  # fmt: skip
        return share


def main() -> None:
    program, folder, changes, seed = sys.argv[1:]
    worse = []
    for way, remote in (("pipes", None), ("ports", free_ports())):
        began = time.monotonic()
        day = Day(os.path.abspath(program), f"{folder}/{way}", remote, int(changes), int(seed))
        try:
            day.run()
        finally:
            day.hall.kill()
            for lane in day.lanes:
                lane.process.kill()
        compared = Compared(day)
        compared.compare()
        worse += compared.tell(way)
        print(f"changes: over {way}: done in {time.monotonic() - began:.0f} s", flush=True)
    need(not worse, f"worse than is promised: {worse}")


if __name__ == "__main__":
    main()
