"""Drawn streams of checkweighers with faults in them, and what the book has to have of them. For
tests/adapters.py."""

import os
import random
import threading
import time
from collections import Counter
from dataclasses import dataclass, field

from adapter_room import Line, Room, SerialLine, TcpDevice, open_line, settled, wait_until
from clients import need
from drawn import DRAWN

PERIOD = 0.05
# Seconds in which a gate may open: a machine that is busy takes long.
WITHIN = 20.0
# In a hundred packs so many have a fault.
FAULTS = 12
# Packs without a fault behind each fault, so that the counter tells what was lost.
CLEAN = 3
KINDS = ("repeat", "lost", "garbled", "short", "long", "cut", "anew", "motion")


@dataclass
class Sent:
    """What was sent: the masses in order, those whose lines were spoiled, and how often what."""

    masses: list[int] = field(default_factory=list)
    lost: set[int] = field(default_factory=set)
    faults: Counter[str] = field(default_factory=Counter)
    times: dict[int, float] = field(default_factory=dict)


class Stream(threading.Thread):
    """A checkweigher at work: it says a line for each pack, with faults drawn into the stream."""

    def __init__(self, device: str, way: SerialLine | TcpDevice, line: Line, seed: str, packs: int):
        super().__init__(daemon=True)
        self.spell, self.motion = DRAWN[device]
        self.device = device
        self.way = way
        self.line = line
        self.draw = random.Random(seed)
        self.packs = packs
        self.sent = Sent()
        self.counter = self.draw.randrange(1, 5000)
        self.fault: Exception | None = None

    def run(self) -> None:
        try:
            self.work()
        except Exception as fault:
            self.fault = fault

    def work(self) -> None:
        """Says all packs."""
        grosses = self.drawn_masses()
        clean = 0
        due = time.monotonic()
        for gross in grosses:
            due += PERIOD
            time.sleep(max(0.0, due - time.monotonic()))
            kind = ""
            if clean >= CLEAN and len(grosses) - len(self.sent.masses) > CLEAN:
                kind = self.draw.choice(KINDS) if self.draw.randrange(100) < 4 * FAULTS else ""
            clean = 0 if kind else clean + 1
            self.say(gross, kind)
            if kind in ("cut", "anew"):
                due = time.monotonic()

    def drawn_masses(self) -> list[int]:
        """Grosses with one digit behind the point in grams, all different; one in ten is light."""
        found: dict[int, None] = {}
        while len(found) < self.packs:
            is_light = self.draw.random() < 0.1
            least = 2_300 if is_light else 2_600
            found[self.draw.randrange(least, least + 100 + 900 * (not is_light)) * 100] = None
        return list(found)

    def say(self, gross: int, kind: str) -> None:
        """Says a pack, with a fault or none."""
        line = self.spell(self.counter, gross)
        self.sent.masses.append(gross)
        self.sent.faults[kind or "none"] += 1
        if kind in ("lost", "garbled", "short", "long", "cut", "anew", "motion"):
            self.sent.lost.add(gross)
        self.sent.times[gross] = time.monotonic()
        self.counter += 1
        match kind:
            case "lost":
                return
            case "repeat":
                self.way.send(line)
                self.way.send(line)
            case "motion":
                self.way.send(self.spell(self.counter - 1, gross, self.motion))
            case "garbled" | "short" | "long":
                self.way.send(self.spoiled(line, kind))
            case "cut" | "anew":
                self.cut(line, kind)
            case _:
                self.in_pieces(line)

    def in_pieces(self, line: bytes) -> None:
        """Says a line in two pieces, as they come over a slow line."""
        place = self.draw.randrange(len(line))
        self.way.send(line[:place])
        self.way.send(line[place:])

    def spoiled(self, line: bytes, kind: str) -> bytes:
        """A line with a byte that is another, missing or too many. Where a line has no check
        character a changed digit can't be seen, so there it becomes none."""
        place = self.draw.randrange(len(line) - 3)
        if kind == "short":
            return line[:place] + line[place + 1 :]
        if kind == "long":
            return line[:place] + line[place : place + 1] + line[place:]
        changed = self.draw.randrange(1, 256) if self.device == "garvens" else 0x80
        return line[:place] + bytes([line[place] ^ changed]) + line[place + 1 :]

    def cut(self, line: bytes, kind: str) -> None:
        """The line breaks off in the midst of a pack, and is there again a moment later; with
        `anew` the device was switched off, and counts from 1."""
        self.way.send(line[: self.draw.randrange(1, len(line) - 3)])
        time.sleep(0.05)
        self.way.unplug()
        wait_until(
            lambda: self.line.metric("hall_line_device_linked") == 0, f"{self.device} is away"
        )
        self.way.plug()
        wait_until(
            lambda: self.line.metric("hall_line_device_linked") == 1, f"{self.device} is back"
        )
        # what comes with the connection is taken to be old
        time.sleep(0.5)
        if kind == "anew":
            self.counter = 1


def reported(notes: Counter[str], sent: Sent) -> int:
    """How many packs were reported as not weighed. The counter tells of a pack that is missing;
    of one that was lost as the device began anew there is the line that broke off."""
    silent = sum(notes[kind] for kind in ("skip", "unheard", "old", "motion"))
    return silent + sent.faults["anew"]


def is_accounted(room: Room, line: Line, stream: Stream) -> bool:
    """Whether the hall has judged what it was sent, and each other pack was reported."""
    count = len(room.rows(line.lane))
    missing = len(stream.sent.masses) - count
    return line.metric("hall_line_waiting") == 0 and missing == reported(line.notes(), stream.sent)


def check_rows(room: Room, line: Line, stream: Stream) -> tuple[int, int]:
    """Compares the book with what was sent; gives how many packs there were, and how many lost."""
    sent, name = stream.sent, line.name
    grosses = [row.act["gross"] for row in room.rows(line.lane)]
    need(len(set(grosses)) == len(grosses), f"{name}: a pack is in the book twice")
    places = {gross: place for place, gross in enumerate(sent.masses)}
    need(set(grosses) <= set(places), f"{name}: {set(grosses) - set(places)} wasn't sent")
    order = [places[gross] for gross in grosses]
    need(order == sorted(order), f"{name}: the packs are in another order")
    missing = set(sent.masses) - set(grosses)
    notes = line.notes()
    need(
        len(missing) == reported(notes, sent),
        f"{name}: {len(missing)} packs are missing, {reported(notes, sent)} reported: {notes},"
        f" {sent.faults}, beside the drawn {sorted(missing - sent.lost)[:9]}: {line.said()[-40:]}",
    )
    need(notes["unheard"] or missing <= sent.lost, f"{name}: {missing - sent.lost} is lost")
    need(notes["anew"] >= sent.faults["anew"], f"{name}: a device began anew unseen")
    need(notes["repeat"] >= sent.faults["repeat"], f"{name}: a repeat is unseen: {notes}")
    return len(sent.masses), len(missing)


def check_openings(room: Room, line: Line, stream: Stream) -> None:
    """The gate opened once for each pack that passed, in order, while its pack was before it."""
    passed = [row for row in room.rows(line.lane) if row.signal == "pass"]
    shut = line.notes()["shut"]
    need(
        len(line.opened) == len(passed) - shut,
        f"{line.name}: {len(passed)} passed, {shut} stayed, and it opened {len(line.opened)} times",
    )
    if not shut:
        for row, opened in zip(passed, line.opened):
            late = opened - stream.sent.times[row.act["gross"]]
            need(
                0 <= late < WITHIN + 1, f"{line.name}: row {row.number} was let out after {late} s"
            )


def read_gates(lines: list[Line]) -> int:
    """Takes down which gates were opened; gives how often that was so far."""
    for line in lines:
        line.read_gate()
    return sum(len(line.opened) for line in lines)


def check_streams(room: Room, kind: str, packs: int, seed: str) -> tuple[int, int, Counter[str]]:
    """All devices at once over one kind of way, each at a lane of its own."""
    room.start()
    lines, streams = [], []
    for lane, device in enumerate(DRAWN, 1):
        line, way = open_line(room, kind, device, lane, f"within = {WITHIN}\n")
        lines.append(line)
        streams.append(Stream(device, way, line, f"{seed} {kind} {device}", packs))
    for stream in streams:
        stream.start()
    while any(stream.is_alive() for stream in streams):
        read_gates(lines)
        time.sleep(0.002)
    for line, stream in zip(lines, streams):
        if stream.fault:
            raise stream.fault
        wait_until(
            lambda: (read_gates(lines), is_accounted(room, line, stream))[1],
            f"{line.name}: each pack is judged or reported: {line.notes()}, {stream.sent.faults},"
            f" {line.said()[-20:]}",
        )
    settled(lambda: (read_gates(lines), os.stat(room.book).st_mtime_ns), 2.0)
    sent = lost = 0
    faults: Counter[str] = Counter()
    for line, stream in zip(lines, streams):
        counts = check_rows(room, line, stream)
        check_openings(room, line, stream)
        sent, lost = sent + counts[0], lost + counts[1]
        faults += stream.sent.faults
        line.end()
    room.stop()
    return sent, lost, faults
