"""hall-adapter lane SETTINGS

Holds the pipe of a lane that changes its batch (`changes = true` in the plan), and brings together
what scale, scanner and pages say, each line in one write. A scanner's line is `batch NAME`. The
batch that was said last is kept on the disk, and is said first to each new hall: so after a kill, a
restart or a power cut the lane weighs for that one. `lane_settings` has what the file of settings
says.

Weights that come while no hall reads are dropped, and reported, since their packs are gone. What is
neither a weight nor a batch is left out and reported. Who changed the batch, and when, is taken
down in the file `changes` of the lane's folder.

It runs until it is ended by a signal. Status 0: it was ended. 1: the cell is no named pipe, or a
file can't be used. 2: the settings are faulty."""

import asyncio
import os
import signal
import sys
import time
from collections.abc import AsyncIterator, Coroutine
from datetime import UTC, datetime
from typing import Any

from hall_adapter.batch_socket import BatchSocket
from hall_adapter.batches import LONGEST, BadKept, KeptBatch, batch_of, line_of
from hall_adapter.cell_pipe import BadCell, CellPipe, SenderPipe, Sink
from hall_adapter.devices import load
from hall_adapter.lane_settings import LaneSettings, load_lane_settings
from hall_adapter.lines import Engine
from hall_adapter.presence import Presence
from hall_adapter.readings import REASONS, Linked, Note, Reading, spell
from hall_adapter.serial_lines import serial_pieces
from hall_adapter.settings import Source
from hall_adapter.tcp_lines import tcp_pieces

CHANGES = "changes"
# What is counted, and reported once in so many lines.
EVERY = 100
ENDS = bytes.maketrans(b"\r", b"\n")


def tell(text: str) -> None:
    """Says something on standard error."""
    print(f"lane: {text}", file=sys.stderr, flush=True)


def moment() -> str:
    """The time now, as files have it."""
    return datetime.now(UTC).strftime("%Y-%m-%dT%H:%M:%S.%fZ")


def pieces_of(source: Source) -> AsyncIterator[bytes | Linked]:
    """What a device says; and where it is there, or isn't."""
    return serial_pieces(source) if source.serial else tcp_pieces(source)


class Scans:
    """The lines of a scanner, which end in CR, LF or both."""

    def __init__(self) -> None:
        self.held = b""

    def feed(self, piece: bytes) -> list[bytes]:
        """The lines that are whole now."""
        *lines, self.held = (self.held + piece.translate(ENDS)).split(b"\n")
        if len(self.held) > LONGEST:
            # its end is still to come, and makes it no batch
            self.held = self.held[: LONGEST + 1]
        return [line for line in lines if line]

    def cut(self) -> list[bytes]:
        """The scanner broke off: what is held of a line is none."""
        rest, self.held = self.held, b""
        return [rest] if rest else []


class ChangingLane:
    """A lane, and what is said to its hall. Its methods run one at a time."""

    def __init__(self, settings: LaneSettings) -> None:
        self.settings = settings
        os.makedirs(settings.folder, exist_ok=True)
        self.kept = KeptBatch(settings.folder)
        self.engine = Engine(load(settings.device))
        self.scans = Scans()
        self.settled_from = 0.0
        self.dropped = 0
        self.record = open(settings.record, "ab", 0) if settings.record else None
        self.sink = self.sink_of(settings)

    def sink_of(self, settings: LaneSettings) -> Sink:
        """Where the lines go."""
        if settings.cell:
            return CellPipe(settings.cell, self.begin, self.said)
        return SenderPipe(settings.sender, self.begin, self.said)

    # ---- what is said

    def begin(self) -> None:
        """A hall reads anew: it hears the batch first."""
        if self.dropped:
            tell(f"{self.dropped} weights were dropped while no hall read")
        self.dropped = 0
        self.take_down(b"# a reader came\n")
        if self.kept.name is None:
            tell("a hall reads, and no batch was ever said")
        else:
            self.sink.say(line_of(self.kept.name))

    def said(self, line: bytes) -> None:
        """A line was written."""
        self.take_down(line)

    def take_down(self, line: bytes) -> None:
        """Takes a line down in the record."""
        if self.record:
            self.record.write(f"{moment()} ".encode() + line)

    def weigh(self, reading: Reading) -> None:
        """A weight came."""
        if self.sink.has_room():
            self.sink.say(f"{spell(reading.mass)}\n".encode())
            return
        self.dropped += 1
        if self.dropped % EVERY == 1:
            where = self.settings.cell or self.settings.sender[0]
            tell(f"no hall reads at {where}: {self.dropped} weights are dropped")

    def change(self, name: bytes, who: str) -> bool:
        """A batch was said: it is kept, and then said. Whether a hall reads. Where it can't be kept
        it isn't said either."""
        self.kept.keep(name)
        self.sink.say(line_of(name))
        self.note(f"batch {name.decode('latin-1')} by {who}")
        return self.sink.is_there()

    def note(self, text: str) -> None:
        """Takes down who changed the batch, and when."""
        tell(text)
        try:
            with open(os.path.join(self.settings.folder, CHANGES), "a", encoding="latin-1") as file:
                file.write(f"{moment()} {text}\n")
        except OSError as error:
            tell(f"{CHANGES} isn't written: {error.strerror}")

    # ---- what comes

    def take(self, told: list[Reading | Note]) -> None:
        """Takes what the scale says."""
        for one in told:
            if isinstance(one, Note):
                self.leave_out(one)
            elif time.monotonic() < self.settled_from:
                tell(f"a weight came with the connection: {spell(one.mass)} g")
            else:
                self.weigh(one)

    def leave_out(self, note: Note) -> None:
        """Reports what is no weight: what a device says on a good day too only now and then."""
        if note.kind not in REASONS:
            tell(note.text)
        elif self.engine.left() % EVERY == 1:
            tell(f"{self.engine.left()} lines were left out, the newest: {note.text}")

    def take_scans(self, lines: list[bytes]) -> None:
        """Takes what the scanner says."""
        for line in lines:
            name = batch_of(line)
            if name is None:
                tell(f"the scanner said no batch: {ascii(line[:LONGEST].decode('latin-1'))}")
            else:
                self.change_by_scanner(name)

    def change_by_scanner(self, name: bytes) -> None:
        """The scanner said a batch."""
        try:
            self.change(name, "scanner")
        except OSError as error:
            tell(f"the batch can't be kept, and isn't said: {error}")

    async def hear_scale(self) -> None:
        """Hears the scale."""
        device = Presence("scale", tell)
        async for piece in pieces_of(self.settings.scale):
            if not isinstance(piece, Linked):
                self.take(self.engine.feed(piece))
                continue
            # a new connection may come before the end of the old one is seen
            self.take(self.engine.cut())
            device.take(piece)
            if piece.is_there:
                self.settled_from = time.monotonic() + self.settings.scale.settle

    async def hear_scanner(self, scanner: Source) -> None:
        """Hears the scanner."""
        device = Presence("scanner", tell)
        async for piece in pieces_of(scanner):
            if not isinstance(piece, Linked):
                self.take_scans(self.scans.feed(piece))
                continue
            device.take(piece)
            for rest in self.scans.cut():
                tell(f"the scanner broke off in a line: {ascii(rest.decode('latin-1'))}")

    def hear_page(self, name: bytes, person: str) -> bool:
        """Hears a person at a page."""
        return self.change(name, f"page {person}")

    # ---- all of it

    def parts(self) -> list[Coroutine[Any, Any, None]]:
        """What runs beside one another."""
        found = [self.sink.keep(), self.hear_scale()]
        if self.settings.scanner:
            found.append(self.hear_scanner(self.settings.scanner))
        if self.settings.socket:
            found.append(BatchSocket(self.settings.socket, self.hear_page).keep())
        return found

    async def run(self) -> None:
        """Runs the lane until a signal ends it."""
        loop, me = asyncio.get_running_loop(), asyncio.current_task()
        assert me
        for number in (signal.SIGTERM, signal.SIGINT):
            loop.add_signal_handler(number, me.cancel)
        async with asyncio.TaskGroup() as group:
            for part in self.parts():
                group.create_task(part)


def run(path: str) -> int:
    """Runs the lane of these settings."""
    settings = load_lane_settings(path)
    status = 0
    try:
        asyncio.run(ChangingLane(settings).run())
    except* asyncio.CancelledError:
        pass
    except* (BadCell, BadKept, OSError) as faults:
        status = 1
        for fault in faults.exceptions:
            print(f"hall-adapter: {fault}", file=sys.stderr)
    return status
