"""hall-adapter line SETTINGS

Joins a line to a lane of a hall: weights of a checkweigher to the lane's port, the lane's openings
to the gate, and beside that reject confirmation, the mean to the filler, metrics, messages and
alarms. `settings` has what the file of settings says.

It runs until it is ended by a signal, and goes on when the device, the hall or the broker were
away. What is to be seen to goes to standard error, a line each. Status 0: it was ended. 1: the
lane's gate is no named pipe, or an address is in use. 2: the settings are faulty."""

import asyncio
import signal
import sys
import time
from collections.abc import Coroutine
from typing import Any

from hall_adapter.devices import load
from hall_adapter.filler import Mean, spell_advice
from hall_adapter.gates import CommandGate, LineGate, gate_of
from hall_adapter.hall_link import BadGate, HallLink
from hall_adapter.lanes import Action, Drop, Lane, Open, Pack, Send, Settle, Void
from hall_adapter.lines import Engine
from hall_adapter.metrics import serve
from hall_adapter.modbus import Order, Poller
from hall_adapter.pulses import read_pulses
from hall_adapter.readings import REASONS, Linked, Note, Reading
from hall_adapter.register_maps import RegisterMap, Registers, device_behind, load_map
from hall_adapter.reject import STOPPING, Confirmation
from hall_adapter.reports import Reports
from hall_adapter.serial_lines import serial_pieces
from hall_adapter.settings import Filler, Settings, load_settings, need_fit, need_programs
from hall_adapter.tcp_lines import tcp_pieces
from hall_adapter.voids import Voids

# Seconds from one look at the clock to the next.
TICK = 0.02
# So many packs that were let out are remembered, for a coil that fails.
REMEMBERED = 100
# Words of a device that are about no pack.
NO_PACK = {"word", "light"}


class Line:
    """A line, and what stands at it. Its methods run one at a time, on the thread of the loop."""

    def __init__(self, settings: Settings, made: RegisterMap | None) -> None:
        self.settings = settings
        self.reports = Reports(settings)
        self.metrics = self.reports.metrics
        self.lane = Lane(settings.within)
        reject = settings.reject
        self.watch = Confirmation(reject.earliest, reject.latest) if reject else None
        self.mean = mean_of(settings.filler)
        self.link = HallLink(
            settings.port,
            settings.gate_path,
            self.hall_linked,
            self.hall_cut,
            self.acknowledged,
            lambda row: self.act(self.lane.opened(row, time.monotonic())),
            self.report,
        )
        self.gate: CommandGate | LineGate | None = None
        self.poller: Poller | None = None
        self.registers: Registers | None = None
        if made:
            self.engine = Engine(device_behind(made))
            self.registers = Registers(made, self.engine)
        else:
            self.engine = Engine(load(settings.device))
        if settings.gate:
            self.gate = gate_of(settings.gate, self.gate_failed)
        self.recent: dict[int, Pack] = {}
        self.settled_from = 0.0
        self.voids = Voids(settings.desk, self.report) if settings.desk else None
        self.is_hall_there: bool | None = None
        self.is_device_there: bool | None = None

    # ---- what comes from the device

    def take(self, told: list[Reading | Note]) -> None:
        """Takes what the device says."""
        now = time.monotonic()
        for one in told:
            if isinstance(one, Note):
                self.report(one)
                if self.watch and one.kind in REASONS and one.kind not in NO_PACK:
                    self.watch.unweighed(now)
            elif now < self.settled_from:
                self.report(Note("old", f"a weight came with the connection: {one.mass} mg"))
            else:
                self.weigh(one, now)

    def weigh(self, reading: Reading, now: float) -> None:
        """Takes a weight."""
        self.metrics.set("hall_line_last_pack_seconds", time.time())
        pack, actions = self.lane.weigh(reading, now)
        if self.watch:
            self.watch.weighed(pack.number, now)
        self.act(actions)
        if self.mean and (advice := self.mean.weigh(reading.mass)) is not None:
            self.advise(advice)

    def device_linked(self, linked: Linked) -> None:
        """The device is there, or is away."""
        self.metrics.set("hall_line_device_linked", linked.is_there)
        if linked.is_there:
            self.settled_from = time.monotonic() + self.settle()
        if self.is_device_there is not linked.is_there:
            self.is_device_there = linked.is_there
            if not linked.is_there:
                self.report(Note("device", f"the weighing device is away ({linked.why})"))

    def settle(self) -> float:
        """For how long the lines of a new connection are of packs that are gone."""
        return self.settings.source.settle if self.settings.source else 0.0

    async def read_lines(self) -> None:
        """Reads a device's lines."""
        source = self.settings.source
        assert source is not None
        async for piece in serial_pieces(source) if source.serial else tcp_pieces(source):
            if not isinstance(piece, Linked):
                self.take(self.engine.feed(piece))
                continue
            self.take(self.engine.cut())
            self.device_linked(piece)

    # ---- what comes over Modbus

    def start_poller(self) -> Poller:
        """Starts the thread that polls the device."""
        loop = asyncio.get_running_loop()
        assert self.registers is not None
        poller = Poller(
            self.registers.map,
            lambda words: loop.call_soon_threadsafe(self.take_words, words),
            lambda why: loop.call_soon_threadsafe(self.registers_cut, why),
            lambda order: loop.call_soon_threadsafe(self.order_failed, order),
        )
        poller.start()
        return poller

    def take_words(self, words: list[int]) -> None:
        """Takes a poll."""
        assert self.registers is not None
        if not self.is_device_there:
            self.device_linked(Linked(True))
        self.take(self.registers.take(words))
        for _ in range(self.registers.turned_aside(words)):
            self.seen()

    def registers_cut(self, why: str) -> None:
        """The device doesn't answer."""
        assert self.registers is not None
        self.registers.cut()
        self.device_linked(Linked(False, why))

    def order_failed(self, order: Order) -> None:
        """The coil couldn't be set."""
        what, number = order
        if what == "open" and number in self.recent:
            self.gate_failed(self.recent[number], "its coil wasn't set")

    # ---- what comes from the hall

    def hall_linked(self) -> None:
        """There is a connection to the lane's port."""
        self.metrics.set("hall_line_hall_linked", 1)
        self.is_hall_there = True
        self.act(self.lane.linked(time.monotonic()))

    def hall_cut(self, is_gone: bool) -> None:
        """The connection is gone, or no hall is there."""
        self.metrics.set("hall_line_hall_linked", 0)
        self.lane.unlinked()
        if is_gone:
            self.act(self.lane.hall_gone())
        if self.is_hall_there is not False:
            self.is_hall_there = False
            text = f"port {self.settings.port} isn't there, or left the connection"
            self.report(Note("hall", f"lane {self.settings.lane}: {text}"))

    def acknowledged(self, number: int) -> None:
        """The hall has taken so many weights."""
        self.act(self.lane.acknowledged(number, time.monotonic()))

    # ---- what is done

    def act(self, actions: list[Action]) -> None:
        """Does what a step of the lane says."""
        for action in actions:
            match action:
                case Send(line):
                    self.link.send(line)
                case Open(pack):
                    self.open(pack)
                case Settle(pack, passed):
                    self.settled(pack, passed)
                case Drop():
                    self.metrics.add("hall_line_packs_total", signal="unheard")
                case Void(row):
                    self.void(row)
                case Note():
                    self.report(action)
        self.metrics.set("hall_line_waiting", self.lane.unjudged())

    def open(self, pack: Pack) -> None:
        """Lets a pack out."""
        assert pack.row is not None
        if self.watch:
            self.watch.let_out(pack.number, pack.row)
        if self.gate:
            self.gate.open(pack)
        elif self.poller:
            self.recent[pack.number] = pack
            self.recent.pop(pack.number - REMEMBERED, None)
            self.poller.order("open", pack.number)

    def gate_failed(self, pack: Pack, why: str) -> None:
        """A pack that the book lets out was turned aside, as its gate failed."""
        self.report(Note("gate", f"row {pack.row} passed, and its gate stayed shut: {why}"))
        if self.watch:
            self.watch.stayed(pack.number)
        if pack.row is not None:
            self.void(pack.row)

    def settled(self, pack: Pack, passed: bool) -> None:
        """The book has judged a pack."""
        self.metrics.add("hall_line_packs_total", signal="pass" if passed else "reject")
        self.metrics.observe("hall_line_answer_seconds", time.monotonic() - pack.at)
        if self.reports.messages:
            self.reports.messages.pack(pack, passed)

    def advise(self, advice: int) -> None:
        """Tells the filler."""
        self.metrics.set("hall_line_mean_off_grams", advice / 1000)
        text = spell_advice(advice)
        if self.reports.messages:
            self.reports.messages.say("advice", text)
        if self.poller:
            self.poller.order("advise", advice)
        if self.settings.filler and self.settings.filler.file:
            self.write_advice(self.settings.filler.file, text)

    def write_advice(self, path: str, text: str) -> None:
        """Writes advice as a line."""
        try:
            with open(path, "a", encoding="ascii") as sink:
                sink.write(f"{text}\n")
        except OSError as error:
            self.report(Note("filler", f"{path}: {error.strerror}"))

    def report(self, note: Note) -> None:
        """Reports something, and stops the gate where it has to."""
        self.reports.take(note, time.monotonic())
        reject = self.settings.reject
        if note.kind in STOPPING and reject and reject.stops and not self.lane.is_stopped:
            self.stop(note)

    def stop(self, note: Note) -> None:
        """Stops the gate. The hall is told by its next opening, which finds no gate."""
        self.link.read_gate()
        self.lane.stop()
        self.metrics.set("hall_line_stopped", 1)
        self.link.close_gate()
        if self.reports.messages:
            self.reports.messages.set_state("stopped")
        self.report(Note("stopped", f"the gate is stopped, as {note.text}"))

    # ---- rejects

    def seen(self) -> None:
        """Something was seen behind the reject."""
        if not self.watch:
            return
        confirmed = self.watch.confirmed
        for note in self.watch.seen(time.monotonic()):
            if note.row is not None:
                self.void(note.row)
            self.report(note)
        if self.watch.confirmed > confirmed:
            self.metrics.add("hall_line_rejects_confirmed_total")

    # ---- packs that are taken back

    def void(self, row: int) -> None:
        """A row passed, and its pack was turned aside: it is to be voided, by this or at a desk."""
        if self.voids:
            self.voids.queue.put_nowait(row)
        else:
            self.report(Note("void", f"void {row} at a desk: its pack was turned aside"))

    # ---- all at once

    async def tick(self) -> None:
        """Looks at the clock."""
        while True:
            await asyncio.sleep(TICK)
            now = time.monotonic()
            self.act(self.lane.send(now))
            for note in self.watch.tick(now) if self.watch else []:
                self.report(note)

    async def text(self) -> str:
        """The metrics."""
        return self.metrics.text()

    def parts(self) -> list[Coroutine[Any, Any, None]]:
        """What runs at once."""
        parts = [self.link.keep(), self.tick()]
        if not self.registers:
            parts.append(self.read_lines())
        if self.voids:
            parts.append(self.voids.run())
        if self.settings.reject and self.settings.reject.pulses:
            parts.append(read_pulses(self.settings.reject.pulses, self.seen, self.report))
        if self.settings.metrics:
            parts.append(serve(self.settings.metrics, self.text))
        return parts

    async def run(self) -> None:
        """Runs until it is cancelled."""
        self.metrics.set("hall_line_stopped", 0)
        self.metrics.set("hall_line_device_linked", 0)
        self.metrics.set("hall_line_hall_linked", 0)
        print(f"line: {self.settings.told()}", file=sys.stderr, flush=True)
        if self.registers:
            self.poller = self.start_poller()
        try:
            async with asyncio.TaskGroup() as group:
                for part in self.parts():
                    group.create_task(part)
        finally:
            if self.poller:
                self.poller.ending.set()
            self.reports.end()


def mean_of(filler: Filler | None) -> Mean | None:
    """The mean that a filler is told."""
    if filler is None:
        return None
    return Mean(filler.packs, filler.target, filler.band, filler.every)


async def run_until_ended(line: Line) -> None:
    """Runs a line until a signal ends it."""
    loop = asyncio.get_running_loop()
    running = asyncio.create_task(line.run())
    for number in (signal.SIGTERM, signal.SIGINT):
        loop.add_signal_handler(number, running.cancel)
    try:
        await running
    except asyncio.CancelledError:
        pass


def run(path: str) -> int:
    """Runs the line of these settings."""
    settings = load_settings(path)
    need_programs(path, settings)
    made = load_map(settings.map) if settings.map else None
    if made:
        need_fit(path, settings, made)
    status = 0
    try:
        asyncio.run(run_until_ended(Line(settings, made)))
    except* (BadGate, OSError) as faults:
        status = 1
        for fault in faults.exceptions:
            print(f"hall-adapter: {fault}", file=sys.stderr)
    return status
