"""The link to a lane of a hall: numbered weights to its port, acknowledgements from it, and the
openings that it writes into the lane's gate."""

import asyncio
import os
import re
import stat
from collections.abc import Callable

from hall_adapter.readings import Note

HOST = "127.0.0.1"
ACKNOWLEDGED = re.compile(rb"ack ([0-9]{1,20})")
OPENING = re.compile(rb"open ([0-9]{1,10})")
# Seconds until the port, or a gate that isn't there, is tried again.
RETRY = 0.1
PIECE = 4_096
# More bytes of a line than there are.
LONGEST = 64


class BadGate(Exception):
    """The lane's gate is no named pipe."""


class HallLink(asyncio.Protocol):
    """A connection to the lane's port, and the lane's gate."""

    def __init__(
        self,
        port: int,
        gate_path: str,
        on_linked: Callable[[], None],
        on_cut: Callable[[bool], None],
        on_acknowledged: Callable[[int], None],
        on_opened: Callable[[int], None],
        report: Callable[[Note], None],
    ) -> None:
        self.port = port
        self.gate_path = gate_path
        self.on_linked = on_linked
        self.on_cut = on_cut
        self.on_acknowledged = on_acknowledged
        self.on_opened = on_opened
        self.report = report
        self.transport: asyncio.WriteTransport | None = None
        self.lost = asyncio.Event()
        self.held = b""
        self.gate: int | None = None
        self.gate_held = b""
        # whether the hall has the gate open: it opens it at the first pack that passes
        self.is_gate_shared = False
        self.is_closing = False

    # ---- the port

    def connection_made(self, transport: asyncio.BaseTransport) -> None:
        """There is a connection."""
        assert isinstance(transport, asyncio.WriteTransport)
        self.transport, self.held = transport, b""
        self.lost.clear()
        self.on_linked()

    def data_received(self, data: bytes) -> None:
        """Acknowledgements came. What the hall wrote into the gate before them is read first."""
        self.read_gate()
        *lines, self.held = (self.held + data).split(b"\n")
        found = [ACKNOWLEDGED.fullmatch(line) for line in lines]
        for one in found:
            if one:
                self.on_acknowledged(int(one[1]))
        if not all(found) or len(self.held) > LONGEST:
            self.leave()

    def connection_lost(self, exc: Exception | None) -> None:
        """The connection is gone."""
        self.transport = None
        self.lost.set()
        self.on_cut(False)

    def leave(self) -> None:
        """Leaves the connection, for another one."""
        if self.transport:
            self.transport.abort()

    def send(self, line: bytes) -> None:
        """Sends a line, where there is a connection."""
        if self.transport:
            self.transport.write(line)

    async def keep(self) -> None:
        """Keeps a connection, for as long as it runs. A port that refuses has no hall. No weight is
        sent before the gate is there."""
        await self.find_gate()
        loop = asyncio.get_running_loop()
        while True:
            try:
                await loop.create_connection(lambda: self, HOST, self.port)
                await self.lost.wait()
            except ConnectionRefusedError:
                self.hall_gone()
                self.on_cut(True)
            except OSError:
                pass
            await asyncio.sleep(RETRY)

    # ---- the gate

    async def find_gate(self) -> None:
        """Waits until the lane's gate is there, and opens it."""
        if not os.path.exists(self.gate_path):
            self.report(Note("hall", f"{self.gate_path} isn't there: no hall was started yet"))
        while not os.path.exists(self.gate_path):
            await asyncio.sleep(RETRY)
        self.open_gate()

    def open_gate(self) -> None:
        """Opens the lane's gate, for both ways, so that it stays open while no hall runs."""
        if not stat.S_ISFIFO(os.stat(self.gate_path).st_mode):
            raise BadGate(f"{self.gate_path} is no named pipe")
        self.gate = os.open(self.gate_path, os.O_RDWR | os.O_NONBLOCK)
        asyncio.get_running_loop().add_reader(self.gate, self.read_gate)

    def read_gate(self) -> None:
        """Takes the openings that are there."""
        if self.gate is None:
            return
        try:
            while piece := os.read(self.gate, PIECE):
                self.gate_held += piece
        except BlockingIOError:
            pass
        *lines, self.gate_held = self.gate_held.split(b"\n")
        for line in lines:
            self.is_gate_shared = True
            if found := OPENING.fullmatch(line):
                self.on_opened(int(found[1]))
            else:
                self.report(Note("gate", f"{self.gate_path} has the line {line!r}"))
        if self.is_closing:
            self.close_gate()

    def close_gate(self) -> None:
        """Closes the gate for the hall, so that it fails at the next pack that passes, which is
        then told to have stayed. A hall that hasn't opened it yet would wait for it: there it is
        closed behind the next opening."""
        self.is_closing = True
        if self.gate is not None and self.is_gate_shared:
            asyncio.get_running_loop().remove_reader(self.gate)
            gate, self.gate = self.gate, None
            os.close(gate)

    def hall_gone(self) -> None:
        """The hall has the gate open no more; the next one has to find it."""
        self.is_gate_shared = False
        if self.gate is None and self.is_closing:
            self.open_gate()
