"""What lets a pack out: a command, or a line to a device. The coil of a map is `modbus`'s.

A command that fails, or takes too long, is told: the book counts the pack as gone, and it was
turned aside."""

import asyncio
import os
from collections.abc import Callable

from hall_adapter.lanes import Pack
from hall_adapter.settings import Gate

# Seconds that a command has.
PATIENCE = 5.0

# What is told of an opening that failed: the pack, and why.
OnFailed = Callable[[Pack, str], None]


class CommandGate:
    """Calls a command for each pack, with the pack's row in PACK."""

    def __init__(self, gate: Gate, on_failed: OnFailed) -> None:
        self.gate = gate
        self.on_failed = on_failed
        self.running: set[asyncio.Task[None]] = set()

    def open(self, pack: Pack) -> None:
        """Opens for a pack."""
        task = asyncio.create_task(self.call(pack))
        self.running.add(task)
        task.add_done_callback(self.running.discard)

    async def call(self, pack: Pack) -> None:
        """Calls the command."""
        try:
            process = await asyncio.create_subprocess_exec(
                *self.gate.command,
                stdin=asyncio.subprocess.DEVNULL,
                env={**os.environ, "PACK": str(pack.row)},
            )
        except OSError as error:
            self.on_failed(pack, f"{self.gate.command[0]}: {error.strerror}")
            return
        try:
            async with asyncio.timeout(PATIENCE):
                status = await process.wait()
        except TimeoutError:
            process.kill()
            status = await process.wait()
        if status:
            self.on_failed(pack, f"{self.gate.command[0]} ended with status {status}")


class LineGate:
    """Writes a text to a device for each pack."""

    def __init__(self, gate: Gate, on_failed: OnFailed) -> None:
        self.gate = gate
        self.on_failed = on_failed
        self.line: int | None = None

    def open(self, pack: Pack) -> None:
        """Opens for a pack; a device that was away is opened again."""
        try:
            if self.line is None:
                self.line = os.open(self.gate.device, os.O_WRONLY | os.O_NOCTTY | os.O_NONBLOCK)
            if os.write(self.line, self.gate.text) != len(self.gate.text):
                raise BlockingIOError(0, "it takes no more")
        except OSError as error:
            if self.line is not None:
                os.close(self.line)
            self.line = None
            self.on_failed(pack, f"{self.gate.device}: {error.strerror}")


def gate_of(gate: Gate, on_failed: OnFailed) -> CommandGate | LineGate:
    """The gate of these settings."""
    return CommandGate(gate, on_failed) if gate.command else LineGate(gate, on_failed)
