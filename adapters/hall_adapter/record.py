"""hall-adapter record MAP|SETTINGS

Takes down what a device says, for `hall-adapter check`. By the settings of a line these are the
bytes of its source, as they come. Of a map for Modbus it is a line for each poll that differs from
the one before it, its words in hex, and `cut` where the device didn't answer; no coil is set.

Whether the device is there, and why it isn't, goes to standard error. Ended by Ctrl-C or a signal.
The line's own service must not run meanwhile, since a device speaks to one."""

import asyncio
import dataclasses
import os
import queue
import signal
import sys

from hall_adapter.devices import find
from hall_adapter.modbus import Poller
from hall_adapter.presence import Presence
from hall_adapter.readings import Linked
from hall_adapter.register_maps import CUT, RegisterMap, is_map, load_map
from hall_adapter.serial_lines import serial_pieces
from hall_adapter.settings import Source, load_settings
from hall_adapter.tcp_lines import tcp_pieces


def tell(text: str) -> None:
    """Says something on standard error."""
    print(f"record: {text}", file=sys.stderr, flush=True)


def record_registers(made: RegisterMap) -> None:
    """Takes registers down until it is ended."""
    said: queue.SimpleQueue[tuple[str, Linked]] = queue.SimpleQueue()
    poller = Poller(
        dataclasses.replace(made, gate=None),
        lambda words: said.put((" ".join(f"{word:04x}" for word in words), Linked(True))),
        lambda why: said.put((CUT, Linked(False, why))),
        lambda order: None,
    )
    poller.start()
    device, last = Presence("device", tell), ""
    while True:
        line, linked = said.get()
        if line != last:
            print(line, flush=True)
        device.take(linked)
        last = line


async def record_lines(source: Source) -> None:
    """Takes a device's bytes down until it is ended."""
    device = Presence("device", tell)
    async for piece in serial_pieces(source) if source.serial else tcp_pieces(source):
        if isinstance(piece, Linked):
            device.take(piece)
        else:
            os.write(sys.stdout.fileno(), piece)


def end(*_: object) -> None:
    """A signal ends it as Ctrl-C does."""
    raise KeyboardInterrupt


def run(name: str) -> int:
    """Takes down until it is ended."""
    path, table = find(name)
    settings = None if is_map(table) else load_settings(path)
    signal.signal(signal.SIGTERM, end)
    try:
        if settings and settings.source:
            asyncio.run(record_lines(settings.source))
        else:
            record_registers(load_map(settings.map if settings else path))
    except KeyboardInterrupt:
        pass
    return 0
