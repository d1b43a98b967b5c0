"""hall-adapter weights DEVICE [--unit g|kg|mg] < SCALE > CELL

Turns the lines of a weighing device into weights a line, as a lane of the hall reads them from its
pipe. DEVICE is a table by its name or its path. A line that is a weight is handed on as grams as
soon as it has its end. Everything else is left out and counted; a repeat or a skip of the device's
counter is reported as it comes. The counts go to standard error at the end, and after every
hundredth line that was left out. What a serial device held before this began is of packs that are
gone, and is dropped.

Status 0 is the end of the scale, 1 that nobody reads the weights any more, 2 a faulty table or
command.

Settings of a serial line are made before, as `stty -F /dev/ttyUSB0 9600 raw -echo cs8 -parenb`."""

import os
import sys
import termios
from collections.abc import Iterator
from typing import BinaryIO

from hall_adapter.devices import load
from hall_adapter.lines import Engine
from hall_adapter.readings import REASONS, Note, Reading, spell

EVERY = 100
PIECE = 4096


def pieces(source: BinaryIO) -> Iterator[bytes]:
    """What comes, as it comes; a device that was pulled out is at its end."""
    while True:
        try:
            piece = os.read(source.fileno(), PIECE)
        except OSError:
            return
        if not piece:
            return
        yield piece


def counts(engine: Engine) -> str:
    """How much was handed on, and how much left out."""
    return f"{engine.handed} handed on, {engine.left()} left out"


def tell(text: str) -> None:
    """Says something on standard error."""
    print(f"weights: {text}", file=sys.stderr, flush=True)


def drop_old(source: BinaryIO) -> None:
    """Drops what a serial device held before."""
    if os.isatty(source.fileno()):
        termios.tcflush(source.fileno(), termios.TCIFLUSH)


def hand_on(engine: Engine, told: list[Reading | Note], sink: BinaryIO) -> None:
    """Hands readings on, and says what is to be reported."""
    for one in told:
        if isinstance(one, Reading):
            sink.write(f"{spell(one.mass)}\n".encode())
            sink.flush()
        elif one.kind not in REASONS:
            tell(one.text)
        elif engine.left() % EVERY == 0:
            tell(counts(engine))


def run(device: str, unit: str | None) -> int:
    """Turns standard input into weights."""
    engine = Engine(load(device, unit))
    drop_old(sys.stdin.buffer)
    try:
        for piece in pieces(sys.stdin.buffer):
            hand_on(engine, engine.feed(piece), sys.stdout.buffer)
        hand_on(engine, engine.cut(), sys.stdout.buffer)
    except (BrokenPipeError, KeyboardInterrupt):
        return 1
    tell(counts(engine))
    return 0
