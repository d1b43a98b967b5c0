"""Bytes of a serial line, as they come; a line that was pulled out is opened again.

Only termios of Python's own library is needed. What the device held when the line is opened is of
packs that are gone, and is dropped."""

import asyncio
import errno
import os
import termios
from collections.abc import AsyncIterator

from hall_adapter.readings import Linked
from hall_adapter.settings import Source

# Seconds until a line that isn't there is tried again.
RETRY = 0.5
PIECE = 4096
# What is asked of a line, and has to be so then: a driver may leave it silently.
KEPT = termios.CSIZE | termios.PARENB | termios.PARODD | termios.CSTOPB
PARITY = {"N": 0, "E": termios.PARENB, "O": termios.PARENB | termios.PARODD}
# Majors of pseudo-terminals, which have neither parity nor 7 bits.
PSEUDO = range(136, 144)


def control_of(line: int, source: Source) -> int:
    """Bits, parity and stop of a line. What comes over a pseudo-terminal came over its own line
    before, which had these."""
    control = termios.CREAD | termios.CLOCAL
    if os.major(os.fstat(line).st_rdev) in PSEUDO:
        return control | termios.CS8
    control |= {7: termios.CS7, 8: termios.CS8}[source.bits] | PARITY[source.parity]
    return control | (termios.CSTOPB if source.stop == 2 else 0)


def need_kept(control: int, got: int) -> None:
    """Raises where a line isn't set as it was asked to be: a spoiled byte would go for a good one."""
    if (control ^ got) & KEPT:
        raise OSError(errno.EINVAL, "it can't have these bits, parity and stop")


def set_up(line: int, source: Source) -> None:
    """Sets the line: raw, and at its speed. A byte with a wrong parity is dropped by the system, so
    the line that it was of fits no table."""
    control = control_of(line, source)
    reading = termios.INPCK | termios.IGNPAR if source.parity != "N" else termios.IGNBRK
    speed = getattr(termios, f"B{source.baud}")
    signs = termios.tcgetattr(line)[6]
    signs[termios.VMIN], signs[termios.VTIME] = 1, 0
    termios.tcsetattr(line, termios.TCSANOW, [reading, 0, control, 0, speed, speed, signs])
    need_kept(control, termios.tcgetattr(line)[2])


def open_line(source: Source) -> int:
    """Opens the line and drops what it holds."""
    line = os.open(source.serial, os.O_RDWR | os.O_NOCTTY | os.O_NONBLOCK)
    try:
        set_up(line, source)
        termios.tcflush(line, termios.TCIFLUSH)
    except BaseException:
        os.close(line)
        raise
    return line


async def wait_readable(line: int) -> None:
    """Waits until there is something to read."""
    loop = asyncio.get_running_loop()
    ready = asyncio.Event()
    loop.add_reader(line, ready.set)
    try:
        await ready.wait()
    finally:
        loop.remove_reader(line)


async def read_on(line: int) -> AsyncIterator[bytes]:
    """What comes, until the line is at its end."""
    while True:
        await wait_readable(line)
        try:
            piece = os.read(line, PIECE)
        except BlockingIOError:
            continue
        except OSError:
            return
        if not piece:
            return
        yield piece


async def serial_pieces(source: Source) -> AsyncIterator[bytes | Linked]:
    """What comes; and where the line is opened, can't be, or broke off."""
    while True:
        try:
            line = open_line(source)
        except (OSError, termios.error) as error:
            # of both the second word is what the system says
            yield Linked(False, f"{source.serial}: {error.args[1]}")
            await asyncio.sleep(RETRY)
            continue
        try:
            yield Linked(True)
            async for piece in read_on(line):
                yield piece
        finally:
            os.close(line)
        yield Linked(False, f"{source.serial} is at its end")
        await asyncio.sleep(RETRY)
