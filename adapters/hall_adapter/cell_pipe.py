"""The pipe into which a lane says its lines, each in one write, and who reads it: a hall, or the
sender that hands the lines on to a port.

A pipe whose reader is gone is left at once, and with it what that one hadn't read; the next one is
heard of before anything is said to it. epoll tells that a pipe has no reader, and inotify that a
reader went, also where the next one has come by then.
"""

import asyncio
import ctypes
import errno
import os
import stat
from collections import deque
from collections.abc import Callable, Iterable

# Seconds until a pipe that nobody reads is tried again, and a sender that ended is begun again.
RETRY = 0.05
AGAIN = 1.0
# How many lines wait for a reader that is slow; further weights are dropped.
MOST_WAITING = 1_000
# What inotify tells: a file that was open for reading alone was closed.
CLOSED_READER = 0x10
EVENTS = 4_096


class BadCell(Exception):
    """The lane's cell is no named pipe."""


class ReaderWatch:
    """Tells that a reader of a file has gone, since it was last asked for."""

    def __init__(self, path: str) -> None:
        self.path = path
        self.libc = ctypes.CDLL(None, use_errno=True)
        self.events: int = self.libc.inotify_init1(os.O_NONBLOCK | os.O_CLOEXEC)
        self.checked(self.events)

    def checked(self, result: int) -> None:
        """Raises where a call failed."""
        if result < 0:
            fault = ctypes.get_errno()
            raise OSError(fault, os.strerror(fault), self.path)

    def begin(self) -> None:
        """Watches the file that has the path now, and forgets what was told."""
        self.checked(
            self.libc.inotify_add_watch(self.events, os.fsencode(self.path), CLOSED_READER)
        )
        self.is_told()

    def is_told(self) -> bool:
        """Whether a reader went, since this was last asked."""
        try:
            return bool(os.read(self.events, EVENTS))
        except BlockingIOError:
            return False


class Sink:
    """Where a lane's lines go. `on_there` is called as soon as somebody reads anew, and `on_said`
    with each line that was written."""

    def __init__(self, on_there: Callable[[], None], on_said: Callable[[bytes], None]) -> None:
        self.on_there = on_there
        self.on_said = on_said
        self.pipe: int | None = None
        self.waiting: deque[bytes] = deque()
        self.gone = asyncio.Event()

    def is_there(self) -> bool:
        """Whether somebody reads."""
        return self.pipe is not None

    def has_room(self) -> bool:
        """Whether a weight may be said."""
        return self.is_there() and len(self.waiting) < MOST_WAITING

    def say(self, line: bytes) -> None:
        """Says a line, in one write; it waits where the pipe is full."""
        if self.pipe is None:
            return
        self.waiting.append(line)
        if len(self.waiting) == 1:
            self.write_on()

    def write_on(self) -> None:
        """Writes the lines that wait, as far as the pipe has room."""
        assert self.pipe is not None
        loop = asyncio.get_running_loop()
        try:
            while self.waiting:
                os.write(self.pipe, self.waiting[0])
                self.on_said(self.waiting.popleft())
            loop.remove_writer(self.pipe)
        except BlockingIOError:
            loop.add_writer(self.pipe, self.write_on)
        except BrokenPipeError:
            loop.remove_writer(self.pipe)
            self.gone.set()

    def begin(self, pipe: int) -> None:
        """Somebody reads from this pipe."""
        self.pipe = pipe
        self.gone.clear()
        # a pipe without a reader is an error, and that is told to who waits to read
        asyncio.get_running_loop().add_reader(pipe, self.gone.set)
        self.on_there()

    def end(self) -> None:
        """Who read is gone, and what waits for them with them."""
        assert self.pipe is not None
        loop = asyncio.get_running_loop()
        loop.remove_reader(self.pipe)
        loop.remove_writer(self.pipe)
        os.close(self.pipe)
        self.pipe = None
        self.waiting.clear()

    async def keep(self) -> None:
        """Says the lines to whoever reads, for as long as it runs."""
        raise NotImplementedError


class CellPipe(Sink):
    """The named pipe of a lane, from which the hall reads."""

    def __init__(
        self, path: str, on_there: Callable[[], None], on_said: Callable[[bytes], None]
    ) -> None:
        super().__init__(on_there, on_said)
        self.path = path
        self.readers = ReaderWatch(path)

    def open(self) -> int | None:
        """The pipe, where a hall reads from it."""
        try:
            self.readers.begin()
            if not stat.S_ISFIFO(os.stat(self.path).st_mode):
                raise BadCell(f"{self.path} is no named pipe")
            return os.open(self.path, os.O_WRONLY | os.O_NONBLOCK)
        except FileNotFoundError:
            return None
        except OSError as error:
            if error.errno != errno.ENXIO:
                raise
            return None

    def look(self) -> None:
        """Looks whether a reader went."""
        if self.readers.is_told():
            self.gone.set()

    async def keep(self) -> None:
        """Says the lines to one hall after another."""
        asyncio.get_running_loop().add_reader(self.readers.events, self.look)
        while True:
            while (pipe := self.open()) is None:
                await asyncio.sleep(RETRY)
            self.begin(pipe)
            await self.gone.wait()
            self.end()


class SenderPipe(Sink):
    """The standard input of a program that sends the lines to a port."""

    def __init__(
        self,
        command: Iterable[str],
        on_there: Callable[[], None],
        on_said: Callable[[bytes], None],
    ) -> None:
        super().__init__(on_there, on_said)
        self.command = tuple(command)

    async def keep(self) -> None:
        """Begins the program, and again where it ended."""
        while True:
            source, pipe = os.pipe2(os.O_CLOEXEC)
            try:
                sender = await asyncio.create_subprocess_exec(*self.command, stdin=source)
            except OSError:
                os.close(pipe)
                raise
            finally:
                os.close(source)
            os.set_blocking(pipe, False)
            self.begin(pipe)
            try:
                await sender.wait()
            finally:
                self.end()
                if sender.returncode is None:
                    # the next one would speak beside it
                    sender.terminate()
            await asyncio.sleep(AGAIN)
