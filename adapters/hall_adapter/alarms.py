"""Alarms to a command, with a bound on how often: a mail, a lamp.

The command has the alarm's kind in ALARM, the line's name in LINE, and the sentence on its standard
input. Of one kind it is called at most once in so many seconds; what came meanwhile is counted, and
said with the next call. `Bound` reads and writes nothing.
"""

import asyncio
import os
import sys

from hall_adapter.readings import Note
from hall_adapter.settings import Alarm

# Seconds that a command has.
PATIENCE = 30.0
# So many commands run at once; an alarm that comes on top is counted like one that came too soon.
MOST_AT_ONCE = 4


class Bound:
    """How often an alarm of each kind is said."""

    def __init__(self, every: float) -> None:
        self.every = every
        self.said_at: dict[str, float] = {}
        self.held: dict[str, int] = {}

    def take(self, note: Note, now: float) -> str | None:
        """The sentence to be said, or nothing where one of the kind was said too soon before."""
        last = self.said_at.get(note.kind)
        if last is not None and now - last < self.every:
            self.hold(note)
            return None
        self.said_at[note.kind] = now
        held = self.held.pop(note.kind, 0)
        return f"{note.text} (and {held} more of {note.kind} before)" if held else note.text

    def hold(self, note: Note) -> None:
        """Counts an alarm that isn't said."""
        self.held[note.kind] = self.held.get(note.kind, 0) + 1


class Alarms:
    """Calls the command of a line."""

    def __init__(self, alarm: Alarm, line: str) -> None:
        self.alarm = alarm
        self.line = line
        self.bound = Bound(alarm.every)
        self.running: set[asyncio.Task[None]] = set()

    def raise_one(self, note: Note, now: float) -> None:
        """Raises an alarm, if it isn't too soon."""
        if len(self.running) >= MOST_AT_ONCE:
            self.bound.hold(note)
            return
        if (text := self.bound.take(note, now)) is not None:
            task = asyncio.create_task(self.call(note.kind, text))
            self.running.add(task)
            task.add_done_callback(self.running.discard)

    async def call(self, kind: str, text: str) -> None:
        """Calls the command, and ends it where it takes too long."""
        try:
            process = await asyncio.create_subprocess_exec(
                *self.alarm.command,
                stdin=asyncio.subprocess.PIPE,
                stdout=asyncio.subprocess.DEVNULL,
                env={**os.environ, "ALARM": kind, "LINE": self.line},
            )
        except OSError as error:
            print(f"alarm: {self.alarm.command[0]}: {error.strerror}", file=sys.stderr, flush=True)
            return
        try:
            async with asyncio.timeout(PATIENCE):
                await process.communicate(f"{self.line}: {kind}: {text}\n".encode())
        except TimeoutError:
            process.kill()
            await process.wait()
        if process.returncode:
            text = f"alarm: {self.alarm.command[0]} ended with status {process.returncode}"
            print(text, file=sys.stderr, flush=True)
