"""The batch of a lane that changes it: its name, the line that says it, and the file that keeps it.

A name is 1 to 32 bytes that are neither space, tab nor CR, as the hall reads them. Whether there is
such a batch the book says.
"""

import os
import re

BATCH = re.compile(rb"batch ([^ \t\r\n]{1,32})")
# The longest line of a batch, without its end.
LONGEST = len(b"batch ") + 32
KEPT = "batch"


def batch_of(line: bytes) -> bytes | None:
    """The name that a line says, or nothing where it says none."""
    found = BATCH.fullmatch(line)
    return found[1] if found else None


def line_of(name: bytes) -> bytes:
    """The line that says a batch, with its end."""
    return b"batch " + name + b"\n"


class BadKept(Exception):
    """The file of the batch has no line of a batch."""


class KeptBatch:
    """The batch that was said last, in a file that is whole after a power cut too."""

    def __init__(self, folder: str) -> None:
        self.folder = folder
        self.path = os.path.join(folder, KEPT)
        self.name = self.read()

    def read(self) -> bytes | None:
        """What the file says; nothing where there is none yet."""
        try:
            with open(self.path, "rb") as file:
                line = file.read()
        except FileNotFoundError:
            return None
        name = batch_of(line.removesuffix(b"\n"))
        if name is None:
            raise BadKept(f"{self.path} says no batch: {line[:LONGEST]!r}")
        return name

    def keep(self, name: bytes) -> None:
        """Keeps another one: on the disk, before it is said to a hall."""
        with open(f"{self.path}.new", "wb") as file:
            file.write(line_of(name))
            file.flush()
            os.fsync(file.fileno())
        os.rename(file.name, self.path)
        folder = os.open(self.folder, os.O_RDONLY | os.O_DIRECTORY)
        try:
            os.fsync(folder)
        finally:
            os.close(folder)
        self.name = name
