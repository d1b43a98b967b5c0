"""What the archive asks of the program `hall` over a book's file: always through the program, and
never by opening the file.

Where the archive runs as its own user it asks a socket, behind which systemd runs `serve_one` as
the user hall, apart from all else. A question is one line, `COMMAND BOOK [WORD]`; the answer comes
in pieces, each behind its length in 4 bytes, and ends with a length of 0, the status (2: in use)
and why it isn't 0.

Of a book that is in use, by a hall or by another reader at the same time, the program reads all but
the newest row, and says so beside its answer."""

import re
import socket
import subprocess
import sys
import time
from collections.abc import Callable, Generator, Iterator
from typing import BinaryIO, Protocol, TypeVar

PIECE = 1 << 20
LENGTH = 4
# Seconds that a question may take, and the longest one.
PATIENCE = 120
QUESTION_BYTES = 200
NAME = re.compile(r"[A-Za-z0-9][A-Za-z0-9._-]{0,63}")
NUMBER = re.compile(r"[0-9]{1,7}")
# The questions, and the option that takes their word.
QUESTIONS = {
    "acts": ("--after", NUMBER),
    "audit": ("--rows", NUMBER),
    "report": ("--batch", NAME),
    "paper": ("--batch", NAME),
    "export": None,
    "ship": None,
}
# What the program says beside the answer of a book that is in use, and the status of that.
IN_USE = ": it is in use; "
WELL, BADLY, USED = b"\0", b"\1", b"\2"
# How often a book that is in use is asked again, a second later each time: a reader is soon done.
TRIES = 8
Found = TypeVar("Found")


class NotRead(Exception):
    """The program, or the socket before it, didn't answer well."""


class Reader(Protocol):
    """Asks the program about a book. `in_use` becomes true where an answer that was read to its end
    lacks the newest row."""

    in_use: bool

    def ask(self, book: str, command: str, word: str = "") -> Iterator[bytes]:
        """What it prints, piece by piece; NotRead where it doesn't end well."""


def options_of(command: str, word: str) -> list[str]:
    """The words behind the command; NotRead where they aren't a question of the table."""
    if command not in QUESTIONS:
        raise NotRead(f"{command} is no question")
    option = QUESTIONS[command]
    if not word:
        return []
    if option is None or not option[1].fullmatch(word):
        raise NotRead(f"{command} takes no word {word[:40]!r}")
    return [option[0], word]


class Program:
    """Runs the program itself, over the books of a folder."""

    def __init__(self, program: str, folder: str) -> None:
        self.program = program
        self.folder = folder
        self.in_use = False

    def ask(self, book: str, command: str, word: str = "") -> Iterator[bytes]:
        if not NAME.fullmatch(book):
            raise NotRead(f"{book[:40]!r} is no name of a book")
        path = f"{self.folder}/{book}.book"
        words = [self.program, command, "--book", path, *options_of(command, word)]
        with subprocess.Popen(
            words, stdin=subprocess.DEVNULL, stdout=subprocess.PIPE, stderr=subprocess.PIPE
        ) as run:
            assert run.stdout and run.stderr
            while piece := run.stdout.read(PIECE):
                yield piece
            why = run.stderr.read(PIECE).decode(errors="replace").strip()
        # a report of an unknown batch is a refusal, with status 0
        if run.returncode:
            raise NotRead(f"hall {command} of {book} ends with {run.returncode}: {why[:200]}")
        self.in_use |= IN_USE in why


class Socket:
    """Asks the service that runs the program as the user hall."""

    def __init__(self, path: str) -> None:
        self.path = path
        self.in_use = False

    def ask(self, book: str, command: str, word: str = "") -> Iterator[bytes]:
        question = " ".join(filter(None, (command, book, word)))
        try:
            with socket.socket(socket.AF_UNIX) as link:
                link.settimeout(PATIENCE)
                link.connect(self.path)
                link.sendall(f"{question}\n".encode("ascii"))
                self.in_use |= yield from unpack(link.makefile("rb"), question)
        except OSError as fault:
            raise NotRead(f"{self.path}: {fault}") from fault


def unpack(answer: BinaryIO, question: str) -> Generator[bytes, None, bool]:
    """The pieces of an answer, and whether the book is in use; NotRead where it is cut, or ends
    badly."""
    while size := int.from_bytes(exactly(answer, LENGTH, question), "little"):
        yield exactly(answer, size, question)
    status = exactly(answer, 1, question)
    if status not in (WELL, USED):
        why = answer.read(PIECE).decode(errors="replace")
        raise NotRead(f"{question}: {why[:200]}")
    return status == USED


def exactly(answer: BinaryIO, size: int, question: str) -> bytes:
    got = answer.read(size)
    if len(got) < size:
        raise NotRead(f"{question}: the answer is cut")
    return got


def pack(reader: Reader, pieces: Iterator[bytes], out: BinaryIO) -> None:
    """Writes an answer of a reader, and how it ended."""
    try:
        for piece in pieces:
            out.write(len(piece).to_bytes(LENGTH, "little") + piece)
    except NotRead as fault:
        out.write(bytes(LENGTH) + BADLY + str(fault).encode())
    else:
        out.write(bytes(LENGTH) + (USED if reader.in_use else WELL))
    out.flush()


def serve_one(program: str, folder: str) -> None:
    """Answers the one question of standard input on standard output."""
    words = sys.stdin.buffer.readline(QUESTION_BYTES).decode("ascii", errors="replace").split(" ")
    command, book, word = (*[word.strip() for word in words], "", "", "")[:3]
    reader = Program(program, folder)
    pack(reader, reader.ask(book, command, word), sys.stdout.buffer)


def at_rest(reader: Reader, find: Callable[[], Found]) -> Found:
    """What is found by answers that lack no row, each of which `find` reads to its end. NotRead
    where the book stays in use."""
    for turn in range(TRIES):
        time.sleep(min(turn, 1))
        reader.in_use = False
        found = find()
        if not reader.in_use:
            return found
    raise NotRead(
        "the book is in use, so that its newest row can't be read: it is compared at rest"
    )
