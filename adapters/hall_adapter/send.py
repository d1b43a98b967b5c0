"""hall-adapter send PORT [--host H] [--first N] [--seconds S]
                       [--book URL --lane L [--login FILE]] < WEIGHTS

Sends the weights of a scale to a lane of `hall .. --remote P`, each until it is acknowledged.

WEIGHTS has a weight in grams a line: 1 to 8 digits, and at most three after a point; or, for a lane
that changes its batch, `batch NAME`. What is neither, a line of more than 64 bytes and a weight
over 30 kg are left out and reported on standard error, since they would end the lane. The line
after the last weight says `end`. Each line that was acknowledged goes to standard output, with its
number.

Weights are numbered from 1 (`1 251.000`), by each hall anew. A line is said, and said again over a
new connection where no acknowledgement comes within S seconds (5), or the connection ends. The
connection that was left is listened to until its end: a hall that is slow, or that ends, says there
what it has taken. Whether the hall of a new connection is another one is seen from its answer: the
first line there is the weight that isn't acknowledged with the number 1. A new hall takes it, and
one that goes on says again how many it has taken. So this goes on over any restart of the hall,
behind a tunnel too. Where one line was acknowledged so far, 5 seconds of silence tell the two
apart, or a port that refused a connection meanwhile; a tunnel whose own port may do that is used
with --book. A connection that is cut before it answered tells nothing: the next one begins anew.

Once a batch was said, each new connection begins with that line under the number 1, whether weights
come or not: a new hall takes it, so that no weight is booked under another batch, and one that goes
on says how many lines it has taken. Where a batch is under way, or is the first line of all, it may
be taken twice: its lane then stops and starts once more. So this may begin anew with a batch while
the hall stays.

At the hall's own port no weight is taken twice by halls that end in good order. Behind a tunnel the
lines alone can't tell one case: a hall took a weight, it ended, and its acknowledgement was lost or
late on the way. The next hall takes the weight again, and standard error reports it. With --book
this asks the book first whether lane L has the weight: at a door (http://127.0.0.1:8471), or at the
front (https://NAME/hall), where FILE has `NAME:PASSWORD` of a person who may look. While no hall is
there to be asked, it waits.

--first N is for who begins this anew with a weight while the hall stays: the number after the last
one that was acknowledged.

Status 0: the end was acknowledged. 1: it wasn't, and the hall is gone; the lane may have heard it.
2: the words are wrong. 3: the hall has taken more than this has said, so see --first."""

import argparse
import os
from collections.abc import Iterator

from hall_adapter.send_words import add_words
from hall_adapter.sender import Gone, Sender
from hall_adapter.sender_book import Book
from hall_adapter.sender_lines import MAX_LINE, MOST_GROSS, is_batch, milligrams, report
from hall_adapter.sender_numbers import Ahead

# How long a hall that is gone is waited for once the end was said, in seconds.
LAST_WAIT = 10.0


def read_lines(sender: Sender) -> Iterator[bytes]:
    """The lines of standard input, as they come; of one that is too long its beginning."""
    held, is_long = b"", False
    while came := sender.idle():
        *lines, held = (held + came).split(b"\n")
        for line in lines:
            if not is_long:
                yield line.removesuffix(b"\r")
            is_long = False
        if MAX_LINE < len(held):
            if not is_long:
                yield held
            held, is_long = b"", True
    if held and not is_long:
        yield held.removesuffix(b"\r")


def weights(sender: Sender) -> Iterator[bytes]:
    """The weights and batches of standard input; what is neither is reported."""
    for line in read_lines(sender):
        gross = milligrams(line)
        if is_batch(line):
            yield line
        elif gross is None:
            report(f"no weight: {line[:MAX_LINE]!r}")
        elif MOST_GROSS < gross:
            report(f"over 30 kg: {line.decode()}")
        else:
            yield line


def say_all(sender: Sender) -> int:
    """Says all weights, and then the end. The status."""
    try:
        if sender.book is not None:
            sender.book.begin()
        for line in weights(sender):
            print(sender.say(line), line.decode("latin-1"), flush=True)
            if sender.book is not None:
                sender.book.note(is_batch(line))
        print(sender.say(b"end", LAST_WAIT), "end", flush=True)
    except Gone:
        report("the hall is gone, and the end isn't acknowledged")
        return 1
    except Ahead as ahead:
        taken = int(str(ahead))
        report(f"the hall has taken {taken} lines: begin with --first {taken + 1}")
        return 3
    return 0


def read_login(path: str | None) -> str | None:
    if path is None:
        return None
    with open(path, encoding="utf-8") as text:
        return text.readline().rstrip("\r\n")


def run(given: argparse.Namespace) -> int:
    """Sends the weights of standard input."""
    if (given.book is None) != (given.lane is None):
        report("--book and --lane belong together")
        return 2
    book = None
    if given.book is not None:
        book = Book(given.book, given.lane, read_login(given.login), given.seconds)
    return say_all(Sender((given.host, given.port), given.first, given.seconds, book))


def main(arguments: list[str] | None = None) -> int:
    """Sends, by the words of a command line of its own (`scale_sender.py`)."""
    words = argparse.ArgumentParser(
        prog="scale_sender.py", description="Sends the weights of a scale to a lane's port."
    )
    add_words(words)
    return run(words.parse_args(arguments))
