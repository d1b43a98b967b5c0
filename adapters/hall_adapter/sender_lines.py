"""What a sender of weights is given, and what it reports. `milligrams` and `is_batch` read and write
nothing."""

import re
import sys

WEIGHT = re.compile(rb"([0-9]{1,8})(?:\.([0-9]{1,3}))?")
BATCH = re.compile(rb"batch [^ \t\r\n]{1,32}")
# The longest line of a scale, without its end, and more bytes than an acknowledgement has.
MAX_LINE = 64
# The most that a pack weighs, in mg: a greater weight would end the lane.
MOST_GROSS = 30_000_000


def report(said: str) -> None:
    """Reports something on standard error."""
    print(f"scale_sender: {said}", file=sys.stderr, flush=True)


def is_batch(line: bytes) -> bool:
    """Whether a line says a batch."""
    return BATCH.fullmatch(line) is not None


def milligrams(weight: bytes) -> int | None:
    """What a text of grams says, or nothing where it is none."""
    found = WEIGHT.fullmatch(weight)
    return int(found[1] + (found[2] or b"").ljust(3, b"0")) if found else None
