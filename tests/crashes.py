"""The images of tests/crashes.sh, which says what they are: PROGRAM FOLDER IMAGES SEED."""

from __future__ import annotations

import os
import random
import resource
import struct
import subprocess
import sys
from collections import Counter
from collections.abc import Callable, Iterator
from concurrent.futures import ThreadPoolExecutor
from functools import partial
from itertools import islice
from typing import NamedTuple

SLOT = 96
HEAD = struct.Struct("<cQQ")
PROCESSES = 4
AT_ONCE = 64
# Every so many images one goes on by a run.
GOING_ON = 20
# The greatest size of the file whose rows get no room: less than a piece.
SMALL_FILE = 60_000


class Call(NamedTuple):
    """A call that succeeded: `w` wrote bytes, `t` set a size, `s` synced, `a` answered lines."""

    kind: str
    place: int
    content: bytes


class Image(NamedTuple):
    """What a crash leaves, how many rows were answered by then, and whether other bytes stand in
    the room than zeros, as where a file system gives a file what its blocks held before."""

    number: int
    content: bytes
    answered: int
    is_foreign: bool


class Recorded(NamedTuple):
    """A book as it is at its end, and the calls that made it."""

    book: bytes
    rows: int
    calls: list[Call]


def need(holds: bool, said: str) -> None:
    if not holds:
        sys.exit(f"crashes: {said}")


def read_calls(path: str, rows: int) -> Iterator[Call]:
    """The calls of a run of so many rows: lines that are answered beside these aren't told."""
    with open(path, "rb") as file:
        text = file.read()
    place = 0
    while place < len(text):
        kind, number, count = HEAD.unpack_from(text, place)
        place += HEAD.size
        if kind == b"a":
            number = min(number, rows)
            rows -= number
        yield Call(kind.decode(), number, text[place : place + count])
        place += count


def script(run: int, packs: int) -> str:
    """A run's lines: a batch of its own; each line is answered with a row."""
    first = "day 2025-03-03\nproduct P 250\ntare P 2025-03-03 10\n" if run == 0 else "stop 1\n"
    weighings = "".join(f"weigh 1 {256 + pack % 9}.{pack % 997:03}\n" for pack in range(packs))
    return f"{first}open B{run} P\nstart 1 B{run}\n{weighings}"


def limit_files(most: int) -> None:
    resource.setrlimit(resource.RLIMIT_FSIZE, (most, most))


def record(program: str, folder: str, name: str, packs: int, most: int) -> Recorded:
    """Two runs over a new book whose file may have so many bytes at most."""
    book, rows, calls = f"{folder}/{name}", 0, list[Call]()
    for run in range(2):
        lines, record_path = script(run, packs), f"{folder}/{name}.{run}"
        ran = subprocess.run(
            [program, "run", "--book", book],
            input=lines,
            text=True,
            capture_output=True,
            check=False,
            env=os.environ | {"LD_PRELOAD": f"{folder}/recorded_calls.so", "RECORDED": record_path},
            preexec_fn=partial(limit_files, most),
        )
        rows += lines.count("\n")
        need(ran.returncode == 0 and f"\nrows {rows}\n" in ran.stdout, f"{name}: {ran.stderr}")
        calls += read_calls(record_path, lines.count("\n"))
    with open(book, "rb") as file:
        return Recorded(file.read(), rows, calls)


def resize(content: bytearray, size: int) -> None:
    del content[size:]
    content.extend(bytes(size - len(content)))


def apply(call: Call, content: bytearray) -> None:
    """Makes a call of a file's content."""
    if call.kind == "t":
        resize(content, call.place)
    else:
        resize(content, max(len(content), call.place))
        content[call.place : call.place + len(call.content)] = call.content


def torn(draw: random.Random, call: Call, there: bytes) -> bytes:
    """What is left of the bytes of a write, over what was there before."""
    # The header's first write is kept from its beginning on: the file was empty, and what doesn't
    # begin as a book is no book.
    way = draw.randrange(3) if call.place > 0 else 0
    if way == 0:
        return call.content[: draw.randint(0, len(call.content))]
    if way == 1:
        return draw.randbytes(len(call.content))
    return bytes(new if draw.random() < 0.5 else old for new, old in zip(call.content, there))


def tear(draw: random.Random, call: Call, content: bytearray) -> bool:
    """Makes a part of a call that isn't stable yet; says whether room has other bytes then."""
    end = call.place + len(call.content)
    way = draw.randrange(4)
    if way == 0:
        return False
    if way == 1 or call.kind == "t":
        apply(call, content)
        return False
    resize(content, max(len(content), draw.randint(call.place, end)))
    if way == 3:
        return False
    there = bytes(content[call.place : end]).ljust(len(call.content), b"\0")
    left = torn(draw, call, there)
    apply(call._replace(content=left), content)
    return any(left) and not any(call.content)


def images(draw: random.Random, recorded: Recorded, count: int) -> Iterator[Image]:
    """So many images at drawn moments, in the order of these."""
    moments = Counter(draw.randint(0, len(recorded.calls)) for _ in range(count))
    stable, written, pending, answered, number = bytearray(), bytearray(), list[Call](), 0, 0
    for moment, call in enumerate([*recorded.calls, Call("s", 0, b"")]):
        for _ in range(moments[moment]):
            image = bytearray(stable)
            order = draw.sample(pending, len(pending))
            is_foreign = any([tear(draw, unstable, image) for unstable in order])
            yield Image(number, bytes(image), answered, is_foreign)
            number += 1
        if call.kind == "a":
            answered += call.place
        elif call.kind == "s":
            stable, pending = bytearray(written), []
        else:
            pending.append(call)
            apply(call, written)


def ask(program: str, path: str, command: str, lines: str = "") -> str:
    words = [program, command, "--book", path]
    ran = subprocess.run(words, input=lines, text=True, capture_output=True, check=False)
    return ran.stdout


def try_image(program: str, folder: str, recorded: Recorded, image: Image) -> int:
    """How many rows more than were answered an image has."""
    path = f"{folder}/image.{image.number}"
    with open(path, "wb") as file:
        file.write(image.content)
    said = ask(program, path, "check")
    allowed = range(image.answered, image.answered + 2)
    rows = next((rows for rows in allowed if said == f"rows {rows} whole\n"), -1)
    need(rows >= 0, f"{path}: after {image.answered} answers check says {said!r}")
    slots = slice(SLOT, SLOT * (rows + 1))
    need(image.content[slots] == recorded.book[slots], f"{path}: of {rows} rows some differ")
    if image.number % GOING_ON == 0:
        go_on(program, path, rows, "none" if image.is_foreign else "same")
    os.remove(path)
    return rows - image.answered


def try_images(tried: Callable[[Image], int], drawn: Iterator[Image]) -> int:
    """How many of the images have a row more than was answered."""
    more = 0
    with ThreadPoolExecutor(PROCESSES) as pool:
        while some := list(islice(drawn, AT_ONCE)):
            more += sum(pool.map(tried, some))
    return more


def go_on(program: str, path: str, rows: int, least: str) -> None:
    """A run adds a row to an image and keeps a snapshot that fits, or this at the least: one that
    would end before other bytes isn't kept."""
    said = ask(program, path, "run", "day 2025-03-04\n")
    need(f"{rows + 1} ok\n" in said, f"{path}: of {rows} rows a run says {said!r}")
    said = ask(program, path, "audit")
    whole = [f"rows {rows + 1} whole\nsnapshot {word}\n" for word in ("same", least)]
    need(said.startswith(tuple(whole)), f"{path}: audit says {said!r}")


def main() -> None:
    program, folder, wanted, seed = sys.argv[1:]
    count = int(wanted) // 2
    for name, packs, most in (("room", 700, resource.RLIM_INFINITY), ("none", 150, SMALL_FILE)):
        recorded = record(program, folder, name, packs, most)
        cuts = sum(call.kind == "t" for call in recorded.calls)
        need((cuts > 0) == (name == "room"), f"{name}: room was cut off {cuts} times")
        drawn = images(random.Random(f"{seed} {name}"), recorded, count)
        more = try_images(partial(try_image, program, folder, recorded), drawn)
        print(
            f"crashes, {name}: {count} images of {len(recorded.calls)} calls recover the"
            f" {recorded.rows} rows as far as they were answered, and {more} times one more"
        )


if __name__ == "__main__":
    main()
