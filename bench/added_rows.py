"""The figures of bench/rows.sh: FOLDER ROWS PROGRAM.."""

import os
import subprocess
import sys
import time
from functools import partial

folder, rows, programs = sys.argv[1], int(sys.argv[2]), sys.argv[3:]
SLOT, TURNS = 96, 5


def fresh(name: str) -> str:
    path = f"{folder}/{name}"
    if os.path.exists(path):
        os.remove(path)
    return path


def by_journal(program: str) -> float:
    """The seconds of a process that makes a book of the rows."""
    words = [program, str(rows), fresh("book")]
    began = time.perf_counter()
    ran = subprocess.run(words, capture_output=True, check=True)
    seconds = time.perf_counter() - began
    if ran.stdout != b"ok\n" * rows:
        sys.exit(f"{program} answers {ran.stdout[-99:]!r}")
    return seconds


def by_loop(over: bool) -> float:
    """The seconds of the calls alone, over zeros or in a file that grows."""
    file = os.open(fresh("loop"), os.O_RDWR | os.O_CREAT, 0o644)
    if over:
        os.pwrite(file, bytes(SLOT * (rows + 2)), 0)
        os.fdatasync(file)
    began = time.perf_counter()
    for row in range(1, rows + 1):
        os.pwrite(file, bytes(range(1, SLOT + 1)), SLOT * row + 1)
        os.fdatasync(file)
        os.pwrite(file, b"\1", SLOT * row)
        os.fdatasync(file)
    seconds = time.perf_counter() - began
    os.close(file)
    return seconds


ways = {"loop over zeros": partial(by_loop, True), "loop that grows": partial(by_loop, False)}
ways |= {os.path.basename(program): partial(by_journal, program) for program in programs}
best = dict.fromkeys(ways, float("inf"))
for _ in range(TURNS):
    best = {name: min(best[name], way()) for name, way in ways.items()}
for name, seconds in best.items():
    beside = best["loop over zeros"] / seconds
    print(f"{name}: {rows / seconds:.0f} rows a second, {beside:.2f} of the loop over zeros")
