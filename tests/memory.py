"""The runs of tests/memory.sh, which says what they are: PROGRAM FOLDER WORKERS DAY FIRST."""

import sys
import time
from fnmatch import fnmatch

from refusals import LIBRARY, PROGRAM, THREAD, ScriptDay, each_number
from served_days import ServedDay, ServedDesk, ServedLater, ServedSheet
from worked_days import corrected_tare, desk_row, desk_row_again, many_packs, second_sample

program, work, workers, chosen, first = sys.argv[1:]
shim = f"{work}/refuse.so"
KINDS = {PROGRAM: "calls", THREAD: "starts of threads", LIBRARY: "calls of the C library"}
# How many rows come before a day, so that the 65th is one of its own.
BEFORE_TARE = (0, 59, 58, 57, 56, 55)
BEFORE_LANES = (60, 58, 56, 54, 52)
runs = 0
faults = []


def try_kind(day, kind, told):
    """A run for each call of a kind; says how these ended, and names each that did otherwise."""
    global runs
    calls = told.calls[kind]
    counts = each_number(int(first), calls, int(workers), lambda number: day.refuse(kind, number))
    runs += sum(counts.ways.values())
    print(f"{day.name}, {calls} {KINDS[kind]}, at most {told.most} bytes: {counts}", flush=True)
    for fault in counts.faults:
        print(f"  {day.name}, {KINDS[kind]}, {fault}", flush=True)
    faults.extend(counts.faults)


def script_days():
    """Days of `run`, each with what a desk is told again."""
    for before in BEFORE_TARE:
        yield corrected_tare(before), None
    yield second_sample(), None
    yield desk_row(), desk_row_again()
    yield many_packs(), None


def all_days():
    """Each day with the kinds of calls that are refused."""
    for day, again in script_days():
        yield ScriptDay(program, shim, f"{work}/{day.name}", day, again), [PROGRAM]
    for kind in (ServedDesk, ServedSheet):
        yield kind(program, shim, f"{work}/{kind.name}"), [PROGRAM]
    yield ServedDay(program, shim, f"{work}/lanes"), list(KINDS)
    for before in BEFORE_LANES:
        yield ServedLater(program, shim, f"{work}/lanes", before), [PROGRAM]


began = time.monotonic()
for day, kinds in all_days():
    if fnmatch(day.name, chosen):
        told = day.count()
        for kind in kinds:
            try_kind(day, kind, told)
print(f"{runs} runs in {time.monotonic() - began:.0f} s; {len(faults)} came out otherwise")
sys.exit(1 if faults or not runs else 0)
