"""Rows a second of `hall serve` over a slow disk, with 1, 4 and 16 lanes from files, which have so
many weights together, by each of some programs in turn: FOLDER WEIGHTS PROGRAM.. See bench/slow.sh.
"""

import os
import random
import shutil
import sys
import time

from clients import OPENING, Hall, free_ports, good_gross, need, plan, spell_grams

work, weights, *programs = sys.argv[1:]


def rate(program: str, lanes: int) -> float:
    """The rows a second of lanes that have so many weights together."""
    folder = f"{work}/hall"
    shutil.rmtree(folder, ignore_errors=True)
    os.mkdir(folder)
    draw = random.Random(1)
    for lane in range(1, lanes + 1):
        with open(f"{folder}/cell-{lane}.txt", "w", encoding="ascii") as cell:
            cell.writelines(spell_grams(good_gross(draw)) for _ in range(int(weights) // lanes))
    batches = [f"L{lane}" for lane in range(1, lanes + 1)]
    opening = OPENING + "".join(f"open {batch} P\n" for batch in batches)
    began = time.monotonic()
    hall = Hall(
        program,
        folder,
        plan(opening, batches),
        lanes=lanes,
        doors=0,
        book=f"{folder}/book",
        port=free_ports(),
        # cells are files, and so are the gates: nobody reads these
        pipes=False,
    )
    status = hall.process.wait()
    seconds = time.monotonic() - began
    need(status == 0, f"serve ends with {status}: {hall.said()}")
    rows = next(int(line.split()[1]) for line in hall.said() if line.startswith("rows "))
    return rows / seconds


for count in (1, 4, 16):
    for path in programs:
        print(f"{path}, lanes {count}: {rate(path, count):.1f} rows a second")
