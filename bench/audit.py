"""The figures of bench/audit.sh: PROGRAM FOLDER ROWS."""

import hashlib
import os
import subprocess
import sys
import time

from weighings import script

program, work = sys.argv[1:3]
ROWS = int(sys.argv[3])
SLOT, TURNS = 96, 3
book, bare = f"{work}/book", f"{work}/bare"


def make_books():
    """The rows would cost two syncs each on a disk, so the book is made in a folder in memory."""
    place = "/dev/shm/hall_audit.book" if os.path.isdir("/dev/shm") else book
    with open(f"{work}/script", "w", encoding="ascii") as text:
        text.writelines(script(ROWS))
    with open(f"{work}/script", "rb") as text:
        subprocess.run([program, "run", "--book", place], stdin=text, stdout=subprocess.DEVNULL,
                       check=True)
    with open(place, "rb") as file:
        data = file.read()
    if place != book:
        os.remove(place)
    with open(book, "wb") as file:
        file.write(data)
    with open(bare, "wb") as file:
        file.write(data[: SLOT * (ROWS + 1) + 1])
    return data


def run(word, path):
    """The seconds of one call, those of the processor, its greatest memory in MB, what it said."""
    begin = time.perf_counter()
    child = subprocess.Popen([program, word, "--book", path], stdout=subprocess.PIPE)
    text = child.stdout.read()
    _, status, use = os.wait4(child.pid, 0)
    assert status == 0, (word, text)
    seconds = time.perf_counter() - begin
    return seconds, use.ru_utime + use.ru_stime, use.ru_maxrss / 1024, text.decode()


def python(data):
    begin = time.perf_counter()
    head = b"AQHSHIP2" + ROWS.to_bytes(4, "little") + bytes(4)
    digest = hashlib.sha256(head + data[SLOT : SLOT * (ROWS + 1)]).hexdigest()
    seconds = time.perf_counter() - begin
    return seconds, seconds, 0, digest


data = make_books()
turns = [
    {
        "audit": run("audit", book),
        "check": run("check", book),
        "audit of slots alone": run("audit", bare),
        "check of slots alone": run("check", bare),
        "python's digest": python(data),
    }
    for _ in range(TURNS)
]
for what in turns[0]:
    seconds, processor = (min(turn[what][k] for turn in turns) for k in (0, 1))
    memory = max(turn[what][2] for turn in turns)
    print(f"{what}: {seconds:.2f} s, {processor:.2f} s of a processor, {memory:.0f} MB")
audited, digest = turns[0]["audit"][3], turns[0]["python's digest"][3]
assert f"rows {ROWS} whole\nsnapshot same\nsha256 {digest}\n" == audited, audited
print("most that is allowed: 3 s for a million rows")
