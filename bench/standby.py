"""The figures of bench/standby.sh: PROGRAM FOLDER ROWS FOLLOWED."""

import fcntl
import os
import subprocess
import sys
import time

from weighings import script

program, work = sys.argv[1:3]
ROWS, FOLLOWED = map(int, sys.argv[3:5])
SLOT, HEAD = 96, 16
TURNS = 3
book, part, copy = f"{work}/book", f"{work}/part", f"{work}/copy"


def shipment_of(rows, source):
    """Writes a shipment of some first rows of another one, in a file."""
    with open(source, "rb") as whole, open(part, "wb") as front:
        head = whole.read(HEAD)
        front.write(head[:8] + rows.to_bytes(4, "little") + head[12:])
        front.write(whole.read(SLOT * rows))


def make_book():
    """The rows would cost two syncs each on a disk, so the book is made in a folder in memory."""
    place = "/dev/shm/hall_standby.book" if os.path.isdir("/dev/shm") else book
    with open(f"{work}/script", "w", encoding="ascii") as text:
        text.writelines(script(ROWS))
    with open(f"{work}/script", "rb") as text:
        subprocess.run([program, "run", "--book", place], stdin=text, stdout=subprocess.DEVNULL,
                       check=True)
    if place != book:
        subprocess.run(["mv", place, book], check=True)


def timed(words, source=None, sink=subprocess.DEVNULL):
    """Seconds and the greatest memory in KiB of a process."""
    with open(source or "/dev/null", "rb") as given:
        began = time.monotonic()
        process = subprocess.Popen(words, stdin=given, stdout=sink)
        _, status, used = os.wait4(process.pid, 0)
        spent = time.monotonic() - began
    if status:
        sys.exit(f"{words} ends {os.waitstatus_to_exitcode(status)}")
    return spent, used.ru_maxrss


def piped(words):
    """The same to a pipe that is read to its end."""
    began = time.monotonic()
    process = subprocess.Popen(words, stdin=subprocess.DEVNULL, stdout=subprocess.PIPE)
    while process.stdout.read(1 << 16):
        pass
    _, status, used = os.wait4(process.pid, 0)
    spent = time.monotonic() - began
    if status:
        sys.exit(f"{words} ends {os.waitstatus_to_exitcode(status)}")
    return spent, used.ru_maxrss


def raw_loop(rows):
    """Seconds of as many rows by two writes and two data syncs each."""
    row = bytes(SLOT)
    file = os.open(f"{work}/raw", os.O_RDWR | os.O_CREAT | os.O_TRUNC)
    began = time.monotonic()
    for at in range(rows):
        os.pwrite(file, row, SLOT * at + 97)
        os.fdatasync(file)
        os.pwrite(file, b"\1", SLOT * at + 96)
        os.fdatasync(file)
    spent = time.monotonic() - began
    os.close(file)
    return spent


make_book()
with open(f"{work}/whole", "wb") as whole:
    subprocess.run([program, "ship", "--book", book], stdout=whole, check=True)
rows = (os.path.getsize(f"{work}/whole") - HEAD) // SLOT
ships = [piped([program, "ship", "--book", book]) for _ in range(TURNS)]
checks = [piped([program, "check", "--book", book]) for _ in range(TURNS)]
cats = [piped(["cat", f"{work}/whole"]) for _ in range(TURNS)]
with open(book, "rb") as held:
    fcntl.flock(held, fcntl.LOCK_EX)
    lives = [piped([program, "check", "--book", book]) for _ in range(TURNS)]
ship, check, cat = (min(runs)[0] for runs in (ships, checks, cats))
print(f"ship of {rows} rows: {ship:.2f} s, check {check:.2f} s, cat of its bytes {cat:.2f} s:"
      f" beyond the opening {(ship - check) / cat:.1f} times cat")
live = min(lives)[0]
print(f"check of {rows} rows while another has the book: {live:.2f} s, {live / check:.2f} times"
      f" that at rest; {max(memory for _, memory in lives)} KiB")
more = max(memory for _, memory in ships) - max(memory for _, memory in checks)
print(f"memory: ship {max(m for _, m in ships)} KiB, {more} KiB more than check")

followed = min(FOLLOWED, rows)
shipment_of(followed, f"{work}/whole")
follows, raws = [], []
for _ in range(TURNS):
    if os.path.exists(copy):
        os.remove(copy)
    follows.append(timed([program, "follow", "--book", copy], part))
    raws.append(raw_loop(followed))
opened = timed([program, "check", "--book", copy])
follow, raw = min(follows)[0], min(raws)
print(f"follow of {followed} rows: {followed / follow:.0f} rows a second, raw loop"
      f" {followed / raw:.0f}: {raw / follow:.2f}")
print(f"memory: follow {max(m for _, m in follows)} KiB, check of the copy {opened[1]} KiB")
