"""A book on a small file system: what tests/disk_full.sh says. PROGRAM FOLDER SEED."""

import fcntl
import os
import random
import struct
import subprocess
import sys
import time

from book import Book
from clients import (FIRST_DESK, FIRST_DOOR, OPENING, PATIENCE, Caller, Desk, Hall, Lane,
                     drawn_gross, free_ports, get, need, plan, spell_grams)
from rows import SLOT, digest

program, work, seed = sys.argv[1:]
disk = f"{work}/disk"
draw = random.Random(int(seed))
desk = Desk(FIRST_DESK, FIRST_DOOR)
book = Book(program, f"{disk}/book", [desk])

DAY = {"act": "day", "day": "2025-03-03"}
# What a book's file grows by, and what the file system gives at once.
PIECE, BLOCK = 65_536, 4096
# ext4's call to shut a file system down, and its word for: without writing what is still held.
SHUTDOWN = 0x8004587D
NOTHING_WRITTEN = 2
# How many connections a door serves.
CONNECTIONS = 9

def leave(room):
    """Takes the room of the disk but for so many bytes."""
    give_back()
    free = os.statvfs(disk).f_bavail * os.statvfs(disk).f_bsize
    with open(f"{disk}/filler", "wb") as filler:
        os.posix_fallocate(filler.fileno(), 0, max(1, free - room))
        os.fsync(filler.fileno())


def give_back():
    if os.path.exists(f"{disk}/filler"):
        os.remove(f"{disk}/filler")


def weighings(count):
    return [f"weigh 1 {spell_grams(drawn_gross(draw))}" for _ in range(count)]


def run(*words, lines=(), path=book.path):
    """The status of a command over the book, its lines, and what it says on standard error."""
    ran = subprocess.run([program, *words, f"--book={path}"], input="".join(lines), text=True,
                         capture_output=True)
    return ran.returncode, ran.stdout.splitlines(), ran.stderr


def fails(*words, lines=()):
    """A command ends at a fault of the disk; gives what it printed before."""
    status, said, errors = run(*words, lines=lines)
    need(status == 6 and said[-1] == "disk fault", f"{words} ends with {status}: {said[-3:]}")
    return said[:-1], errors


def goes_on(lines):
    """Runs a script to its end, with all its rows."""
    status, said, _ = run("run", lines=lines)
    need(status == 0, f"a run with room ends with {status}: {said[-3:]}")
    book.compare_script(lines, said[: len(lines)], killed=False)


def full_in_a_run():
    lines = (OPENING + "open A P\nstart 1 A\n").splitlines(True) + weighings(9000)
    leave(SLOT * 4000)
    answers, _ = fails("run", lines=lines)
    heard = book.compare_script(lines, answers, killed=True)
    need(heard == len(answers) < len(lines), f"{heard} rows of {len(answers)} answers")
    book.compare_register()
    stood = book.rows
    fails("run", lines=weighings(1))
    need(not book.new_rows(), "a run that failed at once has left a row")
    give_back()
    goes_on(lines[stood:])
    print(f"full in a run: {heard} rows were answered and {stood} stood; with room {book.rows}")


def full_at_pieces():
    """Rows go on without room ahead where the disk has none for a piece of it, until none fits;
    with room again the same book goes on, and its snapshot ends it."""
    counts = []
    for room in (0, BLOCK, PIECE - BLOCK, PIECE, PIECE + BLOCK, 2 * PIECE - BLOCK, 3 * PIECE):
        small = Book(program, f"{disk}/small", [])
        run("run", path=small.path)
        lines = (OPENING + "open A P\nstart 1 A\n").splitlines(True) + weighings(3000)
        leave(room)
        status, said, errors = run("run", lines=lines, path=small.path)
        need((status, said[-1]) == (6, "disk fault") and "No space left" in errors,
             f"with {room} bytes a run ends with {status}: {said[-3:]} {errors}")
        heard = small.compare_script(lines, said[:-1], killed=True)
        # beside the book's first block; the system needs some blocks to find the others by
        most = (room + 2 * BLOCK) // SLOT
        need(most - 5 * BLOCK // SLOT <= heard <= most, f"with {room} bytes {heard} rows of {most}")
        size = os.path.getsize(small.path)
        need(size < SLOT * (small.rows + 2) + SLOT, f"{size} bytes are left of {small.rows} rows")
        give_back()
        more = weighings(1000)
        status, said, _ = run("run", lines=more, path=small.path)
        need(status == 0, f"with room again a run ends with {status}: {said[-3:]}")
        small.compare_script(more, said[: len(more)], killed=False)
        need("snapshot same" in run("audit", path=small.path)[1], "the snapshot doesn't fit")
        os.remove(small.path)
        counts.append(heard)
    print(f"full at pieces of room: {counts} rows were answered, as many as fit")


def full_at_the_snapshot():
    """As many rows more as the place of the last snapshot takes."""
    room = os.path.getsize(book.path) // SLOT - book.rows - 20
    need(room > 9, f"there is room for {room} rows where a snapshot has to be")
    lines = ["stop 1\n", "open B P\n", "start 1 B\n"] + weighings(room - 4) + ["stop 1\n"]
    leave(0)
    answers, _ = fails("run", lines=lines)
    need(len(answers) >= len(lines), f"{len(answers)} answers to {len(lines)} lines")
    book.compare_script(lines, answers[: len(lines)], killed=False)
    give_back()
    goes_on(["open B2 P\n"])
    print(f"full at the snapshot: all {len(lines)} rows stood")


def start(batch):
    """A hall with a lane that weighs and a door, and a connection to it."""
    hall = Hall(program, f"{work}/lanes", plan(f"open {batch} P\n", [batch]), book=book.path,
                lanes=1, doors=1, port=free_ports(), connections=CONNECTIONS)
    lane = Lane(hall, 1, ([drawn_gross(draw) for _ in range(20)] for _ in range(400)))
    lane.start()
    hall.wait_for_door(hall.ports[0])
    link = Caller(hall.ports[0])
    desk.catch_up(link)
    return hall, lane, link


def ask_until_it_fails(link, seconds=60):
    """Asks acts until one is answered 500; the desk's next request is that one again."""
    until = time.monotonic() + seconds
    while time.monotonic() < until:
        request = desk.last + 1
        response = link.act(desk.note(request, DAY))
        if response.status == 500:
            need(response.json() == {"bad": "disk"}, f"an act is answered {response}")
            return
        desk.hear(request, DAY, response)
        time.sleep(0.001)
    need(False, f"no act failed in {seconds} s")


def ended(hall, lane, link):
    """The hall's end, where its disk has failed."""
    link.socket.close()
    status = hall.drain(60)
    lane.finish()
    said = hall.said()
    need(status == 6 and said[-1] == "disk fault", f"serve ends with {status}: {said}")
    need(f"lane 1 opened {len(lane.opened)} disk" in said, f"serve ends with {said}")


def full_under_serve():
    leave(SLOT * 1500)
    hall, lane, link = start("C")
    ask_until_it_fails(link)
    need(link.ask(get("/summary")).status == 200, "no summary on a full disk")
    again = link.act(desk.note(desk.last + 1, DAY))
    need(again.status == 500, f"on a full disk an act is answered {again}")
    give_back()
    request = desk.last + 1
    desk.hear(request, DAY, link.act(desk.note(request, DAY)))
    need(desk.last == request, "with room again the act isn't taken")
    ended(hall, lane, link)
    book.compare([lane], killed=True)
    book.compare_register()
    print(f"full under serve: {len(lane.opened)} packs let out, {len(desk.told)} acts answered;"
          f" with room the same hall took the act that had failed; {book.rows} rows")


def remount(options):
    subprocess.run(["mount", "-o", f"remount,{options}", disk], check=True)


def read_only():
    stood = digest(book.path, book.rows)
    remount("ro")
    for words in (["run"], ["serve"]):
        _, errors = fails(*words)
        need("Read-only" in errors, f"{words} says {errors}")
    for words in (["check"], ["export"], ["report"]):
        status, said, errors = run(*words)
        need(status == 0 and "can't be written" in errors, f"{words} ends with {status}: {errors}")
        need(words != ["check"] or said == [f"rows {book.rows} whole"], f"check says {said}")
    need(digest(book.path, book.rows) == stood, "a book that is read-only has changed")
    remount("rw")
    goes_on(["stop 1\n", "open D P\n", "start 1 D\n"] + weighings(10))
    print(f"read-only between runs: what adds rows fails and says why; then {book.rows} rows")


def breaks(batch, name, break_it):
    hall, lane, link = start(batch)
    until = time.monotonic() + 0.5
    while time.monotonic() < until:
        request = desk.last + 1
        desk.hear(request, DAY, link.act(desk.note(request, DAY)))
    break_it()
    ask_until_it_fails(link)
    ended(hall, lane, link)
    mount_anew()
    book.compare([lane], killed=True)
    book.compare_register()
    print(f"{name}: {len(lane.opened)} packs let out and {len(desk.told)} acts answered in all are"
          f" there; {book.rows} rows")


def mount_anew():
    """Checks and mends the file system as at a machine's start, and mounts it."""
    image = f"{work}/image"
    subprocess.run(["umount", disk], check=True)
    # the loop device is let go a while later; until then it would be checked as one in use
    until = time.monotonic() + PATIENCE
    while subprocess.run(["losetup", "-j", image], capture_output=True, check=True).stdout:
        need(time.monotonic() < until, "the image's loop device is still there")
        time.sleep(0.02)
    mended = subprocess.run(["e2fsck", "-p", image], text=True, capture_output=True)
    need(mended.returncode in (0, 1), f"e2fsck ends with {mended.returncode}: {mended.stdout}")
    subprocess.run(["mount", "-o", "loop,errors=remount-ro", image, disk], check=True)
    options = subprocess.run(["findmnt", "-n", "-o", "OPTIONS", disk], text=True,
                             capture_output=True, check=True).stdout
    need(options.startswith("rw"), f"it is mounted so: {options.strip()}")


def made_read_only():
    """The system finds a fault of the file system, and makes it read-only."""
    device = os.path.basename(subprocess.run(["findmnt", "-n", "-o", "SOURCE", disk], text=True,
                                             capture_output=True).stdout.strip())
    with open(f"/sys/fs/ext4/{device}/trigger_fs_error", "w", encoding="ascii") as trigger:
        trigger.write("tests/disk_full.sh")


def shut_down():
    """The file system goes away, and what the system still holds of it is lost."""
    folder = os.open(disk, os.O_RDONLY)
    fcntl.ioctl(folder, SHUTDOWN, struct.pack("I", NOTHING_WRITTEN))
    os.close(folder)


full_at_pieces()
full_in_a_run()
full_at_the_snapshot()
full_under_serve()
read_only()
breaks("E", "made read-only under serve", made_read_only)
breaks("F", "shut down under serve", shut_down)
