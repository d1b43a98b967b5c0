"""Readings of a book while its hall works, fails or is killed, for tests/live.sh."""

import fcntl
import os
import random
import re
import struct
import subprocess
import sys
import threading
import time
from collections import Counter
from contextlib import nullcontext

from clients import (FIRST_DESK, FIRST_DOOR, OPENING, Client, Desk, Gone, Hall, Lane, Link,
                     drawn_act, free_ports, good_gross, need, plan, post)
from rows import SLOT, slots_behind

LANES, DESKS = 2, 2
COMMANDS = ("check", "export", "report", "ship", "acts")
# Beside a disk that fails: no pack is weighed there, and a row that is another shows in a shipment.
COMMANDS_BESIDE_FAILURES = ("check", "export", "report", "ship", "ship", "ship", "ship", "ship")
IN_USE = re.compile(r"^hall: .*: it is in use; (\d+) rows were read$")
# Of so many gates that a hall opens one is not made stable, where its disk fails. Behind an act
# that failed no desk asks for so many seconds at most, so that readings fall there too.
FAIL_EVERY = 7
HANGS = 0.05
HEAD = 16
# Kills of the hall that is read, and how long one without a reader is looked at.
KILLS, QUIET_SECONDS = 8, 5
# A device that fails: its bytes, those in front of the place from which it fails, which hold no
# file, and the longest that it fails and works in turn.
DEVICE_BYTES, DEVICE_HEAD = 64 << 20, 1 << 20
FAILS, WORKS = 0.02, 0.1
# The calls that tell and set what a loop device is over, how long that is, and where in it the
# length of the device stands.
LOOP_TELL, LOOP_SET, LOOP_SIZE, LOOP_END = 0x4C05, 0x4C04, 232, 32


class FailingDevice(threading.Thread):
    """A file system over a loop device that ends too early at drawn moments: what is then written
    behind its end fails."""

    def __init__(self, folder, draw):
        super().__init__(daemon=True)
        self.draw, self.disk = draw, f"{folder}/disk"
        self.lock, self.failing, self.ending = threading.Lock(), False, threading.Event()
        with open(f"{folder}/image", "wb") as image:
            image.truncate(DEVICE_BYTES)
        call("mkfs.ext4", "-q", "-O", "^has_journal", f"{folder}/image")
        self.loop = call("losetup", "--find", "--show", f"{folder}/image").strip()
        os.mkdir(self.disk)
        call("mount", "-o", "errors=continue", self.loop, self.disk)

    def run(self):
        while not self.ending.wait(self.draw.uniform(0, WORKS)):
            with self.lock:
                if self.failing:
                    self.end_at(DEVICE_HEAD)
                    time.sleep(self.draw.uniform(0, FAILS))
                    self.end_at(0)

    def end_at(self, length):
        """Ends the device behind so many bytes; at 0 where its file ends."""
        told = bytearray(LOOP_SIZE)
        with open(self.loop, "rb") as device:
            fcntl.ioctl(device, LOOP_TELL, told)
            struct.pack_into("Q", told, LOOP_END, length)
            fcntl.ioctl(device, LOOP_SET, told)

    def may_fail(self, failing):
        with self.lock:
            self.failing = failing

    def remove(self):
        self.ending.set()
        if self.is_alive():
            self.join()
        call("umount", self.disk)
        call("losetup", "--detach", self.loop)


def call(*words):
    return subprocess.run(words, check=True, capture_output=True, text=True).stdout


class Worker(Client):
    """A desk that asks one act after another. Where the disk failed it asks another act under the
    same number. Desks with one lock ask in turn."""

    def __init__(self, hall, port, desk, draw, lock):
        super().__init__(hall)
        self.port, self.desk, self.draw, self.lock = port, desk, draw, lock
        self.failed = 0

    def hall_is_gone(self):
        return self.ending.is_set() or super().hall_is_gone()

    def work(self):
        while not self.ending.is_set():
            try:
                with Link(self.port) as link:
                    self.ask_many(link)
            except ConnectionRefusedError:
                time.sleep(0.01)

    def ask_many(self, link):
        for _ in range(link.ACTS):
            if self.ending.is_set():
                return
            request = self.desk.last + 1
            act = drawn_act(self.draw, self.desk.number, [])
            with self.lock:
                response = link.ask(post(self.desk.note(request, act)))
                if response.status == 500:
                    self.failed += 1
                    time.sleep(self.draw.uniform(0, HANGS))
                else:
                    self.desk.hear(request, act, response)
            if response.last:
                return


class Reading:
    """What a command said of a book, and how many rows it read."""

    def __init__(self, command, rows, said):
        self.command, self.rows, self.said = command, rows, said


class Round:
    """A hall at work, and readings of its book beside it."""

    def __init__(self, program, folder, draw, port, failing=None, device=None):
        self.program, self.folder, self.draw, self.port = program, folder, draw, port
        self.device = device
        self.book = f"{device.disk if device else folder}/book"
        self.env = os.environ | {"LD_PRELOAD": failing, "FAIL_EVERY": str(FAIL_EVERY)} if failing \
            else None
        self.desks = [Desk(FIRST_DESK + at, FIRST_DOOR + at) for at in range(DESKS)]
        self.turn = 0
        self.readings = []
        self.counts = Counter()
        self.packs = 0

    def start(self):
        """A hall, with new batches, its lanes and its desks at work."""
        self.turn += 1
        folder = f"{self.folder}/{self.turn}"
        os.mkdir(folder)
        names = [f"L{lane}-{self.turn}" for lane in range(1, LANES + 1)]
        setup = (OPENING if self.turn == 1 else "") + "".join(f"open {name} P\n" for name in names)
        # A lane whose disk fails ends; where it does the desks work alone.
        fails = self.env or self.device
        lanes = 0 if fails else LANES
        lock = threading.Lock() if fails else nullcontext()
        hall = Hall(self.program, folder, plan(setup, names[:lanes]), book=self.book, lanes=lanes,
                    doors=DESKS, port=self.port, connections=999_999, env=self.env)
        pieces = [[good_gross(self.draw) for _ in range(4)] for _ in range(2_000)]
        clients = [Lane(hall, lane, pieces) for lane in range(1, lanes + 1)]
        clients += [Worker(hall, self.port + at, desk, self.draw, lock)
                    for at, desk in enumerate(self.desks)]
        for client in clients:
            client.start()
        return hall, clients

    def end(self, hall, clients):
        """Kills the hall. What its desks don't know they hear from the next one."""
        for client in clients:
            client.ending.set()
        hall.kill()
        for client in clients:
            client.finish()
        self.packs += sum(len(client.opened) for client in clients if isinstance(client, Lane))
        self.counts["failed"] += sum(getattr(client, "failed", 0) for client in clients)

    def read(self):
        """One reading, at this moment. It isn't longer than what stands in the file behind it."""
        fails = self.env or self.device
        command = self.draw.choice(COMMANDS_BESIDE_FAILURES if fails else COMMANDS)
        ran = subprocess.run([self.program, command, "--book", self.book], capture_output=True,
                             check=False)
        errors = ran.stderr.decode()
        need(ran.returncode == 0, f"{command} ends {ran.returncode}: {ran.stdout[-200:]} {errors}")
        in_use = IN_USE.match(errors)
        need(in_use or not errors, f"{command} says {errors!r}")
        if not in_use:
            return False
        rows = int(in_use.group(1))
        if command == "check":
            need(ran.stdout == b"rows %d whole\n" % rows, f"{rows} rows are read, {ran.stdout}")
        if command == "ship":
            need(len(ran.stdout) == HEAD + SLOT * rows, f"{rows} rows are read, and others shipped")
        stands = len(slots_behind(self.book, 0)) // SLOT
        need(rows <= stands + 1, f"{command} reads {rows} rows, {stands} stand")
        self.readings.append(Reading(command, rows, ran.stdout))
        self.counts[command] += 1
        return True

    def read_many(self, count, kills):
        """So many readings beside halls, of which so many are killed."""
        done = 0
        for part in range(kills + 1):
            hall, clients = self.start()
            self.wait_for_acts(hall)
            self.may_fail(True)
            until = count * (part + 1) // (kills + 1)
            while done < until:
                done += self.read()
                need(not hall.ended(), f"the hall ended: {hall.said()}")
                time.sleep(self.draw.uniform(0, 0.02))
            self.may_fail(False)
            self.end(hall, clients)
            if part < kills:
                self.hear_on()

    def wait_for_acts(self, hall):
        """Waits until each desk was answered, so that the setup is done."""
        asked = [desk.last for desk in self.desks]
        while any(desk.last == last for desk, last in zip(self.desks, asked)):
            need(not hall.ended(), f"the hall ended: {hall.said()}")
            time.sleep(0.002)

    def may_fail(self, failing):
        if self.device:
            self.device.may_fail(failing)

    def hear_on(self):
        """Each desk hears from a hall without load which request was accepted last."""
        self.turn += 1
        folder = f"{self.folder}/{self.turn}"
        os.mkdir(folder)
        hall = Hall(self.program, folder, plan("", []), book=self.book, doors=DESKS, port=self.port,
                    connections=999_999)
        for at, desk in enumerate(self.desks):
            hall.wait_for_door(self.port + at)
            with Link(self.port + at) as link:
                desk.catch_up(link)
        hall.kill()

    def compare(self):
        """Each reading is what the command says of a book of the first rows of the final one."""
        final = subprocess.run([self.program, "ship", "--book", self.book], capture_output=True,
                               check=True).stdout
        with open(self.book, "rb") as book:
            header = bytearray(book.read(SLOT))
        header[8] = 0
        front = f"{self.folder}/front"
        for reading in self.readings:
            rows = final[HEAD:HEAD + SLOT * reading.rows]
            need(len(rows) == SLOT * reading.rows, f"{reading.rows} rows were read, fewer stay")
            with open(front, "wb") as book:
                book.write(header + rows + b"\0")
            said = subprocess.run([self.program, reading.command, "--book", front],
                                  capture_output=True, check=True).stdout
            need(said == reading.said, f"{reading.command} of {reading.rows} rows isn't that of"
                 " the first rows of the final book")
        return (len(final) - HEAD) // SLOT


def tried(name, count, kills, **failing):
    """Reads so often beside a hall; the round, and the seconds that it took."""
    folder = f"{work}/{name}"
    os.makedirs(folder, exist_ok=True)
    this = Round(program, folder, random.Random(f"{seed}-{name}"), free_ports(), **failing)
    began = time.monotonic()
    this.read_many(count, kills)
    spent = time.monotonic() - began
    rows = this.compare()
    counts = ", ".join(f"{this.counts[word]} {word}" for word in COMMANDS)
    print(f"{name}: {count} readings ({counts}) are those of the first rows of {rows}", flush=True)
    return this, spent


def beside_a_failing_device(count):
    """Reads so often beside a hall whose device fails now and then."""
    if os.geteuid() != 0:
        print("no device that fails was tried: that takes root")
        return
    folder = f"{work}/device"
    os.mkdir(folder)
    device = FailingDevice(folder, random.Random(f"{seed}-moments"))
    try:
        device.start()
        failed, _ = tried("device", count, 2, device=device)
    finally:
        device.remove()
    need(failed.counts["failed"] > 0, "the device never failed at an act")
    print(f"{failed.counts['failed']} acts failed at the device")


def quiet():
    """The packs a second that the lanes let out with no reader beside them."""
    folder = f"{work}/quiet"
    os.mkdir(folder)
    this = Round(program, folder, random.Random(f"{seed}-quiet"), free_ports())
    hall, clients = this.start()
    hall.wait_for_door(this.port)
    time.sleep(QUIET_SECONDS)
    this.end(hall, clients)
    return this.packs / QUIET_SECONDS


if __name__ == "__main__":
    program, work, readings, seed = sys.argv[1:]
    print(f"seed {seed}", flush=True)
    read, spent = tried("killed", int(readings) * 7 // 10, KILLS)
    print(f"lanes let out {read.packs / spent:.0f} packs a second beside readers,"
          f" {quiet():.0f} without")
    failed, _ = tried("failing", int(readings) * 3 // 10, 2, failing=f"{work}/failing_sync.so")
    need(failed.counts["failed"] > 0, "no sync failed")
    print(f"{failed.counts['failed']} acts failed at a sync")
    beside_a_failing_device(int(readings) * 3 // 10)
