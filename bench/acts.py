"""The figures of bench/acts.sh: PROGRAM FOLDER ROWS SECONDS [PART..]."""

import os
import random
import shutil
import signal
import sqlite3
import subprocess
import sys
import threading
import time

from clients import (OPENING, Caller, Client, Hall, free_ports, get, good_gross, need, plan,
                     spell_grams)
from rows import SLOT
from weighings import script

program, work = sys.argv[1:3]
ROWS, SECONDS = map(int, sys.argv[3:5])
HERE = os.path.dirname(os.path.realpath(__file__))
TURNS, LANES, PAGE = 3, 4, 128
FOLLOWED = {True: 20_000, False: 400_000}
PAUSE, RATE = 0.1, 140
TICK = os.sysconf("SC_CLK_TCK")


def timed(words, output):
    """Seconds and the greatest memory in KiB of a process that writes into a file."""
    with open("/dev/null", "rb") as nothing, open(output, "wb") as sink:
        began = time.monotonic()
        process = subprocess.Popen(words, stdin=nothing, stdout=sink)
        _, status, used = os.wait4(process.pid, 0)
    need(status == 0, f"{words} ends {os.waitstatus_to_exitcode(status)}")
    return time.monotonic() - began, used.ru_maxrss


def make_book(path):
    """The rows would cost two syncs each on a disk, so it is made in a folder in memory."""
    place = f"/dev/shm/hall_acts.{os.getpid()}"
    with open(f"{work}/script", "w", encoding="ascii") as text:
        text.writelines(script(ROWS))
    with open(f"{work}/script", "rb") as text:
        subprocess.run([program, "run", "--book", place], stdin=text, stdout=subprocess.DEVNULL,
                       check=True)
    shutil.move(place, path)


def text_of(book):
    with open(f"{work}/told", "wb") as told:
        subprocess.run([program, "acts", "--book", book], stdout=told, check=True)
    with open(f"{work}/told", encoding="ascii") as told, sqlite3.connect(f"{work}/table") as table:
        table.execute("create table acts (row integer primary key, line text)")
        table.executemany("insert into acts (line) values (?)",
                          ((line.rstrip("\n"),) for line in told))
    table.close()
    ways = {"check": [program, "check", "--book", book], "acts": [program, "acts", "--book", book],
            "sqlite3": ["sqlite3", f"{work}/table", "select line from acts order by row"]}
    best = {}
    for name in list(ways) * TURNS:
        best[name] = min(best.get(name, (1e9, 0)), timed(ways[name], f"{work}/{name}"))
    need(open(f"{work}/acts", "rb").read() == open(f"{work}/sqlite3", "rb").read(), "other lines")
    rows = sum(1 for _ in open(f"{work}/acts", "rb"))
    beyond = best["acts"][0] - best["check"][0]
    print(f"acts of {rows} rows: {best['acts'][0]:.2f} s, check {best['check'][0]:.2f} s, sqlite3"
          f" {best['sqlite3'][0]:.2f} s: beyond the opening {beyond / best['sqlite3'][0]:.2f}")
    more = 1024 * (best["acts"][1] - best["check"][1]) / rows
    print(f"memory of acts: {best['acts'][1]} KiB, {more:.0f} bytes a row above check")


class Follower(Client):
    """Asks for all that is new, at most each PAUSE: how many rows it was told, and how often."""

    def __init__(self, hall, isasking):
        super().__init__(hall)
        self.isasking, self.seen, self.asked = isasking, 0, 0

    def work(self):
        self.hall.wait_for_door(self.hall.ports[0])
        with Caller(self.hall.ports[0]) as link:
            while not self.ending.wait(PAUSE):
                while self.isasking and self.page(link) == PAGE:
                    pass

    def page(self, link):
        answer = link.ask(get(f"/acts/{self.seen}"))
        need(answer.status == 200, f"/acts/{self.seen} is answered {answer}")
        lines = answer.body.splitlines()
        self.seen, self.asked = self.seen + len(lines), self.asked + 1
        return len(lines)


def lanes_end(hall):
    """Waits until each lane has said that it ended."""
    while True:
        with open(f"{hall.folder}/errors", encoding="utf-8") as said:
            if sum(line.startswith("hall: lane ") for line in said) == LANES:
                return time.monotonic()
        need(not hall.ended(), f"the hall has ended: {hall.said()}")
        time.sleep(0.002)


def weighed(isonfile, isasking):
    """Rows a second of four lanes from files, beside a client that asks or is silent."""
    folder = f"{work}/hall"
    shutil.rmtree(folder, ignore_errors=True)
    os.mkdir(folder)
    draw, each = random.Random(1), FOLLOWED[isonfile] // LANES
    for lane in range(1, LANES + 1):
        with open(f"{folder}/cell-{lane}.txt", "w", encoding="ascii") as cell:
            cell.writelines(spell_grams(good_gross(draw)) for _ in range(each))
    names = [f"L{lane}" for lane in range(1, LANES + 1)]
    setup = OPENING + "".join(f"open {name} P\n" for name in names)
    hall = Hall(program, folder, plan(setup, names), lanes=LANES, doors=1, port=free_ports(),
                book=f"{folder}/book" if isonfile else None, pipes=False, connections=999_999)
    follower = Follower(hall, isasking)
    follower.start()
    seconds = lanes_end(hall) - hall.began
    follower.ending.set()
    follower.finish()
    hall.kill()
    return LANES * each / seconds, follower.asked


def beside_a_follower(isonfile):
    best = {}
    for isasking in (False, True) * 5:
        best[isasking] = max(best.get(isasking, (0, 0)), weighed(isonfile, isasking))
    (alone, _), (beside, asked) = best[False], best[True]
    print(f"{'file' if isonfile else 'memory'}, {LANES} lanes: {alone:.0f} rows a second, beside a"
          f" follower of {asked} questions {beside:.0f}: {100 * (1 - beside / alone):.1f} % lost")


class Scale(Client):
    """Hands the lanes of a hall weights, RATE a second in all, until it is ended."""

    def work(self):
        cells = [open(f"{self.hall.folder}/cell-{lane}.txt", "wb", buffering=0)
                 for lane in range(1, LANES + 1)]
        gates = [os.open(f"{self.hall.folder}/gate-{lane}.txt", os.O_RDWR | os.O_NONBLOCK)
                 for lane in range(1, LANES + 1)]
        threading.Thread(target=self.drain, args=(gates,), daemon=True).start()
        draw, began, sent = random.Random(1), time.monotonic(), 0
        while not self.ending.wait(max(0, began + sent / RATE - time.monotonic())):
            cells[sent % LANES].write(spell_grams(good_gross(draw)).encode())
            sent += 1

    def drain(self, gates):
        while not self.ending.wait(0.05):
            for gate in gates:
                try:
                    os.read(gate, 65536)
                except BlockingIOError:
                    pass


class Growth:
    """How many rows a book has, as its gates say, from some row on."""

    def __init__(self, path, rows):
        self.file, self.rows = os.open(path, os.O_RDONLY), rows

    def now(self):
        while os.pread(self.file, 1, SLOT * (self.rows + 1)) == b"\1":
            self.rows += 1
        return self.rows


def used(session):
    """Seconds of processors that the processes of a session took, with those that have ended."""
    total = 0
    for process in filter(str.isdigit, os.listdir("/proc")):
        try:
            with open(f"/proc/{process}/stat", encoding="utf-8", errors="replace") as stat:
                words = stat.read().rpartition(")")[2].split()
        except OSError:
            continue
        if int(words[3]) == session:
            total += sum(map(int, words[11:15]))
    return total / TICK


def behind(book, copy, seconds):
    """How long the copy lacks a row that the book has: the longest, and each."""
    came, waits = {}, []
    book, copy = Growth(book, ROWS), Growth(copy, ROWS)
    has, end = copy.now(), time.monotonic() + seconds
    while (now := time.monotonic()) < end:
        for row in range(max(came, default=book.rows) + 1, book.now() + 1):
            came[row] = now
        last, has = has, copy.now()
        waits += [now - came[row] for row in range(last + 1, has + 1) if row in came]
        time.sleep(0.005)
    return sorted(waits)


def standby(book):
    folder, copy = f"{work}/served", f"{work}/copy"
    os.mkdir(folder)
    shutil.copy(book, copy)
    names = [f"L{lane}" for lane in range(1, LANES + 1)]
    setup = "".join(f"open {name} P\n" for name in names)
    port = free_ports()
    hall = Hall(program, folder, plan(setup, names), book=book, lanes=LANES, doors=1, port=port,
                connections=999_999)
    hall.wait_for_door(port)
    scale = Scale(hall)
    scale.start()
    with open(f"{work}/standby", "wb") as said:
        process = subprocess.Popen(["sh", f"{HERE}/../examples/standby.sh", book, copy],
                                   stdout=said, stderr=said, start_new_session=True,
                                   env=os.environ | {"HALL": program, "DOOR": str(port)})
    begun, ahead = Growth(copy, ROWS), Growth(book, ROWS)
    until = time.monotonic() + 120
    while begun.now() <= ROWS or ahead.now() - begun.now() > RATE:
        need(time.monotonic() < until and process.poll() is None, open(f"{work}/standby").read())
        time.sleep(0.1)
    before = used(process.pid)
    waits = behind(book, copy, SECONDS)
    percent = 100 * (used(process.pid) - before) / SECONDS
    os.killpg(process.pid, signal.SIGKILL)
    scale.ending.set()
    hall.kill()
    print(f"standby over {ahead.now()} rows, {len(waits) / SECONDS:.0f} new a second: {percent:.1f}"
          f" % of a processor, {max(waits):.2f} s behind at most,"
          f" {waits[len(waits) // 2]:.2f} s the median")


whole = f"{work}/book"
PARTS = {
    "text": lambda: text_of(whole),
    "follower": lambda: (beside_a_follower(False), beside_a_follower(True)),
    "standby": lambda: standby(whole),
}
make_book(whole)
for name in sys.argv[5:] or PARTS:
    PARTS[name]()
