#!/usr/bin/env python3
"""How `serve` ends: in good order by a file `stop`, over pipes, files, ports and doors, within a
second; what it says as it begins and as a lane or a door ends; and that it doesn't begin where a
port can't be had. Each end leaves a whole book, and no pack that its gate let out is voided.

usage: tests/good_end.py      (HALL names another program than the one that `./hall` builds)
"""

import http.client
import itertools
import os
import socket
import subprocess
import sys
import tempfile
import time

from clients import Hall, Wrong, free_ports, need

HERE = os.path.dirname(os.path.realpath(__file__))
SETUP = ('setup = """\n@164 1 day 2025-03-03\n@164 2 product rice250 250\n'
         '@164 3 tare rice250 2025-03-03 10\n@164 4 open A rice250\n"""\n')
LANE = '[[lane]]\nnumber = 1\nbatch = "A"\n'
# How long a hall may take to end, in seconds: the machine may be busy.
PATIENCE = 30


# Ports of this script's own: two for each scene.
PORTS = itertools.count(free_ports(), 2)


class Scene:
    """A hall in a folder of its own."""

    def __init__(self, program, folder, plan=SETUP + LANE, **words):
        self.program, self.folder, self.book = program, folder, f"{folder}/book"
        self.hall = Hall(program, folder, plan, book=self.book, **words)

    def errors(self):
        with open(f"{self.folder}/errors", encoding="utf-8") as lines:
            text = lines.read().replace(self.folder, "DIR").replace("hall: ", "")
        return [line for line in text.splitlines() if "there was no book" not in line]

    def wait_for(self, line):
        """Waits until standard error says a line."""
        until = time.monotonic() + PATIENCE
        while line not in self.errors():
            need(time.monotonic() < until, f"{line!r} isn't said: {self.errors()}")
            need(not self.hall.ended() or line in self.errors(), f"it ended: {self.errors()}")
            time.sleep(0.01)

    def watches(self):
        """Whether the hall watches a pipe for who writes it."""
        at = f"/proc/{self.hall.process.pid}/fd"
        return any("eventpoll" in os.readlink(f"{at}/{fd}") for fd in os.listdir(at))

    def stop(self):
        """Asks the hall to end; tells its status, and how long that took."""
        began = time.monotonic()
        with open(f"{self.folder}/stop", "wb"):
            pass
        status = self.hall.wait(PATIENCE)
        return status, time.monotonic() - began

    def packs(self):
        """How the packs stand in the register."""
        ran = subprocess.run([self.program, "export", f"--book={self.book}"], capture_output=True,
                             check=True, text=True)
        return [line.rsplit(",", 2)[1:] for line in ran.stdout.splitlines()[1:]]

    def check(self, status, lines, packs):
        """What is printed of lanes and doors, and how the packs stand."""
        ended, seconds = self.stop()
        said = [line for line in self.hall.said() if line.startswith(("lane ", "door "))]
        need((ended, said) == (status, lines), f"{ended} {said} {self.errors()}")
        need(self.packs() == packs, f"packs {self.packs()}")
        whole = subprocess.run([self.program, "check", f"--book={self.book}"], capture_output=True,
                               check=False)
        need(whole.returncode == 0, f"check: {whole}")
        return seconds


PASSED, REJECTED = ["pass", "passed"], ["reject inadequate", "rejected"]


def pipes(program, folder):
    """Pipes whose scale goes on holding its end: each pack is settled, none is voided."""
    it = Scene(program, folder, lanes=1)
    it.wait_for("serving, lanes 1, doors 0, rows 4, left 999996")
    with open(f"{folder}/cell-1.txt", "wb", buffering=0) as scale, \
            open(f"{folder}/gate-1.txt", "r+b", buffering=0) as gate:
        scale.write(b"262\n")
        need(gate.readline() == b"open 6\n", "the gate")
        scale.write(b"240\n26")      # a line that isn't whole is no weight
        time.sleep(0.5)
        scale.write(b"2\n")
        need(gate.readline() == b"open 8\n", "the gate")
        return it.check(0, ["lane 1 opened 2 done"], [PASSED, REJECTED, PASSED])


def half_line(program, folder):
    """A line that isn't whole as the hall is to end: it is no weight, and the cell fails."""
    it = Scene(program, folder, lanes=1)
    with open(f"{folder}/cell-1.txt", "wb", buffering=0) as scale, \
            open(f"{folder}/gate-1.txt", "r+b", buffering=0) as gate:
        scale.write(b"262\n26")
        need(gate.readline() == b"open 6\n", "the gate")
        return it.check(10, ["lane 1 opened 1 cell"], [PASSED])


def nobody(program, folder):
    """Pipes that nobody has opened."""
    it = Scene(program, folder, lanes=1)
    it.wait_for("serving, lanes 1, doors 0, rows 4, left 999996")
    return it.check(0, ["lane 1 opened 0 done"], [])


def come_and_gone(program, folder):
    """Who opens a pipe that the hall has open, and closes it without a byte, ends the lane."""
    it = Scene(program, folder, lanes=1)
    it.wait_for("serving, lanes 1, doors 0, rows 4, left 999996")
    while not it.watches():
        time.sleep(0.01)
    with open(f"{folder}/cell-1.txt", "wb"):
        pass
    it.wait_for("lane 1, batch A: done")
    need(it.hall.wait(PATIENCE) == 0, "its status")
    return 0


def unread(program, folder):
    """A gate without a reader: that is told, its lane fails as it is asked to end, and the pack
    that stayed is settled so."""
    it = Scene(program, folder, lanes=1)
    with open(f"{folder}/cell-1.txt", "wb", buffering=0) as scale:
        scale.write(b"262\n")
        it.wait_for("DIR/gate-1.txt: nobody has read it for 5 s")
        return it.check(10, ["lane 1 opened 0 gate"], [["pass", "rejected"]])


def files(program, folder):
    """A cell that is a file without an end, as far as a day goes, ends between two lines."""
    with open(f"{folder}/cell-1.txt", "wb") as lines:
        lines.write(b"262.25\n" * 400_000)
    it = Scene(program, folder, lanes=1, pipes=False)
    until = time.monotonic() + PATIENCE
    while not os.path.exists(f"{folder}/gate-1.txt") and time.monotonic() < until:
        time.sleep(0.01)
    status, seconds = it.stop()
    packs = it.packs()
    need(status == 0 and 0 < len(packs) < 400_000, f"{status}, {len(packs)} packs")
    need(packs == [PASSED] * len(packs), "a pack isn't passed")
    return seconds


def port_cell(program, folder):
    """A scale at a port: the last weight is acknowledged as its lane ends."""
    port = next(PORTS)
    it = Scene(program, folder, lanes=1, remote=port)
    it.wait_for("serving, lanes 1, doors 0, rows 4, left 999996")
    with socket.create_connection(("127.0.0.1", port)) as scale, \
            open(f"{folder}/gate-1.txt", "r+b", buffering=0) as gate:
        scale.sendall(b"1 262\n")
        need(gate.readline() == b"open 6\n", "the gate")
        seconds = it.check(0, ["lane 1 opened 1 done"], [PASSED])
        need(scale.makefile("rb").read() == b"ack 1\n", "the acknowledgement")
        return seconds


def cut_acknowledgement(program, folder):
    """A scale whose link is cut as the hall is to end says its last weight again, and is answered,
    unless the machine is too slow for that within half a second, ten times in a row."""
    for turn in range(10):
        os.mkdir(f"{folder}/{turn}")
        if say_again(program, f"{folder}/{turn}"):
            return 0
    raise Wrong("it is never acknowledged again")


def say_again(program, folder):
    """What a scale hears whose link is cut as the hall is to end; nothing where that has ended."""
    port = next(PORTS)
    it = Scene(program, folder, lanes=1, remote=port)
    it.wait_for("serving, lanes 1, doors 0, rows 4, left 999996")
    with socket.create_connection(("127.0.0.1", port)) as scale, \
            open(f"{folder}/gate-1.txt", "r+b", buffering=0) as gate:
        scale.sendall(b"1 262\n")
        need(gate.readline() == b"open 6\n", "the gate")
        scale.recv(16)
    with open(f"{folder}/stop", "wb"):
        pass
    try:
        with socket.create_connection(("127.0.0.1", port)) as scale:
            scale.sendall(b"1 262\n")
            again = scale.makefile("rb").readline()
    except OSError:
        again = b""
    need(again == b"ack 1\n" or it.hall.ended(), f"it hears {again}")
    it.check(0, ["lane 1 opened 1 done"], [PASSED])
    return again


def two_scales(program, folder):
    """A number that comes again with another weight is told, and so is one that is ahead."""
    port = next(PORTS)
    it = Scene(program, folder, lanes=1, remote=port)
    it.wait_for("serving, lanes 1, doors 0, rows 4, left 999996")
    with open(f"{folder}/gate-1.txt", "r+b", buffering=0) as gate:
        for said, heard in ((b"1 262\n1 262\n", b"ack 1\n"), (b"1 100\n", b"ack 1\n"),
                            (b"9 262\n9 262\n1 262\n", b"ack 1\n")):
            with socket.create_connection(("127.0.0.1", port)) as scale:
                scale.sendall(said)
                need(scale.makefile("rb").readline() == heard, f"{said} is answered otherwise")
        need(gate.readline() == b"open 6\n", "the gate")
        it.wait_for(f"port {port}: the scale says number 9, and 2 is the next one")
        need(it.errors()[1:] == [
            f"port {port}: number 1 comes again with another weight: do two scales send to it?",
            f"port {port}: the scale says number 9, and 2 is the next one"], f"{it.errors()}")
        return it.check(0, ["lane 1 opened 1 done"], [PASSED])


def doors(program, folder):
    """Doors with connections left: one that is asked is answered, and none is waited for."""
    port = next(PORTS)
    it = Scene(program, folder, SETUP, doors=2, port=port, connections=999_999)
    it.wait_for(f"serving, lanes 0, doors 2 at ports {port} to {port + 1}, rows 4, left 999996")
    link = http.client.HTTPConnection("127.0.0.1", port)
    link.request("GET", "/summary")
    need(link.getresponse().read().startswith(b"rows 4\n"), "the summary")
    with socket.create_connection(("127.0.0.1", port + 1)):
        seconds = it.check(0, ["door 1 served 1 links 0 done", "door 2 served 0 links 0 done"], [])
    need(it.errors()[-2:] in (["door 1: done", "door 2: done"], ["door 2: done", "door 1: done"]),
         f"{it.errors()}")
    return seconds


def refused(program, folder):
    """A lane whose batch isn't there says so at once, while a door has connections left."""
    port = next(PORTS)
    setup = SETUP + LANE.replace('"A"', '"EVENNG"')
    it = Scene(program, folder, setup, lanes=1, doors=1, port=port, connections=9)
    it.wait_for("lane 1, batch EVENNG: refused 14 BatchUnknown at 4")
    need(not it.hall.ended(), "it ended")
    return it.check(10, ["lane 1 opened 0 refused 14 at 4", "door 1 served 0 links 0 done"], [])


def asked_before(program, folder):
    """A hall that begins beside the file says so, and ends at once."""
    with open(f"{folder}/stop", "wb"):
        pass
    it = Scene(program, folder, lanes=1, doors=1, port=next(PORTS), connections=9)
    need(it.hall.wait(PATIENCE) == 0, "its status")
    need(it.errors()[0] == "DIR/stop is there: the hall ends in good order at once", it.errors())
    return 0


def taken(program, folder):
    """A port of a door or of a scale that can't be had: nothing is done."""
    with socket.create_server(("127.0.0.1", 0)) as theirs:
        port = theirs.getsockname()[1]
        for words in ({"doors": 1, "port": port}, {"lanes": 1, "remote": port}):
            it = Scene(program, folder, SETUP + (LANE if "lanes" in words else ""), **words)
            need(it.hall.wait(PATIENCE) == 6, f"its status {it.errors()}")
            need(it.hall.said() == ["disk fault"], f"it says {it.hall.said()}")
            need(it.errors() == [f"can't listen at port {port}: Address already in use"
                                 " (os error 98)"], f"{it.errors()}")
            need(not os.path.exists(it.book), "it made a book")
    return 0


def cut_book(program, folder):
    """A book that is cut or overwritten under a hall: no act is told a row any more."""
    for change in (lambda book: os.truncate(book, 96), lambda book: os.truncate(book, 0)):
        port = next(PORTS)
        for name in ("book", "stop"):
            if os.path.exists(f"{folder}/{name}"):
                os.remove(f"{folder}/{name}")
        it = Scene(program, folder, SETUP, doors=1, port=port, connections=99)
        it.wait_for(f"serving, lanes 0, doors 1 at port {port}, rows 4, left 999996")
        change(it.book)
        link = http.client.HTTPConnection("127.0.0.1", port)
        link.request("POST", "/acts", '{"act":"day","desk":101,"request":1,"day":"2025-03-04"}')
        answer = link.getresponse()
        need(answer.status == 500, f"the act is answered: {answer.status} {answer.read()}")
        link.close()
        status, _ = it.stop()
        need(status == 6, f"{status} {it.errors()}")
        need("the book's disk failed: somebody else has cut or overwritten its file" in it.errors(),
             f"{it.errors()}")
    return 0


SCENES = [pipes, half_line, nobody, come_and_gone, unread, files, port_cell, cut_acknowledgement,
          two_scales, doors, refused, asked_before, taken, cut_book]


def main():
    program = os.environ.get("HALL") or f"{HERE}/../crates/hall_cli/out/hall_cli"
    if "HALL" not in os.environ:
        subprocess.run([f"{HERE}/../hall", "run"], input=b"", stdout=subprocess.DEVNULL, check=True)
    wrong, longest = 0, 0.0
    for scene in SCENES:
        with tempfile.TemporaryDirectory(prefix="hall_end.") as folder:
            try:
                longest = max(longest, scene(program, folder))
            except (Wrong, OSError) as fault:
                wrong += 1
                print(f"{scene.__name__}: {fault!r}")
    print(f"{len(SCENES)} ends, {wrong} otherwise; the longest took {longest:.2f} s")
    return wrong > 0


if __name__ == "__main__":
    sys.exit(main())
