"""Clients of every kind that holds or shuts a door, beside honest ones; see tests/doors.sh."""

import asyncio
import os
import random
import resource
import socket
import struct
import subprocess
import sys
import threading
import time

from clients import (OPENING, PATIENCE, Client, Hall, Lane, Link, free_ports, get, good_gross, need,
                     plan, post)

# The seconds in which an honest client is answered, and those beside one that holds its door for as
# long as a request or a response may take.
SOON, HELD = 2, 15

# For how many seconds each kind is at work alone.
ALONE = 26

HALF = b"GET /summary HTTP/1.1\r\nHost: ha"
WHOLE = get("/summary")
DRIP = 0.5


class Honest(Client):
    """Asks for the summary, on a connection for each, and notes how long the answer took."""

    def __init__(self, hall, ports, pause, draw=random):
        super().__init__(hall)
        self.ports = ports
        self.pause = pause
        self.draw = draw
        self.took = []

    def work(self):
        while not self.ending.is_set():
            began = time.monotonic()
            if self.ask(self.draw.choice(self.ports)):
                self.took.append(time.monotonic() - began)
            time.sleep(self.pause)

    def ask(self, port):
        """One answer. A client that a crowd kept out is left unanswered, and asks again."""
        try:
            with Link(port) as link:
                need(link.ask(WHOLE).status == 200, "a summary isn't answered")
            return True
        except (ConnectionError, TimeoutError):
            self.took.append(PATIENCE)
            return False


def connect(port, receives=None):
    link = socket.socket()
    if receives:
        link.setsockopt(socket.SOL_SOCKET, socket.SO_RCVBUF, receives)
    link.settimeout(PATIENCE)
    link.connect(("127.0.0.1", port))
    return link


def reset(link):
    """Cuts a connection, so that its end is an error for the other side."""
    link.setsockopt(socket.SOL_SOCKET, socket.SO_LINGER, struct.pack("ii", 1, 0))
    link.close()


def heard_out(link):
    """Reads until the other side leaves."""
    try:
        while link.recv(65536):
            pass
    except ConnectionError:
        pass


def left_after(link, begin=None):
    """After how many seconds a connection is left by its door."""
    began = begin or time.monotonic()
    heard_out(link)
    link.close()
    return time.monotonic() - began


def drip(link, text, until):
    """Sends a byte and another one, until the door leaves or the time is over."""
    link.settimeout(DRIP)
    for byte in text:
        try:
            link.send(bytes([byte]))
            if time.monotonic() > until or not link.recv(1000):
                break
        except TimeoutError:
            pass
        except ConnectionError:
            break
    link.settimeout(PATIENCE)


def silent(port, _):
    with connect(port) as link:
        return left_after(link)


def half(port, _):
    with connect(port) as link:
        link.sendall(HALF)
        return left_after(link)


def kept(port, _):
    with Link(port) as link:
        link.ask(WHOLE)
        return left_after(link.socket)


def half_behind(port, _):
    with Link(port) as link:
        link.ask(WHOLE)
        link.send(HALF)
        return left_after(link.socket)


def dripping(port, ends):
    with connect(port) as link:
        began = time.monotonic()
        drip(link, WHOLE.replace(b"Host", b"X-More: " + b"x" * 900 + b"\r\nHost"), ends)
        return left_after(link, began)


def dripping_body(port, ends):
    with connect(port) as link:
        began = time.monotonic()
        link.sendall(b"POST /acts HTTP/1.1\r\nContent-Length: 4000\r\n\r\n")
        drip(link, b" " * 4000, ends)
        return left_after(link, began)


def unread(port, ends):
    """Asks as much as it may and reads nothing."""
    with connect(port, receives=2048) as link:
        began = time.monotonic()
        try:
            link.sendall(WHOLE * 1000)
            time.sleep(min(HELD, max(0, ends - time.monotonic())))
        except OSError:
            pass
        return time.monotonic() - began


def dripping_on(port, ends):
    """Is answered for the last time, and sends on."""
    with connect(port) as link:
        began = time.monotonic()
        link.sendall(WHOLE.replace(b"1.1", b"1.0"))
        try:
            while time.monotonic() < min(ends, began + 8):
                link.send(b"x")
                time.sleep(DRIP)
        except ConnectionError:
            pass
        return time.monotonic() - began


# Each kind with what it does until it is left, the seconds in which an honest client at the same
# door is answered meanwhile, and those after which it is left: at the earliest and at the latest.
KINDS = {
    "silent": (silent, SOON, None),
    "half a head": (half, SOON, (9.5, 14)),
    "a head by drips": (dripping, SOON, (9.5, 14)),
    "kept alive": (kept, SOON, (0.9, 3)),
    "half a head behind an answer": (half_behind, HELD, (9.5, 14)),
    "a body by drips": (dripping_body, HELD, (9.5, 14)),
    "no answer read": (unread, HELD, None),
    "left, and not gone": (dripping_on, SOON, None),
}


class Hostile(Client):
    """Does what its kind does, again and again; notes after how long it was left."""

    def __init__(self, hall, way, port, ends):
        super().__init__(hall)
        self.way = way
        self.port = port
        self.ends = ends
        self.left = []

    def work(self):
        while time.monotonic() < self.ends:
            try:
                after = self.way(self.port, self.ends)
                if time.monotonic() < self.ends:
                    self.left.append(after)
            except TimeoutError:
                pass


def start(folder, port, doors=1, lanes=0, setup="", **more):
    os.mkdir(folder)
    batches = [f"L{lane}" for lane in range(1, lanes + 1)]
    hall = Hall(program, folder, plan(setup + "".join(f"open {batch} P\n" for batch in batches),
                                      batches), lanes=lanes, doors=doors, port=port, **more)
    for at in hall.ports:
        hall.wait_for_door(at)
    return hall


def one_kind(name, port):
    """One client of a kind, and an honest one at the same door."""
    way, soon, left = KINDS[name]
    hall = start(f"{work}/{name.replace(' ', '_')}", port, connections=999_999)
    ends = time.monotonic() + ALONE
    hostile = Hostile(hall, way, port, ends)
    honest = Honest(hall, [port], 0.1)
    hostile.start()
    time.sleep(0.2)
    honest.start()
    time.sleep(max(0, ends - time.monotonic()))
    honest.ending.set()
    honest.finish()
    hall.kill()
    most = max(honest.took)
    need(most <= soon and len(honest.took) > 2, f"{name}: an honest client waited {most:.1f} s")
    if left:
        least, latest = left
        need(hostile.left and least <= min(hostile.left) and max(hostile.left) <= latest,
             f"{name}: left after {hostile.left} s")
    after = f", left after {max(hostile.left):.1f} s at most" if hostile.left else ""
    print(f"{name}: {len(honest.took)} honest answers, each within {most:.2f} s{after}", flush=True)


def probes(port):
    """Connections that say nothing are none, and those that are cut between requests no fault."""
    hall = start(f"{work}/probes", port, connections=3)
    for at in range(300):
        link = connect(port)
        if at % 3 == 0:
            link.shutdown(socket.SHUT_WR)
            heard_out(link)
        if at % 3 == 1:
            reset(link)
        else:
            link.close()
    for _ in range(3):
        link = Link(port)
        need(link.ask(WHOLE).status == 200, "no answer behind probes")
        reset(link.socket)
    status = hall.wait(30)
    need(status == 0 and "door 1 served 3 links 0 done" in hall.said(),
         f"behind probes the status is {status}: {hall.said()}")
    print("300 probes: none of three connections, and no fault", flush=True)


def descriptors(hall):
    return len(os.listdir(f"/proc/{hall.process.pid}/fd"))


def no_descriptor(port):
    """A door waits where there is no descriptor, tells it once and serves again."""
    hall = start(f"{work}/descriptors", port, connections=2)
    time.sleep(0.5)
    _, most = resource.prlimit(hall.process.pid, resource.RLIMIT_NOFILE)
    resource.prlimit(hall.process.pid, resource.RLIMIT_NOFILE, (descriptors(hall), most))
    first, second = Link(port), Link(port)
    first.send(WHOLE)
    time.sleep(2)
    need(not hall.ended(), f"without a descriptor the hall ends: {hall.said()}")
    resource.prlimit(hall.process.pid, resource.RLIMIT_NOFILE, (most, most))
    began = time.monotonic()
    for link in (first, second):
        need(link.ask(WHOLE).status == 200, "no answer behind a time without a descriptor")
        link.socket.close()
    took = time.monotonic() - began
    need(took <= SOON, f"behind a time without a descriptor an answer takes {took:.1f} s")
    status = hall.wait(30)
    with open(f"{hall.folder}/errors", encoding="utf-8") as errors:
        begun, *told, done = errors.read().splitlines()
    need(begun.startswith("hall: serving, ") and done == "hall: door 1: done"
         and status == 0 and len(told) == 1 and "can't take a connection" in told[0],
         f"status {status}, told {begun}, {told}, {done}")
    print(f"no descriptor for 2 s: served {took:.2f} s behind it; told: {told[0]}", flush=True)


def alone():
    """Each kind at a door of its own hall, all at once."""
    port = free_ports()
    faults = []

    def run(what, *words):
        try:
            what(*words)
        except Exception as fault:
            faults.append(fault)

    threads = [threading.Thread(target=run, args=(one_kind, name, port + at))
               for at, name in enumerate(KINDS)]
    threads.append(threading.Thread(target=run, args=(probes, port + len(KINDS))))
    threads.append(threading.Thread(target=run, args=(no_descriptor, port + len(KINDS) + 1)))
    for thread in threads:
        thread.start()
    for thread in threads:
        thread.join()
    need(not faults, "; ".join(map(str, faults)))


async def crowd_client(draw, way, ports, ends):
    """One of the crowd, again and again."""
    while time.monotonic() < ends:
        try:
            reader, writer = await asyncio.open_connection("127.0.0.1", draw.choice(ports))
        except OSError:
            await asyncio.sleep(0.2)
            continue
        try:
            await asyncio.wait_for(way(draw, reader, writer), max(0.1, ends - time.monotonic()))
        except (OSError, asyncio.TimeoutError, asyncio.IncompleteReadError):
            pass
        writer.transport.abort()


async def crowd_silent(_, reader, __):
    await reader.read(1)


async def crowd_kept(_, reader, writer):
    writer.write(WHOLE)
    while await reader.read(65536):
        pass


async def crowd_half(draw, reader, writer):
    writer.write(HALF[: draw.randrange(1, len(HALF))])
    await reader.read(1)


async def crowd_drip(_, reader, writer):
    for byte in HALF + b"l" * 1000:
        writer.write(bytes([byte]))
        await writer.drain()
        await asyncio.sleep(DRIP)


async def crowd_probe(draw, _, __):
    await asyncio.sleep(draw.random() / 5)


async def crowd_unread(_, reader, writer):
    reader._transport.pause_reading()
    writer.write(WHOLE * 999)
    await asyncio.sleep(30)


# How many of 30 in a crowd are of a kind.
CROWD = {crowd_silent: 8, crowd_half: 7, crowd_drip: 7, crowd_kept: 5, crowd_probe: 2,
         crowd_unread: 1}


async def crowd(count, ports, ends, draw):
    ways = [way for way, share in CROWD.items() for _ in range(share)]
    await asyncio.gather(*(
        crowd_client(random.Random(draw.random()), ways[at % len(ways)], ports, ends)
        for at in range(count)))


def weights(draw, ends):
    """Weights for a lane, ten a second."""
    while time.monotonic() < ends:
        yield [good_gross(draw)]
        time.sleep(0.1)


def beside_a_crowd(count, seconds, draw):
    """Honest clients at four doors beside two lanes, while a crowd is at the doors."""
    hall = start(f"{work}/crowd", free_ports() + 20, doors=4, lanes=2, setup=OPENING,
                 book=f"{work}/crowd.book", connections=999_999)
    ends = time.monotonic() + seconds
    lanes = [Lane(hall, lane, weights(random.Random(draw.random()), ends)) for lane in (1, 2)]
    honest = [Honest(hall, list(hall.ports), 0.2, random.Random(draw.random())) for _ in range(8)]
    others = subprocess.Popen([sys.executable, "-B", __file__, "crowd", str(count), str(seconds),
                               str(draw.randrange(2**32)), *map(str, hall.ports)])
    for client in [*lanes, *honest]:
        client.start()
    most = 0
    while time.monotonic() < ends:
        time.sleep(0.5)
        most = max(most, descriptors(hall))
    for client in honest:
        client.ending.set()
    for client in honest:
        client.finish(2 * PATIENCE)
    others.wait()
    need(not hall.ended(), f"the hall ended: {hall.said()}")
    _, memory = hall.memory()
    hall.kill()
    for lane in lanes:
        lane.finish()
        need(len(lane.opened) >= len(lane.sent) - 1,
             f"lane {lane.number} let {len(lane.opened)} of {len(lane.sent)} packs out")
    took = sorted(one for client in honest for one in client.took)
    middle, late = took[len(took) // 2], took[len(took) * 99 // 100]
    print(f"{count} hostile clients at 4 doors for {seconds} s: {len(took)} honest answers,"
          f" the middle one in {middle:.2f} s, the 99th of 100 in {late:.2f} s,"
          f" the last in {took[-1]:.2f} s;"
          f" 2 lanes let {sum(len(lane.opened) for lane in lanes)} packs"
          f" out; {most} descriptors, {memory} KiB at most", flush=True)


if __name__ == "__main__":
    if sys.argv[1] == "crowd":
        count, seconds, seed, *ports = map(int, sys.argv[2:])
        asyncio.run(crowd(count, ports, time.monotonic() + seconds, random.Random(seed)))
    else:
        program, work, seconds, count, seed = sys.argv[1], sys.argv[2], *map(int, sys.argv[3:])
        alone()
        if seconds > 0:
            beside_a_crowd(count, seconds, random.Random(seed))
