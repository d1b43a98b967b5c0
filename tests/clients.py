"""A `hall serve` that runs, and who uses it: lanes over named pipes, desks and readers over TCP.

Each client takes down what it sent and what it was answered, to be compared with the book later.
Shared by the scripts under tests/ and bench/; the standard library alone.
"""

import atexit
import errno
import json
import os
import select
import signal
import socket
import subprocess
import sys
import threading
import time
from typing import NamedTuple

# Seconds that a client waits for an answer before that is a fault.
PATIENCE = 60

PHRASES = {
    200: "OK", 400: "Bad Request", 404: "Not Found", 405: "Method Not Allowed", 409: "Conflict",
    411: "Length Required", 413: "Payload Too Large", 500: "Internal Server Error",
    503: "Service Unavailable",
}

# The numbers of the first desk, and of the first door as a caller.
FIRST_DESK = 101
FIRST_DOOR = 17

OPENING = "day 2025-03-03\nproduct P 250\ntare P 2025-03-03 10\n"


class Wrong(Exception):
    """Something differs from what has to be."""


class Gone(ConnectionError):
    """The hall is gone, or has left the connection."""


def need(holds, said):
    if not holds:
        raise Wrong(said)


def plan(setup, batches, reserve=0):
    """The text of a plan: the lanes from 1 on weigh for these batches."""
    tables = "".join(f'\n[[lane]]\nnumber = {lane}\nbatch = "{batch}"\n'
                     for lane, batch in enumerate(batches, 1))
    return f'setup = """\n{setup}"""\nreserve = {reserve}\n{tables}'


def free_ports():
    """The first of a row of ports of this process's own, below those that the system draws."""
    return 20000 + os.getpid() * 40 % 12000


class Hall:
    """A `hall serve` in a folder, which has its plan, its pipes and what it prints."""

    running = []

    def __init__(self, program, folder, plan_text, book=None, lanes=0, doors=0, port=8080,
                 connections=1, pipes=True, limit=1_000_000, env=None, remote=None):
        self.folder = folder
        self.ports = range(port, port + doors)
        words = {"lanes": lanes, "cells": folder, "doors": doors, "port": port,
                 "connections": connections, "limit": limit}
        if book:
            words["book"] = book
        if remote:
            words["remote"] = remote
        if pipes:
            make_pipes(folder, lanes)
        with open(f"{folder}/plan", "w", encoding="ascii") as text:
            text.write(plan_text)
        with open(f"{folder}/plan", "rb") as source, open(f"{folder}/said", "wb") as said, \
                open(f"{folder}/errors", "wb") as errors:
            self.began = time.monotonic()
            self.process = subprocess.Popen(
                [program, "serve"] + [f"--{word}={value}" for word, value in words.items()],
                stdin=source, stdout=said, stderr=errors, env=env)
        Hall.running.append(self.process)

    def ended(self):
        return self.process.poll() is not None

    def kill(self):
        self.process.kill()
        self.process.wait()

    def wait(self, seconds):
        """The status with which it ends, within so many seconds."""
        try:
            return self.process.wait(seconds)
        except subprocess.TimeoutExpired:
            raise Wrong(f"the hall runs for {seconds} s more than it should") from None

    def wait_or_kill(self, seconds):
        """Kills it after so many seconds, where it hasn't ended. Says whether it was killed."""
        try:
            self.process.wait(seconds)
            return False
        except subprocess.TimeoutExpired:
            self.kill()
            return True

    def wait_for_door(self, port):
        """Waits until a door listens, by a connection without a request."""
        while not visit(port):
            if self.ended():
                raise Gone
            time.sleep(0.002)

    def drain(self, seconds):
        """Makes the connections that its doors still wait for, until it ends; says its status."""
        for port in self.ports:
            threading.Thread(target=self.visit_until_end, args=(port,), daemon=True).start()
        return self.wait(seconds)

    def visit_until_end(self, port):
        """At a door that has served its connections these wait a second each, in vain."""
        while not self.ended():
            visit(port, b"\n")

    def said(self):
        with open(f"{self.folder}/said", encoding="utf-8") as said:
            return said.read().splitlines()

    def memory(self):
        """What it holds and what it held at most, in KiB."""
        with open(f"/proc/{self.process.pid}/status", encoding="ascii") as status:
            sizes = dict(line.split(":", 1) for line in status)
        return int(sizes["VmRSS"].split()[0]), int(sizes["VmHWM"].split()[0])


def make_pipes(folder, lanes):
    for lane in range(1, lanes + 1):
        for path in (f"{folder}/cell-{lane}.txt", f"{folder}/gate-{lane}.txt"):
            if not os.path.exists(path):
                os.mkfifo(path)


def visit(port, sent=b""):
    """Makes a connection without a request, and says whether it came about. Where nothing is sent
    it is none of the door's connections."""
    try:
        with socket.create_connection(("127.0.0.1", port), timeout=1) as link:
            link.sendall(sent)
        return True
    except OSError:
        return False


def end_all():
    for process in Hall.running:
        if process.poll() is None:
            process.kill()


atexit.register(end_all)
signal.signal(signal.SIGTERM, lambda *_: sys.exit(1))


class Client(threading.Thread):
    """Works beside others until the hall is gone. `finish` waits for it, and raises what it did."""

    def __init__(self, hall):
        super().__init__(daemon=True)
        self.hall = hall
        self.ending = threading.Event()
        self.fault = None

    def run(self):
        try:
            self.work()
        except ConnectionError as gone:
            if not self.hall_is_gone():
                self.fault = gone
        except Exception as fault:
            self.fault = fault

    def hall_is_gone(self):
        """Whether the hall is gone, or is so within a moment."""
        for _ in range(40):
            if self.hall.ended():
                return True
            time.sleep(0.05)
        return False

    def finish(self, seconds=PATIENCE):
        self.join(seconds)
        if self.fault:
            raise self.fault
        need(not self.is_alive(), f"{type(self).__name__} isn't done after {seconds} s")


class Lane(Client):
    """A scale and a gate: sends pieces of weights, and takes down which packs its gate let out.

    A piece is a list of grosses in mg, at most 400; a piece of bytes is sent as it is.
    """

    def __init__(self, hall, number, pieces):
        super().__init__(hall)
        self.number = number
        self.pieces = pieces
        self.sent = []
        self.opened = []
        self.held = b""
        # for both ways, so that neither end waits for the other
        self.gate = os.open(f"{hall.folder}/gate-{number}.txt", os.O_RDWR | os.O_NONBLOCK)

    def work(self):
        cell = self.open_cell()
        try:
            self.feed(cell)
        except BrokenPipeError:
            pass
        finally:
            os.close(cell)
        while not self.hall.ended():
            self.take_lines(0.05)
        self.take_lines(0)
        os.close(self.gate)
        need(not self.held, f"lane {self.number}: its gate got a part of a line, {self.held}")

    def open_cell(self):
        """The cell's pipe, as soon as the hall reads from it."""
        while not self.hall.ended():
            try:
                return os.open(f"{self.hall.folder}/cell-{self.number}.txt",
                               os.O_WRONLY | os.O_NONBLOCK)
            except OSError as error:
                if error.errno != errno.ENXIO:
                    raise
            time.sleep(0.002)
        raise Gone

    def feed(self, cell):
        for piece in self.pieces:
            while not select.select([], [cell], [], 0.02)[1] and not self.ending.is_set():
                self.take_lines(0)
            if self.ending.is_set():
                return
            if isinstance(piece, bytes):
                os.write(cell, piece)
            else:
                os.write(cell, "".join(map(spell_grams, piece)).encode())
                self.sent += piece
            self.take_lines(0)

    def take_lines(self, wait):
        """Takes down the lines that the gate got, waiting for the first for so many seconds."""
        while select.select([self.gate], [], [], wait)[0]:
            self.held += os.read(self.gate, 65536)
            wait = 0
        *lines, self.held = self.held.split(b"\n")
        for line in lines:
            word, pack = line.split(b" ")
            need(word == b"open", f"lane {self.number}: its gate got {line}")
            self.opened.append(int(pack))


def spell_grams(gross):
    return f"{gross // 1000}.{gross % 1000:03}\n"


def good_gross(draw):
    """A pack of 250 g and some more in a package of 10 g, in mg."""
    return draw.randrange(260_000, 270_000)


def drawn_gross(draw):
    """Mostly a good pack; one in twenty lacks something, or too much."""
    if draw.random() < 0.95:
        return good_gross(draw)
    return draw.choice((245_000, 231_000))


class Response(NamedTuple):
    """What a door answered."""

    status: int
    row: int
    last: bool
    allow: str
    body: bytes

    def json(self):
        return json.loads(self.body)


def read_head(text):
    """The status and the fields of a head, which has to be as docs/FORMATS.md says."""
    first, *lines = text.decode("ascii").split("\r\n")
    version, code, phrase = first.split(" ", 2)
    fields = dict(line.split(": ", 1) for line in lines)
    status = int(code)
    names = ["Content-Type", "Content-Length"]
    names += ["Book-Row"] * (status in (200, 409)) + ["Allow"] * (status == 405)
    names += ["Connection"] * ("Connection" in fields)
    need(version == "HTTP/1.1" and PHRASES.get(status) == phrase and list(fields) == names,
         f"a response begins with {text}")
    return status, fields


# How many requests go over one connection, of the 1 000 that a door takes.
ASKED = 500


class Link:
    """A connection to a door."""

    # how many acts a desk asks on one
    ACTS = 50

    def __init__(self, port):
        self.socket = socket.create_connection(("127.0.0.1", port), timeout=PATIENCE)
        self.socket.setsockopt(socket.IPPROTO_TCP, socket.TCP_NODELAY, 1)
        self.held = b""

    def __enter__(self):
        return self

    def __exit__(self, *_):
        self.socket.close()

    def send(self, request):
        self.socket.sendall(request)

    def ask(self, request):
        self.send(request)
        return self.response()

    def act(self, act):
        return self.ask(post(act))

    def fetch(self):
        got = self.socket.recv(65536)
        if not got:
            raise Gone
        self.held += got

    def response(self):
        while (end := self.held.find(b"\r\n\r\n")) < 0:
            self.fetch()
        status, fields = read_head(self.held[:end])
        begin = end + 4
        end = begin + int(fields["Content-Length"])
        while len(self.held) < end:
            self.fetch()
        body, self.held = self.held[begin:end], self.held[end:]
        return Response(status, int(fields.get("Book-Row", -1)), "Connection" in fields,
                        fields.get("Allow", ""), body)

    def hush(self):
        """Tells the door that no more is sent."""
        self.socket.shutdown(socket.SHUT_WR)

    def ends(self):
        """Whether the door leaves the connection without a further byte."""
        return not self.held and not self.socket.recv(1)


def post(act, more=""):
    """The request of an act, with more lines in its head."""
    body = json.dumps(act).encode()
    head = f"POST /acts HTTP/1.1\r\nHost: hall\r\n{more}Content-Length: {len(body)}\r\n\r\n"
    return head.encode() + body


def get(path, more=""):
    return f"GET {path} HTTP/1.1\r\nHost: hall\r\n{more}\r\n".encode()


class Curl:
    """What curl is answered, a connection for each act."""

    ACTS = 1

    def __init__(self, port):
        self.url = f"http://127.0.0.1:{port}/acts"

    def __enter__(self):
        return self

    def __exit__(self, *_):
        pass

    def act(self, act):
        ran = subprocess.run(["curl", "-sS", "-i", "--max-time", str(PATIENCE), "--data",
                              json.dumps(act), self.url], capture_output=True)
        need(ran.returncode != 28, f"curl waits for more than {PATIENCE} s")
        if ran.returncode != 0:
            raise Gone(ran.stderr)
        head, body = ran.stdout.split(b"\r\n\r\n", 1)
        status, fields = read_head(head)
        return Response(status, int(fields.get("Book-Row", -1)), "Connection" in fields, "", body)


class Caller(Link):
    """A connection to a door, and a new one behind so many requests."""

    def __init__(self, port):
        super().__init__(port)
        self.port, self.asked = port, 0

    def ask(self, request):
        if self.asked == ASKED:
            self.socket.close()
            Caller.__init__(self, self.port)
        self.asked += 1
        return super().ask(request)


class Desk:
    """A desk: it numbers its requests, and takes down what it sent whole and what it was told."""

    def __init__(self, number, by):
        self.number = number
        # the number that its rows bear: that of its door as a caller
        self.by = by
        # its last accepted request, as far as it was told
        self.last = 0
        # for each request the acts that were sent whole under it
        self.sent = {}
        # for each request its row and its act, as they were told
        self.told = {}
        # those that were told since the book was compared
        self.fresh = []

    def spell(self, request, act):
        """An act as it is sent."""
        return {"desk": self.number, "request": request} | act

    def note(self, request, act):
        """Takes an act down that goes out whole."""
        self.sent.setdefault(request, []).append(act)
        return self.spell(request, act)

    def hear(self, request, act, response, again=False):
        """Takes down what an act was answered. The place of its answer is its row; one that is
        asked again is told the row again, at the length that the book has then."""
        need(response.status in (200, 409), f"{act} is answered {response}")
        if response.status == 409:
            return
        row = response.json()["row"]
        need(response.row == row or again and response.row > row, f"{act} is answered {response}")
        need(self.told.setdefault(request, (row, act)) == (row, act),
             f"desk {self.number}: request {request} is told row {row}, and was"
             f" {self.told[request]}")
        self.fresh.append((request, row, act))
        self.last = max(self.last, request)

    def catch_up(self, link):
        """Hears which request was accepted last, and what that was told."""
        answer = link.act(self.spell(0, {"act": "day", "day": "2025-03-03"}))
        need(answer.status == 409 and answer.json()["name"] == "RequestOld",
             f"desk {self.number}: request 0 is answered {answer}")
        self.last = int(answer.json()["kept"])
        if self.last > 0 and self.last not in self.told:
            act = self.sent[self.last][-1]
            self.hear(self.last, act, link.act(self.spell(self.last, act)), again=True)


def drawn_act(draw, desk, packs):
    """An act of a desk, over names of its own and packs that were let out; it may be refused."""
    product = f"P{desk}-{draw.randrange(200)}"
    batch = f"B{desk}-{draw.randrange(400)}"
    acts = [
        {"act": "day", "day": "2025-03-03"},
        {"act": "product", "name": product, "nominal": draw.randrange(5_000, 10_000_000)},
        {"act": "tare", "product": product, "day": f"2025-03-{draw.randrange(1, 32):02}",
         "tare": draw.randrange(5_000_000)},
        {"act": "open", "batch": batch, "product": product},
        {"act": "end", "batch": batch},
        {"act": "close", "batch": batch},
    ]
    if packs:
        acts.append({"act": "void", "pack": draw.choice(packs)})
    return draw.choice(acts)
