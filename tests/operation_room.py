"""A hall as its service runs it, for tests/operation.py: by deploy/start and deploy/stop, with its
folders below one of the test's own; scales that weigh on over restarts; a tunnel."""

# mypy: allow-untyped-calls

import csv
import http.client
import json
import os
import signal
import socket
import subprocess
import sys
import threading
import time
from collections.abc import Callable, Iterable, Iterator
from contextlib import ExitStack
from typing import TypeVar

from clients import Wrong, need, plan

HERE = os.path.dirname(os.path.abspath(__file__))
TOP = os.path.dirname(HERE)
DEPLOY = f"{TOP}/deploy"
SENDER = f"{TOP}/examples/scale_sender.py"
# How long a state is waited for, in seconds, on a machine however busy.
PATIENCE = 600.0
NAME = "day"
LINES = ("@164 1 day 2025-03-03", "@164 2 product P 250", "@164 3 tare P 2025-03-03 10")

T = TypeVar("T")


def wait_for(what: Callable[[], T], said: str, seconds: float = PATIENCE) -> T:
    """Waits until something holds, and gives it."""
    until = time.monotonic() + seconds
    while not (found := what()):
        need(time.monotonic() < until, f"not within {seconds:.0f} s: {said}")
        time.sleep(0.02)
    return found


def read(path: str) -> str:
    try:
        with open(path, encoding="utf-8") as text:
            return text.read()
    except FileNotFoundError:
        return ""


def setup_of(batches: Iterable[str]) -> str:
    """A setup that each start may bring: day, product, tare and these batches."""
    opened = [f"@164 {at} open {batch} P" for at, batch in enumerate(batches, len(LINES) + 1)]
    return "".join(f"{line}\n" for line in (*LINES, *opened))


class Place:
    """The folders of a hall, and the book in it."""

    def __init__(self, program: str, folder: str, port: int):
        self.program, self.folder, self.port = program, folder, port
        self.books, self.run, self.shown = (f"{folder}/{one}" for one in ("books", "run", "shown"))
        for one in (self.books, self.run, self.shown, f"{folder}/backups"):
            os.makedirs(one)
        self.book = f"{self.books}/{NAME}.book"

    def environment(self, settings: dict[str, object]) -> dict[str, str]:
        own = {"HALL": self.program, "BOOKS": self.books, "RUN": self.run, "SHOWN": self.shown,
               "SETTINGS": self.folder, "BACKUPS": f"{self.folder}/backups",
               "PORT": self.port}  # fmt: skip
        return os.environ | {name: str(value) for name, value in (own | settings).items()}

    def hall(self, *words: str, given: str = "") -> subprocess.CompletedProcess[str]:
        return subprocess.run([self.program, *words], input=given, capture_output=True,
                              encoding="utf-8", timeout=PATIENCE, check=False)  # fmt: skip

    def script(self, script: str) -> list[str]:
        ran = self.hall("run", "--book", self.book, given=script)
        need(ran.returncode == 0, f"a script ends with {ran.returncode}: {ran.stderr}")
        return ran.stdout.splitlines()

    def rows(self) -> int:
        """How many rows the book has, which has to be whole."""
        said = self.hall("check", "--book", self.book).stdout.split()
        need(said[0] == "rows" and said[2] == "whole", f"check says {said}")
        return int(said[1])

    def packs(self) -> list[dict[str, str]]:
        ran = self.hall("export", "--book", self.book)
        need(ran.returncode == 0, f"export ends with {ran.returncode}")
        return list(csv.DictReader(ran.stdout.splitlines()))

    def script_of(
        self, name: str, *words: str, **settings: object
    ) -> subprocess.CompletedProcess[str]:
        """A script of deploy/ in these folders."""
        return subprocess.run([f"{DEPLOY}/{name}", *words], env=self.environment(settings),
                              capture_output=True, encoding="utf-8", timeout=PATIENCE,
                              check=False)  # fmt: skip


class Service:
    """deploy/start, as hall@.service begins it; it takes down when systemd is told something."""

    running: list[subprocess.Popen[bytes]] = []

    def __init__(self, place: Place, plan_text: str, **settings: object):
        self.place = place
        self.paths = {one: f"{place.folder}/{one}" for one in ("plan.toml", "said", "errors")}
        with open(self.paths["plan.toml"], "w", encoding="ascii") as text:
            text.write(plan_text)
        self.told = ""
        self.socket = socket.socket(socket.AF_UNIX, socket.SOCK_DGRAM)
        address = f"{place.folder}/notify"
        if os.path.exists(address):
            os.remove(address)
        self.socket.bind(address)
        threading.Thread(target=self.take_down, daemon=True).start()
        environment = place.environment({"LANES": 0, "DOORS": 1} | settings)
        environment["NOTIFY_SOCKET"] = address
        with ExitStack() as files:
            source = files.enter_context(open(self.paths["plan.toml"], "rb"))
            said = files.enter_context(open(self.paths["said"], "wb"))
            errors = files.enter_context(open(self.paths["errors"], "wb"))
            self.process = subprocess.Popen([f"{DEPLOY}/start", NAME], stdin=source, stdout=said,
                                            stderr=errors, env=environment)  # fmt: skip
        Service.running.append(self.process)

    def said(self) -> list[str]:
        return read(self.paths["said"]).splitlines()

    def errors(self) -> str:
        return read(self.paths["errors"])

    def lanes(self) -> list[str]:
        return read(f"{self.place.shown}/lanes.txt").splitlines()

    def take_down(self) -> None:
        """Hears what systemd is told, and closes what waits for that."""
        while True:
            said, files, _, _ = socket.recv_fds(self.socket, 4096, 8)
            self.told += said.decode() + "\n"
            for one in files:
                os.close(one)

    def is_ready(self) -> bool:
        """Whether systemd was told that the service is ready."""
        return "READY=1" in self.told

    def wait_until_served(self, times: int = 1) -> None:
        """Waits until the hall has said so often that it serves."""
        wait_for(lambda: self.errors().count("hall: serving, ") >= times or self.ended(),
                 f"the hall serves for the {times}. time")  # fmt: skip
        need(not self.ended(), f"the hall ended: {self.errors()}")

    def wait_for_error(self, text: str, seconds: float = PATIENCE) -> None:
        wait_for(lambda: text in self.errors(), f"standard error says {text!r}; it says"
                 f" {self.errors()!r}", seconds)  # fmt: skip

    def ended(self) -> bool:
        return self.process.poll() is not None

    def status(self) -> int:
        """The status with which it ends by itself."""
        try:
            return self.process.wait(PATIENCE)
        except subprocess.TimeoutExpired:
            raise Wrong(f"the service doesn't end: {self.errors()}") from None

    def stop(self) -> tuple[int, float]:
        """Ends it by deploy/stop; its status, and how many seconds that took."""
        began = time.monotonic()
        ran = self.place.script_of("stop", NAME)
        need(ran.returncode == 0, f"stop ends with {ran.returncode}: {ran.stderr}")
        took = time.monotonic() - began
        return self.status(), took


def end_all() -> None:
    """Ends what a failed test left."""
    for process in Service.running:
        if process.poll() is None:
            process.send_signal(signal.SIGTERM)
    for process in Service.running:
        try:
            process.wait(20)
        except subprocess.TimeoutExpired:
            process.kill()


# ---- a desk


def ask(port: int, path: str, act: dict[str, object] | None = None) -> tuple[int, str]:
    """What a door answers; where no door is there, nothing and 0."""
    try:
        link = http.client.HTTPConnection("127.0.0.1", port, timeout=60)
        body = None if act is None else json.dumps(act)
        link.request("GET" if act is None else "POST", path, body)
        answer = link.getresponse()
        return answer.status, answer.read().decode()
    except (OSError, http.client.HTTPException):
        return 0, ""


# ---- scales


def weights(lane: int, count: int) -> list[str]:
    """Weights of a lane, no two of them alike, all of them good packs of 250 g."""
    return [f"{262_000 + (lane * 31 + at * 7) % 9_000}" for at in range(count)]


def grams(milligrams: str) -> str:
    return f"{milligrams[:-3]}.{milligrams[-3:]}"


class Gate:
    """A lane's gate over a pipe, which stays open over restarts of the hall."""

    def __init__(self, folder: str, lane: int):
        self.pipe = os.open(f"{folder}/gate-{lane}.txt", os.O_RDWR | os.O_NONBLOCK)
        self.opened: list[int] = []
        self.held = b""
        self.lock = threading.Lock()

    def count(self) -> int:
        """Takes down what the gate got; how often it opened."""
        with self.lock:
            try:
                self.held += os.read(self.pipe, 65536)
            except BlockingIOError:
                pass
            *lines, self.held = self.held.split(b"\n")
            self.opened += [int(line.removeprefix(b"open ")) for line in lines]
            return len(self.opened)


class PipeScale(threading.Thread):
    """A scale and a gate over the pipes of a lane, which stay open over restarts of the hall."""

    def __init__(self, folder: str, lane: int, given: list[str], every: float):
        super().__init__(daemon=True)
        self.given, self.every = given, every
        self.cell = os.open(f"{folder}/cell-{lane}.txt", os.O_RDWR)
        self.gate = Gate(folder, lane)
        self.sent: list[str] = []
        self.enough, self.is_done = threading.Event(), threading.Event()

    def run(self) -> None:
        for weight in self.given:
            os.write(self.cell, f"{grams(weight)}\n".encode())
            self.sent.append(weight)
            self.gate.count()
            if self.enough.wait(self.every):
                break
        self.is_done.set()


class NetworkScale(threading.Thread):
    """A scale that weighs on, and examples/scale_sender.py, which sends it to a port; and the gate
    of its lane."""

    def __init__(self, folder: str, lane: int, port: int, given: list[str], every: float,
                 words: Iterable[str] = ()):  # fmt: skip
        super().__init__(daemon=True)
        self.given, self.every = given, every
        if not os.path.exists(f"{folder}/run/gate-{lane}.txt"):
            os.mkfifo(f"{folder}/run/gate-{lane}.txt")
        self.gate = Gate(f"{folder}/run", lane)
        self.paths = [f"{folder}/{what}-{lane}" for what in ("sent", "sender")]
        with open(self.paths[0], "wb") as said, open(self.paths[1], "wb") as errors:
            self.process = subprocess.Popen(
                [sys.executable, SENDER, str(port), "--seconds=3", *words],
                stdin=subprocess.PIPE, stdout=said, stderr=errors)  # fmt: skip
        Service.running.append(self.process)
        self.sent: list[str] = []
        self.enough, self.is_done = threading.Event(), threading.Event()

    def run(self) -> None:
        assert self.process.stdin
        for weight in self.given:
            self.process.stdin.write(f"{grams(weight)}\n".encode())
            self.process.stdin.flush()
            self.sent.append(weight)
            self.gate.count()
            if self.enough.wait(self.every):
                break
        self.process.stdin.close()
        self.is_done.set()

    def acknowledged(self) -> list[str]:
        lines = [line.split() for line in read(self.paths[0]).splitlines()]
        return [words[1] for words in lines if words[1:] != ["end"]]

    def complaints(self) -> str:
        return read(self.paths[1])


class Tunnel:
    """Takes connections at once, also while there is no hall, and holds each for as long as the
    scale does: where the hall's end of one goes, another takes its place."""

    def __init__(self, target: int):
        self.target = target
        self.is_deaf = False
        self.door = socket.create_server(("127.0.0.1", 0))
        self.port: int = self.door.getsockname()[1]
        threading.Thread(target=self.take_all, daemon=True).start()

    def take_all(self) -> None:
        while True:
            scale = self.door.accept()[0]
            threading.Thread(target=self.carry, args=(scale,), daemon=True).start()

    def carry(self, scale: socket.socket) -> None:
        """Hands on what the scale says to the hall that is there. Where the scale says no more,
        what that hall still says is brought back."""
        back: threading.Thread | None = None
        hall: socket.socket | None = None
        with scale:
            for piece in pieces(scale):
                while True:
                    try:
                        if hall is None:
                            hall = socket.create_connection(("127.0.0.1", self.target), PATIENCE)
                            back = threading.Thread(target=self.bring_back, args=(hall, scale))
                            back.start()
                        hall.sendall(piece)
                        break
                    except OSError:
                        hall = None
                        time.sleep(0.05)
                        if is_left(scale):
                            return
            if hall is not None:
                shut(hall, socket.SHUT_WR)
            if back is not None:
                back.join()

    def bring_back(self, hall: socket.socket, scale: socket.socket) -> None:
        for piece in pieces(hall):
            try:
                if not self.is_deaf:
                    scale.sendall(piece)
            except OSError:
                break
        # what is said now to this hall fails, and goes to the next
        shut(hall, socket.SHUT_RDWR)


def shut(link: socket.socket, how: int) -> None:
    try:
        link.shutdown(how)
    except OSError:
        pass


def is_left(link: socket.socket) -> bool:
    """Whether the other end has closed a connection, and nothing of it is left to be read."""
    try:
        return link.recv(1, socket.MSG_PEEK | socket.MSG_DONTWAIT) == b""
    except BlockingIOError:
        return False
    except OSError:
        return True


def pieces(link: socket.socket) -> Iterator[bytes]:
    try:
        while came := link.recv(4096):
            yield came
    except OSError:
        pass


def plan_of(batches: list[str]) -> str:
    text: str = plan(setup_of(dict.fromkeys(batches)), batches)
    return text
