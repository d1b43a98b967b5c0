"""A lane that changes its batch, for tests/changes.py: a scale, a scanner and a page, the adapter
that joins them, and a gate that takes down when it opened."""

import json
import os
import socket
import subprocess
import sys
import threading
import time
from typing import NamedTuple

HERE = os.path.dirname(os.path.abspath(__file__))
TOP = os.path.dirname(HERE)
ADAPTER = f"{TOP}/adapters/hall-adapter"
SENDER = f"{TOP}/examples/scale_sender.py"
PERSON = "anna"
PATIENCE = 60.0


class Said(NamedTuple):
    """Something that a device or a page said, and when it began and was done."""

    what: str
    began: float
    done: float


def ports_of(first: int, lane: int) -> tuple[int, int]:
    """The ports of a lane's scale and scanner."""
    return first + 2 * lane, first + 2 * lane + 1


class Device:
    """A scale or a scanner, that connects to the adapter, and again where it was cut."""

    def __init__(self, port: int):
        self.port = port
        self.link: socket.socket | None = None
        self.lock = threading.Lock()

    def connect(self) -> socket.socket:
        until = time.monotonic() + PATIENCE
        while True:
            try:
                link = socket.create_connection(("127.0.0.1", self.port), timeout=PATIENCE)
                link.setsockopt(socket.IPPROTO_TCP, socket.TCP_NODELAY, 1)
                return link
            except ConnectionRefusedError:
                if time.monotonic() > until:
                    raise
                time.sleep(0.05)

    def say(self, text: bytes) -> None:
        with self.lock:
            self.link = self.link or self.connect()
            self.link.sendall(text)

    def cut(self, text: bytes) -> None:
        """Says the beginning of a line, and breaks off."""
        self.say(text)
        with self.lock:
            assert self.link
            self.link.close()
            self.link = None
        time.sleep(0.05)


class ChangingLane:
    """A lane: its adapter runs until `end`."""

    def __init__(
        self, folder: str, number: int, devices: int, remote: int | None = None, shown: str = ""
    ):
        self.folder, self.number = folder, number
        self.kept = f"{folder}/kept-{number}"
        self.record = f"{folder}/record-{number}"
        self.socket = f"{shown or folder}/lane-{number}.socket"
        self.settings = f"{folder}/lane-{number}.toml"
        scale, scanner = ports_of(devices, number)
        self.scale, self.scanner = Device(scale), Device(scanner)
        self.weights: list[Said] = []
        self.batches: list[Said] = []
        sender = json.dumps([sys.executable, SENDER, str(remote), "--seconds=2"])
        target = f"sender = {sender}" if remote else f'cell = "{folder}/cell-{number}.txt"'
        with open(self.settings, "w", encoding="ascii") as text:
            text.write(
                f'lane = {number}\n{target}\nfolder = "{self.kept}"\nsocket = "{self.socket}"\n'
                f'record = "{self.record}"\ndevice = "sics"\n'
                f'[scale]\nlisten = "127.0.0.1:{scale}"\nsettle = 0\n'
                f'[scanner]\nlisten = "127.0.0.1:{scanner}"\n'
            )
        self.process = self.begin()

    def begin(self) -> subprocess.Popen[bytes]:
        """Begins the adapter; what it and its sender say goes into files."""
        with open(f"{self.folder}/said-{self.number}", "ab") as said:
            with open(f"{self.folder}/errors-{self.number}", "ab") as errors:
                return subprocess.Popen(
                    [sys.executable, "-B", ADAPTER, "lane", self.settings],
                    stdout=said,
                    stderr=errors,
                )

    def weigh(self, gross: int) -> None:
        """The scale says a weight, in mg."""
        began = time.time()
        self.scale.say(f"S S {gross // 1000:7}.{gross % 1000:03} g\r\n".encode())
        self.weights.append(Said(f"{gross // 1000}.{gross % 1000:03}", began, time.time()))

    def scan(self, batch: str) -> None:
        """The scanner says a batch."""
        began = time.time()
        self.scanner.say(f"batch {batch}\r".encode())
        self.batches.append(Said(batch, began, time.time()))

    def connected(self) -> socket.socket:
        """A connection to the adapter's socket, as soon as that is there."""
        until = time.monotonic() + PATIENCE
        while True:
            link = socket.socket(socket.AF_UNIX)
            link.settimeout(PATIENCE)
            try:
                link.connect(self.socket)
                return link
            except (FileNotFoundError, ConnectionRefusedError):
                link.close()
                if time.monotonic() > until:
                    raise
                time.sleep(0.05)

    def page(self, batch: str) -> None:
        """A page says a batch; it is answered once it was said."""
        body = json.dumps({"batch": batch}).encode()
        head = f"POST /batch HTTP/1.1\r\nX-Person: {PERSON}\r\nContent-Length: {len(body)}\r\n\r\n"
        began = time.time()
        with self.connected() as link:
            link.sendall(head.encode() + body)
            answer = b""
            while came := link.recv(4096):
                answer += came
        if not answer.startswith(b"HTTP/1.1 200 "):
            raise ValueError(f"a page is answered {answer!r}")
        self.batches.append(Said(batch, began, time.time()))

    def kill(self) -> None:
        """Kills the adapter; its devices connect to the next one."""
        self.process.kill()
        self.process.wait()
        self.scale.link = self.scanner.link = None

    def end(self) -> int:
        """Ends the adapter; its status."""
        self.process.terminate()
        return self.process.wait(PATIENCE)


class Gate(threading.Thread):
    """The gates of all lanes: when each opened for which row."""

    def __init__(self, folder: str, lanes: int):
        super().__init__(daemon=True)
        # for both ways, so that they stay open over the halls
        self.gates = [
            os.open(f"{folder}/gate-{lane}.txt", os.O_RDWR) for lane in range(1, lanes + 1)
        ]
        self.opened: list[dict[int, float]] = [{} for _ in self.gates]
        self.readers = [
            threading.Thread(target=self.read, args=(at,), daemon=True)
            for at in range(len(self.gates))
        ]

    def run(self) -> None:
        for reader in self.readers:
            reader.start()

    def read(self, at: int) -> None:
        held = b""
        while True:
            held += os.read(self.gates[at], 4096)
            now = time.time()
            *lines, held = held.split(b"\n")
            for line in lines:
                self.opened[at][int(line.removeprefix(b"open "))] = now
