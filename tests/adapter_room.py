"""A hall with lanes over ports, and lines of `hall-adapter line` at them: for tests/adapters.py."""

import os
import pty
import re
import select
import socket
import subprocess
import time
import tty
import urllib.request
from collections import Counter
from collections.abc import Callable, Iterator

from clients import Hall, Wrong, need, plan
from rows import Piles, Row, rows_behind

TOP = os.path.dirname(os.path.dirname(os.path.abspath(__file__)))
ADAPTER = os.path.join(TOP, "adapters", "hall-adapter")
SETUP = "@164 1 day 2025-03-03\n@164 2 product P {}\n@164 3 tare P 2025-03-03 10\n"
FIRST_DOOR = 8471
FIRST_LANE = 9001
FIRST_METRICS = 9471
FIRST_DEVICE = 7000
# Seconds that anything may take that has to come.
PATIENCE = 180.0


def wait_until(
    holds: Callable[[], object], said: str | Callable[[], str], seconds: float = PATIENCE
) -> None:
    """Waits until something holds; it has to in so many seconds. What is said else is a text, or
    what makes one then."""
    end = time.monotonic() + seconds
    while not holds():
        if time.monotonic() > end:
            raise Wrong(f"not within {seconds} s: {said if isinstance(said, str) else said()}")
        time.sleep(0.02)


class Room:
    """A folder with a book, and a hall over it that may be killed and started again."""

    def __init__(self, program: str, folder: str, lanes: int, nominal: int = 250) -> None:
        os.makedirs(folder)
        self.program = program
        self.folder = folder
        self.lanes = lanes
        self.book = f"{folder}/book"
        batches = [f"B{lane}" for lane in range(1, lanes + 1)]
        opened = "".join(f"@164 {at} open {name} P\n" for at, name in enumerate(batches, 4))
        self.plan = plan(SETUP.format(nominal) + opened, batches)
        self.hall: Hall | None = None

    def start(self) -> Hall:
        """Starts a hall, and waits until its lanes listen."""
        self.hall = Hall(
            self.program,
            self.folder,
            self.plan,
            book=self.book,
            lanes=self.lanes,
            doors=2,
            port=FIRST_DOOR,
            connections=100_000,
            remote=FIRST_LANE,
        )
        for lane in range(self.lanes):
            port = f":{FIRST_LANE + lane:04X} 00000000:0000 0A"
            wait_until(lambda: port in listening(), f"lane {lane + 1} listens")
        return self.hall

    def stop(self) -> None:
        """Kills the hall."""
        if self.hall:
            self.hall.kill()

    def rows(self, lane: int) -> list[Row]:
        """The weighings of a lane."""
        found = rows_behind(self.book, 0)
        return [row for row in found if row.act["act"] == "weigh" and row.act["lane"] == lane]

    def all_rows(self) -> list[Row]:
        """All rows of the book."""
        rows: list[Row] = rows_behind(self.book, 0)
        return rows


def listening() -> str:
    """The system's table of TCP sockets."""
    with open("/proc/net/tcp", encoding="ascii") as table:
        return table.read()


def piles_of(rows: list[Row]) -> Piles:
    """In which pile each pack lies."""
    piles = Piles()
    for row in rows:
        piles.add(row)
    return piles


class SerialLine:
    """A serial line: the device's end is written by the test, the other is a path."""

    def __init__(self, path: str) -> None:
        self.path = path
        self.scale = self.line = -1
        self.plug()

    def plug(self) -> None:
        """Puts the line in."""
        self.scale, self.line = pty.openpty()
        tty.setraw(self.line)
        os.symlink(os.ttyname(self.line), self.path)

    def unplug(self) -> None:
        """Pulls the line out."""
        os.remove(self.path)
        os.close(self.line)
        os.close(self.scale)

    def send(self, piece: bytes) -> None:
        """The device says something."""
        os.write(self.scale, piece)


class TcpDevice:
    """A device over TCP: it is a server, or connects to the adapter."""

    def __init__(self, port: int, connects: bool) -> None:
        self.port = port
        self.connects = connects
        self.link: socket.socket | None = None
        self.server = None if connects else socket.create_server(("127.0.0.1", port))

    def plug(self) -> None:
        """Makes the connection."""
        if self.server:
            self.server.settimeout(30)
            self.link = self.server.accept()[0]
        else:
            wait_until(self.is_connected, f"the adapter listens at {self.port}")
        assert self.link is not None
        self.link.setsockopt(socket.IPPROTO_TCP, socket.TCP_NODELAY, 1)

    def is_connected(self) -> bool:
        """Tries to connect."""
        try:
            self.link = socket.create_connection(("127.0.0.1", self.port), timeout=5)
        except OSError:
            return False
        return True

    def unplug(self) -> None:
        """Cuts the connection."""
        assert self.link is not None
        self.link.close()

    def send(self, piece: bytes) -> None:
        """The device says something."""
        assert self.link is not None
        self.link.sendall(piece)


class Line:
    """A `hall-adapter line` that runs, its gate, and what it said."""

    def __init__(
        self, room: Room, name: str, lane: int, source: str, more: str = "", gate: str = ""
    ) -> None:
        self.folder = room.folder
        self.name = name
        self.lane = lane
        self.gate_path = f"{room.folder}/{name}.gate"
        os.mkfifo(self.gate_path)
        self.gate = os.open(self.gate_path, os.O_RDWR | os.O_NONBLOCK)
        self.opened: list[float] = []
        self.metrics_port = FIRST_METRICS + lane - 1
        with open(f"{room.folder}/{name}.toml", "w", encoding="utf-8") as settings:
            settings.write(self.settings(room, source, more, gate))
        self.errors = f"{room.folder}/{name}.errors"
        with open(self.errors, "wb") as errors:
            self.process = subprocess.Popen(
                [ADAPTER, "line", f"{room.folder}/{name}.toml"], stderr=errors
            )
        Hall.running.append(self.process)
        wait_until(self.is_linked, f"{name} reaches its lane")

    def is_linked(self) -> bool:
        """Whether it reaches its lane; it has to run."""
        need(self.process.poll() is None, f"{self.name} ended: {self.said()[-5:]}")
        return self.metric("hall_line_hall_linked") == 1

    def settings(self, room: Room, source: str, more: str, gate: str) -> str:
        """The settings of the line. A source over Modbus has its gate in the map."""
        gate = gate or f'[gate]\ndevice = "{self.gate_path}"\ntext = "O\\n"\n'
        return (
            f'name = "{self.name}"\nlane = {self.lane}\n{source}\n[hall]\n'
            f"port = {FIRST_LANE + self.lane - 1}\n"
            f'gate = "{room.folder}/gate-{self.lane}.txt"\n'
            f"{more if 'within' in more else 'within = 5.0' + chr(10) + more}\n"
            f"{'' if source.startswith('map') else gate}"
            f'[metrics]\nlisten = "127.0.0.1:{self.metrics_port}"\n'
        )

    def text(self) -> str:
        """Its metrics, or nothing while it doesn't answer."""
        try:
            url = f"http://127.0.0.1:{self.metrics_port}/metrics"
            with urllib.request.urlopen(url, timeout=10) as answer:
                text: str = answer.read().decode()
                return text
        except OSError:
            return ""

    def metric(self, name: str, label: str = "") -> float | None:
        """A number of its metrics, by a label as the text has it."""
        for line in self.text().splitlines():
            if line.startswith(f"{name}{{") and label in line:
                return float(line.rsplit(" ", 1)[1])
        return None

    def read_gate(self) -> None:
        """Takes down when the gate was opened."""
        while select.select([self.gate], [], [], 0)[0]:
            now = time.monotonic()
            self.opened += [now] * os.read(self.gate, 4096).count(b"\n")

    def said(self) -> list[str]:
        """What it said on standard error."""
        with open(self.errors, encoding="utf-8") as errors:
            return errors.read().splitlines()

    def notes(self) -> Counter[str]:
        """How many packs or lines it reported of each kind, as its metrics have them."""
        found: Counter[str] = Counter()
        pattern = re.compile(
            r'hall_line_(?:unweighed|faults)_total\{.*(?:kind|why)="(\w+)".*\} (\d+)'
        )
        for line in self.text().splitlines():
            if matched := pattern.fullmatch(line):
                found[matched[1]] += int(matched[2])
        return found

    def end(self) -> None:
        """Ends it by a signal, as systemd does."""
        self.process.terminate()
        status = self.process.wait(PATIENCE)
        need(status == 0, f"{self.name} ended with status {status}: {self.said()[-5:]}")
        os.close(self.gate)


def source_of(kind: str, device: str, room: Room, port: int) -> tuple[str, SerialLine | TcpDevice]:
    """The settings of a way to a device, and the device's end of it."""
    if kind == "serial":
        path = f"{room.folder}/{device}.line"
        return f'device = "{device}"\n[source]\nserial = "{path}"', SerialLine(path)
    word = "tcp" if kind == "tcp" else "listen"
    source = f'device = "{device}"\n[source]\n{word} = "127.0.0.1:{port}"\nsettle = 0.1'
    return source, TcpDevice(port, connects=kind == "listen")


def open_line(
    room: Room, kind: str, device: str, lane: int, more: str = "", gate: str = ""
) -> tuple[Line, SerialLine | TcpDevice]:
    """A line with a device, once the two have each other."""
    source, way = source_of(kind, device, room, FIRST_DEVICE + lane)
    line = Line(room, f"{device}-{kind}", lane, source, more, gate)
    if isinstance(way, TcpDevice):
        way.plug()
    wait_until(lambda: line.metric("hall_line_device_linked") == 1, f"{line.name} is there")
    # what comes with the connection is taken to be old
    time.sleep(0.3)
    return line, way


def opened_rows(path: str) -> list[int]:
    """The rows that a gate's command took down."""
    if not os.path.exists(path):
        return []
    with open(path, encoding="ascii") as source:
        return [int(line) for line in source]


def settled(values: Callable[[], object], seconds: float = 1.0) -> None:
    """Waits until something is the same for so many seconds."""
    last, since = values(), time.monotonic()
    end = since + PATIENCE
    while time.monotonic() - since < seconds:
        time.sleep(0.05)
        now = values()
        if now != last:
            last, since = now, time.monotonic()
        need(time.monotonic() < end, "it doesn't come to rest")


def masses(draw: Iterator[int], count: int) -> list[int]:
    """So many masses, all different."""
    found: dict[int, None] = {}
    while len(found) < count:
        found[next(draw)] = None
    return list(found)


def say(text: str) -> None:
    """Says how a check went."""
    print(f"adapters: {text}", flush=True)
