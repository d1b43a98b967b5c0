"""A device over Modbus, and packs over TCP and RTU. For tests/adapters.py."""

import os
import random
import select
import subprocess
import threading
import time
from collections.abc import Callable

from adapter_room import PATIENCE, TOP, Line, Room, SerialLine, say, settled, wait_until
from clients import Hall, need

MODBUS_PORT = 5020
# A fault for each so many packs over Modbus, in a drawn order.
PERIOD_OF_FAULTS = 5
FAULTS = ["skip", "motion", "away"]
GOOD = 262_000
# An answer is waited for as long as a machine may take on which much else runs.
MAP = """
[modbus]
{way}
timeout = 5
[weight]
register = 0
scale = 0.1
[strobe]
register = 2
[state]
register = 3
values = {{ 0 = "weight", 1 = "motion", 2 = "invalid" }}
[gate]
coil = 0
[filler]
register = 40
"""
COUNTER = "[reject]\nregister = 4\n"


class ModbusDevice:
    """A device over Modbus: pymodbus' own server, in a process of its own."""

    def __init__(self, *words: str) -> None:
        self.words = words
        self.process = self.begin()
        self.strobe = 0
        self.rejects = 0
        self.steps = 0
        self.coils: list[tuple[int, float]] = []
        self.advice: list[int] = []

    def begin(self) -> "subprocess.Popen[bytes]":
        """Starts the server."""
        process = subprocess.Popen(
            ["/usr/bin/python3", "-B", f"{TOP}/tests/modbus_device.py", *self.words],
            stdin=subprocess.PIPE,
            stdout=subprocess.PIPE,
            bufsize=0,
        )
        Hall.running.append(process)
        return process

    def put(self, state: int = 0) -> None:
        """Sets all registers, and waits until they are set."""
        assert self.process.stdin is not None
        words = [0, self.steps, self.strobe, state, self.rejects]
        self.process.stdin.write(" ".join(map(str, [0, *words])).encode() + b"\n")
        while self.take_line(PATIENCE) != "ok":
            pass

    def take_line(self, seconds: float) -> str:
        """The next line that it says; nothing where none comes in so many seconds."""
        assert self.process.stdout is not None
        if not select.select([self.process.stdout], [], [], seconds)[0]:
            return ""
        line = self.process.stdout.readline().decode().strip()
        need(bool(line), "the device over Modbus ended")
        word, *rest = line.split()
        if word == "coil":
            self.coils.append((int(rest[0]), float(rest[1])))
        elif word == "advice":
            self.advice.append(int(rest[0]))
        return line

    def take_lines(self, seconds: float = 0.0) -> None:
        """Takes down all that it says, and waits so many seconds for the first."""
        while self.take_line(seconds):
            seconds = 0.0

    def pack(self, mass: int, state: int = 0) -> float:
        """Weighs a pack, and gives when."""
        self.steps, self.strobe = mass // 100, (self.strobe + 1) % 65_536
        began = time.monotonic()
        self.put(state)
        return began

    def rejected(self) -> None:
        """A pack was seen behind the reject."""
        self.rejects += 1
        self.put()

    def opened(self) -> list[float]:
        """When its coil was set."""
        self.take_lines()
        return [at for value, at in self.coils if value]

    def end(self) -> None:
        """Ends it."""
        self.process.kill()
        self.process.wait()


def modbus_line(room: Room, way: str, more: str = "") -> Line:
    """A line over Modbus. Its map has a counter of rejects where its settings have [reject]."""
    path = f"{room.folder}/map.toml"
    with open(path, "w", encoding="ascii") as text:
        text.write(MAP.format(way=way) + COUNTER * ("[reject]" in more))
    return Line(room, "modbus", 1, f'map = "{path}"', more)


class Bridge(threading.Thread):
    """Two serial lines joined end to end, as a cable joins two devices; it may be cut."""

    def __init__(self, *lines: SerialLine) -> None:
        super().__init__(daemon=True)
        self.lines = lines
        self.is_cut = False

    def run(self) -> None:
        ends = [line.scale for line in self.lines]
        while True:
            for end in select.select(ends, [], [])[0]:
                piece = os.read(end, 4096)
                if not self.is_cut:
                    os.write(ends[1 - ends.index(end)], piece)


def check_modbus(program: str, folder: str, packs: int, seed: str) -> None:
    """Packs over Modbus TCP and RTU, some too quick, in motion, or while the link is away."""
    for kind in ("tcp", "rtu"):
        room = Room(program, f"{folder}/modbus-{kind}", 1)
        room.start()
        cut, way, words = modbus_way(room, kind)
        device = ModbusDevice(*words)
        device.strobe = 65_533
        device.put()
        filler = f"[filler]\npacks = 5\ntarget = 250.0\nband = 0.1\n"
        line = modbus_line(room, way, filler)
        wait_until(lambda: line.metric("hall_line_device_linked") == 1, "the device is there")
        time.sleep(0.2)
        lost = drive_modbus(device, line, cut, packs, random.Random(f"{seed} {kind}"))
        settled(lambda: (os.stat(room.book).st_mtime_ns, device.take_lines()))
        passed = [row for row in room.rows(1) if row.signal == "pass"]
        need(len(device.opened()) == len(passed), f"{len(device.opened())} openings, {len(passed)}")
        need(device.advice and all(advice < 32_768 for advice in device.advice), "no advice came")
        say(
            f"modbus {kind}: {packs} packs, {lost} of them lost and reported; the coil was set"
            f" {len(passed)} times, advice came {len(device.advice)} times"
        )
        line.end()
        device.end()
        room.stop()


def modbus_way(room: Room, kind: str) -> tuple[Callable[[bool], None], str, tuple[str, str]]:
    """How a way is cut, its settings, and the words of its device."""
    if kind == "tcp":
        return lambda is_cut: None, f'tcp = "127.0.0.1:{MODBUS_PORT}"', ("tcp", str(MODBUS_PORT))
    ours, theirs = SerialLine(f"{room.folder}/ours"), SerialLine(f"{room.folder}/theirs")
    bridge = Bridge(ours, theirs)
    bridge.start()

    def cut(is_cut: bool) -> None:
        bridge.is_cut = is_cut

    way = f'serial = "{ours.path}"\nbaud = 115200\nparity = "N"'
    return cut, way, ("rtu", theirs.path)


def drive_modbus(
    device: ModbusDevice,
    line: Line,
    cut: Callable[[bool], None],
    packs: int,
    draw: random.Random,
) -> int:
    """Weighs packs, and gives how many the line has to have reported as lost."""
    lost, heard, motion = 0, 0, 0
    faults = FAULTS * (packs // (PERIOD_OF_FAULTS * len(FAULTS)) + 1)
    draw.shuffle(faults)
    for place in range(packs):
        mass = GOOD + place * 100
        fault = faults.pop() if faults and place % PERIOD_OF_FAULTS == PERIOD_OF_FAULTS - 1 else ""
        if fault == "skip":
            # two packs between two polls: the first one is missed
            device.strobe += 1
            lost += 1
        elif fault == "motion":
            device.pack(mass, state=1)
            motion += 1
            wait_until(lambda: line.notes()["motion"] == motion, "a pack in motion is reported")
            continue
        elif fault == "away":
            # the link is away for a moment, and a pack comes meanwhile
            away = line.notes()["device"]
            cut_device(device, cut, True)
            wait_until(lambda: line.notes()["device"] > away, "the device is away")
            device.strobe += 1
            lost += 1
            cut_device(device, cut, False)
            wait_until(lambda: line.metric("hall_line_device_linked") == 1, "it is back")
            wait_until(lambda: line.notes()["skip"] == lost, f"{lost} lost, {line.said()[-5:]}")
        device.pack(mass)
        heard += 1
        wait_until(
            lambda: (device.take_lines(0.01), len(device.opened()) == heard)[1],
            f"pack {place} is let out: {line.said()[-5:]}",
        )
    need(line.notes()["skip"] == lost, f"{lost} packs were lost: {line.notes()}")
    return lost + motion


def cut_device(device: ModbusDevice, cut: Callable[[bool], None], is_cut: bool) -> None:
    """Cuts the way to a device, or its server where that is TCP."""
    cut(is_cut)
    if device.words[0] == "tcp":
        if is_cut:
            device.end()
        else:
            device.process = device.begin()
            device.put()
    elif not is_cut:
        device.put()
