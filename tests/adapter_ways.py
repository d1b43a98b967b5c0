"""Ways from a weight to the gate: how long they take, halls and lines that are killed, and streams
that are taken down. For tests/adapters.py."""

import os
import random
import re
import select
import subprocess
import threading
import time
from collections.abc import Callable

from adapter_modbus import ModbusDevice, modbus_line, modbus_way
from adapter_room import (
    ADAPTER,
    PATIENCE,
    Line,
    Room,
    SerialLine,
    open_line,
    opened_rows,
    piles_of,
    say,
    settled,
    wait_until,
)
from adapter_streams import PERIOD
from clients import need
from drawn import DRAWN, garvens, ishida

# The most from a weight to the gate at the 99th of 100, in seconds.
FASTEST = 0.030
GOOD = 262_000
# ---- how long it takes


def percentile(times: list[float], of_hundred: int) -> float:
    """The time at this place of a hundred."""
    return sorted(times)[min(len(times) - 1, len(times) * of_hundred // 100)]


def tell_times(way: str, times: list[float]) -> None:
    """Says how long it took. On a machine that is busy that is a figure and no more."""
    half, most = percentile(times, 50), percentile(times, 99)
    is_busy = os.getloadavg()[0] > (os.cpu_count() or 1) / 2
    say(
        f"{way}: from a weight to the gate {half * 1000:.1f} ms at half of {len(times)},"
        f" {most * 1000:.1f} ms at the 99th of 100{', on a busy machine' if is_busy else ''}"
    )
    need(most <= FASTEST or is_busy, f"{way}: it takes {most * 1000:.1f} ms")


def measure(count: int, weigh: Callable[[int], float], gate: Callable[[], float]) -> list[float]:
    """Weighs good packs, 20 a second, and gives how long each took to the gate."""
    times = []
    for place in range(count):
        began = weigh(GOOD + place % 90 * 100)
        times.append(gate() - began)
        time.sleep(max(0.0, PERIOD - (time.monotonic() - began)))
    return times


def gate_time(line: Line) -> float:
    """When a line's gate opens next."""
    need(bool(select.select([line.gate], [], [], PATIENCE)[0]), "the gate doesn't open")
    now = time.monotonic()
    os.read(line.gate, 4096)
    return now


def check_times(program: str, folder: str, packs: int, seed: str) -> None:
    """How long it takes from a weight to the gate, over each kind of way."""
    for kind in ("serial", "tcp"):
        time_line(Room(program, f"{folder}/times-{kind}", 1), kind, kind, "", packs)
    for kind in ("tcp", "rtu"):
        time_modbus(Room(program, f"{folder}/times-modbus-{kind}", 1), kind, packs)
    room = Room(program, f"{folder}/times-command", 1)
    command = f'["sh", "-c", "echo O >{room.folder}/garvens-serial.gate"]'
    time_line(room, "serial", "serial, by a command", f"[gate]\ncommand = {command}\n", packs)


def time_line(room: Room, kind: str, name: str, gate: str, packs: int) -> None:
    """How long it takes from a device's line to the gate's, or to that of a gate's command."""
    room.start()
    line, way = open_line(room, kind, "garvens", 1, gate=gate)
    sent = iter(range(1, packs + 2))

    def weigh(mass: int) -> float:
        began = time.monotonic()
        way.send(garvens(next(sent), mass))
        return began

    tell_times(name, measure(packs, weigh, lambda: gate_time(line)))
    line.end()
    room.stop()


def time_modbus(room: Room, kind: str, packs: int) -> None:
    """How long it takes from a device's strobe to the gate's coil."""
    room.start()
    _, way, words = modbus_way(room, kind)
    device = ModbusDevice(*words)
    device.put()
    line = modbus_line(room, way)
    wait_until(lambda: line.metric("hall_line_device_linked") == 1, "the device is there")
    time.sleep(0.3)
    seen = [0]

    def coil_time() -> float:
        wait_until(lambda: (device.take_lines(0.01), len(device.opened()) > seen[0])[1], "the coil")
        seen[0] = len(device.opened())
        return device.opened()[-1]

    tell_times(f"modbus {kind}", measure(packs, device.pack, coil_time))
    need(line.notes()["skip"] == 0, f"a strobe was missed: {line.said()}")
    line.end()
    device.end()
    room.stop()


# ---- halls that are killed


class Kills(threading.Thread):
    """Kills a hall at drawn moments, and starts it again."""

    def __init__(self, room: Room, seed: str, times: int) -> None:
        super().__init__(daemon=True)
        self.room = room
        self.draw = random.Random(seed)
        self.times = times
        self.fault: Exception | None = None

    def run(self) -> None:
        try:
            for _ in range(self.times):
                time.sleep(self.draw.uniform(0.3, 1.5))
                self.room.stop()
                time.sleep(self.draw.choice((0.0, 0.3)))
                self.room.start()
        except Exception as fault:
            self.fault = fault


def check_kills(program: str, folder: str, packs: int, seed: str) -> None:
    """A hall is killed while packs come: none is counted twice, each that was let out is in the
    book or was reported, and so is each that the book hasn't."""
    room = Room(program, f"{folder}/kills", 1)
    room.start()
    log = f"{room.folder}/rows"
    gate = f'[gate]\ncommand = ["sh", "-c", "echo $PACK >>{log}"]\n'
    line, way = open_line(room, "serial", "ishida", 1, gate=gate)
    kills = Kills(room, seed, times=max(3, packs // 10))
    kills.start()
    sent = []
    while kills.is_alive() or len(sent) < packs:
        sent.append(260_000 + len(sent) * 100)
        way.send(ishida(len(sent), sent[-1]))
        time.sleep(PERIOD)
    if kills.fault:
        raise kills.fault
    wait_until(lambda: line.metric("hall_line_waiting") == 0, "each pack is judged or reported")
    settled(lambda: (os.stat(room.book).st_mtime_ns, line.metric("hall_line_waiting")), 2.0)
    compare_kills(room, line, sent, log)
    say(
        f"kills: {len(sent)} packs, {kills.times} kills; {len(opened_rows(log))} let out, each"
        f" in the book or reported; notes {dict(line.notes())}"
    )
    line.end()
    room.stop()


def compare_kills(room: Room, line: Line, sent: list[int], log: str) -> None:
    """Compares the book with what was sent and what was let out."""
    piles = piles_of(room.all_rows())
    rows = room.rows(1)
    by_mass: dict[int, list[int]] = {}
    for row in rows:
        by_mass.setdefault(row.act["gross"], []).append(row.number)
    need(set(by_mass) <= set(sent), "the book has a weight that wasn't sent")
    masses = [row.act["gross"] for row in rows]
    need(masses == sorted(masses), "the packs are in another order")
    for mass, numbers in by_mass.items():
        stand = [number for number in numbers if piles.packs[number][0] != "voided"]
        need(len(stand) <= 1, f"the pack of {mass} mg is counted at {stand}")
    reported = {int(row) for line_ in line.said() for row in re.findall(r"row (\d+)", line_)}
    mass_of = {row.number: row.act["gross"] for row in rows}
    for number in opened_rows(log):
        stand = [one for one in by_mass[mass_of[number]] if piles.packs[one][0] == "passed"]
        need(bool(stand) or number in reported, f"row {number} was let out and isn't in the book")
    missing = set(sent) - set(by_mass)
    unheard = line.notes()["unheard"]
    need(len(missing) == unheard, f"{len(missing)} packs are missing, {unheard} reported")


def check_again(program: str, folder: str, packs: int, seed: str) -> None:
    """A line is killed and started again beside a hall that goes on: no pack is weighed twice."""
    room = Room(program, f"{folder}/again", 1)
    room.start()
    path = SerialLine(f"{room.folder}/line")
    source = f'device = "garvens"\n[source]\nserial = "{path.path}"'
    sent = []
    for life in range(4):
        line = Line(room, f"life-{life}", 1, source)
        wait_until(lambda: line.metric("hall_line_device_linked") == 1, "the device is there")
        for _ in range(life + 2):
            sent.append(GOOD + len(sent) * 100)
            path.send(garvens(len(sent), sent[-1]))
            wait_until(lambda: (line.read_gate(), len(line.opened))[1] == 1, "a pack is let out")
            line.opened.clear()
            count = len(sent) - life * (life + 3) // 2
            passed = 'signal="pass"'
            wait_until(lambda: line.metric("hall_line_packs_total", passed) == count, "it passed")
        line.process.kill()
        line.process.wait()
    rows = [row.act["gross"] for row in room.rows(1)]
    need(rows == sent, f"the book has {rows} of {sent}")
    say(f"a line that was killed three times beside a hall: {len(sent)} packs, each once")
    room.stop()


# ---- what was recorded


def check_recorded(program: str, folder: str, packs: int, seed: str) -> None:
    """A stream with faults is taken down as docs/LINES.md says: `hall-adapter check` and
    `hall-adapter weights` say the same of it, and only packs that were sent."""
    os.makedirs(f"{folder}/recorded")
    total = 0
    for device in DRAWN:
        path = f"{folder}/recorded/{device}"
        sent = record(device, path, packs, random.Random(f"{seed} {device}"))
        checked = adapter("check", device, path)
        weights = [line.split()[1] for line in checked if line.startswith("weight ")]
        with open(path, "rb") as source:
            handed = subprocess.run(
                [ADAPTER, "weights", device], stdin=source, capture_output=True, timeout=PATIENCE
            )
        need(handed.stdout.decode().split() == weights, f"{device}: {weights[:5]}")
        texts = [f"{mass // 1000}.{mass % 1000:03}" for mass in sent]
        need(weights == [text for text in texts if text in weights], f"{device}: {weights[:9]}")
        need(len(weights) >= packs - packs // 4, f"{device}: {len(weights)} of {packs}")
        total += len(weights)
    say(f"recorded: {total} weights of {packs * len(DRAWN)} packs, by check and by weights alike")


def record(device: str, path: str, packs: int, draw: random.Random) -> list[int]:
    """Takes a device's stream down by `cat`, one line in ten spoiled; gives what was sent."""
    spell, _ = DRAWN[device]
    way = SerialLine(f"{path}.line")
    with open(path, "wb") as taken:
        cat = subprocess.Popen(["cat", way.path], stdout=taken)
    sent, size = [], 0
    for counter in range(1, packs + 1):
        sent.append(260_000 + counter * 100)
        line = spell(counter, sent[-1])
        if draw.random() < 0.1:
            place = draw.randrange(len(line) - 3)
            line = line[:place] + line[place + 1 :]
        way.send(line)
        size += len(line)
        wait_until(lambda: os.path.getsize(path) == size, "cat takes it down")
    cat.kill()
    cat.wait()
    way.unplug()
    return sent


def adapter(*words: str) -> list[str]:
    """What hall-adapter says."""
    ran = subprocess.run([ADAPTER, *words], capture_output=True, text=True, timeout=PATIENCE)
    need(ran.returncode in (0, 1), f"{words}: {ran.stderr}")
    return ran.stdout.splitlines()
