"""The pages of docs/lines as they stand: what a commissioning engineer types of them, and what comes of
it. For tests/adapters.py.

The settings and maps are the pages' own but for where things are, and for times that a busy machine
can keep. Gate and photocell are Debian's gpioset and gpiomon, called as the pages say, over pins of
tests/gpio_pins.c. The stream is the page's, too."""

import os
import re
import subprocess
import time
import tomllib

from adapter_modbus import MODBUS_PORT, ModbusDevice
from adapter_room import (
    ADAPTER,
    FIRST_DEVICE,
    FIRST_LANE,
    FIRST_METRICS,
    PATIENCE,
    TOP,
    Line,
    Room,
    SerialLine,
    TcpDevice,
    say,
    wait_until,
)
from clients import Hall, need
from drawn import DRAWN
from test_pages import blocks, stream_of, text_of

# The contents of a pack of the pages, of which 251.3 g with its bag pass and 228.4 g don't.
NOMINAL = 240
LIGHT = 250_000
# Seconds for which lines of a new connection are old ones, and some more.
SETTLED = 0.6
# The pins of the pages.
GATE, PHOTOCELL = 17, 4


class Page:
    """A page: its settings, a stream, and what `check` says of that."""

    def __init__(self, name: str) -> None:
        text = text_of(f"{TOP}/docs/lines/{name}.md")
        self.name = name
        self.tables = blocks(text, "toml")
        self.recorded = blocks(text, "recorded")[0]
        self.said = blocks(text, "console")[0].splitlines()[1:]

    def weights(self) -> list[int]:
        """The weights that the page says, in milligrams."""
        found = [re.fullmatch(r"weight (\d+)\.(\d{3}) g.*", line) for line in self.said]
        return [int(one[1] + one[2]) for one in found if one]


class Pins:
    """The pins of a chip."""

    def __init__(self, folder: str) -> None:
        self.folder = f"{folder}/pins"
        os.mkdir(self.folder)
        os.mkfifo(f"{self.folder}/{PHOTOCELL}")
        self.photocell = os.open(f"{self.folder}/{PHOTOCELL}", os.O_RDWR)
        built = f"{folder}/pins.so"
        words = ["cc", "-shared", "-fPIC", "-o", built, f"{TOP}/tests/gpio_pins.c"]
        subprocess.run(words, check=True)
        self.words = {"LD_PRELOAD": built, "PINS": self.folder}

    def pass_by(self) -> None:
        """A pack goes by the photocell: its light is gone, and comes back."""
        os.write(self.photocell, b"rf")

    def opened(self) -> int:
        """How often the gate's pin was set for a while."""
        path = f"{self.folder}/set"
        if not os.path.exists(path):
            return 0
        with open(path, encoding="ascii") as said:
            lines = said.read().splitlines()
        need(set(lines) <= {f"{GATE} 1", f"{GATE} end"}, f"the pins were set to {set(lines)}")
        return lines.count(f"{GATE} end")

    def end(self) -> None:
        """Nobody goes by any more."""
        os.close(self.photocell)


class PageLine(Line):
    """A line with the settings of a page."""

    def settings(self, room: Room, source: str, more: str, gate: str) -> str:
        return source


def way_of(page: Page, folder: str) -> tuple[str, SerialLine | TcpDevice]:
    """The page's settings, with the places of a test; and the device's end of its line."""
    [settings] = [one for one in page.tables if "hall" in tomllib.loads(one)]
    source = tomllib.loads(settings)["source"]
    kind = next(key for key in ("serial", "tcp", "listen") if key in source)
    place = f"{folder}/line" if kind == "serial" else f"127.0.0.1:{FIRST_DEVICE}"
    for pattern, text in (
        (rf'^{kind} = ".*?"', f'{kind} = "{place}"'),
        (r"^port = \d+", f"port = {FIRST_LANE}"),
        (r'^gate = ".*"', f'gate = "{folder}/gate-1.txt"'),
        (r"^within = .*", "within = 30.0"),
        (r"^earliest = .*", "earliest = 0.001"),
        (r"^latest = .*", "latest = 30.0"),
        (r"^\[metrics\]\nlisten = .*", f'[metrics]\nlisten = "127.0.0.1:{FIRST_METRICS}"'),
    ):
        settings, count = re.subn(pattern, text, settings, flags=re.MULTILINE)
        need(count > 0, f"{page.name} has no {pattern}")
    if kind == "serial":
        return settings, SerialLine(place)
    return settings, TcpDevice(FIRST_DEVICE, connects=kind == "listen")


def check_pages(program: str, folder: str, packs: int, seed: str) -> None:
    """Each device's page."""
    os.makedirs(f"{folder}/pages")
    pins = Pins(f"{folder}/pages")
    for device in DRAWN:
        check_page(program, f"{folder}/pages/{device}", Page(device), pins)
    check_modbus_page(f"{folder}/pages/modbus", Page("modbus"))
    pins.end()
    say(
        f"pages: {len(DRAWN)} devices recorded, checked and put into service by the settings of"
        " their pages, over gpioset and gpiomon; the map of Modbus by its own"
    )


# ---- a device by its lines


def check_page(program: str, folder: str, page: Page, pins: Pins) -> None:
    """A page: its device is recorded and checked, and then its line is put into service."""
    room = Room(program, folder, 1, NOMINAL)
    settings, way = way_of(page, folder)
    path = f"{folder}/line-1.line.toml"
    with open(path, "w", encoding="utf-8") as file:
        file.write(settings)
    record(page, path, way)
    room.start()
    os.environ.update(pins.words)
    line = PageLine(room, "page", 1, settings)
    for word in pins.words:
        del os.environ[word]
    if isinstance(way, TcpDevice):
        way.plug()
    linked = "hall_line_device_linked"
    wait_until(lambda: line.metric(linked) == 1, lambda: f"{page.name} is there: {line.said()}")
    # what comes with a connection is taken to be old
    time.sleep(SETTLED)
    weighed = weigh(line, page, way, pins)
    masses = [(row.act["gross"], row.signal.split()[0]) for row in room.rows(1)]
    need(masses == weighed, f"{page.name}: the book has {masses}, and not {weighed}")
    line.end()
    way.unplug()
    room.stop()


def record(page: Page, path: str, way: SerialLine | TcpDevice) -> None:
    """Records the page's stream by its settings, and checks it by them."""
    hundred = f"{path}.recorded"
    with open(hundred, "wb") as taken, open(f"{path}.said", "wb") as said:
        recorder = subprocess.Popen([ADAPTER, "record", path], stdout=taken, stderr=said)
    Hall.running.append(recorder)
    if isinstance(way, TcpDevice):
        way.plug()
    with open(f"{path}.said", encoding="utf-8") as said_now:
        wait_until(lambda: "is there" in said_now.read(), f"{page.name} is there to be recorded")
    stream = stream_of(page.recorded)
    way.send(stream)
    wait_until(lambda: os.path.getsize(hundred) == len(stream), "the stream is taken down")
    recorder.terminate()
    need(recorder.wait(PATIENCE) == 0, "recording ends well")
    if isinstance(way, TcpDevice):
        way.unplug()
    checked = subprocess.run(
        [ADAPTER, "check", path, hundred], capture_output=True, text=True, timeout=PATIENCE
    )
    need(checked.stdout.splitlines() == page.said, f"{page.name}: {checked.stdout}")
    need(checked.returncode == 1, f"{page.name}: status {checked.returncode}")


def heard(line: Line, pattern: str = "hall_line_(?:unweighed|packs)_total{") -> int:
    """How many packs were judged, and how many lines gave no weight."""
    found = re.findall(rf"^{pattern}.*}} (\d+)$", line.text(), re.MULTILINE)
    return sum(map(int, found))


def weigh(
    line: PageLine, page: Page, way: SerialLine | TcpDevice, pins: Pins
) -> list[tuple[int, str]]:
    """Sends the page's lines one by one, and has the packs that aren't let out go by the photocell;
    gives what the book has to have."""
    wanted = [(mass, "reject" if mass < LIGHT else "pass") for mass in page.weights()]
    rejects = sum(1 for _, signal in wanted if signal == "reject")
    opened = pins.opened()
    for one in page.recorded.splitlines(keepends=True):
        before = heard(line)
        way.send(stream_of(one))
        wait_until(lambda: heard(line) > before, f"{page.name}: {one!r} is heard")
    judged = 'hall_line_packs_total{.*signal="(?:pass|reject)"'
    wait_until(
        lambda: heard(line, judged) == len(wanted), lambda: f"{page.name}: {line.said()[-9:]}"
    )
    # of those that gave no weight some are on the belt too, and go by
    for _ in range(rejects):
        pins.pass_by()
    confirmed = "hall_line_rejects_confirmed_total"
    wait_until(
        lambda: line.metric(confirmed) == rejects, lambda: f"{page.name}: {line.said()[-9:]}"
    )
    passed = len(wanted) - rejects
    wait_until(lambda: pins.opened() == opened + passed, f"{page.name}: the gate's pin")
    need(line.metric("hall_line_stopped") == 0, f"{page.name} stopped: {line.said()}")
    notes = {kind: count for kind, count in line.notes().items() if count}
    counts = dict(re.findall(r"(\w+) (\d+)", page.said[-1].split("; ")[1]))
    need(notes == {kind: int(count) for kind, count in counts.items()}, f"{notes}, {counts}")
    return wanted


# ---- a device by its registers


def check_modbus_page(folder: str, page: Page) -> None:
    """The page of Modbus: its map takes the page's polls down, and checks them."""
    os.makedirs(folder)
    path = f"{folder}/line-1.map.toml"
    made, count = re.subn(
        r'^tcp = "\S+"', f'tcp = "127.0.0.1:{MODBUS_PORT}"', page.tables[0], 0, re.M
    )
    need(count == 1, "the map of the page has no address")
    with open(path, "w", encoding="utf-8") as file:
        file.write(made)
    device = ModbusDevice("tcp", str(MODBUS_PORT))
    polls = page.recorded.splitlines()
    play(device, polls[0])
    with open(f"{path}.recorded", "wb") as taken:
        recorder = subprocess.Popen([ADAPTER, "record", path], stdout=taken)
    Hall.running.append(recorder)
    for place, poll in enumerate(polls):
        if place:
            play(device, poll)
        wait_until(lambda: taken_of(path) == polls[: place + 1], f"{poll}: {taken_of(path)}")
    recorder.terminate()
    need(recorder.wait(PATIENCE) == 0 and not device.opened(), "a coil was set")
    checked = subprocess.run(
        [ADAPTER, "check", path, f"{path}.recorded"], capture_output=True, text=True
    )
    need(checked.stdout.splitlines() == page.said, f"{page.name}: {checked.stdout}")
    device.end()


def play(device: ModbusDevice, poll: str) -> None:
    """Has the registers say a poll of the page; `cut` takes the device away."""
    if poll == "cut":
        device.end()
        return
    if device.process.poll() is not None:
        device.process = device.begin()
    _, device.steps, device.strobe, state, device.rejects = (int(word, 16) for word in poll.split())
    device.put(state)


def taken_of(path: str) -> list[str]:
    """What was recorded so far."""
    with open(f"{path}.recorded", encoding="ascii") as taken:
        return taken.read().splitlines()
