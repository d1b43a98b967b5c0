"""Who watches a line: a real mosquitto, and a real prometheus that scrapes it and its hall. For
tests/adapters.py."""

import json
import os
import socket
import subprocess
import time

from adapter_room import (
    ADAPTER,
    FIRST_DOOR,
    FIRST_METRICS,
    TOP,
    Line,
    Room,
    SerialLine,
    TcpDevice,
    open_line,
    say,
    wait_until,
)
from adapter_prometheus import RULES, Prometheus, fetch, port_is_open
from clients import Hall, need
from drawn import garvens

BROKER = 1883
METRICS = 9470
GOOD, LIGHT = 262_000, 230_000
PACKS = 12


class Broker:
    """A mosquitto, and a subscriber that takes all messages down."""

    def __init__(self, folder: str) -> None:
        self.folder = folder
        with open(f"{folder}/mosquitto.conf", "w", encoding="ascii") as settings:
            settings.write(f"listener {BROKER} 127.0.0.1\nallow_anonymous true\nuser root\n")
        self.taken = f"{folder}/messages"
        self.process = self.begin()
        self.reader = self.subscribe()

    def begin(self) -> "subprocess.Popen[bytes]":
        """Starts the broker."""
        process = subprocess.Popen(
            ["mosquitto", "-c", f"{self.folder}/mosquitto.conf"],
            stdout=subprocess.DEVNULL,
            stderr=subprocess.DEVNULL,
        )
        Hall.running.append(process)
        wait_until(lambda: port_is_open(BROKER), "mosquitto listens")
        return process

    def subscribe(self) -> "subprocess.Popen[bytes]":
        """Starts a subscriber, by paho, which is heard once it has subscribed."""
        with open(self.taken, "ab") as taken:
            process = subprocess.Popen(
                ["/usr/bin/python3", "-B", f"{TOP}/tests/mqtt_reader.py", str(BROKER), "hall/#"],
                stdout=taken,
            )
        Hall.running.append(process)
        wait_until(lambda: "subscribed" in self.text(), "the subscriber is there")
        return process

    def text(self) -> str:
        """All that was taken down."""
        with open(self.taken, encoding="utf-8") as taken:
            return taken.read()

    def messages(self, topic: str) -> list[str]:
        """The messages of a topic, in order."""
        lines = [line.split(" ", 1) for line in self.text().splitlines()]
        return [words[1] for words in lines if words[0] == topic]

    def end(self) -> None:
        """Ends the broker."""
        self.process.kill()
        self.process.wait()


def start_metrics(room: Room) -> "subprocess.Popen[bytes]":
    """A `hall-adapter metrics` over the hall."""
    standby = f"{room.folder}/standby.txt"
    with open(standby, "w", encoding="ascii") as said:
        said.write("book 5009 rows, copy 9\nbook 5010 rows, copy 3\n")
    with open(f"{room.folder}/list.txt", "w", encoding="ascii") as listed:
        listed.write("batch B1 product P state running population 0\nrows 5 left 39995\n")
    with open(f"{room.folder}/status", "w", encoding="ascii") as status:
        status.write('# TYPE hall_serves gauge\nhall_serves{book="main"} 1\n')
    with open(f"{room.folder}/metrics.toml", "w", encoding="ascii") as settings:
        settings.write(
            f'book = "main"\nlisten = "127.0.0.1:{METRICS}"\nevery = 1\n'
            f'url = "http://127.0.0.1:{FIRST_DOOR}"\nfile = "{room.book}"\nlimit = 40000\n'
            f'lanes = 1\ndoors = [{FIRST_DOOR}, {FIRST_DOOR + 1}]\ndisks = ["{room.folder}"]\n'
            f'list = "{room.folder}/list.txt"\n'
            f'status = ["cat", "{room.folder}/status"]\nstatus_every = 1\n'
            f'[[copy]]\nname = "standby"\nsaid = "{standby}"\n'
        )
    process = subprocess.Popen([ADAPTER, "metrics", f"{room.folder}/metrics.toml"])
    Hall.running.append(process)
    wait_until(lambda: "hall_up" in fetch(f"http://127.0.0.1:{METRICS}/metrics"), "the metrics")
    return process


def check_watched(program: str, folder: str, packs: int, seed: str) -> None:
    """A line that is watched, and stopped."""
    room = Room(program, f"{folder}/watched", 1)
    room.start()
    broker, metrics = Broker(room.folder), start_metrics(room)
    more = (
        "within = 30.0\n[reject]\nearliest = 0.01\nlatest = 15.0\n"
        f'pulses = ["sleep", "1000"]\n[mqtt]\nhost = "127.0.0.1"\nport = {BROKER}\n'
        f'[filler]\npacks = 5\ntarget = 262.0\nband = 0.5\nfile = "{room.folder}/advice"\n'
    )
    line, way = open_line(room, "serial", "garvens", 1, more)
    prometheus = Prometheus(room.folder, [METRICS, FIRST_METRICS], RULES)
    check_numbers(broker, prometheus, way)
    check_advice(broker, f"{room.folder}/advice")
    check_broker_away(broker, line, way)
    check_stopped(broker, prometheus, line, way)
    line.end()
    topic = "hall/garvens-serial/online"
    wait_until(lambda: broker.messages(topic)[-1] == "0", "the line says that it goes")
    room.stop()
    wait_until(lambda: prometheus.value("hall_up") == 0, "the hall is seen to be gone")
    for process in (metrics, prometheus.process, broker.reader, broker.process):
        process.kill()
        process.wait()


def check_numbers(broker: Broker, prometheus: Prometheus, way: SerialLine | TcpDevice) -> None:
    """Good packs and their messages and numbers."""
    topic = "hall/garvens-serial"
    wait_until(lambda: broker.messages(f"{topic}/online") == ["1"], "the line is online")
    for counter in range(1, PACKS + 1):
        way.send(garvens(counter, GOOD + counter * 100))
    wait_until(lambda: len(broker.messages(f"{topic}/pack")) == PACKS, "a message for each pack")
    said = [json.loads(text) for text in broker.messages(f"{topic}/pack")]
    need(
        [(one["counter"], one["gross"], one["signal"], one["article"]) for one in said]
        == [(at, (GOOD + at * 100) / 1000, "pass", "RICE250") for at in range(1, PACKS + 1)],
        f"the messages are {said}",
    )
    for query, value in (
        ('hall_line_packs_total{signal="pass"}', PACKS),
        # of the file's rows the newest may be replaced, so it isn't counted
        ('hall_packs_total{book="main",lane="1",signal="pass"}', PACKS - 1),
        ('hall_batch_packs{batch="B1"}', PACKS),
        ('hall_batch_forecast{part="average"}', 1),
        ('hall_pile_packs{pile="passed"}', PACKS),
        ('hall_copy_rows_behind{copy="standby"}', 5007),
        # the list has five of the rows that the door says
        ("hall_list_rows_behind", PACKS),
        ("hall_doors", 2),
        ("hall_doors_busy", 0),
        ("hall_line_answer_seconds_count", PACKS),
        ("hall_serves", 1),
        ("hall_up", 1),
        ('hall_lane_working{lane="1"}', 1),
        (f'hall_door_connections{{port="{FIRST_DOOR + 1}"}}', 0),
        # the setup's four rows, the lane's start, and the packs but the newest
        ("hall_rows", 4 + 1 + PACKS - 1),
        ("hall_rows_left", 40_000 - (4 + 1 + PACKS - 1)),
    ):
        wait_until(
            lambda: prometheus.value(query) == value,
            f"{query} is {prometheus.value(query)}, and not {value}",
        )
    free = os.statvfs(os.path.dirname(broker.taken))
    part = (prometheus.value("hall_disk_free_bytes") or 0) / (free.f_bavail * free.f_frsize)
    need(0.9 < part < 1.1, f"the disk has {part} of the free bytes")
    with socket.create_connection(("127.0.0.1", FIRST_DOOR + 1)):
        wait_until(lambda: prometheus.value("hall_doors_busy") == 1, "a door is busy")
    wait_until(lambda: prometheus.value("hall_doors_busy") == 0, "no door is busy")
    wait_until(lambda: "HallBookFills" in prometheus.firing(), "HallBookFills")
    need("HallLineStopped" not in prometheus.firing(), "HallLineStopped fires too soon")
    say(f"{PACKS} packs: a message by mosquitto for each, 19 numbers by prometheus as worked out")


def check_advice(broker: Broker, path: str) -> None:
    """The mean of each five packs beside 262 g: the first are 0.1 to 0.5 g above, 0.3 g in the
    mean, which is within the dead band; the next 0.6 to 1 g, 0.8 g in the mean."""
    expected = ["+0.000", "+0.800"]
    wait_until(lambda: broker.messages("hall/garvens-serial/advice") == expected, "advice comes")
    with open(path, encoding="ascii") as said:
        need(said.read().split() == expected, "the filler's file has the same advice")


def check_broker_away(broker: Broker, line: Line, way: SerialLine | TcpDevice) -> None:
    """A broker that is away is told once: packs are weighed, and their messages wait."""
    topic = "hall/garvens-serial/pack"
    broker.end()
    broker.reader.kill()
    broker.reader.wait()
    way.send(garvens(PACKS + 1, GOOD))
    wait_until(lambda: mqtt_told(line) == ["the broker is away"], "a broker that is away is told")
    os.remove(broker.taken)
    broker.process = broker.begin()
    broker.reader = broker.subscribe()
    way.send(garvens(PACKS + 2, GOOD))
    wait_until(lambda: len(broker.messages(topic)) >= 1, "messages come again")
    last = json.loads(broker.messages(topic)[-1])
    need(last["counter"] in (PACKS + 1, PACKS + 2), f"the message is {last}")
    there = "the broker is there again, and 0 messages were dropped"
    need(mqtt_told(line) == ["the broker is away", there], f"it told {mqtt_told(line)}")


def mqtt_told(line: Line) -> list[str]:
    """What a line told of its broker."""
    return [said[6:] for said in line.said() if said.startswith("mqtt: ")]


def check_stopped(
    broker: Broker, prometheus: Prometheus, line: Line, way: SerialLine | TcpDevice
) -> None:
    """A reject that isn't confirmed stops the gate, which prometheus and the broker hear of."""
    way.send(garvens(PACKS + 3, LIGHT))
    wait_until(lambda: line.metric("hall_line_stopped") == 1, "the gate is stopped")
    began = time.monotonic()
    wait_until(
        lambda: {"HallLineStopped", "HallRejectUnconfirmed"} <= prometheus.firing(),
        f"the rules fire: {prometheus.firing()}",
    )
    seconds = time.monotonic() - began
    state = "hall/garvens-serial/state"
    wait_until(lambda: broker.messages(state)[-1:] == ["stopped"], "the broker hears of it")
    kinds = [json.loads(text)["kind"] for text in broker.messages("hall/garvens-serial/report")]
    need({"escaped", "stopped"} <= set(kinds), f"the reports are {kinds}")
    say(
        f"a reject that isn't confirmed: prometheus fires {seconds:.1f} s after the gate is stopped"
    )
