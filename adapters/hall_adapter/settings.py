"""The settings of a line, in TOML, for `hall-adapter line`.

    name = "line-1"                  # in metrics, messages and alarms
    lane = 1                         # the lane's number in the hall
    device = "garvens"               # a table; or map = "cw.toml", a map for Modbus

    [source]                         # with `device`: where its lines come from, one of
    serial = "/dev/ttyUSB0"          #   with baud (9600), bits (8), parity ("N"), stop (1)
    tcp = "192.0.2.7:3001"           #   this connects to the device
    listen = "0.0.0.0:3001"          #   the device connects to this
    settle = 0.3                     # seconds after a connection in which lines are of old packs; 0
                                     #   of a serial line, whose old bytes are dropped

    [hall]
    port = 9001                      # the lane's port (`--remote`), at 127.0.0.1
    gate = "/run/hall-main/gate-1.txt"
    within = 0.5                     # seconds from a weight until its gate can't open any more

    [gate]                           # what lets a pack out; absent where `map` has the coil
    command = ["gpioset", "-m", "time", "-u", "50000", "gpiochip0", "17=1"]
                                     #   or device = "/dev/ttyUSB1" and text = "O\\r\\n"

    [reject]                         # may be absent
    earliest = 0.2                   # seconds from a weight until it is behind the reject
    latest = 0.4
    pulses = ["gpiomon", ..]         # a command that says a line for each pack there; absent where
                                     #   `map` has the register
    stops = true                     # whether a fault stops the gate

    [filler]                         # may be absent
    packs = 20                       # the mean of so many
    every = 20                       # packs from one advice to the next
    target = 262.0                   # grams, with the package
    band = 0.5                       # grams: below that the advice is 0
    file = "/dev/ttyUSB2"            # a line for each advice; may be absent: a map has its register

    [desk]                           # may be absent: who takes packs back that the book lets out
    url = "http://127.0.0.1:8471"    # and that were turned aside, by `void`
    number = 163
    [metrics]
    listen = "127.0.0.1:9471"        # may be absent
    [mqtt]
    host = "127.0.0.1"               # may be absent; with port (1883), topic ("hall/line-1"), user
                                     #   and password_file
    [alarm]
    command = ["mail", "-s", "hall", "foreman"]
    every = 60                       # seconds from one call of a kind to the next
"""

import shutil
from dataclasses import dataclass

from hall_adapter.register_maps import RegisterMap
from hall_adapter.tables import (
    MOST_PORT,
    Table,
    address_of,
    any_part_of,
    baud_of,
    bytes_of,
    choice_of,
    flag_of,
    name_of,
    named,
    need,
    need_kind,
    number_of,
    only,
    part_of,
    read_table,
    real_of,
    seconds_of,
    text_of,
    url_of,
    words_of,
)

PARTS = {"source", "hall", "gate", "reject", "filler", "desk", "metrics", "mqtt", "alarm"}
# The most that settings may say: grams, packs of a mean, and seconds between two alarms.
MOST_GRAMS, MOST_PACKS, MOST_EVERY = 30_000.0, 10_000, 1e6


@dataclass(frozen=True)
class Source:
    """Where a device's lines come from."""

    serial: str
    baud: int
    bits: int
    parity: str
    stop: int
    tcp: str
    listen: str
    settle: float


@dataclass(frozen=True)
class Gate:
    """What lets a pack out."""

    command: tuple[str, ...]
    device: str
    text: bytes


@dataclass(frozen=True)
class Reject:
    """What says that a pack was turned aside."""

    earliest: float
    latest: float
    pulses: tuple[str, ...]
    stops: bool


@dataclass(frozen=True)
class Filler:
    """Who is told the mean."""

    packs: int
    every: int
    target: int
    band: int
    file: str


@dataclass(frozen=True)
class Desk:
    """A desk that acts for the line."""

    url: str
    number: int


@dataclass(frozen=True)
class Broker:
    """A broker of MQTT."""

    host: str
    port: int
    topic: str
    user: str
    password_file: str


@dataclass(frozen=True)
class Alarm:
    """A command that is called for what people have to see to."""

    command: tuple[str, ...]
    every: float


@dataclass(frozen=True)
class Settings:
    """The settings of a line."""

    name: str
    lane: int
    device: str
    map: str
    source: Source | None
    port: int
    gate_path: str
    within: float
    gate: Gate | None
    reject: Reject | None
    filler: Filler | None
    desk: Desk | None
    metrics: tuple[str, int] | None
    broker: Broker | None
    alarm: Alarm | None

    def told(self) -> str:
        """Which line this is, as it is said where it begins."""
        where = self.map
        if source := self.source:
            place = f"listens at {source.listen}" if source.listen else source.serial or source.tcp
            where = f"{self.device}, {place}"
        return f"{self.name}: {where}; lane {self.lane} at port {self.port}"


def milligrams_of(table: Table, key: str) -> int:
    """A number of grams above 0 or 0, in milligrams."""
    return round(real_of(table, key, None, "grams", MOST_GRAMS) * 1000)


def source_of(table: Table) -> Source:
    """Where a device's lines come from."""
    only(table, {"serial", "baud", "bits", "parity", "stop", "tcp", "listen", "settle"})
    ways = [text_of(table, way, "") for way in ("serial", "tcp", "listen")]
    need(sum(map(bool, ways)) == 1, "one of `serial`, `tcp` and `listen` is needed")
    for address in filter(None, ways[1:]):
        address_of(address)
    return Source(
        ways[0],
        baud_of(table, 9_600),
        number_of(table, "bits", 8, 7, 8),
        choice_of(table, "parity", "N", ("N", "E", "O")),
        number_of(table, "stop", 1, 1, 2),
        ways[1],
        ways[2],
        real_of(table, "settle", 0.0 if ways[0] else 0.3, "seconds", 60.0),
    )


def hall_of(table: Table) -> tuple[int, str, float]:
    """The lane's port, its gate, and how long a pack takes to it."""
    only(table, {"port", "gate", "within"})
    port = number_of(table, "port", None, 1, MOST_PORT)
    return port, text_of(table, "gate"), seconds_of(table, "within", 0.5)


def gate_of(table: Table) -> Gate:
    """What lets a pack out."""
    only(table, {"command", "device", "text"})
    gate = Gate(
        words_of(table, "command"),
        text_of(table, "device", ""),
        bytes_of(table, "text", "O\r\n"),
    )
    need(bool(gate.command) != bool(gate.device), "`command` or `device` is needed, and not both")
    return gate


def reject_of(table: Table) -> Reject:
    """What says that a pack was turned aside."""
    only(table, {"earliest", "latest", "pulses", "stops"})
    earliest, latest = seconds_of(table, "earliest"), seconds_of(table, "latest")
    need(earliest < latest, "`earliest` is before `latest`")
    return Reject(earliest, latest, words_of(table, "pulses"), flag_of(table, "stops", True))


def filler_of(table: Table) -> Filler:
    """Who is told the mean."""
    only(table, {"packs", "every", "target", "band", "file"})
    packs = number_of(table, "packs", None, 1, MOST_PACKS)
    return Filler(
        packs,
        number_of(table, "every", packs, 1),
        milligrams_of(table, "target"),
        milligrams_of(table, "band"),
        text_of(table, "file", ""),
    )


def desk_of(table: Table) -> Desk:
    """A desk that acts for the line."""
    only(table, {"url", "number"})
    return Desk(url_of(table, "url"), number_of(table, "number", None, 101, 164))


def broker_of(table: Table, topic: str) -> Broker:
    """A broker of MQTT."""
    only(table, {"host", "port", "topic", "user", "password_file"})
    made = Broker(
        name_of(table, "host"),
        number_of(table, "port", 1_883, 1, MOST_PORT),
        text_of(table, "topic", topic),
        text_of(table, "user", ""),
        text_of(table, "password_file", ""),
    )
    fits = bool(made.topic) and made.topic.isprintable() and not {"+", "#"} & set(made.topic)
    need(fits, f"`topic` is {made.topic!r}, and has no + or #; the line's name is in it without it")
    need(bool(made.user) == bool(made.password_file), "`user` and `password_file` belong together")
    return made


def alarm_of(table: Table) -> Alarm:
    """A command that is called for alarms."""
    only(table, {"command", "every"})
    command = words_of(table, "command")
    need(bool(command), "`command` is missing")
    return Alarm(command, real_of(table, "every", 60, "seconds", MOST_EVERY))


def metrics_of(table: Table) -> tuple[str, int]:
    """Where the metrics are to be had."""
    only(table, {"listen"})
    return address_of(text_of(table, "listen"))


def settings_of(table: Table) -> Settings:
    """The settings of a table that was read. What belongs to a map is looked at by `need_fit`."""
    need_kind(table, "hall")
    only(table, {"name", "lane", "device", "map"} | PARTS)
    name, device, registers = (
        name_of(table, "name"),
        text_of(table, "device", ""),
        text_of(table, "map", ""),
    )
    need(bool(device) != bool(registers), "`device` or `map` is needed, and not both")
    need(bool(device) == ("source" in table), "[source] belongs to `device`")
    need(not device or "gate" in table, "[gate] is missing")
    port, gate_path, within = part_of(table, "hall", hall_of)
    reject = any_part_of(table, "reject", reject_of)
    is_said = reject is None or bool(reject.pulses) or bool(registers)
    need(is_said, "[reject] needs `pulses`, or a map with [reject]")
    return Settings(
        name,
        number_of(table, "lane", None, 1, 16),
        device,
        registers,
        any_part_of(table, "source", source_of),
        port,
        gate_path,
        within,
        any_part_of(table, "gate", gate_of),
        reject,
        any_part_of(table, "filler", filler_of),
        any_part_of(table, "desk", desk_of),
        any_part_of(table, "metrics", metrics_of),
        any_part_of(table, "mqtt", lambda part: broker_of(part, f"hall/{name}")),
        any_part_of(table, "alarm", alarm_of),
    )


def need_fit(path: str, settings: Settings, made: RegisterMap) -> None:
    """Each thing that stands at a line is either the map's or the settings'."""
    named(path, lambda: need_one_of_each(settings, made))


def need_one_of_each(settings: Settings, made: RegisterMap) -> None:
    """Gate and reject are each the map's, or the settings'."""
    has_coil, has_counter, reject = made.gate is not None, made.reject is not None, settings.reject
    need(
        has_coil or settings.gate is not None,
        "nothing lets a pack out: no [gate], in the map or here",
    )
    need(not has_coil or settings.gate is None, "[gate] is the map's, and stands here too")
    if reject is None:
        need(not has_counter, "[reject] is missing: the map has a register that counts rejects")
    elif reject.pulses:
        need(not has_counter, "[reject] has `pulses`, and the map a register for it too")
    else:
        need(has_counter, "[reject] needs `pulses`, or a map with [reject]")


def need_programs(path: str, settings: Settings) -> None:
    """The programs that the settings name are here."""
    gate, reject, alarm = settings.gate, settings.reject, settings.alarm
    for part, words in (
        ("gate", gate.command if gate else ()),
        ("reject", reject.pulses if reject else ()),
        ("alarm", alarm.command if alarm else ()),
    ):
        is_here = not words or shutil.which(words[0]) is not None
        need(is_here, f"{path}: [{part}]: {''.join(words[:1])} is no program here")


def is_settings(table: Table) -> bool:
    """Whether a table has the settings of a line."""
    return "hall" in table


def load_settings(path: str) -> Settings:
    """The settings at a path."""
    table = read_table(path)
    return named(path, lambda: settings_of(table))
