"""Maps for Modbus: which registers hold weight and strobe, which coil is the gate. In TOML.

    [modbus]  tcp = "HOST:PORT", or serial = "/dev/ttyUSB0" with baud, parity and stop;
              unit (the device's address, 1), table ("input" or "holding"), period (0.005 s
              between two polls), timeout (1: whole seconds for which an answer is waited for)
    [weight]  register, type (int16, uint16, int32, uint32 or float32), order ("big": the high
              word first, or "little"), unit ("g"), scale (0.1: how much of the unit a step is)
    [strobe]  register: a number of 16 bits that rises by one with each pack, from first (0) to
              last (65535), once the weight is in its registers
    [state]   register, values: what they mean, as `0 = "weight"`, `3 = "invalid"`; may be absent
    [gate]    coil: set for pulse (0.05 s) to let a pack out; may be absent
    [reject]  register: a number of 16 bits that counts the packs that were turned aside; may be
              absent
    [filler]  register: a holding register for advice, in hundredths of a gram, a number of 16 bits
              with a sign; may be absent

All registers but the filler's are of one table and at most 100 apart, so that one request reads
them at one moment; no two parts have a register in common. Nothing here reads or writes.
"""

import math
import struct
from dataclasses import dataclass
from decimal import Decimal
from hall_adapter.devices import UNITS, Device, Frame, Range, find, states_of
from hall_adapter.lines import LEAST, MOST, Engine, left_out
from hall_adapter.readings import WEIGHT, Note, Reading
from hall_adapter.tables import (
    Table,
    address_of,
    any_part_of,
    baud_of,
    choice_of,
    named,
    need,
    need_kind,
    number_of,
    only,
    part_of,
    real_of,
    seconds_of,
    text_of,
)

# For each type: how many words, and how struct spells it.
TYPES = {"int16": (1, "h"), "uint16": (1, "H"), "int32": (2, "i"), "uint32": (2, "I")}
TYPES["float32"] = (2, "f")
# One request reads no more registers than this.
MOST_WORDS = 100
WORD = 65_536
# The greatest address of a device, scale, and time for an answer.
MOST_UNIT, MOST_SCALE, MOST_TIMEOUT = 255, 1_000_000.0, 60
# What a line of a recording says where the link broke off.
CUT = "cut"


@dataclass(frozen=True)
class Link:
    """How the device is reached."""

    tcp: str
    serial: str
    baud: int
    parity: str
    stop: int
    unit: int
    table: str
    period: float
    timeout: int


@dataclass(frozen=True)
class Weight:
    """Where the weight stands, and how it is read."""

    register: int
    kind: str
    order: str
    unit: str
    scale: Decimal


@dataclass(frozen=True)
class RegisterMap:
    """The registers and coils of a device."""

    link: Link
    weight: Weight
    strobe: int
    limits: Range
    state: int | None
    values: dict[str, str]
    gate: int | None
    pulse: float
    reject: int | None
    advice: int | None

    def first(self) -> int:
        """The first register that is read."""
        return min(self.registers())

    def count(self) -> int:
        """How many registers are read."""
        return max(self.registers()) - self.first() + 1

    def registers(self) -> list[int]:
        """Each register that is read."""
        first, words = self.weight.register, TYPES[self.weight.kind][0]
        return [
            *range(first, first + words),
            self.strobe,
            *(one for one in (self.state, self.reject) if one is not None),
        ]


def link_of(table: Table) -> Link:
    """How a device is reached."""
    keys = {"tcp", "serial", "baud", "parity", "stop", "unit", "table", "period", "timeout"}
    only(table, keys)
    tcp, serial = text_of(table, "tcp", ""), text_of(table, "serial", "")
    need(bool(tcp) != bool(serial), "`tcp` or `serial` is needed, and not both")
    if tcp:
        address_of(tcp)
    return Link(
        tcp,
        serial,
        baud_of(table, 19_200),
        choice_of(table, "parity", "E", ("N", "E", "O")),
        number_of(table, "stop", 1, 1, 2),
        number_of(table, "unit", 1, 0, MOST_UNIT),
        choice_of(table, "table", "input", ("input", "holding")),
        seconds_of(table, "period", 0.005),
        number_of(table, "timeout", 1, 1, MOST_TIMEOUT),
    )


def place_of(table: Table, key: str = "register") -> int:
    """The number of a register or a coil."""
    return number_of(table, key, None, 0, WORD - 1)


def weight_of(table: Table) -> Weight:
    """Where the weight stands."""
    only(table, {"register", "type", "order", "unit", "scale"})
    scale = real_of(table, "scale", 1, "a number above 0", MOST_SCALE)
    need(scale > 0, "`scale` has to be a number above 0")
    return Weight(
        place_of(table),
        choice_of(table, "type", "int32", tuple(TYPES)),
        choice_of(table, "order", "big", ("big", "little")),
        choice_of(table, "unit", "g", tuple(UNITS)),
        Decimal(str(table.get("scale", 1))),
    )


def strobe_of(table: Table) -> tuple[int, Range]:
    """The register that counts packs, and what it counts from and to."""
    only(table, {"register", "first", "last"})
    first = number_of(table, "first", 0, 0, WORD - 1)
    last = number_of(table, "last", WORD - 1, 0, WORD - 1)
    need(first < last, "`first` is below `last`")
    return place_of(table), Range(first, last)


def values_of(table: Table) -> dict[str, str]:
    """What the values of the register of a state mean."""
    for value in table:
        fits = value.isascii() and value.isdecimal() and str(int(value)) == value
        need(fits and int(value) < WORD, f"`{value}` is no value of a register")
    values = states_of(table)
    need(WEIGHT in values.values(), "no value means a weight")
    return values


def state_of(table: Table) -> tuple[int, dict[str, str]]:
    """The register of a state, and what its values mean."""
    only(table, {"register", "values"})
    return place_of(table), part_of(table, "values", values_of)


def coil_of(table: Table) -> tuple[int, float]:
    """The coil of the gate, and how long it is set."""
    only(table, {"coil", "pulse"})
    return place_of(table, "coil"), seconds_of(table, "pulse", 0.05)


def register_of(table: Table) -> int:
    """The register of a part that has nothing else."""
    only(table, {"register"})
    return place_of(table)


def map_of(table: Table) -> RegisterMap:
    """The map of a table that was read."""
    need_kind(table, "modbus")
    only(table, {"modbus", "weight", "strobe", "state", "gate", "reject", "filler"})
    strobe, limits = part_of(table, "strobe", strobe_of)
    state, values = any_part_of(table, "state", state_of) or (None, {})
    gate, pulse = any_part_of(table, "gate", coil_of) or (None, 0.05)
    made = RegisterMap(
        part_of(table, "modbus", link_of),
        part_of(table, "weight", weight_of),
        strobe,
        limits,
        state,
        values,
        gate,
        pulse,
        any_part_of(table, "reject", register_of),
        any_part_of(table, "filler", register_of),
    )
    need_apart(made)
    return made


def need_apart(made: RegisterMap) -> None:
    """The registers of a map can be read at once, and none has two meanings."""
    need(made.count() <= MOST_WORDS, f"the registers are over {MOST_WORDS} apart")
    taken: set[int] = set()
    for register in made.registers():
        need(register < WORD, f"register {register} is behind the last one")
        need(register not in taken, f"register {register} has two meanings")
        taken.add(register)
    is_spoiled = made.link.table == "holding" and made.advice in taken
    need(not is_spoiled, f"register {made.advice} is read, and [filler] would write it")


def is_map(table: Table) -> bool:
    """Whether a table is a map for Modbus, and no table of a device's lines."""
    return "modbus" in table


def load_map(name: str) -> RegisterMap:
    """The map at a path."""
    path, table = find(name)
    return named(path, lambda: map_of(table))


def device_behind(made: RegisterMap) -> Device:
    """A device without lines, for the engine that counts its readings."""
    return Device("modbus", "", made.weight.unit, Frame(b"", b"\n", False, 1), (), made.limits)


class Registers:
    """Turns polls of a device's registers into readings."""

    def __init__(self, made: RegisterMap, engine: Engine) -> None:
        self.map = made
        self.engine = engine
        self.strobe: int | None = None
        self.rejects: int | None = None
        self.is_back = False

    def word(self, words: list[int], register: int) -> int:
        """The word of a register."""
        return words[register - self.map.first()]

    def cut(self) -> None:
        """The link broke off: packs that come meanwhile are gone."""
        self.is_back = self.strobe is not None

    def take(self, words: list[int]) -> list[Reading | Note]:
        """What a poll says, beside the one before it."""
        strobe = self.word(words, self.map.strobe)
        before, self.strobe = self.strobe, strobe
        was_away, self.is_back = self.is_back, False
        counter = self.engine.counter
        assert counter is not None
        if before is None:
            counter.pass_over(strobe)
            return []
        if strobe == before:
            return []
        if strobe == self.map.limits.first and strobe != counter.after(before):
            counter.begin(strobe)
            return self.engine.note(
                Note("anew", f"the strobe began anew after {before}: not weighed")
            )
        if was_away:
            counter.begin(strobe)
            count = counter.between(before, strobe)
            return self.engine.note(Note("skip", f"{count} came while the link was away", count))
        return self.engine.take(self.reading(words, strobe))

    def reading(self, words: list[int], strobe: int) -> Reading | Note:
        """The reading of a poll with a new strobe."""
        shown = " ".join(f"{word:04x}" for word in words).encode()
        if self.map.state is not None:
            value = str(self.word(words, self.map.state))
            means = self.map.values.get(value, "form")
            if means != WEIGHT:
                return left_out(means, shown, strobe)
        said = self.mass(words)
        return left_out(said, shown, strobe) if isinstance(said, str) else Reading(said, strobe)

    def mass(self, words: list[int]) -> int | str:
        """The weight in milligrams, or why there is none."""
        weight = self.map.weight
        count, spelled = TYPES[weight.kind]
        place = weight.register - self.map.first()
        taken = words[place : place + count]
        ordered = taken if weight.order == "big" else taken[::-1]
        (value,) = struct.unpack(f">{spelled}", struct.pack(f">{count}H", *ordered))
        if not math.isfinite(value):
            return "form"
        said = Decimal(value)
        steps = Decimal(round(said / weight.scale)) if weight.kind == "float32" else said
        mass = steps * weight.scale * UNITS[weight.unit]
        if mass != int(mass):
            return "fine"
        if mass < LEAST:
            return "negative" if mass < 0 else "light"
        return int(mass) if mass <= MOST else "heavy"

    def turned_aside(self, words: list[int]) -> int:
        """How many packs more than at the poll before were turned aside."""
        if self.map.reject is None:
            return 0
        count = self.word(words, self.map.reject)
        before, self.rejects = self.rejects, count
        rise = 0 if before is None else (count - before) % WORD
        # a counter that began anew tells nothing
        return rise if rise < WORD // 2 else 0


def recorded(made: RegisterMap, text: str) -> tuple[Engine, list[Reading | Note]]:
    """What recorded polls give: a line each, the words in hex, or `cut`."""
    engine = Engine(device_behind(made))
    registers = Registers(made, engine)
    told: list[Reading | Note] = []
    for line in text.splitlines():
        if line.strip() == CUT:
            registers.cut()
            continue
        try:
            words = [int(word, 16) for word in line.split()]
        except ValueError:
            words = []
        if len(words) == made.count() and all(0 <= word < WORD for word in words):
            told += registers.take(words)
        else:
            told += engine.note(left_out("form", line.encode()))
    return engine, told
