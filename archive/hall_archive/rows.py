"""The rows of a book, as `hall acts` and `GET /acts/N` write them, and as the 96 bytes of the file.

docs/FORMATS.md has both ("The book as text", "The rows of a book"). Masses are in milligrams (mg),
volumes in microlitres, densities in mg a litre; days are counted from 1970-01-01."""

import re
import struct
from collections.abc import Callable
from datetime import date
from typing import NamedTuple

ROW_BYTES = 96
MAX_ROWS = 1_000_000
# The most lines of one answer of a door; an answer with so many may have more rows behind it.
PAGE_ROWS = 128
FIRST_DAY = date(1970, 1, 1).toordinal()
FIRST_DOOR, LAST_DOOR = 17, 32
PRIORS = ("none", "opened", "stayed", "unknown")
SIGNALS = ("pass", "reject held", "reject full", "reject inadequate", "reject allowance")
MODES = ("", "keep", "destroy")
NAME_BYTES = 32


class BadRow(ValueError):
    """A line that is none of the book as text, or bytes that are no shipment."""


class Day(NamedTuple):
    day: int


class Product(NamedTuple):
    name: str
    nominal: int
    is_volume: bool


class Tare(NamedTuple):
    product: str
    day: int
    tare: int


class Open(NamedTuple):
    batch: str
    product: str
    density: int


class Start(NamedTuple):
    lane: int
    batch: str


class Weigh(NamedTuple):
    lane: int
    gross: int
    prior: str


class Stop(NamedTuple):
    lane: int
    prior: str


class Void(NamedTuple):
    pack: int


class End(NamedTuple):
    batch: str


class Draw(NamedTuple):
    batch: str
    mode: str
    word: int


class Measure(NamedTuple):
    pack: int
    gross: int
    empty: int


class Second(NamedTuple):
    batch: str
    word: int


class Close(NamedTuple):
    batch: str


Act = (
    Day
    | Product
    | Tare
    | Open
    | Start
    | Weigh
    | Stop
    | Void
    | End
    | Draw
    | Measure
    | Second
    | Close
)


class Entry(NamedTuple):
    """A row of a book: its number, what it was told (`ok`, a signal, a verdict), who brought it
    (0 a script, 1 to 16 a lane, 17 to 32 a door), by which desk and request, and the act."""

    row: int
    told: str
    by: int
    desk: int
    request: int
    act: Act


# ---- words


def grams(milligrams: int) -> str:
    """A mass in grams, or a volume in millilitres, with three places."""
    sign, size = ("-", -milligrams) if milligrams < 0 else ("", milligrams)
    return f"{sign}{size // 1000}.{size % 1000:03}"


def milligrams(text: str) -> int:
    whole, part = text.split(".")
    if len(part) != 3:
        raise BadRow(f"{text} has not three places")
    return int(whole) * 1000 + int(part)


def day_text(day: int) -> str:
    return date.fromordinal(FIRST_DAY + day).isoformat()


def day_of(text: str) -> int:
    return date.fromisoformat(text).toordinal() - FIRST_DAY


def by_text(by: int) -> str:
    """Who brought a row, as the second column has it."""
    if by == 0:
        return "script"
    if by < FIRST_DOOR:
        return f"lane {by}"
    return f"door {by - FIRST_DOOR + 1}" if by <= LAST_DOOR else f"caller {by}"


def by_of(text: str) -> int:
    kind, _, number = text.partition(" ")
    first = {"script": 0, "lane": 0, "door": FIRST_DOOR - 1, "caller": 0}[kind]
    return first + int(number or 0)


# Who brings most rows, by the second column.
CALLERS = {by_text(by): by for by in range(LAST_DOOR + 1)}

# ---- lines


WEIGH_LINE = re.compile(
    r"([0-9]+) (pass|reject (?:held|full|inadequate|allowance))\t([a-z]+(?: [0-9]+)?)\t"
    r"weigh ([0-9]+) ([0-9]+)\.([0-9]{3}) (none|opened|stayed|unknown)"
)

READERS: dict[str, Callable[[list[str]], Act]] = {
    "day": lambda words: Day(day_of(words[0])),
    "product": lambda words: Product(words[0], milligrams(words[1]), words[2:] == ["ml"]),
    "tare": lambda words: Tare(words[0], day_of(words[1]), milligrams(words[2])),
    "open": lambda words: Open(words[0], words[1], milligrams(words[2]) if len(words) > 2 else 0),
    "start": lambda words: Start(int(words[0]), words[1]),
    "weigh": lambda words: Weigh(int(words[0]), milligrams(words[1]), words[2]),
    "stop": lambda words: Stop(int(words[0]), words[1]),
    "void": lambda words: Void(int(words[0])),
    "end": lambda words: End(words[0]),
    "draw": lambda words: Draw(words[0], words[1], int(words[2])),
    "measure": lambda words: Measure(
        int(words[0]), milligrams(words[1]), milligrams(words[2]) if len(words) > 2 else 0
    ),
    "second": lambda words: Second(words[0], int(words[1])),
    "close": lambda words: Close(words[0]),
}


def act_text(act: Act) -> str:
    """An act as the script has it, without its desk."""
    match act:
        case Day(day):
            return f"day {day_text(day)}"
        case Product(name, nominal, is_volume):
            return f"product {name} {grams(nominal)}{' ml' if is_volume else ''}"
        case Tare(product, day, tare):
            return f"tare {product} {day_text(day)} {grams(tare)}"
        case Open(batch, product, density):
            return f"open {batch} {product}{' ' + grams(density) if density else ''}"
        case Start(lane, batch):
            return f"start {lane} {batch}"
        case Weigh(lane, gross, prior):
            return f"weigh {lane} {grams(gross)} {prior}"
        case Stop(lane, prior):
            return f"stop {lane} {prior}"
        case Void(pack):
            return f"void {pack}"
        case End(batch):
            return f"end {batch}"
        case Draw(batch, mode, word):
            return f"draw {batch} {mode} {word}"
        case Measure(pack, gross, empty):
            return f"measure {pack} {grams(gross)}{' ' + grams(empty) if empty else ''}"
        case Second(batch, word):
            return f"second {batch} {word}"
        case Close(batch):
            return f"close {batch}"


def script_text(entry: Entry) -> str:
    """The third column: the act with its desk and request."""
    desk = f"@{entry.desk} {entry.request} " if entry.desk else ""
    return desk + act_text(entry.act)


def line_of(entry: Entry) -> str:
    """The line of an entry, without its LF."""
    return f"{entry.row} {entry.told}\t{by_text(entry.by)}\t{script_text(entry)}"


def read_line(line: str) -> Entry:
    """The entry of a line without its LF; BadRow where that line is none."""
    if found := WEIGH_LINE.fullmatch(line):
        row, told, by, lane, whole, part, prior = found.groups()
        caller = CALLERS.get(by)
        if caller is not None:
            weighed = Weigh(int(lane), int(whole + part), prior)
            return Entry(int(row), told, caller, 0, 0, weighed)
    try:
        entry = read_words(line)
    except (ValueError, IndexError, KeyError) as fault:
        raise BadRow(f"no line of a book: {line[:200]!r}") from fault
    if line_of(entry) != line:
        raise BadRow(f"no line of a book: {line[:200]!r}")
    return entry


def read_words(line: str) -> Entry:
    head, by, text = line.split("\t")
    row, told = head.split(" ", 1)
    words = text.split(" ")
    desk = request = 0
    if words[0].startswith("@"):
        desk, request = int(words[0][1:]), int(words[1])
        words = words[2:]
    return Entry(int(row), told, by_of(by), desk, request, READERS[words[0]](words[1:]))


def read_text(text: str, after: int) -> list[Entry]:
    """The entries behind row `after`, of a text of whole lines; their numbers have no gap."""
    if text and not text.endswith("\n"):
        raise BadRow("the last line isn't whole")
    entries = [read_line(line) for line in text.split("\n")[:-1]]
    for wanted, entry in enumerate(entries, after + 1):
        if entry.row != wanted:
            raise BadRow(f"row {entry.row} stands where row {wanted} is due")
    return entries


# ---- bytes

HEAD = struct.Struct("<BBIHHI")
WEIGHING = struct.Struct("<BBIHHIBIBB75x")
KINDS = (Day, Product, Tare, Open, Start, Weigh, Stop, Void, End, Draw, Measure, Second, Close)
KIND_OF = {kind: number for number, kind in enumerate(KINDS, 1)}
PRIOR_OF = {word: code for code, word in enumerate(PRIORS)}
SIGNAL_OF = {word: code for code, word in enumerate(SIGNALS)}


def name_bytes(name: str) -> bytes:
    return bytes([len(name)]) + name.encode("ascii").ljust(NAME_BYTES, b"\0")


def number_bytes(value: int, count: int) -> bytes:
    return value.to_bytes(count, "little")


def field_bytes(act: Act) -> bytes:
    """The fields of an act, from place 14 on."""
    match act:
        case Day(day):
            return number_bytes(day, 4)
        case Product(name, nominal, is_volume):
            return name_bytes(name) + number_bytes(nominal, 8) + bytes([is_volume])
        case Tare(product, day, tare):
            return name_bytes(product) + number_bytes(day, 4) + number_bytes(tare, 4)
        case Open(batch, product, density):
            return name_bytes(batch) + name_bytes(product) + number_bytes(density, 4)
        case Start(lane, batch):
            return bytes([lane]) + name_bytes(batch)
        case Stop(lane, prior):
            return bytes([lane, PRIOR_OF[prior]])
        case Void(pack):
            return number_bytes(pack, 4)
        case Draw(batch, mode, word):
            return name_bytes(batch) + bytes([MODES.index(mode)]) + number_bytes(word, 8)
        case Measure(pack, gross, empty):
            return b"".join(number_bytes(value, 4) for value in (pack, gross, empty))
        case Second(batch, word):
            return name_bytes(batch) + number_bytes(word, 8)
        case End(batch) | Close(batch):
            return name_bytes(batch)
        case Weigh(lane, gross, prior):
            return bytes([lane]) + number_bytes(gross, 4) + bytes([PRIOR_OF[prior]])


def weighing_bytes(row: int, by: int, lane: int, gross: int, prior: int, signal: int) -> bytes:
    """The 96 bytes of a weighing; `prior` and `signal` are places in PRIORS and SIGNALS."""
    return WEIGHING.pack(1, 6, row, by, 0, 0, lane, gross, prior, signal)


def bytes_of(entry: Entry) -> bytes:
    """The 96 bytes of a row, with its gate open."""
    act = entry.act
    if isinstance(act, Weigh):
        prior, signal = PRIOR_OF[act.prior], SIGNAL_OF[entry.told]
        return weighing_bytes(entry.row, entry.by, act.lane, act.gross, prior, signal)
    head = HEAD.pack(1, KIND_OF[type(act)], entry.row, entry.by, entry.desk, entry.request)
    return (head + field_bytes(act)).ljust(ROW_BYTES, b"\0")
