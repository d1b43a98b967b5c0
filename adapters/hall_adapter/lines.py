"""The engine: bytes of any device to readings, by the device's table.

`Framer` cuts a stream into lines, `say` gives what a line says, and `Engine` does both and looks at
the device's counter. Nothing here reads or writes.
"""

import functools
import operator
import re
from collections import Counter as Tally
from decimal import Decimal

from hall_adapter.counters import PackCounter
from hall_adapter.devices import UNITS, Device, Form, Frame
from hall_adapter.readings import REASONS, WEIGHT, Note, Reading, spell

# In milligrams: what may be a pack.
LEAST, MOST = 1_000, 30_000_000
# How much of a line is shown.
SHOWN = 64
# A stream without line ends is told once in so many bytes.
TELL_ENDLESS = 1_024
# What a weight and a counter look like, whatever the pattern of a table takes in.
WEIGHED = re.compile(r"[+-]?\d{1,12}(?:[.,]\d{1,12})?", re.ASCII)
COUNTED = re.compile(r"\d{1,15}", re.ASCII)


def left_out(reason: str, line: bytes, counter: int | None = None) -> Note:
    """The note on a line that gave no weight."""
    shown = ascii(line[:SHOWN].decode("latin-1"))
    return Note(reason, f"{REASONS[reason]}: {shown}", counter=counter)


class Framer:
    """Cuts a stream into lines, as they come in pieces."""

    def __init__(self, frame: Frame) -> None:
        self.frame = frame
        self.held = b""
        # whether a line's end is still to come that was told to be too long, and how many bytes of
        # it were dropped since
        self.too_long = False
        self.dropped_bytes = 0

    def feed(self, piece: bytes) -> list[bytes | Note]:
        """The lines that are whole now, and notes on what is none."""
        self.held += piece
        found: list[bytes | Note] = []
        while (line := self.framed() if self.frame.begin else self.ended()) is not None:
            found.append(line)
        return found

    def cut(self) -> list[Note]:
        """The stream broke off: what is held of a line is none."""
        rest, self.held = self.held.strip(b"\r\n"), b""
        was_told, self.too_long = self.too_long, False
        return [left_out("cut", rest)] if rest and not was_told else []

    def ended(self) -> bytes | Note | None:
        """The first line, where lines only have an end."""
        line, end, rest = self.held.partition(self.frame.end)
        if not end:
            return self.endless() if len(line) > self.frame.longest else None
        self.held = rest
        if self.too_long:
            self.too_long = False
            return self.ended()
        return left_out("long", line) if len(line) > self.frame.longest else line.rstrip(b"\r")

    def endless(self) -> Note | None:
        """More came than a line has, and no end yet. A stream that has none, as at another speed, is
        told now and then."""
        line, self.held = self.held, b""
        was_told, self.too_long = self.too_long, True
        self.dropped_bytes += len(line)
        if was_told and self.dropped_bytes < TELL_ENDLESS:
            return None
        self.dropped_bytes = 0
        return left_out("long", line)

    def framed(self) -> bytes | Note | None:
        """The first line between its beginning and its end; blanks and line ends in between are
        nothing."""
        place = self.held.find(self.frame.begin)
        before = self.held if place < 0 else self.held[:place]
        if before.strip(b"\r\n "):
            # a beginning that is still to come ends what is none
            if place < 0 and len(before) <= self.frame.longest:
                return None
            self.held = self.held[len(before) :]
            return left_out("form", before)
        self.held = self.held[len(before) :]
        end = self.held.find(self.frame.end, 1)
        again = self.held.find(self.frame.begin, 1)
        if 0 < again and (again < end or end < 0):
            return self.dropped("cut", again)
        if end < 0:
            return self.dropped("long", len(self.held)) if self.is_long() else None
        return self.checked(end) if self.frame.check else self.taken(end + 1, end)

    def is_long(self) -> bool:
        """Whether more is held than a line has."""
        return len(self.held) > self.frame.longest + 2

    def dropped(self, reason: str, count: int) -> Note:
        """Drops so many bytes, for a reason."""
        line, self.held = self.held[:count], self.held[count:]
        return left_out(reason, line)

    def taken(self, count: int, end: int) -> bytes:
        """Takes so many bytes, and gives the line between its beginning and its end."""
        line, self.held = self.held[1:end], self.held[count:]
        return line

    def checked(self, end: int) -> bytes | Note | None:
        """The line, where the character after its end is the exclusive or of its bytes behind the
        beginning, its end among them."""
        if len(self.held) <= end + 1:
            return None
        said = self.held[end + 1]
        if said == functools.reduce(operator.xor, self.held[1 : end + 1]):
            return self.taken(end + 2, end)
        # where the check character was lost the next line begins there
        is_lost = self.held[end + 1 : end + 2] == self.frame.begin
        return self.dropped("check", end + (1 if is_lost else 2))


def milligrams(text: str, unit: str) -> int | None:
    """The whole milligrams of a weight, or nothing where it has digits below one."""
    mass = Decimal(text.replace(",", ".")) * UNITS[unit]
    return int(mass) if mass == mass.to_integral_value() else None


def counted(fields: dict[str, str]) -> int | None:
    """The device's number of a pack."""
    counter = fields.get("counter", "").strip()
    return int(counter) if COUNTED.fullmatch(counter) else None


def weigh(fields: dict[str, str], unit: str) -> Reading | str:
    """The reading of a line that means a weight, or why it gives none. A pattern may take more in
    than digits: then the line is none."""
    weight = fields["weight"].strip()
    has_counter = "counter" not in fields or counted(fields) is not None
    if not WEIGHED.fullmatch(weight) or not has_counter:
        return "form"
    if fields.get("sign", "").strip() == "-" or weight.startswith("-"):
        return "negative"
    if fields.get("unit", unit).strip() != unit:
        return "unit"
    mass = milligrams(weight, unit)
    if mass is None:
        return "fine"
    if not LEAST <= mass <= MOST:
        return "light" if mass < LEAST else "heavy"
    return Reading(mass, counted(fields), fields.get("article", "").strip() or None)


def meaning(form: Form, fields: dict[str, str]) -> str:
    """What a line of a form means; a state that the table doesn't know makes it no line."""
    state = fields.get("state", "").strip()
    return form.means if form.means is not None else form.states.get(state, "form")


def say(device: Device, line: bytes) -> Reading | Note:
    """What a line of a device says."""
    for form in device.forms:
        if found := form.pattern.fullmatch(line):
            fields = {key: text.decode("latin-1") for key, text in found.groupdict(b"").items()}
            means = meaning(form, fields)
            said = weigh(fields, device.unit) if means == WEIGHT else means
            return left_out(said, line, counted(fields)) if isinstance(said, str) else said
    return left_out("form", line)


class Engine:
    """Turns the bytes of a device into readings, each pack's once."""

    def __init__(self, device: Device) -> None:
        self.device = device
        self.framer = Framer(device.frame)
        self.counter = PackCounter(device.counter) if device.counter else None
        # how often each kind of note came, and how many readings were handed on
        self.notes: Tally[str] = Tally()
        self.handed = 0

    def feed(self, piece: bytes) -> list[Reading | Note]:
        """What a piece of the stream says."""
        return self.told(self.framer.feed(piece))

    def cut(self) -> list[Reading | Note]:
        """The stream broke off, and may go on with another line."""
        return self.told(list(self.framer.cut()))

    def told(self, lines: list[bytes | Note]) -> list[Reading | Note]:
        """What these lines say, counted."""
        told: list[Reading | Note] = []
        for line in lines:
            told += self.looked_at(say(self.device, line) if isinstance(line, bytes) else line)
        return told

    def take(self, one: Reading | Note) -> list[Reading | Note]:
        """What becomes of a reading that was read in another way, as over Modbus."""
        return self.looked_at(one)

    def note(self, note: Note) -> list[Reading | Note]:
        """Counts a note that was made elsewhere."""
        self.notes[note.kind] += note.count
        return [note]

    def looked_at(self, one: Reading | Note) -> list[Reading | Note]:
        """What becomes of a reading where the device counts its packs."""
        told: list[Reading | Note] = [one]
        if self.counter and one.counter is not None:
            if isinstance(one, Reading):
                told = self.counter.take(one)
            else:
                self.counter.pass_over(one.counter)
        for each in told:
            if isinstance(each, Note):
                self.notes[each.kind] += each.count
            else:
                self.handed += 1
        return told

    def left(self) -> int:
        """How many lines gave no reading."""
        return sum(count for kind, count in self.notes.items() if kind in REASONS)


def describe(reading: Reading) -> str:
    """A reading as a text for people."""
    counter = "" if reading.counter is None else f", counter {reading.counter}"
    article = "" if reading.article is None else f", article {reading.article}"
    return f"{spell(reading.mass)} g{counter}{article}"
