"""Tables of devices: how the lines of a weighing device are read. One file of TOML a device.

A table has `name`, `follows` (which published form it follows), `unit`, and

    [frame]    begin (absent: lines that end in LF), end, check ("xor"), longest (bytes)
    [[line]]   pattern (a regular expression for a whole line), means
    [counter]  first, last: what the device's counter begins with, and its greatest value

A pattern is a text, or a list of its pieces. It may have the groups sign, weight, unit, state,
counter and article. `means` is `weight`, or one of motion, invalid, overload, underload, word;
absent, the group `state` is looked up in the line's table `states`, whose values are these words.
The first pattern that fits decides.
"""

import os
import re
from dataclasses import dataclass

from hall_adapter.readings import MEANINGS, WEIGHT
from hall_adapter.tables import (
    BadTable,
    Table,
    any_part_of,
    bytes_of,
    choice_of,
    named,
    need,
    need_kind,
    number_of,
    only,
    part_of,
    read_table,
    tables_of,
    text_of,
)

FOLDER = os.path.join(os.path.dirname(os.path.dirname(os.path.realpath(__file__))), "devices")
# Milligrams in a unit.
UNITS = {"g": 1_000, "kg": 1_000_000, "mg": 1}
LONGEST_LINE = 64
# No line is longer, whatever a table says; and no device counts farther.
MOST_LINE, MOST_COUNTER = 4_096, 10**12
GROUPS = {"sign", "weight", "unit", "state", "counter", "article"}


@dataclass(frozen=True)
class Frame:
    """How a stream is cut into lines."""

    begin: bytes
    end: bytes
    check: bool
    longest: int


@dataclass(frozen=True)
class Form:
    """A form of a line: its pattern, and what it means or where its state says that."""

    pattern: re.Pattern[bytes]
    means: str | None
    states: dict[str, str]


@dataclass(frozen=True)
class Range:
    """What a counter begins with and its greatest value."""

    first: int
    last: int


@dataclass(frozen=True)
class Device:
    """The table of a device."""

    name: str
    follows: str
    unit: str
    frame: Frame
    forms: tuple[Form, ...]
    counter: Range | None


def frame_of(table: Table) -> Frame:
    """The frame of a table."""
    only(table, {"begin", "end", "check", "longest"})
    begin, end = bytes_of(table, "begin", ""), bytes_of(table, "end", "\n")
    check = choice_of(table, "check", "none", ("none", "xor"))
    need(len(begin) <= 1 and len(end) == 1, "`begin` and `end` have one character each")
    need(begin != end, "`begin` and `end` are one character")
    need(check == "none" or len(begin) == 1, "a check character needs `begin`")
    longest = number_of(table, "longest", LONGEST_LINE, 1, MOST_LINE)
    return Frame(begin, end, check == "xor", longest)


def pattern_of(table: Table) -> str:
    """The pattern of a line: a text, or a list of its pieces."""
    pieces = table.get("pattern")
    if not isinstance(pieces, list):
        return text_of(table, "pattern")
    need(all(isinstance(piece, str) for piece in pieces), "`pattern` is a text, or a list of texts")
    return "".join(pieces)


def states_of(table: Table) -> dict[str, str]:
    """What the states of a line, or the values of a register, mean."""
    for state, means in table.items():
        need(means in MEANINGS, f"`{state}` means {means}, and none of {', '.join(MEANINGS)}")
    return table


def form_of(table: Table) -> Form:
    """A form of a line."""
    only(table, {"pattern", "means", "states"})
    text = pattern_of(table)
    try:
        pattern = re.compile(text.encode("ascii"))
    except (re.error, UnicodeError, OverflowError) as error:
        raise BadTable(f"the pattern {text} is none: {error}") from None
    groups = set(pattern.groupindex)
    need(groups <= GROUPS, f"the pattern {text} has a group that means nothing")
    states = any_part_of(table, "states", states_of) or {}
    means = choice_of(table, "means", "", MEANINGS) if "means" in table else None
    words = [means] if means else list(states.values())
    need(means is not None or "state" in groups, f"{text}: `means` or the group `state` is needed")
    need(means is None or not states, f"{text}: `means` stands in place of [line.states]")
    need(bool(words), f"{text}: no state means anything")
    need(WEIGHT not in words or "weight" in groups, f"{text}: the group `weight` is missing")
    return Form(pattern, means, states)


def counter_of(table: Table) -> Range:
    """What a counter begins with, and its greatest value."""
    only(table, {"first", "last"})
    first = number_of(table, "first", None, 0, MOST_COUNTER)
    last = number_of(table, "last", None, 0, MOST_COUNTER)
    need(first < last, "a counter's `first` is below its `last`")
    return Range(first, last)


def device_of(table: Table) -> Device:
    """The device of a table that was read."""
    need_kind(table, "follows")
    only(table, {"name", "follows", "unit", "frame", "line", "counter"})
    forms = tuple(named("[[line]]", lambda: form_of(form)) for form in tables_of(table, "line"))
    weighing = [form for form in forms if WEIGHT in form_words(form)]
    need(bool(forms), "a table needs a [[line]]")
    need(bool(weighing), "no [[line]] means a weight")
    unit = choice_of(table, "unit", "g", tuple(UNITS))
    counter = any_part_of(table, "counter", counter_of)
    has_counter = all("counter" in form.pattern.groupindex for form in weighing)
    need(
        counter is None or has_counter,
        "with [counter] each line of a weight needs the group `counter`",
    )
    frame = part_of({"frame": {}, **table}, "frame", frame_of)
    return Device(text_of(table, "name"), text_of(table, "follows"), unit, frame, forms, counter)


def form_words(form: Form) -> list[str]:
    """What a form may mean."""
    return list(form.states.values()) if form.means is None else [form.means]


def path_of(name: str) -> str:
    """The path of a table: a path, or the name of one that comes with this package."""
    return name if "/" in name or name.endswith(".toml") else os.path.join(FOLDER, f"{name}.toml")


def find(name: str) -> tuple[str, Table]:
    """The path of a table or a map, and what stands there."""
    path = path_of(name)
    is_there = name == path or os.path.exists(path)
    need(is_there, f"there is no table {name}: it is one of {', '.join(names())}, or a path")
    return path, read_table(path)


def load(name: str, unit: str | None = None) -> Device:
    """The device of a table, by its name or its path; a unit stands in place of the table's."""
    path, table = find(name)
    if unit is not None:
        table["unit"] = unit
    return named(path, lambda: device_of(table))


def names() -> list[str]:
    """The names of the tables that come with this package."""
    return sorted(file[:-5] for file in os.listdir(FOLDER) if file.endswith(".toml"))
