"""Files that people spoil: tables, maps and settings, each with values that are none of its own, are
taken or refused with a sentence, and nothing else is raised."""

import copy
import glob
import random
import tomllib
import unittest
from collections.abc import Callable, Iterator
from typing import Any

from hall_adapter.devices import device_of, names, path_of
from hall_adapter.lane_settings import lane_settings_of
from hall_adapter.register_maps import map_of
from hall_adapter.settings import settings_of
from hall_adapter.tables import BadTable, read_table
from hall_adapter.watch_settings import watched_of
from test_pages import PAGES, TOP, blocks, text_of

SPOILED = 10_000
VALUES: list[Any] = [
    True,
    0,
    1,
    -1,
    7,
    70_000,
    10**30,
    1.5,
    -0.1,
    1e300,
    float("inf"),
    float("nan"),
]
VALUES += ["", "x", "\n", "\0", "é€", "a:1", "http://[", [], ["a"], [""], [1], [[]], [{}]]
VALUES += [{}, {"a": 1}, {"a": {}}]
# All that a line may have, of which a page shows a part.
LINE = """
name = "line-1"
lane = 1
device = "garvens"
source = {tcp = "192.0.2.7:3001", settle = 0.3}
hall = {port = 9001, gate = "gate-1.txt", within = 0.5}
gate = {device = "/dev/ttyUSB1", text = "O"}
reject = {earliest = 0.1, latest = 0.2, pulses = ["gpiomon"], stops = true}
filler = {packs = 20, every = 20, target = 262.0, band = 0.5, file = "filler"}
desk = {url = "http://127.0.0.1:8471", number = 163}
metrics = {listen = "127.0.0.1:9471"}
mqtt = {host = "127.0.0.1", port = 1883, topic = "hall", user = "u", password_file = "p"}
alarm = {command = ["mail"], every = 60}
"""
Read = Callable[[dict[str, Any]], object]


def reader_of(table: dict[str, Any]) -> Read:
    """What reads a table of the pages."""
    if "modbus" in table:
        return map_of
    if "book" in table:
        return watched_of
    return lane_settings_of if "scale" in table else settings_of


def good_ones() -> Iterator[tuple[Read, dict[str, Any]]]:
    """The tables that come with the package, and those of the pages."""
    for name in names():
        yield device_of, read_table(path_of(name))
    for path in [*PAGES, *glob.glob(f"{TOP}/docs/LINES.md")]:
        for block in blocks(text_of(path), "toml"):
            table = tomllib.loads(block)
            if {"modbus", "book", "scale", "hall"} & set(table) and "follows" not in table:
                yield reader_of(table), table
    yield settings_of, tomllib.loads(LINE)


def places(table: Any, path: tuple[Any, ...] = ()) -> Iterator[tuple[Any, ...]]:
    """Where there is a value, at any depth."""
    if path:
        yield path
    keys: Any = ()
    if isinstance(table, dict):
        keys = list(table)
    elif isinstance(table, list):
        keys = range(len(table))
    for key in keys:
        yield from places(table[key], (*path, key))


def spoiled(table: dict[str, Any], draw: random.Random) -> dict[str, Any]:
    """A table in which up to three values are others, are gone, or are too many."""
    made = copy.deepcopy(table)
    for _ in range(draw.choice((1, 1, 1, 2, 3))):
        *path, key = draw.choice([*places(made), ("zz",)])
        parent: Any = made
        for one in path:
            parent = parent[one]
        if draw.randrange(3) == 0 and key != "zz":
            del parent[key]
        else:
            parent[key] = copy.deepcopy(draw.choice(VALUES))
    return made


class Refusals(unittest.TestCase):
    """Spoiled files."""

    def test_a_file_of_another_kind(self) -> None:
        kinds = {read: table for read, table in good_ones()}
        for read in kinds:
            for other, table in kinds.items():
                if read is not other:
                    with self.subTest(read=read.__name__, other=other.__name__):
                        with self.assertRaises(BadTable) as caught:
                            read(table)
                        self.assertIn("this holds ", str(caught.exception))

    def test_each_is_taken_or_refused_with_a_sentence(self) -> None:
        draw = random.Random(74)
        good = list(good_ones())
        for read, table in good:
            read(table)
        refused = 0
        for _ in range(SPOILED):
            read, table = draw.choice(good)
            made = spoiled(table, draw)
            with self.subTest(read=read.__name__, made=made):
                try:
                    read(made)
                except BadTable as bad:
                    refused += 1
                    self.assertGreater(len(str(bad).split()), 2)
        self.assertGreater(refused, SPOILED // 2)


if __name__ == "__main__":
    unittest.main()
