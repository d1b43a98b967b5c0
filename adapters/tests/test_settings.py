"""Settings of a line: which are good, and what is said of those that aren't."""

import unittest
from typing import Any

from hall_adapter.register_maps import map_of
from hall_adapter.settings import need_fit, settings_of
from hall_adapter.tables import BadTable
from hall_adapter.watch_settings import watched_of

GOOD: dict[str, Any] = {
    "name": "line-1",
    "lane": 1,
    "device": "garvens",
    "source": {"serial": "/dev/ttyUSB0"},
    "hall": {"port": 9001, "gate": "/run/hall-main/gate-1.txt"},
    "gate": {"command": ["true"]},
}


class Settings(unittest.TestCase):
    """Settings."""

    def test_good_ones(self) -> None:
        made = settings_of({**GOOD, "mqtt": {"host": "127.0.0.1"}, "alarm": {"command": ["mail"]}})
        self.assertEqual((made.within, made.alarm and made.alarm.every), (0.5, 60))
        self.assertEqual(made.broker and made.broker.topic, "hall/line-1")
        self.assertEqual(made.source and (made.source.baud, made.source.settle), (9_600, 0.0))

    def test_faulty_ones(self) -> None:
        faulty: list[tuple[str, dict[str, Any]]] = [
            ("unknown key `lnae`", {"lnae": 1}),
            ("`lane` has to be a whole number from 1 to 16", {"lane": 17}),
            ("`name` has to be a name", {"name": ""}),
            ("`device` or `map`", {"map": "m.toml"}),
            ("one of `serial`", {"source": {"serial": "a", "tcp": "b:1"}}),
            ("no HOST:PORT", {"source": {"tcp": "b"}}),
            ("no speed", {"source": {"serial": "a", "baud": 9601}}),
            ("`command` or `device`", {"gate": {"command": ["a"], "device": "b"}}),
            ("`command` has to be a list of texts", {"gate": {"command": "true"}}),
            ("`command` has to be a list of words", {"gate": {"command": []}}),
            ("`earliest` is before", {"reject": {"earliest": 2, "latest": 1, "pulses": ["a"]}}),
            ("needs `pulses`", {"reject": {"earliest": 1, "latest": 2}}),
            (
                "`packs` has to be a whole number from 1",
                {"filler": {"packs": 0, "target": 1, "band": 1}},
            ),
            ("`target` is missing", {"filler": {"packs": 9, "band": 1}}),
            ("`band` has to be grams", {"filler": {"packs": 9, "target": 1, "band": "1"}}),
            ("from 101 to 164", {"desk": {"url": "http://127.0.0.1:8471", "number": 7}}),
            ("no URL", {"desk": {"url": "127.0.0.1:8471", "number": 163}}),
            ("has no + or #", {"mqtt": {"host": "h", "topic": "hall/#"}}),
            ("has no + or #", {"name": "line #1", "mqtt": {"host": "h"}}),
            ("belong together", {"mqtt": {"host": "h", "user": "u"}}),
            ("`port` is missing", {"hall": {"gate": "g"}}),
            ("[hall]: `port` has to be", {"hall": {"gate": "g", "port": 70_000}}),
            ("[hall]: `within` has to be", {"hall": {"gate": "g", "port": 1, "within": True}}),
            ("[hall] has to be", {"hall": 7}),
        ]
        for said, changed in faulty:
            with self.subTest(said=said), self.assertRaises(BadTable) as caught:
                settings_of({**GOOD, **changed})
            self.assertIn(said, str(caught.exception))

    def test_what_belongs_to_a_map(self) -> None:
        made: dict[str, Any] = {
            "modbus": {"tcp": "127.0.0.1:502"},
            "weight": {"register": 0},
            "strobe": {"register": 2},
        }
        gate: dict[str, Any] = {"gate": {"coil": 0}}
        reject: dict[str, Any] = {"reject": {"register": 3}}
        here = {key: value for key, value in GOOD.items() if key in ("name", "lane", "hall")}
        line: dict[str, Any] = {**here, "map": "m.toml"}
        times: dict[str, Any] = {"earliest": 0.2, "latest": 0.4}
        command: dict[str, Any] = {"gate": GOOD["gate"]}
        pulses: dict[str, Any] = {"reject": {**times, "pulses": ["a"]}}
        good: list[tuple[dict[str, Any], dict[str, Any]]] = [
            (line, gate),
            ({**line, **command}, {}),
            ({**line, **pulses}, gate),
            ({**line, "reject": times}, {**gate, **reject}),
        ]
        for given, of_map in good:
            need_fit("line.toml", settings_of(given), map_of({**made, **of_map}))
        faulty: list[tuple[str, dict[str, Any], dict[str, Any]]] = [
            ("line.toml: nothing lets a pack out", line, {}),
            ("[gate] is the map's", {**line, **command}, gate),
            ("[reject] is missing", line, {**gate, **reject}),
            ("[reject] needs `pulses`", {**line, "reject": times}, gate),
            ("a register for it too", {**line, **pulses}, {**gate, **reject}),
        ]
        for said, given, of_map in faulty:
            with self.subTest(said=said), self.assertRaises(BadTable) as caught:
                need_fit("line.toml", settings_of(given), map_of({**made, **of_map}))
            self.assertIn(said, str(caught.exception))

    def test_what_is_watched(self) -> None:
        made = watched_of({"book": "main", "listen": "127.0.0.1:9470"})
        self.assertEqual((made.every, made.limit, made.doors), (5, 1_000_000, []))
        faulty: list[dict[str, Any]] = [
            {"doors": ["8471"]},
            {"listen": "9470"},
            {"copy": [{"name": "a"}]},
            {"copy": {"name": "a", "said": "b"}},
            {"disks": "/var/lib/hall"},
            {"archive": {"login": "a"}},
            {"archive": "https://hall.example/archive"},
            {"archive": {"url": "hall.example/archive"}},
            {"copy": [{"name": "a", "said": "b"}, {"name": "a", "said": "c"}]},
            {"url": "http://:8471"},
            {"lanes": 17},
        ]
        for changed in faulty:
            with self.subTest(changed=changed), self.assertRaises(BadTable):
                watched_of({"book": "main", "listen": "127.0.0.1:9470", **changed})


if __name__ == "__main__":
    unittest.main()
