"""Registers to readings, by maps for Modbus. Words are worked by hand."""

import unittest
from typing import Any

from hall_adapter.readings import Reading
from hall_adapter.register_maps import map_of, recorded
from hall_adapter.tables import BadTable

MAP: dict[str, Any] = {
    "modbus": {"tcp": "127.0.0.1:502"},
    "weight": {"register": 10, "type": "int32", "scale": 0.1},
    "strobe": {"register": 12},
    "state": {"register": 13, "values": {"0": "weight", "1": "motion"}},
    "reject": {"register": 14},
}
# Registers that lie near the last one.
NEAR: dict[str, Any] = {"state": {"register": 65_531, "values": {"0": "weight"}}}
NEAR["reject"] = {"register": 65_532}


def told_of(text: str, **changed: object) -> list[str]:
    """What recorded polls give, each in a word or two."""
    _, told = recorded(map_of({**MAP, **changed}), text)
    return [
        f"{one.counter} {one.mass}" if isinstance(one, Reading) else f"{one.kind} {one.count}"
        for one in told
    ]


class Maps(unittest.TestCase):
    """Weight, strobe and state."""

    def test_a_pack_where_the_strobe_rises(self) -> None:
        # 251.3 g is 2513 steps, 0x09d1; 252.0 g is 2520, 0x09d8
        text = "0000 09d1 0005 0000 0000\n" * 2 + "0000 09d8 0006 0000 0000\n" * 3
        self.assertEqual(told_of(text), ["6 252000"])

    def test_missed_and_unstable_packs(self) -> None:
        text = "0000 09d1 0005 0000 0000\n0000 09d8 0008 0000 0000\n"
        text += "0000 09d8 0009 0001 0000\n0000 09d8 000a 0000 0000\n"
        self.assertEqual(told_of(text), ["skip 2", "8 252000", "motion 1", "10 252000"])

    def test_a_strobe_goes_round(self) -> None:
        text = "0000 09d1 fffe 0000 0000\n0000 09d1 ffff 0000 0000\n0000 09d8 0000 0000 0000\n"
        self.assertEqual(told_of(text), ["65535 251300", "0 252000"])

    def test_a_device_that_began_anew(self) -> None:
        text = "0000 09d1 0105 0000 0000\n0000 09d1 0000 0000 0000\n0000 09d8 0001 0000 0000\n"
        self.assertEqual(told_of(text), ["anew 1", "1 252000"])

    def test_packs_while_the_link_was_away_are_gone(self) -> None:
        text = "0000 09d1 0005 0000 0000\ncut\n0000 09d8 0008 0000 0000\n"
        self.assertEqual(told_of(text + "0000 09d9 0009 0000 0000\n"), ["skip 3", "9 252100"])

    def test_other_types(self) -> None:
        first, next_ = "0000 0000 0005 0000 0000\n", "{} 0006 0000 0000\n"
        little = {"register": 10, "type": "int32", "order": "little", "scale": 0.1}
        self.assertEqual(told_of(first + next_.format("09d1 0000"), weight=little), ["6 251300"])
        # 251.3 as a float of 32 bits is 0x437b4ccd
        real = {"register": 10, "type": "float32", "scale": 0.1}
        self.assertEqual(told_of(first + next_.format("437b 4ccd"), weight=real), ["6 251300"])
        self.assertEqual(told_of(first + next_.format("7fc0 0000"), weight=real), ["form 1"])
        # -1 g
        self.assertEqual(told_of(first + next_.format("ffff fff6")), ["negative 1"])

    def test_lines_that_are_none(self) -> None:
        self.assertEqual(told_of("0000 09d1\nxyz\n"), ["form 1", "form 1"])

    def test_faulty_maps(self) -> None:
        faulty: list[tuple[str, dict[str, Any]]] = [
            ("[modbus]: `tcp` or `serial`", {"modbus": {"tcp": "a:1", "serial": "/dev/x"}}),
            ("[modbus]: a is no HOST:PORT", {"modbus": {"tcp": "a"}}),
            ("[modbus]: `unit` has to be", {"modbus": {"tcp": "a:1", "unit": 256}}),
            ("[modbus]: `baud` is 9601", {"modbus": {"serial": "a", "baud": 9601}}),
            ("[modbus] has to be a table", {"modbus": "a:1"}),
            ("[weight]: `type` is int64", {"weight": {"register": 10, "type": "int64"}}),
            ("[weight]: `register` is missing", {"weight": {}}),
            ("[weight]: `scale` has to be", {"weight": {"register": 10, "scale": float("inf")}}),
            ("[weight]: `scale` has to be", {"weight": {"register": 10, "scale": 0}}),
            ("over 100 apart", {"strobe": {"register": 500}}),
            ("[strobe]: unknown key `lats`", {"strobe": {"register": 12, "lats": 9}}),
            ("register 11 has two meanings", {"strobe": {"register": 11}}),
            ("`0` means good", {"state": {"register": 13, "values": {"0": "good"}}}),
            ("`00` is no value", {"state": {"register": 13, "values": {"00": "weight"}}}),
            ("no value means a weight", {"state": {"register": 13, "values": {"0": "motion"}}}),
            ("[values] is missing", {"state": {"register": 13}}),
            ("[gate]: `coil` has to be", {"gate": {"coil": 65_536}}),
            ("[gate]: `pulse` has to be", {"gate": {"coil": 0, "pulse": 0}}),
            (
                "[filler] would write it",
                {"modbus": {"tcp": "a:1", "table": "holding"}, "filler": {"register": 10}},
            ),
        ]
        for said, changed in faulty:
            with self.subTest(said=said), self.assertRaises(BadTable) as caught:
                map_of({**MAP, **changed})
            self.assertIn(said, str(caught.exception))
        with self.assertRaises(BadTable) as caught:
            map_of({**MAP, "weight": {"register": 65_535}, "strobe": {"register": 65_530}} | NEAR)
        self.assertIn("register 65536 is behind the last one", str(caught.exception))


if __name__ == "__main__":
    unittest.main()
