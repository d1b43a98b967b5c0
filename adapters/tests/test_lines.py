"""Bytes to readings, device by device. Weights are worked by hand from each form."""

import unittest

from hall_adapter.devices import device_of, load, names
from hall_adapter.lines import Engine
from hall_adapter.readings import Note, Reading

from drawn import DRAWN, checked, in_frame

# For each device lines, each with the milligrams that it is, or why it gives none.
LINES: dict[str, list[tuple[bytes, int | str]]] = {
    "garvens": [
        (checked("000001;RICE250 ;+0251.3;g ;V"), 251_300),
        (checked("000002;RICE250 ;+0251.3;g ;U"), 251_300),
        (checked("000003;RICE250 ;+0251.3;g ;M"), "motion"),
        (checked("000004;RICE250 ;-0001.3;g ;V"), "negative"),
        (checked("000005;RICE250 ;+9999.9;g ;H"), "overload"),
        (checked("000006;RICE250 ;+0251.3;kg;V"), "unit"),
        (checked("000007;RICE250 ;+0000.9;g ;V"), "light"),
        (checked("000008;RICE250 ;+0251.3;g ;X"), "form"),
        (checked("#ready"), "word"),
        (in_frame("000009;RICE250 ;+0251.3;g ;V") + b"?", "check"),
        (checked("000010;RICE250 ;+0251,3;g ;V"), "form"),
        (checked("000011;RICE250 ;+251.3;g ;V"), "form"),
        (checked("000012;RICE250 ;+0251.3;g ;V"), 251_300),
    ],
    "ishida": [
        (b"W,000001,000012,+0251.3,g,0\r\n", 251_300),
        (b"W,000002,000012,+0251.3,g,3\n", "invalid"),
        (b"W,000003,000012,+0251.3,kg,0\n", "unit"),
        (b"W,000004,000012,+0000.0,g,8\r\n", "underload"),
        (b"S,ready\r\n", "word"),
        (b"W,000005,000012,+251.3,g,0\r\n", "form"),
        (b"x" * 70 + b"\n", "long"),
    ],
    "bizerba": [
        (b"000001;000000000012;  0,2513;kg;OK\r\n", 251_300),
        (b"000002;000000000012; 10,0001;kg;OK\r\n", 10_000_100),
        (b"000003;000000000012; 30,0001;kg;OK\r\n", "heavy"),
        (b"000004;000000000012;- 0,0013;kg;OK\r\n", "negative"),
        (b"000005;000000000012;  0,2513;kg;DB\r\n", "invalid"),
        (b"000006;000000000012;  0,2513;g ;OK\r\n", "unit"),
        (b"000007;000000000012;  0.2513;kg;OK\r\n", "form"),
        (b"@ready\r\n", "word"),
    ],
    "ocs": [
        (in_frame("#000001 A0012 +0251,30 g  OK"), 251_300),
        (in_frame("#000002 A0012 +0251,30 g  DP"), "invalid"),
        (in_frame("#000003 A0012 +0251,30 g  OR"), "overload"),
        (b"\r\n" + in_frame("#000004 A0012 +0251,35 g  LO") + b"\r\n", 251_350),
        (b"noise" + in_frame("!ready")[:0], "form"),
        (in_frame("#000005 A0012 +0251,30 g  OK")[:-5], "cut"),
        (in_frame("#000006 A0012 +0251,30 g  HI"), 251_300),
    ],
    "minebea": [
        (b"000001+   251.30 g  \r\n", 251_300),
        (b"000002+ 30000.00 g  \r\n", 30_000_000),
        (b"000003+ 30000.01 g  \r\n", "heavy"),
        (b"000004-     1.30 g  \r\n", "negative"),
        (b"000005+   251.30    \r\n", "motion"),
        (b"000006+   251.30 kg \r\n", "unit"),
        (b"000007+   25.30 g  \r\n", "form"),
        (b"Stat      High    \r\n", "overload"),
    ],
}


def told_of(device: str, stream: bytes, piece: int) -> tuple[list[Reading], list[Note]]:
    """What a stream gives that comes in pieces, and then ends."""
    engine = Engine(load(device))
    told = []
    for place in range(0, len(stream), piece):
        told += engine.feed(stream[place : place + piece])
    told += engine.cut()
    readings = [one for one in told if isinstance(one, Reading)]
    return readings, [one for one in told if isinstance(one, Note)]


class Lines(unittest.TestCase):
    """Each device's lines."""

    def test_lines_of_each_device(self) -> None:
        for device, lines in LINES.items():
            stream = b"".join(line for line, _ in lines)
            masses = [mass for _, mass in lines if isinstance(mass, int)]
            reasons = [reason for _, reason in lines if isinstance(reason, str)]
            for piece in (1, 3, 7, 4096):
                readings, notes = told_of(device, stream, piece)
                with self.subTest(device=device, piece=piece):
                    self.assertEqual([one.mass for one in readings], masses)
                    kinds = [one.kind for one in notes if one.kind != "skip"]
                    self.assertEqual(kinds, reasons)

    def test_articles_and_counters(self) -> None:
        readings, _ = told_of("bizerba", LINES["bizerba"][0][0], 10)
        self.assertEqual(readings, [Reading(251_300, 1, "000000000012")])
        readings, _ = told_of("garvens", LINES["garvens"][0][0], 10)
        self.assertEqual(readings, [Reading(251_300, 1, "RICE250")])

    def test_a_pack_in_motion_is_reported_once(self) -> None:
        for device, (line, motion) in DRAWN.items():
            stream = line(1, 251_300) + line(2, 252_400, motion) + line(3, 253_500)
            readings, notes = told_of(device, stream, 4096)
            with self.subTest(device=device):
                self.assertEqual([one.mass for one in readings], [251_300, 253_500])
                self.assertEqual([(one.kind, one.count) for one in notes], [("motion", 1)])

    def test_a_stream_that_breaks_off(self) -> None:
        for device, (line, _) in DRAWN.items():
            whole = line(1, 251_300) + line(2, 252_400)
            table = load(device)
            for place in range(len(whole)):
                engine = Engine(table)
                told = [*engine.feed(whole[:place]), *engine.cut(), *engine.feed(line(3, 253_500))]
                masses = [one.mass for one in told if isinstance(one, Reading)]
                with self.subTest(device=device, place=place):
                    self.assertEqual(masses[-1], 253_500)
                    self.assertTrue(set(masses) <= {251_300, 252_400, 253_500})

    def test_a_byte_that_is_lost_or_too_many_is_no_other_weight(self) -> None:
        for device, (line, _) in DRAWN.items():
            whole = line(1, 251_300)
            table = load(device)
            for place in range(len(whole)):
                for stream in (
                    whole[:place] + whole[place + 1 :],
                    whole[:place] + whole[place : place + 1] + whole[place:],
                ):
                    engine = Engine(table)
                    told = [*engine.feed(stream + line(2, 252_400) + line(3, 252_400))]
                    masses = {one.mass for one in told if isinstance(one, Reading)}
                    with self.subTest(device=device, place=place):
                        self.assertTrue(masses <= {251_300, 252_400}, f"{stream!r} gave {masses}")
                        self.assertIn(252_400, masses)

    def test_a_changed_byte_under_a_check_character(self) -> None:
        line = DRAWN["garvens"][0]
        whole = line(1, 251_300)
        table = load("garvens")
        for place in range(len(whole)):
            for value in (2, 3, 10, 13, 32, 45, 46, 59, *range(48, 58), 255):
                changed = whole[:place] + bytes([value]) + whole[place + 1 :]
                engine = Engine(table)
                told = engine.feed(changed + line(2, 252_400))
                masses = [one.mass for one in told if isinstance(one, Reading)]
                self.assertTrue(set(masses) <= {251_300, 252_400}, f"{changed!r} gave {masses}")

    def test_a_pattern_that_takes_anything_in(self) -> None:
        # as somebody may change a table; what isn't digits there is no weight, and no number
        table = {"name": "n", "follows": "f", "counter": {"first": 0, "last": 999}}
        form = {"pattern": "(?P<counter>.{3}) (?P<weight>.+)", "means": "weight"}
        for text, said in (
            (b"001 251.3", 251_300),
            (b"002 +251,3", 251_300),
            (b"003 -251.3", "negative"),
            (b" 4  251.3 ", 251_300),
            (b"005 25 .3", "form"),
            (b"006 1e3", "form"),
            (b"007 NaN", "form"),
            (b"008 Infinity", "form"),
            (b"009 1e999999999", "form"),
            (b"010 \xb2\xb3", "form"),
            (b"0x1 251.3", "form"),
            (b"1_1 251.3", "form"),
            (b"012 1_000", "form"),
            (b"013 0.0000000000001", "form"),
        ):
            [one] = Engine(device_of({**table, "line": [form]})).feed(text + b"\r\n")
            with self.subTest(text=text):
                self.assertEqual(one.mass if isinstance(one, Reading) else one.kind, said)

    def test_a_stream_without_ends_is_told(self) -> None:
        # as at another speed: a pack's line is 30 bytes of something
        for device in ("ishida", "bizerba", "minebea", "sics"):
            engine = Engine(load(device))
            told = [one for _ in range(100) for one in engine.feed(b"\xf0\x86" * 15)]
            with self.subTest(device=device):
                self.assertEqual({one.kind for one in told if isinstance(one, Note)}, {"long"})
                self.assertIn(len(told), (3, 4))
                # its end comes at last, and a good line behind it
                self.assertEqual(engine.feed(b"\xf0\r\n"), [])
                [one] = engine.feed(LINES[device][0][0] if device in LINES else b"S S 251.30 g\n")
                self.assertIsInstance(one, Reading)

    def test_memory_is_bounded(self) -> None:
        for device in names():
            engine = Engine(load(device))
            for _ in range(100):
                engine.feed(b"\x02" + b"9" * 1000)
            self.assertLess(len(engine.framer.held), 1200, device)


if __name__ == "__main__":
    unittest.main()
