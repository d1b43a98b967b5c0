"""What `hall-adapter check` says of recordings that give nothing, and how long one may be."""

import os
import tempfile
import time
import unittest

from hall_adapter.check import check
from hall_adapter.devices import names

from drawn import ishida

MAP = '[modbus]\ntcp = "a:1"\n[weight]\nregister = 0\n[strobe]\nregister = 2\n'
# Lines of a day, and the seconds of a processor in which they are looked at.
DAY, SECONDS = 60_000, 8.0


def said_of(name: str, stream: bytes) -> tuple[list[str], bool]:
    """The last two lines of what is said, and whether the table fits."""
    said, is_fit = check(name, stream)
    return said[-2:], is_fit


class Nothing(unittest.TestCase):
    """Recordings without a weight."""

    def test_nothing_was_recorded(self) -> None:
        wanted = ["no weight: nothing was recorded, or no pack came", "0 weights; nothing else"]
        for name in names():
            self.assertEqual(said_of(name, b""), (wanted, False))

    def test_another_device_or_speed(self) -> None:
        for name in names():
            for stream in (b"\xf0\x86" * 200, b"hello\r\n", b"\x00"):
                [why, _], is_fit = said_of(name, stream)
                with self.subTest(name=name, stream=stream):
                    self.assertIn("no line is of this device", why)
                    self.assertFalse(is_fit)

    def test_no_pack(self) -> None:
        [why, counts], is_fit = said_of("sics", b"S D   128.00 g\r\nS +\r\n")
        self.assertIn("none that is a pack's", why)
        self.assertEqual((counts, is_fit), ("0 weights; motion 1, overload 1", False))

    def test_polls_of_another_map(self) -> None:
        with tempfile.TemporaryDirectory() as room:
            path = os.path.join(room, "map.toml")
            with open(path, "w", encoding="ascii") as made:
                made.write(MAP)
            [why, counts], _ = said_of(path, b"0000 09d1 0007 0000\n" * 2)
            self.assertIn("no line has the 3 words in hex that this map reads", why)
            self.assertEqual(counts, "0 weights; form 2")
            [why, _], _ = said_of(path, b"cut\n0000 09d1 0007\n")
            self.assertIn("nothing was recorded, or no pack came", why)


class Long(unittest.TestCase):
    """A recording of a day."""

    def test_it_takes_no_longer_than_its_lines(self) -> None:
        stream = b"".join(ishida(place, 250_000 + place % 900 * 100) for place in range(1, DAY))
        began = time.process_time()
        said, is_fit = check("ishida", stream)
        self.assertLess(time.process_time() - began, SECONDS)
        self.assertEqual((len(said), is_fit), (DAY, True))


if __name__ == "__main__":
    unittest.main()
