"""Serial lines: a pseudo-terminal is opened again and again, whatever parity its settings say; what
isn't a line, and a line that can't be set, is refused."""

import os
import pty
import termios
import tty
import unittest

from hall_adapter.serial_lines import need_kept, open_line
from hall_adapter.settings import source_of


class Lines(unittest.TestCase):
    """Serial lines."""

    def test_a_line_is_opened_again(self) -> None:
        device, line = pty.openpty()
        self.addCleanup(os.close, device)
        self.addCleanup(os.close, line)
        tty.setraw(line)
        for bits, parity, stop in ((7, "E", 1), (7, "O", 2), (8, "N", 1), (8, "E", 1)) * 2:
            said = {"serial": os.ttyname(line), "bits": bits, "parity": parity, "stop": stop}
            with self.subTest(said=said):
                os.write(device, b"of old packs")
                opened = open_line(source_of(said))
                os.write(device, b"W,000001")
                self.assertEqual(os.read(opened, 100), b"W,000001")
                os.close(opened)

    def test_what_is_no_line(self) -> None:
        for path in ("/dev/null", "/nowhere", "/"):
            with self.subTest(path=path), self.assertRaises((OSError, termios.error)) as caught:
                open_line(source_of({"serial": path}))
            self.assertIsInstance(caught.exception.args[1], str)

    def test_a_driver_that_keeps_no_parity(self) -> None:
        asked = termios.CS7 | termios.PARENB | termios.CREAD
        need_kept(asked, asked | termios.CLOCAL)
        for got in (termios.CS8 | termios.PARENB, termios.CS7, asked | termios.PARODD):
            with self.assertRaises(OSError) as caught:
                need_kept(asked, got)
            self.assertIn("bits, parity and stop", str(caught.exception))


if __name__ == "__main__":
    unittest.main()
