"""The pages of docs/lines: what each says that a recording gives is what it gives, and its settings
and maps are good."""

import glob
import os
import re
import tempfile
import tomllib
import unittest

from hall_adapter.check import check
from hall_adapter.devices import names
from hall_adapter.register_maps import map_of
from hall_adapter.settings import settings_of
from hall_adapter.watch_settings import watched_of

TOP = os.path.dirname(os.path.dirname(os.path.dirname(os.path.abspath(__file__))))
PAGES = sorted(glob.glob(f"{TOP}/docs/lines/*.md"))
MAP = "/etc/hall/line-1.map.toml"


def text_of(path: str) -> str:
    """The text of a page."""
    with open(path, encoding="utf-8") as source:
        return source.read()


def blocks(text: str, kind: str) -> list[str]:
    """The blocks of one kind."""
    return re.findall(rf"^```{kind}\n(.*?)^```$", text, re.MULTILINE | re.DOTALL)


def stream_of(block: str) -> bytes:
    """What a recording has: the signs that stand in angle brackets are one byte each."""
    plain = block.replace("<STX>", "<02>").replace("<ETX>", "<03>").replace("\n", "\r\n")
    pieces = re.split(r"<([0-9A-F]{2})>", plain)
    return b"".join(
        bytes([int(piece, 16)]) if place % 2 else piece.encode("ascii")
        for place, piece in enumerate(pieces)
    )


class Pages(unittest.TestCase):
    """The pages."""

    def test_each_device_has_its_page(self) -> None:
        told = [
            re.findall(r"^\$ hall-adapter check (\S+)", one, re.MULTILINE)
            for one in map(text_of, PAGES)
        ]
        self.assertEqual(sorted(sum(told, [])), sorted([*names(), MAP]))
        page = text_of(f"{TOP}/docs/LINES.md")
        for path in PAGES:
            self.assertIn(f"(lines/{os.path.basename(path)})", page)

    def test_what_a_recording_gives(self) -> None:
        for path in PAGES:
            text = text_of(path)
            recorded, said = blocks(text, "recorded"), blocks(text, "console")
            self.assertEqual(len(recorded), len(said))
            for stream, lines in zip(recorded, said):
                head, *wanted = lines.splitlines()
                name = head.split()[3]
                with self.subTest(path=path, name=name):
                    self.assertEqual(self.given(text, name, stream), wanted)

    def given(self, text: str, name: str, block: str) -> list[str]:
        """What `check` says of a recording; a map is the page's own."""
        if name != MAP:
            return check(name, stream_of(block))[0]
        with tempfile.NamedTemporaryFile("w", suffix=".toml") as made:
            made.write(blocks(text, "toml")[0])
            made.flush()
            return check(made.name, block.encode())[0]

    def test_settings_and_maps_are_good(self) -> None:
        for path in PAGES:
            for block in blocks(text_of(path), "toml"):
                table = tomllib.loads(block)
                with self.subTest(path=path):
                    if "modbus" in table:
                        map_of(table)
                    else:
                        settings_of(table)

    def test_the_settings_of_metrics_are_good(self) -> None:
        found = [tomllib.loads(block) for block in blocks(text_of(f"{TOP}/docs/LINES.md"), "toml")]
        [table] = [table for table in found if "doors" in table]
        self.assertEqual(watched_of(table).archive, "https://hall.example/archive")


if __name__ == "__main__":
    unittest.main()
