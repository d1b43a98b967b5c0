"""The steps of the tables: each follows the one before, so that alembic finds one newest form."""

import re
import unittest
from pathlib import Path

VERSIONS = Path(__file__).parent.parent / "hall_archive" / "migrations" / "versions"
STEP = re.compile(r'^(?:down_)?revision = (?:"(\d{4})"|None)$', re.MULTILINE)


class Migrations(unittest.TestCase):
    def test_each_follows_the_one_before(self) -> None:
        before = None
        for file in sorted(VERSIONS.glob("*.py")):
            revision, down = STEP.finditer(file.read_text("utf-8"))
            self.assertEqual(revision.group(1), file.name[:4])
            self.assertEqual(down.group(1), before, file.name)
            before = revision.group(1)


if __name__ == "__main__":
    unittest.main()
