"""Each command stands in the usage, in the man page and in docs/LINES.md, and none that isn't one; each
number for Prometheus is one that something gives, and each alarm stands in docs/LINES.md."""

import argparse
import glob
import os
import re
import unittest

from hall_adapter import __main__ as program
from hall_adapter.metrics import FAMILIES

TOP = os.path.dirname(os.path.dirname(os.path.dirname(os.path.abspath(__file__))))


def text_of(path: str) -> str:
    """The text of a file of the repository."""
    with open(os.path.join(TOP, path), encoding="utf-8") as source:
        return source.read()


def commands() -> set[str]:
    """The commands that the program takes."""
    for action in program.parser()._actions:
        if isinstance(action, argparse._SubParsersAction):
            return set(action.choices)
    return set()


class Commands(unittest.TestCase):
    """The commands."""

    def test_each_stands_everywhere(self) -> None:
        usage = re.findall(r"^  (\w+)  +", program.__doc__ or "", re.MULTILINE)
        usage += re.findall(r"^  (\w+) [A-Z]", program.__doc__ or "", re.MULTILINE)
        manual = text_of("deploy/hall-adapter.1")
        page = text_of("docs/LINES.md")
        self.assertEqual(set(usage), commands())
        self.assertEqual(set(re.findall(r"^\.It Cm (\w+)", manual, re.MULTILINE)), commands())
        self.assertEqual(set(re.findall(r"^\.Cm (\w+)$", manual, re.MULTILINE)), commands())
        said = re.findall(r"^\| `hall-adapter (\w+)", page, re.MULTILINE)
        self.assertEqual(set(said), commands())


class Alarms(unittest.TestCase):
    """The alarms for Prometheus."""

    def test_what_to_do_about_each(self) -> None:
        rules = re.findall(r"- alert: (\w+)", text_of("deploy/prometheus-rules.yml"))
        page = text_of("docs/LINES.md").split("What each alarm of the rules asks for:")[1]
        self.assertEqual(sorted(re.findall(r"`(Hall\w+)`", page)), sorted(rules))


class Numbers(unittest.TestCase):
    """The numbers for Prometheus."""

    def test_each_is_given_somewhere(self) -> None:
        given: set[str] = set()
        for path in glob.glob(f"{TOP}/adapters/hall_adapter/*.py"):
            if not path.endswith("/metrics.py"):
                given |= set(re.findall(r'"(hall_\w+)"', text_of(path)))
        self.assertEqual(given, set(FAMILIES))


if __name__ == "__main__":
    unittest.main()
