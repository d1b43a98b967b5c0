"""Worked days as texts: the files of tests/days/, for tests/worked.py.

A line `-- TITLE` begins a day. A line of a day is one of
- `hall run ..`, the words of the run where they aren't `hall run`,
- `setup`, which stands for the five lines of SETUP,
- `COMMAND => ANSWER`; with `{A B C}` in the command it stands for a command each, and with
  `N x ` before it for as many repeats, answered with one row after another,
- a comment of the script, which begins with `#`,
- `= ` and the fifteen numbers of a summary, which may be an answer too,
- one more line that is printed.
"""

import re
from pathlib import Path
from typing import NamedTuple

# A batch A of a product of 250 g runs on lane 1. A tare of 10 g makes the limits of the gross
# 251.000 g and 242.000 g.
SETUP = """\
day 2025-03-03 => 1 ok
product rice250 250 => 2 ok
tare rice250 2025-03-03 10 => 3 ok
open A rice250 => 4 ok
start 1 A => 5 ok"""

SUMMARY = """\
rows {}
readings {} gross {}
passed {} gross {}
rejected {} gross {}
sampled {} gross {}
voided {} gross {}
batches running {} ended {} drawn {} closed {}"""


class DayText(NamedTuple):
    """A day: its title, the words of the run, the script, and what is printed."""

    title: str
    words: list
    script: str
    printed: str


def summary(numbers):
    """The text of a summary of fifteen numbers."""
    return SUMMARY.format(*numbers.split())


def answer_text(answer):
    return summary(answer[2:]) if answer.startswith("= ") else answer


def commands_of(command):
    """The commands that a line stands for."""
    times, repeated = re.fullmatch(r"(?:(\d+) x )?(.*)", command).groups()
    found = re.search(r"\{(.*)\}", repeated)
    named = [repeated.replace(found[0], word) for word in found[1].split()] if found else [repeated]
    return named * int(times or 1)


def answers_of(answer, count):
    """As many answers, with one row after another."""
    if count == 1:
        return [answer_text(answer)]
    row, word = answer.split(" ", 1)
    return [f"{int(row) + place} {word}" for place in range(count)]


def read_day(text):
    """A day from its lines."""
    title, *lines = text.splitlines()
    words, script, printed = ["run"], [], []
    if lines[0].startswith("hall "):
        words = lines.pop(0).split()[1:]
    for line in "\n".join(lines).replace("setup\n", f"{SETUP}\n", 1).splitlines():
        command, arrow, answer = line.partition(" =>")
        if arrow:
            commands = commands_of(command)
            script += commands
            printed += answers_of(answer[1:], len(commands)) if answer else []
        elif line.startswith("#"):
            script.append(line)
        elif line:
            printed.append(answer_text(line))
    return DayText(title, words, "".join(f"{line}\n" for line in script),
                   "".join(f"{line}\n" for line in printed))


def read_days(folder):
    """The days of all files of a folder."""
    for path in sorted(Path(folder).glob("*.txt")):
        for text in re.split(r"^-- ", path.read_text(encoding="ascii"), flags=re.M)[1:]:
            yield read_day(text)
