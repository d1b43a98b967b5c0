"""What the texts of the office and of other parts say, as numbers. Nothing here reads or writes.

The texts are those of docs/FORMATS.md: the summary, the line of a lane, the sheet of a batch; and
the books of the archive, as it answers them."""

import json
import re
from dataclasses import dataclass

LINE = re.compile(r"(\w+) (\d+)(?: gross (\S+))?")
COPIED = re.compile(r"book (\d+) rows, copy (\d+)")
LISTED = re.compile(r"^rows (\d+) left \d+$", re.MULTILINE)
# One pack in forty may lack more than the tolerable error.
ALLOWED = 40
GRAMS_OF_LITRE = 1000.0
ESTABLISHED = "01"


@dataclass(frozen=True)
class Sheet:
    """What stands of a batch: its state, and the population beside the nominal quantity."""

    state: str
    population: int
    margin: float | None
    allowance_left: int
    inadequate: int
    is_held: bool

    def forecast(self) -> dict[str, bool]:
        """Which parts of the packers' part would hold now."""
        return {
            "average": self.margin is None or self.margin >= 0,
            "allowance": self.allowance_left >= 0,
            "inadequate": self.inadequate == 0,
        }


def summary_of(text: str) -> tuple[dict[str, int], dict[str, int]]:
    """Rows, readings and piles; and batches by their state."""
    lines = text.splitlines()
    counts = {found[1]: int(found[2]) for line in lines if (found := LINE.fullmatch(line))}
    states: dict[str, int] = {}
    for line in lines:
        word, *pairs = line.split()
        if word == "batches":
            states = dict(zip(pairs[::2], map(int, pairs[1::2])))
    return counts, states


def batch_of_lane(text: str) -> str | None:
    """The batch that a lane weighs."""
    words = text.split()
    return words[3] if len(words) > 3 and words[2] == "batch" else None


def after(words: list[str], word: str) -> str:
    """The word after another one."""
    return words[words.index(word) + 1]


def sheet_of(text: str) -> Sheet:
    """The numbers of a sheet."""
    lines = {line.split()[0]: line.split() for line in text.splitlines() if line}
    head, population = lines["batch"], lines["population"]
    count, inadequate = int(population[1]), int(after(population, "inadequate"))
    mean = float(after(population, "net")) / count if count else 0.0
    if "density" in head:
        mean *= GRAMS_OF_LITRE / float(after(head, "density"))
    return Sheet(
        lines["state"][1],
        count,
        mean - float(after(head, "nominal")) if count else None,
        count // ALLOWED - int(after(population, "nonstandard")),
        inadequate,
        lines["held"][1] == "yes",
    )


def behind_of(text: str) -> int | None:
    """How many rows a copy lacks, by the last line of a standby that says so."""
    found = [COPIED.fullmatch(line) for line in text.splitlines()]
    last = [one for one in found if one][-1:]
    return int(last[0][1]) - int(last[0][2]) if last else None


def rows_of_list(text: str) -> int | None:
    """How many rows the list of what is in force has taken in."""
    found = LISTED.search(text)
    return int(found[1]) if found else None


@dataclass(frozen=True)
class Followed:
    """How far the archive has followed a book: its rows, when it was last known to have all of
    them, in seconds of the clock, and whether it refuses the book."""

    rows: int
    asked: float | None
    is_refused: bool


def followed_of(text: str, book: str) -> Followed | None:
    """What the archive says of a book, in its list of books."""
    for one in json.loads(text):
        if one["name"] == book:
            asked = one["asked"]
            since = None if asked is None else int(asked) / 1000
            return Followed(int(one["rows"]), since, bool(one["refused"]))
    return None


def connections_of(table: str, ports: list[int]) -> dict[int, int]:
    """How many connections there are at each port, by the system's table of TCP sockets."""
    counts = {port: 0 for port in ports}
    for line in table.splitlines()[1:]:
        words = line.split()
        port = int(words[1].rpartition(":")[2], 16)
        if port in counts and words[3] == ESTABLISHED:
            counts[port] += 1
    return counts
