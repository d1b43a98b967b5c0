"""The rows of a book's file, read by docs/FORMATS.md and by nothing of the program.

An act has here the form in which a desk sends it: `{"act": "void", "pack": 6}`, without its desk
and its request. What a weighing was told stands beside it (`signal`).
"""

import hashlib
from datetime import date
from typing import NamedTuple

SLOT = 96
FIRST_DAY = date(1970, 1, 1).toordinal()
PRIORS = ("none", "opened", "stayed", "unknown")
SIGNALS = ("pass", "reject held", "reject full", "reject inadequate", "reject allowance")
MODES = ("", "keep", "destroy")
# Where a product has its unit, 1 by volume, and a batch its density, 0 by mass.
UNIT, DENSITY = 55, 80


class Row(NamedTuple):
    """An entry of the book."""

    number: int
    by: int
    desk: int
    request: int
    act: dict
    signal: str


def number(count):
    """A reader of a number of so many bytes."""
    return lambda row, place: int.from_bytes(row[place : place + count], "little")


def name(row, place):
    return row[place + 1 : place + 1 + row[place]].decode("ascii")


def day(row, place):
    return date.fromordinal(FIRST_DAY + number(4)(row, place)).isoformat()


def word(words):
    """A reader of one of these words by its code."""
    return lambda row, place: words[row[place]]


KINDS = {
    1: ("day", {"day": (14, day)}),
    2: ("product", {"name": (14, name), "nominal": (47, number(8))}),
    3: ("tare", {"product": (14, name), "day": (47, day), "tare": (51, number(4))}),
    4: ("open", {"batch": (14, name), "product": (47, name)}),
    5: ("start", {"lane": (14, number(1)), "batch": (15, name)}),
    6: ("weigh", {"lane": (14, number(1)), "gross": (15, number(4)), "prior": (19, word(PRIORS))}),
    7: ("stop", {"lane": (14, number(1)), "prior": (15, word(PRIORS))}),
    8: ("void", {"pack": (14, number(4))}),
    9: ("end", {"batch": (14, name)}),
    10: ("draw", {"batch": (14, name), "mode": (47, word(MODES)), "word": (48, number(8))}),
    11: ("measure", {"pack": (14, number(4)), "gross": (18, number(4)), "empty": (22, number(4))}),
    12: ("second", {"batch": (14, name), "word": (47, number(8))}),
    13: ("close", {"batch": (14, name)}),
}


def row_of(slot):
    """The entry that the bytes of a slot spell."""
    kind, fields = KINDS[slot[1]]
    act = {"act": kind} | {said: read(slot, place) for said, (place, read) in fields.items()}
    if kind == "product" and slot[UNIT]:
        act["act"] = "product_ml"
    if kind == "open" and (density := number(4)(slot, DENSITY)):
        act |= {"act": "open_at", "density": density}
    signal = SIGNALS[slot[20]] if kind == "weigh" else ""
    return Row(number(4)(slot, 2), number(2)(slot, 6), number(2)(slot, 8), number(4)(slot, 10),
               act, signal)


def slots_behind(path, row):
    """The bytes of the open slots of a book behind a row."""
    with open(path, "rb") as book:
        book.seek(SLOT * (row + 1))
        rest = book.read()
    whole = 0
    while whole + SLOT <= len(rest) and rest[whole] == 1:
        whole += SLOT
    return rest[:whole]


def rows_behind(path, row):
    """The entries of a book behind a row, each at its number."""
    slots = slots_behind(path, row)
    rows = [row_of(slots[place : place + SLOT]) for place in range(0, len(slots), SLOT)]
    for expected, found in enumerate(rows, row + 1):
        if found.number != expected:
            raise ValueError(f"slot {expected} has the row {found.number}")
    return rows


def digest(path, rows):
    """What tells whether the first rows of a book are still the same bytes."""
    with open(path, "rb") as book:
        book.seek(SLOT)
        return hashlib.blake2b(book.read(SLOT * rows)).hexdigest()


class Piles:
    """How many packs lie in each pile, and their grosses, row by row."""

    NAMES = ("passed", "rejected", "sampled", "voided")

    def __init__(self):
        self.packs = {}
        self.unsettled = {}
        self.sums = {pile: [0, 0] for pile in self.NAMES}

    def put(self, pack, pile, gross):
        self.packs[pack] = (pile, gross)
        self.sums[pile][0] += 1
        self.sums[pile][1] += gross

    def move(self, pack, pile):
        before, gross = self.packs[pack]
        self.sums[before][0] -= 1
        self.sums[before][1] -= gross
        self.put(pack, pile, gross)

    def settle(self, lane, prior):
        """The lane's next act says what its gate did at the pack before."""
        pack = self.unsettled.pop(lane, None)
        if prior == "stayed":
            self.move(pack, "rejected")
        elif prior == "unknown":
            self.move(pack, "voided")

    def add(self, row):
        """Takes an entry in. Draws are left out: these scripts draw no samples."""
        act = row.act
        if act["act"] in ("weigh", "stop"):
            self.settle(act["lane"], act["prior"])
        if act["act"] == "weigh":
            passed = row.signal == "pass"
            self.put(row.number, "passed" if passed else "rejected", act["gross"])
            if passed:
                self.unsettled[act["lane"]] = row.number
        elif act["act"] == "void":
            self.move(act["pack"], "voided")

    def told(self):
        """The number and the grosses of each pile."""
        return tuple(tuple(self.sums[pile]) for pile in self.NAMES)
