#!/usr/bin/env python3
"""Draws books of a day and more at random, through the script line by line, and compares what
`list` says of each with what is counted here from the rows of its file, by docs/RULES.md and
FORMATS.md. Then a list of the first rows is carried on by the acts behind them
(deploy/in_force.py), and is the same as what is counted behind each row.

usage: tests/list.py [BOOKS [SEED]]     (HALL names another program than the one that `./hall`
builds)"""

import os
import random
import subprocess
import sys
import tempfile

from drawn_books import SECONDS, Draw, draw_book
from rows import Piles, rows_behind

HERE = os.path.dirname(os.path.realpath(__file__))
sys.path.insert(0, f"{HERE}/../deploy")

from in_force import InForce, Tare, Unclear  # noqa: E402

STATES = {"end": "ended", "draw": "drawn", "close": "closed"}
UNITS = {"product": "g", "product_ml": "ml"}


def grams(milligrams):
    return f"{milligrams // 1000}.{milligrams % 1000:03}"


class Listing:
    """What is in force, counted row by row."""

    def __init__(self):
        self.day = None
        self.products, self.tares, self.batches = {}, [], {}
        self.lanes, self.desks, self.packs = {}, {}, {}
        self.piles = Piles()
        self.rows = 0

    def add(self, row):
        act, kind = row.act, row.act["act"]
        self.rows = row.number
        self.piles.add(row)
        if row.desk:
            self.desks[row.desk] = row.request
        if kind == "day":
            self.day = act["day"]
        elif kind in UNITS:
            self.products[act["name"]] = (act["nominal"], UNITS[kind])
        elif kind == "tare":
            self.tares.append((act["product"], act["day"], act["tare"]))
        elif kind in ("open", "open_at"):
            self.batches[act["batch"]] = [act["product"], "running"]
        elif kind in STATES:
            self.batches[act["batch"]][1] = STATES[kind]
        elif kind == "start":
            self.lanes[act["lane"]] = act["batch"]
        elif kind == "weigh":
            self.packs[row.number] = self.lanes[act["lane"]]
        elif kind == "stop":
            del self.lanes[act["lane"]]

    def tare(self, product, day):
        """The one that was put last for the greatest day that isn't after this one."""
        put = [(since, place, tare) for place, (of, since, tare) in enumerate(self.tares)
               if of == product and since <= day]
        return max(put)[2] if put else None

    def population(self, batch):
        return sum(pile == "passed" and self.packs[pack] == batch
                   for pack, (pile, _) in self.piles.packs.items())

    def text(self, limit):
        yield f"day {self.day or 'none'}"
        for product, (nominal, unit) in self.products.items():
            tare = self.tare(product, self.day)
            yield (f"product {product} nominal {grams(nominal)} {unit} "
                   f"tare {'none' if tare is None else grams(tare)}")
        for product, day, tare in self.tares:
            if day > self.day and self.tare(product, day) == tare:
                yield f"tare {product} from {day} {grams(tare)}"
        for batch, (product, state) in self.batches.items():
            yield (f"batch {batch} product {product} state {state} "
                   f"population {self.population(batch)}")
        for lane, batch in sorted(self.lanes.items()):
            yield f"lane {lane} batch {batch}"
        for desk, request in sorted(self.desks.items()):
            yield f"desk {desk} request {request}"
        yield f"rows {self.rows} left {max(0, limit - self.rows)}"


class Asked:
    """Answers what an act alone doesn't tell, and counts how often it was asked for the tares."""

    def __init__(self, listing, rows):
        self.listing, self.rows, self.times = listing, rows, 0

    def batch_of(self, pack):
        return self.listing.packs[pack]

    def tares(self, rows):
        self.times += 1
        return [Tare(act["product"], act["day"], grams(act["tare"]))
                for act in (row.act for row in self.rows[:rows]) if act["act"] == "tare"]


def carried_on(program, book, limit, chance):
    """Carries the list of some first rows on; how often it had to ask for all tares."""
    rows = rows_behind(book, 0)
    begun = chance.randint(0, len(rows))
    ran = subprocess.run([program, "acts", f"--book={book}", f"--after={begun}"], check=True,
                         capture_output=True, text=True, timeout=SECONDS)
    counted = Listing()
    asked = Asked(counted, rows)
    for row in rows[:begun]:
        counted.add(row)
    told = InForce.read("".join(f"{line}\n" for line in counted.text(limit)), limit)
    for row, line in zip(rows[begun:], ran.stdout.splitlines(), strict=True):
        told.take(line, asked)
        counted.add(row)
        wanted = "".join(f"{line}\n" for line in counted.text(limit))
        if told.text() != wanted:
            sys.exit(f"carried on from row {begun} by\n{line}\nit says\n{told.text()}"
                     f"and not\n{wanted}")
    try:
        told.take(f"{len(rows)} ok\tscript\tday 2030-01-01", asked)
        sys.exit(f"row {len(rows)} is taken twice")
    except Unclear:
        return asked.times


# What draws seldom come to, worked out by hand: a list, acts behind it, and the list then. Pack 8
# is of A; the tare of 2025-03-09 was 10 g once before, and is so again.
BEGUN = """day 2025-03-03
product P nominal 250.000 g tare 9.000
tare P from 2025-03-09 11.000
batch A product P state running population 3
lane 1 batch A
rows 9 left 91
"""
ACTS = ("10 pass\tlane 1\tweigh 1 262.000 stayed", "11 ok\tdoor 1\t@101 1 void 8",
        "12 ok\tlane 1\tstop 1 unknown")
TARES = ("tare P 2025-03-09 10.000", "tare P 2025-03-02 8.000")
THEN = """day 2025-03-03
product P nominal 250.000 g tare 8.000
tare P from 2025-03-09 10.000
tare P from 2025-03-09 10.000
batch A product P state running population 1
desk 101 request 1
rows 14 left 86
"""


class ByHand:
    """The book of these rows."""

    def batch_of(self, pack):
        return {8: "A"}[pack]

    def tares(self, rows):
        return [Tare("P", "2025-03-01", "9.000"), Tare("P", "2025-03-09", "10.000"),
                Tare("P", "2025-03-09", "11.000")]


def carried_by_hand(tares):
    told = InForce.read(BEGUN, 100)
    lines = [f"{row} ok\tscript\t{tare}" for row, tare in enumerate(tares, 13)]
    for line in (*ACTS, *lines):
        told.take(line, ByHand())
    if told.text() != THEN:
        sys.exit(f"carried on by hand it says\n{told.text()}and not\n{THEN}")


def compare(program, folder, chance):
    """A book, and what is said of it; how many lines that were, by their first words."""
    book = f"{folder}/book"
    draw_book(program, book, Draw(chance))
    listing = Listing()
    for row in rows_behind(book, 0):
        listing.add(row)
    limit = chance.choice((1, listing.rows or 1, listing.rows + 7, 1_000_000))
    told = subprocess.run([program, "list", f"--book={book}", f"--limit={limit}"], check=False,
                          capture_output=True, text=True, timeout=SECONDS)
    wanted = "".join(f"{line}\n" for line in listing.text(limit))
    if (told.stdout, told.returncode) != (wanted, 0):
        sys.exit(f"list says {told.returncode}\n{told.stdout}and not\n{wanted}")
    asked = carried_on(program, book, limit, chance)
    os.remove(book)
    return wanted.splitlines() + ["all_tares"] * asked


def main():
    books = int(sys.argv[1]) if len(sys.argv) > 1 else 200
    seed = int(sys.argv[2]) if len(sys.argv) > 2 else random.randrange(10**6)
    program = os.environ.get("HALL", f"{HERE}/../hall")
    counts = {}
    carried_by_hand(TARES)
    carried_by_hand(reversed(TARES))
    with tempfile.TemporaryDirectory() as folder:
        for book in range(books):
            for line in compare(program, folder, random.Random(f"{seed} {book}")):
                words = line.split()
                kind = f"{words[0]} {words[5]}" if words[0] == "batch" else words[0]
                counts[kind] = counts.get(kind, 0) + 1
    print(f"{books} books: " + ", ".join(f"{many} {kind}" for kind, many in sorted(counts.items())))
    print(f"seed {seed}")


if __name__ == "__main__":
    main()
