#!/usr/bin/env python3
"""The text of books, beside their files and what was printed as they were made.

Of the worked days of tests/days/ and of books drawn at random (each by a script, then by two lanes
and two doors at once, then by a script again) `acts` is compared with what is spelled here from the
bytes of the rows, by docs/FORMATS.md. Then:
- the first column is what was answered: by hand in the worked days, by `run` in the drawn books;
- the third column as a script makes a book whose rows are the same but for who asked, answered by
  the first column; so does the text behind N rows over a book that holds the first N;
- the text behind N rows is the end of the whole text, and nothing behind the last row;
- `acts N` of a script and `/acts/N` of a hall, each asked behind the last row of the answer before,
  joined are the text, and `/rows/N` is the shipment of the rows of such an answer;
- `packs B N` of a script and `/batches/B/packs/N` of a hall, of each batch, are the records of the
  register (`export`) that have this batch and a number above N, 128 at most.
One drawn book is shipped with a caller that no hall of today names.

usage: tests/acts.py [BOOKS [SEED]]     (HALL names another program than the one that `./hall`
builds)"""

import csv
import os
import random
import re
import subprocess
import sys
import tempfile
from collections import Counter

from clients import (FIRST_DOOR, Desk, Hall, Lane, Link, Wrong, drawn_gross, free_ports, get, need,
                     plan)
from day_texts import read_days
from drawn_books import Draw, draw_book
from rows import SLOT, row_of, slots_behind

HERE = os.path.dirname(os.path.realpath(__file__))
SECONDS = 60
# What is asked of a drawn book before its lanes and doors work, and the desks that ask.
SETUP = ("@163 1 product P 250\n@163 2 tare P 2025-01-01 10\n@163 3 open L1 P\n@163 4 open L2 P\n")
DESKS = (110, 111)
HEAD, MARK = 16, b"AQHSHIP2"
# How many rows, or packs, an answer has at most.
PAGE = 128
NO_BATCH = "nobody"
PACK = ("pack {pack} batch {batch} lane {lane} gross {gross} net {net} {class} {signal} {pile}")
# A worked day whose script is longer is passed over: each of its rows waits for the disk.
LONGEST_DAY = 20_000
# Where a row says who asked it, and the number of a caller that is neither script, lane nor door.
BY = slice(6, 8)
OTHER_CALLER = 300
# The members of acts that are masses, volumes or densities, and the acts with another word in a
# script.
IN_THOUSANDTHS = {"nominal", "tare", "gross", "empty", "density"}
WORDS = {"product_ml": "product", "open_at": "open"}


def grams(thousandths):
    return f"{thousandths // 1000}.{thousandths % 1000:03}"


def caller(by):
    """Who asked, by the number in the row."""
    if by == 0:
        return "script"
    if by <= 16:
        return f"lane {by}"
    return f"door {by - 16}" if by <= 32 else f"caller {by}"


def line_of(slot):
    """The act of a row, as a script asks it."""
    row = row_of(slot)
    act = dict(row.act)
    kind = act.pop("act")
    if act.get("empty") == 0:
        del act["empty"]
    words = [grams(value) if name in IN_THOUSANDTHS else str(value) for name, value in act.items()]
    desk = [f"@{row.desk}", str(row.request)] if row.desk else []
    unit = ["ml"] * (kind == "product_ml")
    return " ".join([*desk, WORDS.get(kind, kind), *words, *unit])


def slots_of(book):
    slots = slots_behind(book, 0)
    return [slots[place : place + SLOT] for place in range(0, len(slots), SLOT)]


def without_caller(slot):
    return slot[: BY.start] + bytes(2) + slot[BY.stop :]


def batch_of(line):
    """The batch that an act opens, if any."""
    verb, *names = re.sub(r"^@\d+ \d+ ", "", line).split()
    return names[0] if verb == "open" else None


def above(packs, after):
    """Those of some packs whose numbers are above one, a page of them."""
    return [pack for pack in packs if number_of(pack) > after][:PAGE]


def number_of(pack):
    return int(pack.split()[1])


def shipment(slots, after):
    """A page of rows, as `ship` writes it of the list up to the last of them."""
    first = min(after, len(slots))
    rows = slots[first : first + PAGE]
    head = [count.to_bytes(4, "little") for count in (first + len(rows), first)]
    return b"".join([MARK, *head, *rows])


def answered(printed):
    """The answers of accepted acts, each once: a repeat prints its answer again."""
    answers = {}
    for line in printed.splitlines():
        if found := re.fullmatch(r"(\d+) (ok|pass|reject .*|released|withheld.*|empty)", line):
            answers.setdefault(int(found[1]), line)
    return answers


class Program:
    """The program over books in a folder."""

    def __init__(self, path, folder):
        self.path, self.folder = path, folder

    def ask(self, words, given=b""):
        """What a call writes, which ends well."""
        ran = subprocess.run([self.path, *words], input=given, capture_output=True, check=False,
                             timeout=SECONDS)
        need(ran.returncode == 0, f"{words} ends {ran.returncode}: {ran.stderr.decode()}")
        return ran.stdout

    def acts(self, book, after=0):
        words = [f"--after={after}"] if after else []
        return self.ask(["acts", f"--book={book}", *words]).decode("ascii")

    def replayed(self, book, lines):
        """What a script of these lines is answered over a book."""
        given = "".join(f"{line}\n" for line in lines).encode("ascii")
        return self.ask(["run", f"--book={book}"], given).decode("ascii")

    def check(self, book, answers, chance):
        """The text of a book, where all that is told at the head of this file holds of it."""
        slots = slots_of(book)
        text = self.acts(book)
        lines = text.splitlines()
        need(text == "".join(f"{line}\n" for line in lines) and len(lines) == len(slots),
             f"{len(lines)} lines of {len(slots)} rows")
        columns = [tuple(line.split("\t")) for line in lines]
        for number, (slot, found) in enumerate(zip(slots, columns), 1):
            need(len(found) == 3 and found[1:] == (caller(row_of(slot).by), line_of(slot)),
                 f"row {number} is {found}")
            need(found[0] == answers.get(number, found[0]) and found[0].split()[0] == str(number),
                 f"row {number} says {found[0]!r} and was told {answers.get(number)!r}")
        self.check_pages(book, lines, chance)
        packs = self.packs(book, [line for _, _, line in columns])
        self.check_script(book, lines)
        self.check_script_packs(book, packs, len(lines), chance)
        self.check_office(book, lines, slots, packs, chance)
        for held in {0, chance.randint(0, len(lines))}:
            self.check_replay(columns, slots, held)
        return columns

    def packs(self, book, acts):
        """The packs of each batch, as the register has them."""
        packs = {batch: [] for batch in map(batch_of, acts) if batch}
        register = self.ask(["export", f"--book={book}"]).decode("ascii")
        for pack in csv.DictReader(register.splitlines()):
            packs[pack["batch"]].append(PACK.format_map(pack))
        return packs

    def check_pages(self, book, lines, chance):
        for after in {1, chance.randint(0, len(lines) + 1), len(lines), len(lines) + 1, 1_000_000}:
            wanted = "".join(f"{line}\n" for line in lines[after:])
            need(self.acts(book, after) == wanted, f"behind row {after} there is another text")

    def check_script(self, book, lines):
        """The pages as a script asks for them, of which no row is made."""
        asked = [f"acts {after}" for after in range(0, len(lines) + PAGE, PAGE)]
        said = self.replayed(book, asked).splitlines()
        need(said[: len(lines)] == lines and said[len(lines)] == f"rows {len(lines)}",
             "a script's pages aren't the text")

    def check_script_packs(self, book, packs, rows, chance):
        """Pages of packs as a script asks for them, whole batches and drawn ones."""
        asked, wanted = [f"packs {NO_BATCH} 0"], [f"refused 14 BatchUnknown at {rows}"]
        for batch, all_of in packs.items():
            ends = [number_of(all_of[place]) for place in range(PAGE - 1, len(all_of), PAGE)]
            for after in [0, *ends, *chance.choices(range(rows + 2), k=3), 4_294_967_295]:
                asked.append(f"packs {batch} {after}")
                wanted += above(all_of, after)
        said = self.replayed(book, asked).splitlines()
        need(said[: len(wanted)] == wanted and said[len(wanted)] == f"rows {rows}",
             "a script's packs aren't those of the register")

    def check_office(self, book, lines, slots, packs, chance):
        """The pages at a door, and the shipments of their rows."""
        folder = tempfile.mkdtemp(dir=self.folder)
        port = free_ports()
        hall = Hall(self.path, folder, plan("", []), book=book, doors=1, port=port)
        hall.wait_for_door(port)
        with Link(port) as link:
            found, after = [], 0
            while page := self.asked(link, f"/acts/{after}", len(lines)).decode().splitlines():
                need(len(page) <= PAGE, f"a page of {len(page)} rows")
                found += page
                after = int(page[-1].split()[0])
            need(found == lines, "the pages at a door aren't the text")
            drawn = chance.randint(0, len(lines))
            for after in {0, drawn, len(lines), len(lines) + 1, 4_294_967_295}:
                need(self.asked(link, f"/rows/{after}", len(lines)) == shipment(slots, after),
                     f"the rows behind {after} are another shipment")
                text = "".join(f"{line}\n" for line in lines[after : after + PAGE])
                need(self.asked(link, f"/acts/{after}", len(lines)).decode() == text,
                     f"the page behind {after} is another one")
            self.check_office_packs(link, packs, len(lines))
        need(hall.wait(SECONDS) == 0, f"the hall ended badly: {hall.said()}")

    def check_office_packs(self, link, packs, rows):
        """The packs of each batch at a door, each page above the last pack of the one before."""
        for batch, all_of in packs.items():
            found, after = [], 0
            while page := self.asked(link, f"/batches/{batch}/packs/{after}", rows).decode():
                need(page.count("\n") <= PAGE, f"a page of {page.count(chr(10))} packs")
                found += page.splitlines()
                after = number_of(found[-1])
            need(found == all_of, f"the packs of {batch} at a door aren't those of the register")
        answer = link.ask(get(f"/batches/{NO_BATCH}/packs/0"))
        need(answer.status == 409 and answer.json()
             == {"at": rows, "kept": "", "name": "BatchUnknown", "refused": 14},
             f"packs of no batch are answered {answer}")
        answer = link.ask(get("/batches/B1/packs/0").replace(b"GET", b"POST"))
        need((answer.status, answer.allow) == (405, "GET"), f"a POST is answered {answer}")

    def asked(self, link, path, rows):
        """The body of what a door answers, at the length of the book."""
        answer = link.ask(get(path))
        need((answer.status, answer.row) == (200, rows), f"{path} is answered {answer}")
        return answer.body

    def check_replay(self, columns, slots, held):
        """A book of the first rows, and then the others."""
        again = f"{self.folder}/again"
        asked = [line for _, _, line in columns]
        told = [answer for answer, _, _ in columns]
        for begin, end in ((0, held), (held, len(columns))):
            said = self.replayed(again, asked[begin:end])
            need(said.splitlines()[: end - begin] == told[begin:end],
                 f"rows {begin + 1} to {end} are answered otherwise")
        need([without_caller(slot) for slot in slots] == slots_of(again),
             f"the book that was made again behind {held} rows has other rows")
        os.remove(again)


def volume(number):
    """Acts of a desk on goods by volume, with names of its own."""
    return [{"act": "product_ml", "name": f"juice{number}", "nominal": 1_000_000},
            {"act": "open_at", "batch": f"J{number}", "product": f"juice{number}",
             "density": 1_040_500},
            {"act": "open_at", "batch": f"K{number}", "product": f"juice{number}", "density": 1},
            {"act": "end", "batch": f"J{number}"}, {"act": "close", "batch": f"J{number}"}]


def serve(program, folder, book, chance):
    """Two lanes weigh, and a desk asks at each of two doors, at once."""
    port = free_ports()
    hall = Hall(program, folder, plan(SETUP, ["L1", "L2"]), book=book, lanes=2, doors=2, port=port)
    lanes = [Lane(hall, lane, [[drawn_gross(chance) for _ in range(chance.randint(0, 20))]])
             for lane in (1, 2)]
    for lane in lanes:
        lane.start()
    for place, number in enumerate(DESKS):
        desk = Desk(number, FIRST_DOOR + place)
        hall.wait_for_door(port + place)
        with Link(port + place) as link:
            for act in volume(number):
                request = desk.last + 1
                desk.hear(request, act, link.act(desk.note(request, act)))
    for lane in lanes:
        lane.finish()
    need(hall.wait(SECONDS) == 0, f"the hall ended badly: {hall.said()}")


def worked_columns(program, folder, day, chance):
    """The columns of a worked day, whose answers were written down by hand."""
    book = f"{folder}/book"
    subprocess.run([program.path, *day.words, f"--book={book}"], input=day.script.encode("ascii"),
                   stdout=subprocess.DEVNULL, stderr=subprocess.DEVNULL, check=False,
                   timeout=SECONDS)
    columns = program.check(book, answered(day.printed), chance)
    os.remove(book)
    return columns


def drawn_columns(program, folder, chance):
    """The columns of a drawn book."""
    book, drawn = f"{folder}/book", Draw(chance)
    printed = draw_book(program.path, book, drawn)
    if slots_of(book):
        serve(program.path, folder, book, chance)
        printed += draw_book(program.path, book, drawn)
        check_other_caller(program, folder, book, chance)
    columns = program.check(book, answered(printed), chance)
    os.remove(book)
    return columns


def check_other_caller(program, folder, book, chance):
    """A row that says that a caller asked whom no hall of today has."""
    shipped = bytearray(program.ask(["ship", f"--book={book}"]))
    shipped[HEAD + BY.start : HEAD + BY.stop] = OTHER_CALLER.to_bytes(2, "little")
    other = f"{folder}/other"
    program.ask(["follow", f"--book={other}"], bytes(shipped))
    columns = program.check(other, {}, chance)
    need(columns[0][1] == f"caller {OTHER_CALLER}", f"a foreign caller is {columns[0]}")
    os.remove(other)


def main():
    books = int(sys.argv[1]) if len(sys.argv) > 1 else 40
    seed = int(sys.argv[2]) if len(sys.argv) > 2 else random.randrange(10**6)
    path = os.environ.get("HALL", f"{HERE}/../hall")
    verbs, callers = Counter(), Counter()
    with tempfile.TemporaryDirectory() as folder:
        program = Program(path, folder)
        days = [day for day in read_days(f"{HERE}/days") if len(day.script) <= LONGEST_DAY]
        makers = [lambda chance, day=day: worked_columns(program, folder, day, chance)
                  for day in days]
        makers += [lambda chance: drawn_columns(program, folder, chance)] * books
        for place, make in enumerate(makers):
            for _, by, line in make(random.Random(f"{seed} {place}")):
                verbs[line.split()[2 if line.startswith("@") else 0]] += 1
                callers[by.split()[0]] += 1
    need(len(verbs) == 13, f"not each act came: {verbs}")
    print(f"{len(days)} days and {books} books: "
          + ", ".join(f"{many} {kind}" for kind, many in sorted(verbs.items())))
    print("by " + ", ".join(f"{kind} {many}" for kind, many in sorted(callers.items())))
    print(f"seed {seed}")


if __name__ == "__main__":
    try:
        main()
    except Wrong as wrong:
        sys.exit(f"acts: {wrong}")
