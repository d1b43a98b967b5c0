#!/usr/bin/env python3
"""Audits of a book that was changed at drawn bytes, reckoned by docs/FORMATS.md alone.

A book with a snapshot and one without are made by a script, and each turn changes one byte of a
copy: of a slot, of the closed gate behind the slots, of the snapshot's content, of its ends, of the
header; or the same byte of a slot and of the snapshot; or cuts the file. What `audit` prints, its
status, and that the file is as it was, are compared with what follows from the place that was
changed. The digest is that of Python.

usage: tests/audit.py [TURNS [SEED]]    (HALL names another program than the one `./hall` builds)
"""

import hashlib
import os
import random
import subprocess
import sys
import tempfile

HERE = os.path.dirname(os.path.realpath(__file__))
SLOT, HEADER, MARK, BLOCK_HEAD = 96, 96, 8, 2
CONTENT = SLOT - BLOCK_HEAD
OPEN, MARKED = 1, 1
PACKS = 400
wrong, compared, kinds = [], 0, {}


def compare(what, found, wanted):
    """Takes down what differs."""
    global compared
    compared += 1
    if found != wanted:
        wrong.append(what)
        print(f"{what}:\n  found  {found!r}\n  wanted {wanted!r}", flush=True)


def script():
    """A day of one batch, and what desks do."""
    lines = ["day 2025-03-03", "product P 250", "tare P 2025-03-03 10", "open B P", "start 1 B"]
    for pack in range(PACKS):
        lines.append(f"weigh 1 {259 + pack % 7}.{pack % 1000:03d} {'opened' if pack else 'none'}")
    return "\n".join([*lines, "stop 1 opened", "end B", ""]).encode()


def digest(slots):
    """The digest of the shipment of a book with these rows."""
    head = b"AQHSHIP2" + (len(slots) // SLOT).to_bytes(4, "little") + bytes(4)
    return hashlib.sha256(head + slots).hexdigest()


def dense(row):
    """The dense form of a row."""
    short = (row[1:2] + row[6:]).rstrip(b"\0")
    return bytes([len(short)]) + short


class Book:
    """The bytes of a book, and where its parts stand."""

    def __init__(self, data, rows):
        self.data, self.rows = data, rows
        self.slots = data[HEADER : HEADER + SLOT * rows]
        self.gate = HEADER + SLOT * rows
        self.snapshot = self.gate + SLOT
        self.forms = [dense(self.slots[SLOT * k : SLOT * (k + 1)]) for k in range(rows)]
        self.content = b"".join(self.forms)

    def place_in_snapshot(self, place):
        """Where a byte of the content stands in the file."""
        block, inside = divmod(place, CONTENT)
        return self.snapshot + SLOT * (block + 1) + BLOCK_HEAD + inside

    def row_of_content(self, place):
        """The row to whose form a byte of the content belongs."""
        for number, form in enumerate(self.forms, 1):
            if place < len(form):
                return number
            place -= len(form)
        raise ValueError(place)


def said(rows, beside, slots):
    return f"rows {rows} whole\nsnapshot {beside}\nsha256 {digest(slots)}\n".encode(), 0


def differs(slots, row, rows):
    return (f"slots {slots}\nsnapshot differs at row {row}\nsnapshot {rows}\n"
            f"damaged row {row}\n").encode(), 9


class Audits:
    """The program over changed copies of a book."""

    def __init__(self, program, folder):
        self.program, self.path = program, f"{folder}/changed"

    def audit(self, data, *words):
        """What is printed of a file with these bytes, and the status; the file must stay."""
        with open(self.path, "wb") as file:
            file.write(data)
        before = os.stat(self.path)
        done = subprocess.run([self.program, "audit", "--book", self.path, *words],
                              capture_output=True, timeout=60, check=False)
        after = os.stat(self.path)
        with open(self.path, "rb") as file:
            compare("the file", (file.read() == data, after.st_mtime_ns),
                    (True, before.st_mtime_ns))
        return done.stdout, done.returncode


def make(program, folder, text, name):
    path = f"{folder}/{name}"
    subprocess.run([program, "run", "--book", path], input=text, stdout=subprocess.DEVNULL,
                   check=True)
    with open(path, "rb") as file:
        return file.read()


def other(draw, byte):
    """Another byte."""
    return (byte + draw.randrange(1, 256)) % 256


def changed(data, *changes):
    data = bytearray(data)
    for place, byte in changes:
        data[place] = byte
    return bytes(data)


def turn(draw, book, audits):
    """Changes one thing of a book with a snapshot."""
    data, rows = book.data, book.rows
    kind = draw.choice(["slot", "gate", "content", "ends", "header", "mark", "both", "cut"])
    kinds[kind] = kinds.get(kind, 0) + 1
    if kind == "slot":
        place = draw.randrange(HEADER, book.gate)
        row = place // SLOT
        found = audits.audit(changed(data, (place, other(draw, data[place]))))
        # A slot that is changed so that it is still lawful lets the rows behind it stand or not:
        # how many slots are told is the program's to say, the row isn't.
        lines = found[0].split(b"\n")
        compare(f"slot byte {place}", (lines[1:], found[1]),
                ([f"snapshot differs at row {row}".encode(), f"snapshot {rows}".encode(),
                  f"damaged row {row}".encode(), b""], 9))
        compare(f"slots at {place}", int(lines[0].split()[1]) >= row - 1, True)
    elif kind == "gate":
        byte = other(draw, data[book.gate])
        wanted = said(rows, "same", book.slots)
        if byte == OPEN:
            wanted = (f"slots {rows}\nsnapshot same\ndamaged row {rows + 1}\n".encode(), 9)
        compare(f"gate {byte}", audits.audit(changed(data, (book.gate, byte))), wanted)
    elif kind == "content":
        at = draw.randrange(len(book.content))
        place = book.place_in_snapshot(at)
        changed_data = changed(data, (place, other(draw, data[place])))
        compare(f"content byte {at}", audits.audit(changed_data),
                differs(rows, book.row_of_content(at), rows))
    elif kind == "ends":
        place = draw.choice([book.snapshot, len(data) - SLOT]) + draw.randrange(SLOT)
        compare(f"end byte {place}", audits.audit(changed(data, (place, other(draw, data[place])))),
                said(rows, "none", book.slots))
    elif kind == "header":
        place = draw.choice([k for k in range(HEADER) if k != MARK])
        compare(f"header byte {place}",
                audits.audit(changed(data, (place, other(draw, data[place])))),
                (f"not a journal at {place}\n".encode(), 8))
    elif kind == "mark":
        compare("mark", audits.audit(changed(data, (MARK, other(draw, MARKED)))),
                said(rows, "none", book.slots))
    elif kind == "both":
        # The lowest byte of a weighing's gross mass, in its slot and in its form: still a lawful
        # row.
        row = draw.randrange(6, PACKS + 6)
        place = HEADER + SLOT * (row - 1) + 15
        byte = data[place] ^ 1
        at = sum(map(len, book.forms[: row - 1])) + 1 + 1 + (15 - 6)
        both = changed(data, (place, byte), (book.place_in_snapshot(at), byte))
        slots = both[HEADER : book.gate]
        compare(f"both in row {row}", audits.audit(both), said(rows, "same", slots))
        compare(f"another digest of row {row}", digest(slots) != digest(book.slots), True)
    else:
        size = draw.randrange(HEADER + 2, len(data))
        whole = min(rows, (size - HEADER) // SLOT)
        compare(f"cut at {size}", audits.audit(data[:size]),
                said(whole, "none", book.slots[: SLOT * whole]))


def main():
    turns = int(sys.argv[1]) if len(sys.argv) > 1 else 400
    seed = int(sys.argv[2]) if len(sys.argv) > 2 else random.randrange(1 << 32)
    print(f"seed {seed}", flush=True)
    draw = random.Random(seed)
    if "HALL" not in os.environ:
        subprocess.run([f"{HERE}/../hall", "run"], input=b"", stdout=subprocess.DEVNULL, check=True)
    program = os.environ.get("HALL", f"{HERE}/../crates/hall_cli/out/hall_cli")
    with tempfile.TemporaryDirectory() as folder:
        audits = Audits(program, folder)
        rows = script().count(b"\n")
        book = Book(make(program, folder, script(), "book"), rows)
        compare("the whole book", audits.audit(book.data), said(rows, "same", book.slots))
        compare("slots alone", audits.audit(book.data[: book.gate + 1]),
                said(rows, "none", book.slots))
        for first in (0, 1, 5, rows - 1, rows, rows + 1, 1_000_000):
            some = book.slots[: SLOT * min(first, rows)]
            whole = said(rows, "same", book.slots)[0].split(b"sha256")[0]
            compare(f"the first {first}", audits.audit(book.data, "--rows", str(first)),
                    (whole + f"sha256 {digest(some)}\n".encode(), 0))
        compare("no bytes", audits.audit(b""), said(0, "none", b""))
        for _ in range(turns):
            turn(draw, book, audits)
    print(f"{compared} compared, {len(wrong)} wrong; {kinds}")
    sys.exit(1 if wrong else 0)


main()
