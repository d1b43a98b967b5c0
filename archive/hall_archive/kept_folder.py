"""A month that was kept, in a folder: whether each file is as it was, and whether what is in
them holds together. It needs no database, no settings and no program."""

import glob
import hashlib
import io
import json
import os
import re
from typing import NamedTuple

from hall_archive import evidence, witness
from hall_archive.evidence import Record
from hall_archive.rows import KIND_OF, ROW_BYTES, Close

DIGESTS = "DIGESTS"
LINE = re.compile(r"([0-9a-f]{64})  ([^\n]+)\n")
PIECE = 1 << 20
CLOSE = KIND_OF[Close]
NAME_AT = 14


class Differs(Exception):
    """What of a folder isn't as it was kept; the text names it."""


class Held(NamedTuple):
    """What holds of a folder."""

    files: int
    books: int
    rows: int
    papers: int
    lines: int
    records: int

    def __str__(self) -> str:
        return (
            f"{self.files} files, {self.books} books of {self.rows} rows, {self.papers} papers,"
            f" {self.lines} lines of witnesses and {self.records} records of evidence hold"
        )


def digest_of(path: str) -> str:
    found = hashlib.sha256()
    with open(path, "rb") as file:
        while piece := file.read(PIECE):
            found.update(piece)
    return found.hexdigest()


def files_of(folder: str) -> list[str]:
    """All files of a folder but the list of digests, by their paths in it."""
    found = [
        os.path.relpath(os.path.join(place, name), folder)
        for place, _, names in os.walk(folder)
        for name in names
    ]
    return sorted(set(found) - {DIGESTS})


def write_digests(folder: str) -> str:
    """Writes the list of digests, as sha256sum does; its own digest."""
    text = "".join(f"{digest_of(f'{folder}/{path}')}  {path}\n" for path in files_of(folder))
    with open(f"{folder}/{DIGESTS}", "w", encoding="utf-8") as file:
        file.write(text)
        file.flush()
        os.fsync(file.fileno())
    return hashlib.sha256(text.encode()).hexdigest()


def read_digests(folder: str) -> dict[str, str]:
    try:
        with open(f"{folder}/{DIGESTS}", encoding="utf-8") as file:
            text = file.read()
    except (OSError, UnicodeDecodeError) as fault:
        raise Differs(f"{folder}/{DIGESTS} can't be read: {fault}") from fault
    found = LINE.findall(text)
    if "".join(f"{digest}  {path}\n" for digest, path in found) != text:
        raise Differs(f"{DIGESTS} is no list of digests")
    return {path: digest for digest, path in found}


def verify(folder: str) -> Held:
    """Holds all of it; Differs names the first that doesn't hold."""
    noted = read_digests(folder)
    there = files_of(folder)
    for path in sorted(set(noted) ^ set(there)):
        raise Differs(f"{path} {'is gone' if path in noted else 'was added'}")
    for path in there:
        if digest_of(f"{folder}/{path}") != noted[path]:
            raise Differs(f"{path} was changed")
    rows = papers = lines = 0
    books = sorted(glob.glob(f"{glob.escape(folder)}/books/*.ship"))
    for path in books:
        counts = hold_book(folder, os.path.basename(path).removesuffix(".ship"))
        rows, papers, lines = rows + counts[0], papers + counts[1], lines + counts[2]
    records = sum(map(hold_evidence, glob.glob(f"{glob.escape(folder)}/evidence/*.jsonl")))
    return Held(len(there), len(books), rows, papers, lines, records)


def hold_book(folder: str, book: str) -> tuple[int, int, int]:
    """A book beside its audit, its witness and its papers: rows, papers and lines."""
    with open(f"{folder}/books/{book}.ship", "rb") as file:
        shipped = file.read()
    try:
        body = witness.read_shipment(io.BytesIO(shipped))
        lines = witness_of(folder, book)
        witness.check(lines, body)
    except witness.Differs as fault:
        raise Differs(f"{book}: {fault}") from fault
    with open(f"{folder}/books/{book}.audit", encoding="ascii") as file:
        audited = file.read()
    if f"sha256 {hashlib.sha256(shipped).hexdigest()}\n" not in audited:
        raise Differs(f"{book}: its rows aren't those that were audited")
    return len(body) // ROW_BYTES, hold_papers(folder, book, body), len(lines)


def witness_of(folder: str, book: str) -> list[witness.Line]:
    path = f"{folder}/witness/{book}.witness"
    if not os.path.exists(path):
        return []
    with open(path, encoding="ascii") as file:
        return witness.read_lines(file.read())


def closings(body: bytes) -> dict[str, int]:
    """The closed batches of a book's rows, with the rows that closed them."""
    found = {}
    for place in range(0, len(body), ROW_BYTES):
        if body[place + 1] == CLOSE:
            size = body[place + NAME_AT]
            name = body[place + NAME_AT + 1 : place + NAME_AT + 1 + size].decode("ascii")
            found[name] = place // ROW_BYTES + 1
    return found


def hold_papers(folder: str, book: str, body: bytes) -> int:
    """Each closed batch has its paper, of the row that closed it."""
    wanted = closings(body)
    there = set(os.listdir(f"{folder}/papers/{book}")) if wanted else set()
    if there != {f"{name}.txt" for name in wanted}:
        raise Differs(f"{book}: there are {len(there)} papers of {len(wanted)} closed batches")
    for name, row in wanted.items():
        with open(f"{folder}/papers/{book}/{name}.txt", encoding="ascii") as file:
            head = file.read(PIECE).split("\n")[1].split(" ")
        if head[1] != name or head[-1] != str(row):
            raise Differs(f"{book}: the paper of {name} is another's")
    return len(wanted)


def hold_evidence(path: str) -> int:
    """The chain of a hall's evidence."""
    with open(path, encoding="utf-8") as file:
        records = [Record(**json.loads(line)) for line in file]
    if (place := evidence.first_broken(records)) is not None:
        raise Differs(f"{os.path.basename(path)}: record {place} isn't chained to the one before")
    return len(records)
