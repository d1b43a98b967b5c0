"""The command `appendix`: gathers what the appendix to a paper has from the tables, the book's file
and the witness, writes it beside that with the paper, and has it sealed."""

import hashlib
import os
import subprocess
import sys
from collections.abc import Iterator
from typing import Any

from sqlalchemy import text

from hall_archive import appendix, checks, nets, witness
from hall_archive.appendix import Facts, Hours
from hall_archive.commands import found_book, opened
from hall_archive.reading import Reader
from hall_archive.records import Records
from hall_archive.rows import Entry
from hall_archive.sealing import put, seal
from hall_archive.settings import BookSettings, Settings
from hall_archive.store import Store, merged, reaching
from hall_archive.witness import Line

PACKAGES = (("program", "hall"), ("package", "hall-archive"))
HERE = os.path.dirname(os.path.abspath(__file__))
# Rows behind a batch's closing say nothing of it.
ACTS = """
    SELECT row FROM act WHERE book = :book AND row <= :closed
    AND (batch = :batch OR (product = :product AND kind IN ('tare', 'product')))"""
PERSONS = "SELECT row, name, reason, low, high FROM person WHERE book = :book AND row <= :closed"
ANSWERS = """
    SELECT upto, low, high, kind FROM answer WHERE book = :book AND upto >= :first
    AND upto <= (SELECT min(upto) FROM answer WHERE book = :book AND upto >= :closed)
    ORDER BY upto"""


class Unfit(Exception):
    """No appendix can be made; the text says why."""


class Source:
    """The rows of one closed batch, with their hours, from the tables."""

    def __init__(self, kept: Store, batch: nets.Batch, closed: int) -> None:
        self.kept, self.batch, self.closed = kept, batch, closed

    def ask(self, statement: str, **values: Any) -> list[Any]:
        found = {"book": self.kept.book, "closed": self.closed, **values}
        with reaching(self.kept.reads.connect) as link:
            return list(link.execute(text(statement), found).all())

    def entries(self) -> Iterator[Entry]:
        """Its rows and those of its product's tares, in order."""
        of = {"batch": self.batch.row, "product": self.batch.goods.name}
        acts = {row for (row,) in self.ask(ACTS, **of)}
        packs = self.batch.packs
        first, last = min(packs, default=0), max(packs, default=0)
        weighings = self.kept.weighings(max(first - 1, 0), last)
        return merged(
            (entry for entry in self.kept.acts(0, self.closed) if entry.row in acts),
            (entry for entry in weighings if entry.row in packs),
        )

    def hours(self) -> Hours:
        answers = self.ask(ANSWERS, first=1)
        return Hours(answers, {row: more for row, *more in self.ask(PERSONS)})


def write(settings: Settings, word: str, name: str) -> int:
    """Makes the appendix of a closed batch, and says where it is."""
    books, number, book = found_book(settings, word)
    batch = books.batch(number, name)
    try:
        if batch is None or batch.state != "closed":
            raise Unfit(f"no batch {name} is closed")
        found = books.ask(
            "SELECT closed FROM batch WHERE book = :b AND row = :r", **{"b": number, "r": batch.row}
        )
        kept = Store(opened(settings), book.hall, book.name)
        made = gather(settings, book, kept, Source(kept, batch, int(found[0][0])))
    except Unfit as fault:
        print(f"hall-archive: {book.name}: {fault}", file=sys.stderr)
        return 1
    path = f"{settings.folder}/{book.hall}.{book.name}.{name}.appendix"
    for said, end in ((made[0], ""), (made[1], ".paper")):
        put(f"{path}{end}", said.encode("ascii"))
    print(path)
    print(seal(settings, path))
    return 0


def gather(settings: Settings, book: BookSettings, kept: Store, source: Source) -> tuple[str, str]:
    """The appendix, and the paper that it is of; Unfit where the book isn't as it was followed."""
    reader, batch, closed = settings.reader(), source.batch, source.closed
    paper = b"".join(reader.ask(book.name, "paper", batch.name)).decode("ascii")
    if not paper.startswith("paper 1\n"):
        raise Unfit(f"the book's file gives no paper of {batch.name} yet: {paper.strip()[:80]}")
    audit = audited(reader, book.name, kept, closed)
    hours = source.hours()
    spans = [hours.of(batch.row), hours.of(closed)]
    first, last = spans[0].low or spans[0].high or 0, spans[1].high or 0
    records = appendix.of_batch(Records(kept.engine).all(book.hall), batch.goods.name, first, last)
    facts = Facts(
        book.hall,
        book.name,
        [version(kind, package, settings) for kind, package in PACKAGES],
        appendix.digest(paper),
        audit,
        line_of_closing(settings.witness(book), closed),
        records,
    )
    return appendix.compose(batch, facts, source.entries(), hours), paper


def audited(reader: Reader, book: str, kept: Store, rows: int) -> str:
    """The fingerprint of the first rows, which the book's file and the archive have to have
    alike."""
    said = checks.audit_of(reader, book, rows)
    if said.rows < rows:
        raise Unfit(f"the book's file has {said.rows} rows yet, of {rows}: it is in use")
    ours = witness.fingerprint(rows, kept.packed(0, rows))
    if said.digest != ours:
        raise Unfit(f"the book's first {rows} rows aren't those that were followed")
    return ours


def line_of_closing(path: str, closed: int) -> Line | None:
    """The first line of the witness that has the closing."""
    try:
        with open(path, encoding="ascii") as file:
            lines = witness.read_lines(file.read())
    except FileNotFoundError:
        return None
    except witness.Differs as fault:
        raise Unfit(f"{path}: {fault}") from fault
    return next((line for line in lines if line.rows >= closed), None)


def version(kind: str, package: str, settings: Settings) -> str:
    """A package's version, as Debian has it, and the digest of what was run: of the program, or of
    the archive's modules in order of their names."""
    asked = subprocess.run(
        ["dpkg-query", "-W", "-f", "${Version}", package], capture_output=True, check=False
    )
    known = asked.stdout.decode() if asked.returncode == 0 else appendix.NO
    files = [settings.program or "/usr/bin/hall"]
    if kind == "package":
        files = sorted(f"{HERE}/{name}" for name in os.listdir(HERE) if name.endswith(".py"))
    digest = hashlib.sha256()
    try:
        for path in files:
            with open(path, "rb") as file:
                digest.update(file.read())
    except OSError:
        return f"{kind} {package} {known} {appendix.NO}"
    return f"{kind} {package} {known} {digest.hexdigest()}"
