"""What the archive has, held against the book itself: at each closing that batch's sheet and its
lines of the register, of a book at rest all of it. What differs is an alarm."""

from collections.abc import Iterable, Iterator
from typing import NamedTuple

from hall_archive import nets
from hall_archive.reading import NotRead, Reader


class Differs(Exception):
    """The archive has something otherwise than the book."""


def report_of(reader: Reader, book: str, batch: str) -> str:
    return b"".join(reader.ask(book, "report", batch)).decode("ascii")


class Audit(NamedTuple):
    """What `hall audit` says of the first rows of a book's file."""

    rows: int
    digest: str


def audit_of(reader: Reader, book: str, rows: int) -> Audit:
    """The fingerprint of the book's first rows, `rows` at most. NotRead without an answer."""
    said = b"".join(reader.ask(book, "audit", str(rows))).decode("ascii")
    words = dict(line.split(" ", 1) for line in said.splitlines() if " " in line)
    return Audit(min(rows, int(words.get("rows", "0").split(" ")[0])), words.get("sha256", ""))


def is_closed(sheet: str) -> bool:
    """Whether the closing stands in a sheet: a running book is read without its newest row."""
    return "\nstate closed\n" in sheet


def read_out(lines: Iterable[str]) -> None:
    """Reads what is left of an answer: at its end it says whether the book is in use."""
    for _ in lines:
        pass


def compare_sheet(batch: str, ours: str, theirs: str) -> None:
    for one, other in zip(ours.splitlines(), theirs.splitlines(), strict=False):
        if one != other:
            raise Differs(f"batch {batch}: the archive says {one!r}, the book {other!r}")
    if ours != theirs:
        raise Differs(f"batch {batch}: the sheet of the book has other lines")


def lines_of(pieces: Iterable[bytes]) -> Iterator[str]:
    """Whole lines, with their LF."""
    rest = b""
    for piece in pieces:
        *whole, rest = (rest + piece).split(b"\n")
        for line in whole:
            yield f"{line.decode('ascii')}\n"
    if rest:
        raise NotRead("the last line is cut")


def compare_register(ours: Iterable[str], theirs: Iterable[str]) -> int:
    """Compares two registers line by line; how many lines that were."""
    count = 0
    theirs = iter(theirs)
    for count, one in enumerate(ours, 1):
        other = next(theirs, "")
        if one != other:
            raise Differs(f"register, line {count}: the archive says {one!r}, the book {other!r}")
    if more := next(theirs, ""):
        raise Differs(f"register, line {count + 1}: the book has {more!r} more")
    return count


def of_batch(lines: Iterable[str], batch: str) -> Iterator[str]:
    """The register's head, and the lines of one batch."""
    for number, line in enumerate(lines):
        if number == 0 or line.split(",", 2)[1] == batch:
            yield line


def compare_batch(reader: Reader, book: str, batch: nets.Batch) -> bool:
    """Compares a closed batch with the book; False where the book's file hasn't its closing yet.
    Differs, or NotRead."""
    theirs = report_of(reader, book, batch.name)
    if not is_closed(theirs):
        return False
    compare_sheet(batch.name, nets.sheet(batch), theirs)
    told = of_batch(lines_of(reader.ask(book, "export")), batch.name)
    compare_register(nets.register(batch.packs.values()), told)
    return True
