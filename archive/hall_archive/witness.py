"""The witness: lines that say which rows a book had at which time, each chained to the one before.

    UTC ROWS DIGEST BEFORE [AUDIT]

UTC as `2026-12-01T10:32:05Z`; DIGEST the SHA-256 of the 96-byte rows 1 to ROWS; BEFORE the SHA-256
of the line before, without its LF, zeros in the first; AUDIT, at starts, closings and nightly, the
fingerprint of `hall audit --rows ROWS`. Anybody can do the same: `hall ship` of the first ROWS rows
without its head of 16 bytes, through `sha256sum`."""

import hashlib
import re
from collections.abc import Iterable, Iterator
from concurrent.futures import ThreadPoolExecutor
from datetime import UTC, datetime
from typing import BinaryIO, NamedTuple

from hall_archive.appending import append, whole_lines
from hall_archive.rows import ROW_BYTES

SHIPMENT = b"AQHSHIP2"
HEAD_BYTES = 16
FIRST = "0" * 64
LINE = re.compile(
    r"(?P<utc>\d{4}-\d\d-\d\dT\d\d:\d\d:\d\dZ) (?P<rows>\d+) (?P<digest>[0-9a-f]{64})"
    r" (?P<before>[0-9a-f]{64})(?: (?P<audit>[0-9a-f]{64}))?"
)
# Fingerprints that are computed at once: hashing leaves the interpreter to others.
AT_ONCE = 4


class Differs(Exception):
    """The first line of a witness that the book, or its own chain, contradicts."""


class Line(NamedTuple):
    """A line of a witness."""

    utc: str
    rows: int
    digest: str
    before: str
    audit: str

    def __str__(self) -> str:
        audit = f" {self.audit}" if self.audit else ""
        return f"{self.utc} {self.rows} {self.digest} {self.before}{audit}"


def utc_text(moment: int) -> str:
    """A time in ms of UTC, to the second."""
    return datetime.fromtimestamp(moment // 1000, UTC).strftime("%Y-%m-%dT%H:%M:%SZ")


def digest_of(line: str) -> str:
    """What the next line says of this one."""
    return hashlib.sha256(line.encode("ascii")).hexdigest()


def fingerprint(rows: int, parts: Iterable[bytes | memoryview]) -> str:
    """What `hall audit --rows` prints of the first rows: the digest of their shipment."""
    found = hashlib.sha256(SHIPMENT + rows.to_bytes(4, "little") + bytes(4))
    for part in parts:
        found.update(part)
    return found.hexdigest()


def read_lines(text: str) -> list[Line]:
    """The lines of a witness; Differs at the first that is none, or that isn't chained to the one
    before."""
    lines: list[Line] = []
    before = FIRST
    for number, said in enumerate(text.splitlines(), 1):
        found = LINE.fullmatch(said)
        if not found:
            raise Differs(f"line {number} is no line of a witness: {said[:80]}")
        line = Line(
            found["utc"], int(found["rows"]), found["digest"], found["before"], found["audit"] or ""
        )
        if line.before != before:
            raise Differs(f"line {number} isn't chained to the line before: {said[:80]}")
        if lines and line.rows < lines[-1].rows:
            raise Differs(f"line {number} has fewer rows than the line before: {said[:80]}")
        lines.append(line)
        before = digest_of(said)
    return lines


def fingerprinted(path: str, row: int) -> Line | None:
    """The first line of a witness with a fingerprint of `audit` that has a row; None without one.
    A line that is being written is left out. Differs where the lines aren't chained."""
    try:
        with open(path, encoding="ascii") as file:
            text = file.read()
    except FileNotFoundError:
        return None
    lines = read_lines(text[: text.rfind("\n") + 1])
    return next((line for line in lines if line.audit and line.rows >= row), None)


class Running:
    """The SHA-256 of the rows 1 to `rows`, which goes on with the rows behind them."""

    def __init__(self) -> None:
        self.rows = 0
        self.digest = hashlib.sha256()

    def add(self, rows: Iterable[bytes | memoryview]) -> None:
        """Goes on with bytes of whole rows."""
        for row in rows:
            self.digest.update(row)
            self.rows += len(row) // ROW_BYTES

    def hex(self) -> str:
        return self.digest.hexdigest()


class Held:
    """The rows of a book in memory, 96 MB a million: a fingerprint begins with how many rows it is
    of, so that each is made of all of them."""

    def __init__(self) -> None:
        self.body = bytearray()

    @property
    def rows(self) -> int:
        return len(self.body) // ROW_BYTES

    def add(self, rows: Iterable[bytes]) -> None:
        for row in rows:
            self.body += row

    def fingerprint(self, rows: int) -> str:
        """What `audit` has to say of the first so many rows."""
        with memoryview(self.body)[: rows * ROW_BYTES] as first:
            return fingerprint(rows, [first])

    def go_on(self, running: Running, rows: int) -> None:
        """Goes on with a digest up to so many rows."""
        with memoryview(self.body)[running.rows * ROW_BYTES : rows * ROW_BYTES] as more:
            running.add([more])


class Witness:
    """A file of lines, that is only ever appended to."""

    def __init__(self, path: str) -> None:
        self.path = path
        self.lines: list[Line] = []
        self.before = FIRST
        self.read()

    def read(self) -> None:
        """Reads what stands; a last line that a kill has cut is taken off."""
        whole = whole_lines(self.path)
        self.lines = read_lines(whole)
        if whole:
            self.before = digest_of(whole.splitlines()[-1])

    def append(self, moment: int, rows: int, digest: str, audit: str = "") -> str:
        """Appends a line, and syncs it; the line. OSError where it can't be: then none is there."""
        line = Line(utc_text(moment), rows, digest, self.before, audit)
        text = str(line)
        append(self.path, f"{text}\n")
        self.lines.append(line)
        self.before = digest_of(text)
        return text


# ---- verifying


def read_shipment(file: BinaryIO) -> bytes:
    """The rows of a whole shipment behind row 0, without its head."""
    head = file.read(HEAD_BYTES)
    if len(head) < HEAD_BYTES or head[:8] != SHIPMENT or head[12:] != bytes(4):
        raise Differs("what was shipped isn't a whole book")
    body = file.read()
    rows = int.from_bytes(head[8:12], "little")
    if len(body) != rows * ROW_BYTES:
        raise Differs(f"{rows} rows were to come, and {len(body)} bytes did")
    return body


def without_newest(lines: list[Line], body: bytes) -> list[Line]:
    """The lines but for those of one row more than a book in use gives away."""
    newest = len(body) // ROW_BYTES + 1
    return [line for line in lines if line.rows != newest]


def check(lines: list[Line], body: bytes) -> int:
    """Compares each line with the rows of a book, in one pass; how many fingerprints of `audit`
    were compared too. Differs names the first line that isn't so."""
    view = memoryview(body)
    running = Running()
    for number, line in enumerate(lines, 1):
        if line.rows * ROW_BYTES > len(body):
            said = len(body) // ROW_BYTES
            raise Differs(f"line {number} ({line.utc}): it has {line.rows} rows, the book {said}")
        running.add([view[running.rows * ROW_BYTES : line.rows * ROW_BYTES]])
        if running.hex() != line.digest:
            raise Differs(f"line {number} ({line.utc}): the first {line.rows} rows are others")
    return check_audits(lines, view)


def check_audits(lines: list[Line], view: memoryview) -> int:
    audited = [(number, line) for number, line in enumerate(lines, 1) if line.audit]
    rows = [line.rows for _, line in audited]
    with ThreadPoolExecutor(AT_ONCE) as pool:
        found = pool.map(lambda rows: fingerprint(rows, [view[: rows * ROW_BYTES]]), rows)
        for (number, line), told in zip(audited, found, strict=True):
            if told != line.audit:
                raise Differs(f"line {number} ({line.utc}): audit says otherwise of its rows")
    return len(audited)


def changed_row(rows: Iterator[bytes], body: bytes) -> int | None:
    """The first row that the archive has otherwise than a book; None where there is none."""
    for number, row in enumerate(rows):
        if body[number * ROW_BYTES : (number + 1) * ROW_BYTES] != row:
            return number + 1
    return None
