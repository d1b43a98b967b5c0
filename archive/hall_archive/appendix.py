"""The appendix to the paper of a closed batch: what the paper leaves out. All rows of the batch and
of its product's tares with their hours, persons and reasons; packs that were rejected or voided;
the test in figures; evidence; versions; the fingerprint at the closing and the witness' line. It is
text, a line for each, as docs/FORMATS.md has it."""

import bisect
import hashlib
import json
from collections.abc import Iterable, Iterator
from datetime import UTC, datetime
from typing import Any, NamedTuple

from hall_archive import nets, reference, rules
from hall_archive.evidence import Record
from hall_archive.keeping import KINDS
from hall_archive.rows import Entry, grams, line_of
from hall_archive.witness import Line

NO = "-"


class Facts(NamedTuple):
    """What an appendix has beside the rows: names of hall and book, versions, the digest of the
    paper, the fingerprint of the rows up to the closing, the first line of the witness behind it,
    and evidence."""

    hall: str
    book: str
    versions: list[str]
    paper: str
    audit: str
    witness: Line | None
    evidence: list[Record]


class Hour(NamedTuple):
    """When a row came (ms of UTC), how that is known, and who asked it, why."""

    low: int | None
    high: int | None
    kind: str
    person: str | None = None
    reason: str | None = None

    def __str__(self) -> str:
        said = [utc(self.low), utc(self.high), self.kind, *map(quoted, (self.person, self.reason))]
        return " ".join(said)


def utc(moment: int | None) -> str:
    """A time in ms of UTC."""
    if moment is None:
        return NO
    second = datetime.fromtimestamp(moment // 1000, UTC)
    return f"{second:%Y-%m-%dT%H:%M:%S}.{moment % 1000:03}Z"


def quoted(said: str | None) -> str:
    return NO if said is None else json.dumps(said)


class Hours:
    """The hours of rows: the front's of an act of a desk, of each other that of its answer."""

    def __init__(self, answers: list[Any], persons: dict[int, list[Any]]) -> None:
        self.uptos = [upto for upto, *_ in answers]
        self.answers, self.persons = answers, persons

    def of(self, row: int) -> Hour:
        if row in self.persons:
            name, reason, low, high = self.persons[row]
            return Hour(low, high, "front", name, reason)
        place = bisect.bisect_left(self.uptos, row)
        if place == len(self.uptos):
            return Hour(None, None, NO)
        _, low, high, kind = self.answers[place]
        return Hour(low, high, KINDS[kind])


def compose(batch: nets.Batch, facts: Facts, entries: Iterable[Entry], hours: Hours) -> str:
    """The appendix, with its end."""
    rows = list(entries)
    closed = rows[-1].row
    lines = [
        "appendix 1",
        f"book {facts.book} hall {facts.hall}",
        *heads(batch, closed),
        *facts.versions,
        f"paper {facts.paper}",
        f"audit {closed} {facts.audit}",
        f"witness {facts.witness or NO}",
        *map(evidence_line, facts.evidence),
        *(f"out {line}" for line in out_lines(batch)),
        *(f"row {hours.of(entry.row)}\t{line_of(entry)}" for entry in rows),
    ]
    return "".join(f"{line}\n" for line in (*lines, f"end {len(lines)}"))


def evidence_line(one: Record) -> str:
    """A record whole, behind what a reader looks for: what, of what, when, how it ended, by
    whom."""
    head = f"evidence {one.kind} {one.subject} {utc(one.moment)} {one.result} {quoted(one.person)}"
    return f"{head} {json.dumps(one._asdict(), sort_keys=True)}"


def heads(batch: nets.Batch, closed: int) -> list[str]:
    """What the batch is, its limits, its test, and its verdict."""
    goods, limits = batch.goods, batch.limits
    unit = "ml" if goods.is_volume else "g"
    return [
        f"batch {batch.name} product {goods.name} nominal {grams(goods.nominal)} unit {unit}"
        f" density {grams(batch.density or rules.UNIT_DENSITY)} row {closed}",
        f"limits tne {grams(rules.tne(goods.nominal))} t1 {grams(limits.t1)} t2 {grams(limits.t2)}",
        *reference.lines_of(batch),
        f"verdict {batch.verdict}",
    ]


def out_lines(batch: nets.Batch) -> Iterator[str]:
    """The register's lines of the packs that were rejected or voided."""
    for pack in batch.packs.values():
        if pack.pile not in nets.POPULATION:
            yield nets.record(pack).rstrip("\n")


def digest(said: str) -> str:
    return hashlib.sha256(said.encode("ascii")).hexdigest()


def of_batch(records: list[Record], product: str, first: int, last: int) -> list[Record]:
    """Evidence of a product, and of each scale: the newest of before a time, and all from then to
    another, both in ms of UTC."""
    found: list[Record] = []
    newest: dict[tuple[str, str], Record] = {}
    for one in records:
        if one.kind != "scale" and one.subject != product:
            continue
        if one.moment < first:
            newest[one.kind, one.subject] = one
        elif one.moment <= last:
            found.append(one)
    return [*newest.values(), *found]
