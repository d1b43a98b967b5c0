"""Follows a book: asks for the rows behind those that it has, gives them their hours, and hands
them to the archive, each once and in order. A book that isn't the one followed so far is refused by
its name.

A running book is asked through a door (`GET /acts/N`), a book at rest by `hall acts`."""

import json
import os
import time
from collections import deque
from collections.abc import Callable
from typing import Any, NoReturn

from hall_archive import clock
from hall_archive.appending import append, whole_lines
from hall_archive.clock import Answer, Clock, Hours, Moment
from hall_archive.rows import (
    PAGE_ROWS,
    PRIOR_OF,
    SIGNAL_OF,
    BadRow,
    Close,
    Draw,
    End,
    Entry,
    Open,
    Product,
    Tare,
    Weigh,
    line_of,
    read_text,
)
from hall_archive.standing import Running, WrongBook
from hall_archive.taking import (
    ActRow,
    Archive,
    BatchRow,
    OtherBook,
    Page,
    Source,
    Taken,
    Unanswered,
    Unkept,
)

# Seconds from one request to the next while nothing new comes, and while the door or the database
# doesn't answer.
EVERY = 0.1
PAUSE = 1.0
# The rows before the cursor that are compared at each connection.
COMPARED = PAGE_ROWS
# Rows that are kept in one commit while a book is caught up with, and those that wait at most
# while the database doesn't answer.
COMMIT_ROWS = 8_192
WAITING_ROWS = 200_000


class Spool:
    """Hours of rows that the database doesn't have yet, in a file that is synced. Without a path
    there is none."""

    def __init__(self, path: str = "") -> None:
        self.path = path

    def read(self) -> list[Answer]:
        """The hours, each once, in order of the rows."""
        lines = whole_lines(self.path).splitlines() if self.path else []
        found = [answer_of(json.loads(line)) for line in lines]
        return sorted({answer.upto: answer for answer in found}.values())

    def add(self, answers: list[Answer]) -> None:
        """Adds hours; OSError where there is no room for them, and none is added."""
        if self.path and answers:
            append(self.path, "".join(f"{json.dumps(answer)}\n" for answer in answers))

    def clear(self) -> None:
        if self.path and os.path.exists(self.path):
            os.remove(self.path)


def answer_of(fields: list[Any]) -> Answer:
    upto, low, high, kind, stretch = fields
    return Answer(upto, low, high, kind, Clock(*stretch))


class Follower:
    """Follows one book into an archive."""

    def __init__(
        self,
        name: str,
        source: Source,
        archive: Archive,
        spool: Spool | None = None,
        boot: str | None = None,
        now: Callable[[str], Moment] = clock.now,
    ) -> None:
        self.name = name
        self.source = source
        self.archive = archive
        self.spool = spool or Spool()
        self.boot = boot or clock.read_boot()
        self.now = now
        self.begin()

    def begin(self) -> None:
        """Reads where the archive stands, and goes on from there."""
        cursor = self.archive.cursor()
        if cursor.refused:
            raise OtherBook(cursor.refused)
        self.upto = cursor.upto
        self.hours = Hours(cursor.asked, cursor.clock)
        self.standing = self.archive.standing(self.upto)
        recent = self.archive.lines(max(0, self.upto - COMPARED), self.upto)
        self.recent = deque(recent, COMPARED)
        self.known = [answer for answer in self.spool.read() if answer.upto > self.upto]
        self.has_spool = bool(self.known)
        if not self.known:
            self.spool.clear()
        self.spooled = 0
        self.tried = 0.0
        self.touched: dict[str, Running] = {}
        self.waiting = self.new_taken()
        self.source.close()

    def new_taken(self) -> Taken:
        return Taken(self.upto, self.upto, self.hours.asked, self.hours.clock)

    def step(self) -> tuple[int, Taken | None]:
        """Asks once, and keeps what is due: how many rows came, and what was kept. Unanswered, or
        Behind, after which `begin` goes on from what is there; OtherBook for good."""
        if self.source.is_new and self.recent:
            self.compare()
        sent = self.now(self.boot)
        page = self.source.ask(self.upto)
        came = self.now(self.boot)
        entries = self.read(page)
        answer = self.hours.answered(sent, came, len(entries), self.upto + len(entries))
        if answer:
            self.waiting.answers += self.with_known(answer)
        try:
            self.take(entries)
        except Unkept:
            # an act needs packs of before, which can't be read now
            self.put_aside(self.waiting.answers)
            raise
        self.recent.extend(page.text.split("\n")[:-1])
        return len(entries), self.keep() if self.is_due(len(entries)) else None

    def read(self, page: Page) -> list[Entry]:
        if page.rows < self.upto:
            self.other(f"has {page.rows} rows, {self.upto} were taken")
        try:
            entries = read_text(page.text, self.upto)
        except BadRow as fault:
            raise Unanswered(f"{self.name}: {fault}") from fault
        if len(entries) < PAGE_ROWS and self.upto + len(entries) < page.rows:
            raise Unanswered(f"{self.name}: an answer lacks rows of {page.rows}")
        return entries

    def with_known(self, answer: Answer) -> list[Answer]:
        """An answer, behind those of before a kill that had some of its rows already. Where rows of
        one of those come in parts, each part has its hour."""
        before = [one for one in self.known if one.upto <= answer.upto]
        self.known = self.known[len(before) :]
        if before and before[-1].upto == answer.upto:
            return before
        if self.known:
            answer = self.known[0]._replace(upto=answer.upto)
        return [*before, answer]

    def compare(self) -> None:
        """Compares the rows before the next one with those of the book at hand."""
        after = self.upto - len(self.recent)
        page = self.source.ask(after)
        if page.rows < self.upto:
            self.other(f"has {page.rows} rows, {self.upto} were taken")
        told = page.text.split("\n")[:-1]
        for row, (one, other) in enumerate(zip(self.recent, told, strict=False), after + 1):
            if one != other:
                self.other(f"has another row {row} than was taken: {other[:80]}")
        if len(told) < len(self.recent):
            raise Unanswered(f"{self.name}: an answer lacks rows of {page.rows}")

    def other(self, why: str) -> NoReturn:
        said = f"book {self.name} isn't the one that was followed: it {why}"
        self.archive.refuse(said)
        raise OtherBook(said)

    def is_due(self, came: int) -> bool:
        """Whether what waits is to be kept: at once, but while a book is caught up with, or while
        the database doesn't answer."""
        count = self.upto - self.waiting.after
        due = bool(count) and (came < PAGE_ROWS or count >= COMMIT_ROWS)
        return due and time.monotonic() >= self.tried + PAUSE

    def take(self, entries: list[Entry]) -> None:
        """Takes rows in; OtherBook where they can't follow those before them."""
        for entry in entries:
            try:
                moves, batch = self.standing.take(entry)
            except WrongBook as fault:
                self.other(f"has a row that can't follow: {fault}")
            if moves:
                self.waiting.moves += moves
            self.note(entry, batch)
        self.upto += len(entries)
        self.waiting.upto = self.upto

    def note(self, entry: Entry, batch: Running | None) -> None:
        """Notes what is to be kept of a row that was taken in."""
        act = entry.act
        if isinstance(act, Weigh):
            assert batch and self.standing.day is not None
            of = (entry.row, batch.row, self.standing.day, act.gross, entry.by, act.lane)
            self.waiting.packs.append((*of, PRIOR_OF[act.prior], SIGNAL_OF[entry.told]))
            self.touched[batch.name] = batch
            return
        self.waiting.acts.append(act_row(entry, batch))
        if batch and isinstance(act, Open | End | Draw | Close):
            self.touched[batch.name] = batch
            if isinstance(act, Close):
                self.waiting.closed.append(batch.name)

    def keep(self) -> Taken | None:
        """Hands what waits to the archive; where that doesn't answer its hours go to a file, and
        it is tried again a second later."""
        taken = self.waiting
        taken.asked, taken.clock = self.hours.asked, self.hours.clock
        taken.batches = [batch_row(batch) for batch in self.touched.values()]
        try:
            self.archive.keep(taken)
        except Unkept:
            self.tried = time.monotonic()
            self.put_aside(taken.answers)
            if self.upto - taken.after > WAITING_ROWS:
                raise
            return None
        self.kept(taken)
        return taken

    def put_aside(self, answers: list[Answer]) -> None:
        """Puts the hours that wait into the file; where that has no room either they wait here."""
        try:
            self.spool.add(answers[self.spooled :])
        except OSError:
            return
        self.spooled, self.has_spool = len(answers), True

    def kept(self, taken: Taken) -> None:
        for name in taken.closed:
            self.standing.forget(name)
        if self.has_spool and not self.known:
            self.spool.clear()
            self.has_spool = False
        self.spooled, self.tried = 0, 0.0
        self.touched.clear()
        self.waiting = self.new_taken()


def batch_row(batch: Running) -> BatchRow:
    """How a batch now stands."""
    now = (batch.row, batch.name, batch.product, batch.state, batch.verdict)
    return BatchRow(*now, batch.first, batch.last, batch.closed)


def act_row(entry: Entry, batch: Running | None) -> ActRow:
    kind = type(entry.act).__name__.lower()
    return entry.row, batch.row if batch else None, product_of(entry), kind, line_of(entry)


def product_of(entry: Entry) -> str | None:
    match entry.act:
        case Product(name):
            return name
        case Tare(product) | Open(_, product):
            return product
    return None


def wait(came: int, sent: float) -> None:
    """Waits for the next request: none while answers are full."""
    if came < PAGE_ROWS:
        time.sleep(max(0.0, sent + EVERY - time.monotonic()))
