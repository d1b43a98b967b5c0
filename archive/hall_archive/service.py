"""The service of one book: follows it, ties the front's lines to its rows, and keeps its witness.

The follower has a thread of its own, so that nothing else widens the hours."""

import logging
import threading
import time
from collections.abc import Callable
from datetime import UTC, datetime

from hall_archive import checks, following, people
from hall_archive.following import Follower
from hall_archive.persons import Persons
from hall_archive.questions import Books
from hall_archive.reading import NotRead, Reader
from hall_archive.store import Store
from hall_archive.taking import Behind, OtherBook, Unanswered, Unkept
from hall_archive.witness import Held, Running, Witness

log = logging.getLogger("hall-archive")
# Seconds between two looks for new lines of the front, and for new rows to be witnessed.
PEOPLE_EVERY = 1.0
WITNESS_EVERY = 60.0
# The hour of UTC at which the book's fingerprint is taken each night.
NIGHT = 2
# How often the fingerprint of as many rows is asked for: another reader of the book, as a backup,
# keeps its newest row from it for a moment, a running hall until the next row.
AUDITS = 3
# Lines of the front that wait for their row at most.
WAITING_LINES = 10_000


class Said:
    """Says what goes on as long as it is the same once, and that it is over."""

    def __init__(self) -> None:
        self.why = ""

    def fault(self, why: str) -> None:
        if why != self.why:
            log.warning("%s", why)
        self.why = why

    def good(self, said: str) -> None:
        if self.why:
            log.info("%s", said)
        self.why = ""


class Following:
    """Follows a book until `stop`, and puts down which batches were closed."""

    def __init__(self, name: str, begin: Callable[[], Follower]) -> None:
        self.name = name
        self.begin = begin
        self.stop = threading.Event()
        self.closed: list[str] = []
        self.other = ""
        self.said = Said()

    def run(self) -> None:
        follower = None
        while not self.stop.is_set():
            try:
                follower = follower or self.begin()
                self.follow(follower)
            except Unanswered as fault:
                self.pause(f"{fault}: it is asked again")
            except (Unkept, Behind) as fault:
                self.pause(f"{fault}: the archive's database is asked again")
                follower = None
            except OtherBook as fault:
                self.other = str(fault)
                log.error("%s: nothing of it is taken", fault)
                return

    def follow(self, follower: Follower) -> None:
        while not self.stop.is_set():
            sent = time.monotonic()
            came, kept = follower.step()
            if kept:
                self.closed += kept.closed
            self.said.good(f"{self.name}: followed again, row {follower.upto}")
            following.wait(came, sent)

    def pause(self, why: str) -> None:
        self.said.fault(why)
        self.stop.wait(following.PAUSE)


class People:
    """Ties what the front wrote to the rows of a book."""

    def __init__(self, store: Store, path: str) -> None:
        self.store, self.persons = store, Persons(store)
        self.log = people.Log(path, self.persons.place(path))
        self.waiting: list[str] = []
        self.begin = self.log.place

    def look(self) -> None:
        """Reads what came. The place that is kept is behind the last line that was tied, so that
        those which wait for their row are read again after a kill."""
        lines, place = self.log.lines()
        if not lines and not self.waiting:
            return
        upto = self.store.cursor().upto
        given = [*self.waiting, *lines]
        tied, waiting = people.tie_lines(given, self.store.name, upto, self.persons)
        # where this fails all of it is read again
        self.persons.keep(self.log.path, self.begin if waiting else place, tied)
        self.waiting, self.log.place = waiting[-WAITING_LINES:], place
        if not waiting:
            self.begin = place
        for one in tied:
            if one.fault:
                log.warning("the front has a line of no act: %s", one.fault)

    def look_all(self) -> None:
        """Reads all that there is, of a book of which no more comes."""
        place = None
        while place != self.log.place:
            place = self.log.place
            self.look()


class Witnessing:
    """Keeps the witness of a book: at the start, at each closing, each minute with new rows, and
    nightly. At starts, closings and nights a line has the fingerprint of `hall audit` too, as soon
    as the book's file has as many rows: a running hall keeps its newest row back."""

    def __init__(self, store: Store, witness: Witness, reader: Reader) -> None:
        self.store = store
        self.witness = witness
        self.reader = reader
        self.running, self.held = Running(), Held()
        self.night = ""
        # how many rows the next fingerprint is of at least, where one is due; by how many rows the
        # program was asked for it last, and how often
        self.due: int | None = None
        self.asked, self.tries = 0, 0

    def look(self, has_closed: bool, moment: int) -> None:
        """Appends the lines that are due; an alarm where the book has other rows than the
        archive."""
        upto = self.store.cursor().upto
        self.held.add(self.store.packed(self.held.rows, upto))
        if upto and (self.is_night(moment) or has_closed or self.running.rows == 0):
            self.due, self.asked = upto, 0
        if self.asked != upto:
            self.asked, self.tries = upto, 0
        if self.due is not None and self.tries < AUDITS:
            self.tries += 1
            if audit := self.audit(upto):
                self.hold(audit, moment)
        if upto > self.running.rows:
            self.put(upto, moment, "")

    def is_night(self, moment: int) -> bool:
        """Whether the night's fingerprint is due; once in each night."""
        now = datetime.fromtimestamp(moment // 1000, UTC)
        if now.hour != NIGHT or self.night == f"{now:%F}":
            return False
        self.night = f"{now:%F}"
        return True

    def hold(self, audit: checks.Audit, moment: int) -> None:
        """Holds a fingerprint against the archive's rows; its line is put where it has as many rows
        as are due, and as the line before. One of other rows is an alarm, and gets no line."""
        assert self.due is not None
        if audit.digest != self.held.fingerprint(audit.rows):
            why = f"the book's first {audit.rows} rows aren't those that were followed"
            self.store.alarm(moment, why)
            log.error("%s: %s", self.store.name, why)
            self.due = None
        elif audit.rows >= max(self.due, self.running.rows):
            self.put(audit.rows, moment, audit.digest)
            self.due = None

    def put(self, rows: int, moment: int, audit: str) -> None:
        """Appends the line of so many rows."""
        self.held.go_on(self.running, rows)
        said = self.witness.append(moment, self.running.rows, self.running.hex(), audit)
        log.info("witness of %s: %s", self.store.name, said)

    def close(self, moment: int) -> None:
        """The line of a book at rest, with its fingerprint, unless it is there."""
        upto = self.store.cursor().upto
        last = self.witness.lines[-1] if self.witness.lines else None
        if last and last.audit and last.rows == upto:
            return
        self.held.add(self.store.packed(self.held.rows, upto))
        self.due = upto
        if audit := self.audit(upto):
            self.hold(audit, moment)

    def audit(self, upto: int) -> checks.Audit | None:
        """The fingerprint of the book's first rows, `upto` at most; None without an answer."""
        try:
            audit = checks.audit_of(self.reader, self.store.name, upto)
        except NotRead as fault:
            log.warning("%s", fault)
            return None
        return audit if audit.rows else None


class Checking:
    """Holds each closed batch against the book: once the book's file has its closing."""

    def __init__(self, store: Store, books: Books, reader: Reader) -> None:
        self.store = store
        self.books = books
        self.reader = reader
        self.due: list[str] = []
        self.said = Said()

    def look(self, moment: int) -> None:
        """Compares what is due. Where the program doesn't answer the rest waits too."""
        for name in list(self.due):
            try:
                batch = self.books.batch(self.store.book, name)
                if batch is None or not checks.compare_batch(self.reader, self.store.name, batch):
                    continue
                self.said.good(f"{self.store.name}: batches are compared again")
            except checks.Differs as fault:
                self.store.alarm(moment, str(fault))
                log.error("%s: %s", self.store.name, fault)
            except NotRead as fault:
                self.said.fault(f"{fault}: closed batches wait to be compared")
                return
            self.due.remove(name)
