"""The commands that need the database."""

import io
import json
import logging
import signal
import sys
import threading
import time
from collections.abc import Iterator
from itertools import islice
from typing import Any

from hall_archive import checks, nets, stamps, store, witness
from hall_archive.delivering import Delivery
from hall_archive.door import Door
from hall_archive.appending import whole_lines
from hall_archive.following import Follower, Spool
from hall_archive.months import Months
from hall_archive.questions import Books
from hall_archive.reading import Reader, at_rest
from hall_archive.resting import (
    first_other,
    people_tied,
    refuse,
    take_rest,
    witnessed,
    witnessing_of,
)
from hall_archive.service import (
    PEOPLE_EVERY,
    WITNESS_EVERY,
    Checking,
    Following,
    People,
    Said,
)
from hall_archive.settings import BadSettings, BookSettings, Settings
from hall_archive.search import Search
from hall_archive.store import Store
from hall_archive.taking import OtherBook, Unkept
from hall_archive.witness import utc_text

log = logging.getLogger("hall-archive")
# The status of a follower that ended by a fault of its own: it is begun again.
ENDED_EARLY = 3
# The status where the authority gave no stamp.
UNSTAMPED = 3


def book_of(settings: Settings, word: str) -> BookSettings:
    hall, _, name = word.rpartition("/")
    return settings.book(name, hall)


def opened(settings: Settings, writes: bool = True) -> Any:
    """The database, in its newest form."""
    engine = store.open_engine(settings.database, writes)
    if writes:
        store.migrate(engine)
    return engine


def migrate(settings: Settings, _: str, __: str) -> int:
    opened(settings)
    return 0


# ---- following


def follow(settings: Settings, word: str, _: str) -> int:
    """Follows a running book until a signal ends it."""
    book = book_of(settings, word)
    if not book.door:
        raise BadSettings(f"{book.name} has no door in the settings")
    engine = opened(settings)
    kept = Store(engine, book.hall, book.name)
    spool = Spool(f"{settings.folder}/{book.hall}.{book.name}.hours")
    following = Following(book.name, lambda: Follower(book.name, Door(book.door), kept, spool))
    for number in (signal.SIGTERM, signal.SIGINT):
        signal.signal(number, lambda *_: following.stop.set())
    thread = threading.Thread(target=following.run)
    thread.start()
    try:
        beside(settings, book, engine, following, thread)
    finally:
        was_asked = following.stop.is_set()
        following.stop.set()
        thread.join()
    if following.other:
        raise OtherBook(following.other)
    return 0 if was_asked else ENDED_EARLY


def beside(
    settings: Settings, book: BookSettings, engine: Any, following: Following, thread: Any
) -> None:
    """What goes on beside the follower, and a last time behind it: persons, checks, the witness. A
    fault of one of them ends nothing."""
    kept = Store(engine, book.hall, book.name)
    reader = settings.reader()
    people = People(kept, settings.front) if settings.front else None
    witnessing = witnessing_of(settings, book, kept, reader)
    checking = Checking(kept, Books(store.open_engine(settings.database)), reader)
    months = Months(kept, settings.front, settings.central)
    said, next_witness, goes_on = Said(), 0.0, True
    while goes_on:
        goes_on = thread.is_alive() and not following.stop.wait(PEOPLE_EVERY)
        if not goes_on:
            thread.join()
        moment = time.time_ns() // 1_000_000
        closed, following.closed = following.closed, []
        checking.due += closed
        try:
            if people:
                people.look()
            if closed or not goes_on or time.monotonic() >= next_witness:
                next_witness = time.monotonic() + WITNESS_EVERY
                if witnessing:
                    witnessing.look(bool(closed), moment)
                checking.look(moment)
            months.look()
            said.good("goes on")
        except (Unkept, OSError) as fault:
            said.fault(f"{book.name}: {fault}")
    months.end()


def take(settings: Settings, word: str, _: str) -> int:
    """Takes in what a book at rest has more, and compares it whole."""
    book = book_of(settings, word)
    kept = Store(opened(settings), book.hall, book.name)
    reader = settings.reader()
    upto = kept.cursor().upto
    if why := at_rest(reader, lambda: first_other(kept, reader, upto)):
        refuse(kept, why)
    rows = at_rest(reader, lambda: take_rest(kept, reader))
    print(f"rows {rows} taken")
    people_tied(settings, kept)
    witnessed(settings, book, kept, reader)
    Months(kept, settings.front).look(now=True)
    if settings.central:
        print(f"rows {Delivery(kept, settings.central).all()} delivered")
    return check(settings, word, "")


# ---- what is read


def found_book(settings: Settings, word: str) -> tuple[Books, int, BookSettings]:
    book = book_of(settings, word)
    books = Books(store.open_engine(settings.database))
    number = books.number(book.hall, book.name)
    if number is None:
        raise BadSettings(f"the archive has no book {book.name} yet")
    return books, number, book


def register(settings: Settings, word: str, _: str) -> int:
    books, number, _book = found_book(settings, word)
    sys.stdout.flush()
    sys.stdout.buffer.writelines(line.encode("ascii") for line in books.register(number))
    sys.stdout.buffer.flush()
    return 0


def sheet(settings: Settings, word: str, batch: str) -> int:
    books, number, _book = found_book(settings, word)
    found = books.batch(number, batch)
    if found is None:
        print(f"hall-archive: no batch {batch} is known", file=sys.stderr)
        return 1
    print(nets.sheet(found), end="")
    return 0


def story(settings: Settings, word: str, batch: str) -> int:
    """Prints the acts of a batch and the tares of its product, and how many packs came between
    them: when, who, what, why."""
    books, number, book = found_book(settings, word)
    found = books.batch(number, batch)
    if found is None:
        print(f"hall-archive: no batch {batch} is known", file=sys.stderr)
        return 1
    search = Search(books.engine)
    acts = search.all_acts(book.hall, book.name, {"batch": batch})
    tares = search.all_acts(book.hall, book.name, {"product": found.goods.name, "kind": "tare"})
    until = acts[-1]["row"]
    acts += [act for act in tares if act["row"] < until or found.state != "closed"]
    acts.sort(key=lambda act: int(act["row"]))
    rows = iter(found.packs)
    held = next(rows, None)
    for act in acts:
        count = 0
        while held is not None and held < act["row"]:
            count, held = count + 1, next(rows, None)
        if count:
            print(f"    {count} packs")
        print(story_line(act))
    return 0


def story_line(act: dict[str, Any]) -> str:
    """An act in a line: its hour in UTC, its row and answer, who asked, what, and why."""
    answer, by, asked = act["line"].split("\t")
    who = act["person"] or by
    reason = f" ({act['reason']})" if act["reason"] else ""
    return f"{utc_text(act['high'])}  {answer}  {who}  {asked}{reason}"


def check(settings: Settings, word: str, _: str) -> int:
    """Compares the register and each sheet with those of a book at rest."""
    books, number, book = found_book(settings, word)
    reader = settings.reader()
    said, is_same = at_rest(reader, lambda: held_whole(books, number, book.name, reader))
    if is_same:
        print(said)
        return 0
    kept = Store(store.open_engine(settings.database), book.hall, book.name)
    kept.alarm(time.time_ns() // 1_000_000, said)
    print(f"hall-archive: {book.name}: {said}", file=sys.stderr)
    return 1


def held_whole(books: Books, number: int, book: str, reader: Reader) -> tuple[str, bool]:
    """The register and each sheet beside those of the book: what to say, and whether they are the
    same."""
    told = checks.lines_of(reader.ask(book, "export"))
    report = checks.lines_of(reader.ask(book, "report"))
    try:
        lines = checks.compare_register(books.register(number), told)
        sheets = compare_sheets(books, number, report)
    except checks.Differs as fault:
        return str(fault), False
    finally:
        checks.read_out(told)
        checks.read_out(report)
    return f"register of {lines - 1} packs and {sheets} sheets are the book's", True


def compare_sheets(books: Books, number: int, report: Iterator[str]) -> int:
    """Each sheet beside that of the book's report, in order of opening; how many there are."""
    count = 0
    for count, name in enumerate(books.names(number), 1):
        batch = books.batch(number, name)
        assert batch
        ours = nets.sheet(batch)
        checks.compare_sheet(name, ours, "".join(islice(report, ours.count("\n"))))
    if (more := next(report, "")).startswith("batch "):
        raise checks.Differs(f"the book has a batch more: {more.rstrip()}")
    return count


def verify(settings: Settings, word: str, _: str) -> int:
    """Compares the witness with the book, line by line."""
    book = book_of(settings, word)
    path = settings.witness(book)
    reader = settings.reader()
    try:
        with open(path, encoding="ascii") as file:
            lines = witness.read_lines(file.read())
        shipped = b"".join(reader.ask(book.name, "ship"))
        body = witness.read_shipment(io.BytesIO(shipped))
        due = witness.without_newest(lines, body) if reader.in_use else lines
        audits = witness.check(due, body)
        held = stamps.check(path, lines, settings.authority) if settings.authority else 0
    except witness.Differs as fault:
        print(f"hall-archive: {book.name}: {fault}", file=sys.stderr)
        return 1
    except OSError as fault:
        raise BadSettings(f"{path}: {fault.strerror}") from fault
    if len(due) < len(lines):
        print(f"{len(lines) - len(due)} lines wait: the book is in use, and its newest row unread")
    if held:
        print(f"{held} stamps hold")
    print(f"{len(due)} lines and {audits} fingerprints hold")
    return 0


def stamp(settings: Settings, word: str, _: str) -> int:
    """Has the newest line of the witness stamped by the authority of the settings."""
    if not settings.stamps or not settings.authority:
        raise BadSettings("the settings name no `stamps` and `authority`")
    path = settings.witness(book_of(settings, word))
    try:
        lines = witness.read_lines(whole_lines(path))
        if not lines:
            raise BadSettings(f"{path} has no line yet")
        print(stamps.stamp_newest(path, lines, settings.stamps, settings.authority))
    except witness.Differs as fault:
        print(f"hall-archive: {path}: {fault}", file=sys.stderr)
        return 1
    except stamps.NotStamped as fault:
        print(f"hall-archive: line {len(lines)} isn't stamped: {fault}", file=sys.stderr)
        return UNSTAMPED
    return 0


# ---- the pages


def serve(settings: Settings, _: str, __: str) -> int:
    """Answers the pages on 127.0.0.1, behind the front alone."""
    import uvicorn

    from hall_archive.web import make_app

    opened(settings)
    uvicorn.run(
        make_app(settings),
        host="127.0.0.1",
        port=settings.port,
        log_level="warning",
        access_log=False,
        server_header=False,
        proxy_headers=False,
    )
    return 0


def openapi(settings: Settings, _: str, __: str) -> int:
    """Prints the description of what `serve` answers."""
    from hall_archive.web import make_app

    print(json.dumps(make_app(settings).openapi(), indent=1))
    return 0
