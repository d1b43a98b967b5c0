"""What the pages ask of the archive, by HTTP on 127.0.0.1 behind the front. The front names the
person (`X-Person`) and the book whose hall it shows (`X-Book`), and lets nobody else in: this
trusts both. A question sees the books and the evidence of that hall alone."""

import json
import time
from typing import Any

from fastapi import Body, FastAPI, Header, HTTPException, Path, Query
from fastapi.responses import JSONResponse, PlainTextResponse, StreamingResponse

from hall_archive import evidence, nets, report_pages, store, witness
from hall_archive.evidence import BadEvidence, Record
from hall_archive.reading import NAME
from hall_archive.records import Records
from hall_archive.rows import MAX_ROWS
from hall_archive.packs import Wanted
from hall_archive.search import Search
from hall_archive.settings import BadSettings, Settings
from hall_archive.spans import BadQuestion, Behind, Time
from hall_archive.taking import Unkept

# Texts of a question: names of books, batches, products, persons.
Word = Query(default="", max_length=64)
Moment = Query(default=None, ge=0, le=1 << 52, description="ms of UTC since 1970-01-01")
# Where a page begins: behind row `after` of the book `begin`, or of the book that is asked for.
After = Query(default=0, ge=0, le=MAX_ROWS)
Row = Path(ge=1, le=MAX_ROWS)
Front = Header(max_length=64)


class Halls:
    """Which hall the front shows, by the book that it names."""

    def __init__(self, settings: Settings) -> None:
        self.settings = settings

    def of(self, book: str) -> str:
        halls = {one.hall for one in self.settings.followed if one.name == book}
        if len(halls) != 1:
            raise HTTPException(404, f"the archive has {len(halls)} halls with a book {book!r}")
        return halls.pop()


def shown(record: Record) -> dict[str, Any]:
    return record._asdict() | {"body": json.loads(record.body)}


def make_app(settings: Settings) -> Any:
    """The application, over the database of the settings."""
    reads = store.open_engine(settings.database)
    search, halls = Search(reads), Halls(settings)
    records = Records(store.open_engine(settings.database, writes=True))
    app = FastAPI(title="hall-archive", docs_url=None, redoc_url=None)
    add_faults(app)
    add_questions(app, search, halls)
    add_texts(app, search, halls)
    add_evidence(app, records, halls, settings.days)
    add_witness(app, settings, halls)
    report_pages.add_months(app, settings, halls.of)
    return app


def add_faults(app: Any) -> None:
    @app.exception_handler(BadQuestion)  # type: ignore[misc]
    def bad_question(_: Any, fault: BadQuestion) -> Any:
        return JSONResponse({"detail": str(fault)}, 404)

    @app.exception_handler(BadEvidence)  # type: ignore[misc]
    def bad_evidence(_: Any, fault: BadEvidence) -> Any:
        return JSONResponse({"detail": str(fault)}, 422)

    @app.exception_handler(Unkept)  # type: ignore[misc]
    def unanswered(_: Any, fault: Unkept) -> Any:
        return JSONResponse({"detail": "the archive's database doesn't answer"}, 503)


def add_questions(app: Any, search: Search, halls: Halls) -> None:
    add_books(app, search, halls)
    add_packs(app, search, halls)

    @app.get("/acts")  # type: ignore[misc]
    def acts(
        x_book: str = Front,
        book: str = Word,
        batch: str = Word,
        product: str = Word,
        kind: str = Word,
        person: str = Word,
        low: int | None = Moment,
        high: int | None = Moment,
        begin: str = Word,
        after: int = After,
    ) -> Any:
        """Acts with persons, reasons and hours, over all books of the hall."""
        given = {"batch": batch, "product": product, "kind": kind, "person": person}
        behind = Behind(begin, after)
        return search.acts(halls.of(x_book), book, given, Time(low, high), behind)


def add_books(app: Any, search: Search, halls: Halls) -> None:
    @app.get("/books")  # type: ignore[misc]
    def books(x_book: str = Front) -> Any:
        """The books of the hall: how many rows of each were taken, and until when it was asked."""
        return search.books(halls.of(x_book))

    @app.get("/batches")  # type: ignore[misc]
    def batches(
        x_book: str = Front,
        book: str = Word,
        name: str = Word,
        product: str = Word,
        state: str = Word,
        verdict: str = Word,
        low: int | None = Moment,
        high: int | None = Moment,
        begin: str = Word,
        after: int = After,
    ) -> Any:
        """Batches, over all books of the hall."""
        given = {"name": name, "product": product, "state": state, "verdict": verdict}
        behind = Behind(begin, after)
        return search.batches(halls.of(x_book), book, given, Time(low, high), behind)

    @app.get("/totals/{book}")  # type: ignore[misc]
    def totals(
        book: str, x_book: str = Front, low: int | None = Moment, high: int | None = Moment
    ) -> Any:
        """What was weighed in a span, by batch, lane and signal."""
        return search.totals(halls.of(x_book), book, Time(low, high))


def add_packs(app: Any, search: Search, halls: Halls) -> None:
    @app.get("/packs")  # type: ignore[misc]
    def packs(
        x_book: str = Front,
        book: str = Word,
        batch: str = Word,
        product: str = Word,
        lane: int = Query(default=0, ge=0, le=16),
        signal: str = Word,
        pile: str = Word,
        low: int | None = Moment,
        high: int | None = Moment,
        begin: str = Word,
        after: int = After,
    ) -> Any:
        """Packs, over all books of the hall; `signal` may be `reject` for every reject."""
        wanted = Wanted(batch, product, lane, signal, pile)
        behind = Behind(begin, after)
        return search.packs(halls.of(x_book), book, wanted, Time(low, high), behind)

    @app.get("/packs/{book}/{row}")  # type: ignore[misc]
    def story(book: str, row: int = Row, x_book: str = Front) -> Any:
        """A pack with its hour, its place on its lane, and the acts that speak of it."""
        return search.story(halls.of(x_book), book, row)


def add_texts(app: Any, search: Search, halls: Halls) -> None:
    @app.get("/sheets/{book}/{batch}")  # type: ignore[misc]
    def sheet(book: str, batch: str, x_book: str = Front) -> Any:
        """The sheet of a batch, as `hall report --batch` prints it."""
        found = search.batch(search.one_book(halls.of(x_book), book), batch)
        if found is None:
            raise BadQuestion(f"there is no batch {batch!r}")
        return PlainTextResponse(nets.sheet(found))

    @app.get("/registers/{book}")  # type: ignore[misc]
    def register(book: str, x_book: str = Front) -> Any:
        """The register of a book, as `hall export` prints it."""
        number = search.one_book(halls.of(x_book), book)
        return StreamingResponse(search.register(number), media_type="text/csv")


def add_witness(app: Any, settings: Settings, halls: Halls) -> None:
    @app.get("/witness/{book}/{row}")  # type: ignore[misc]
    def fingerprint(book: str, row: int = Row, x_book: str = Front) -> Any:
        """The first line of a book's witness with the fingerprint of `hall audit` that has a row;
        404 as long as there is none."""
        try:
            path = settings.witness(settings.book(book, halls.of(x_book)))
            line = witness.fingerprinted(path, row)
        except (BadSettings, witness.Differs) as fault:
            raise HTTPException(404, str(fault)) from fault
        if line is None:
            raise HTTPException(404, f"no fingerprint of {book} has row {row} yet")
        return line._asdict()


def add_evidence(app: Any, records: Records, halls: Halls, days: dict[str, int]) -> None:
    @app.get("/evidence")  # type: ignore[misc]
    def found(
        x_book: str = Front,
        kind: str = Word,
        subject: str = Word,
        person: str = Word,
        low: int | None = Moment,
        high: int | None = Moment,
    ) -> Any:
        """Evidence of the hall, the oldest first."""
        given = {"kind": kind, "subject": subject, "person": person}
        return [shown(one) for one in records.all(halls.of(x_book), given, low, high)]

    @app.get("/newest")  # type: ignore[misc]
    def newest(x_book: str = Front) -> Any:
        """The newest of each kind and subject."""
        return [shown(one) for one in records.newest(halls.of(x_book))]

    @app.get("/alarms")  # type: ignore[misc]
    def alarms(x_book: str = Front) -> Any:
        """What of the evidence is overdue or not good, and what of the books differs."""
        hall = halls.of(x_book)
        now = time.time_ns() // 1_000_000
        said = evidence.alarms(records.newest(hall), now, days)
        due = [one._asdict() for one in said]
        return {"evidence": due, "books": Search(records.engine).alarms(hall)}

    @app.post("/evidence/{kind}/{subject}", status_code=201)  # type: ignore[misc]
    def add(
        kind: str,
        subject: str,
        entered: dict[str, Any] = Body(),
        x_book: str = Front,
        x_person: str = Header(min_length=1, max_length=64),
    ) -> Any:
        """Adds a record; it is chained to the one before, and is never changed."""
        if not NAME.fullmatch(subject):
            raise BadEvidence(f"{subject[:64]!r} is no name of what it is of")
        body = evidence.evaluate(kind, entered)
        moment = time.time_ns() // 1_000_000
        return shown(records.add(halls.of(x_book), kind, subject, moment, x_person, body))
