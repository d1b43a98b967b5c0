"""What the pages of reports and of the search ask, by HTTP: reports as JSON, CSV, spreadsheet
and PDF, batches and packs over all books, and what an office answered of an old one."""

from collections.abc import Callable
from typing import Any

from fastapi import Header, HTTPException, Path, Query, Response
from fastapi.responses import JSONResponse, PlainTextResponse

from hall_archive import report_forms, store
from hall_archive.finding import Finding
from hall_archive.old import Old
from hall_archive.papers import NotDrawn
from hall_archive.periods import BadPeriod, Period, period_of
from hall_archive.reports import Asked, Reports
from hall_archive.rows import MAX_ROWS
from hall_archive.settings import Settings

Word = Query(default="", max_length=64)
Day = Query(default="", max_length=10, pattern=r"^$|^\d{4}-\d\d(-\d\d)?$")
Front = Header(max_length=64)
# Days that a search goes back where only the first is given.
LAST = "9999-12-31"


class Shown:
    """Which halls a person may see: that which the front shows, or every one of the archive."""

    def __init__(self, settings: Settings, reports: Reports, hall_of: Callable[[str], str]) -> None:
        self.settings, self.reports, self.hall_of = settings, reports, hall_of

    def halls(self, book: str, hall: str) -> tuple[str, ...]:
        if not self.settings.reports.all_halls:
            own = self.hall_of(book)
            if hall not in ("", own):
                raise HTTPException(404, f"there is no hall {hall!r}")
            return (own,)
        halls = tuple(self.reports.halls())
        if hall and hall not in halls:
            raise HTTPException(404, f"there is no hall {hall!r}")
        return (hall,) if hall else halls


def add_months(app: Any, settings: Settings, hall_of: Callable[[str], str]) -> None:
    """Adds all of it to the application; `hall_of` says the hall of a book that the front names."""
    engine = store.open_engine(settings.reports.database or settings.database)
    reports = Reports(engine)
    shown = Shown(settings, reports, hall_of)

    @app.exception_handler(BadPeriod)  # type: ignore[misc]
    def bad_period(_: Any, fault: BadPeriod) -> Any:
        return JSONResponse({"detail": str(fault)}, 422)

    @app.exception_handler(report_forms.NotInstalled)  # type: ignore[misc]
    def not_installed(_: Any, fault: report_forms.NotInstalled) -> Any:
        return JSONResponse({"detail": str(fault)}, 501)

    @app.exception_handler(NotDrawn)  # type: ignore[misc]
    def not_drawn(_: Any, fault: NotDrawn) -> Any:
        return JSONResponse({"detail": str(fault)}, 500)

    add_reports(app, settings, reports, shown)
    add_search(app, Finding(engine), shown)
    add_old(app, Old(engine), shown)


def add_reports(app: Any, settings: Settings, reports: Reports, shown: Shown) -> None:
    @app.get("/halls")  # type: ignore[misc]
    def halls(x_book: str = Front) -> Any:
        """The halls that are shown, the shifts, and what may be asked by."""
        shifts = [one.name for one in settings.reports.shifts]
        return {"halls": shown.halls(x_book, ""), "shifts": shifts}

    @app.get("/reports/{by}")  # type: ignore[misc]
    def report(
        by: str = Path(max_length=16),
        first: str = Day,
        last: str = Day,
        x_book: str = Front,
        hall: str = Word,
        book: str = Word,
        product: str = Word,
        lane: int = Query(default=0, ge=0, le=16),
        form: str = Query(default="json", pattern="^(json|csv|xlsx|pdf)$"),
        language: str = Query(default="en", pattern="^(en|de)$"),
    ) -> Any:
        """A report by shift, day, week, month, product, lane, hall or book, over days."""
        halls = shown.halls(x_book, hall)
        asked = Asked(by, period_of(first, last), halls, book, product, lane)
        found = reports.report(asked, settings.reports).shown()
        if form == "json":
            return JSONResponse(found)
        name = f"{by}-{found['first']}-{found['last']}.{form}"
        head = {"Content-Disposition": f'attachment; filename="{name}"'}
        body = report_forms.made(form, found, language)
        return Response(body, media_type=report_forms.FORMS[form][1], headers=head)


def add_search(app: Any, finding: Finding, shown: Shown) -> None:
    @app.get("/found")  # type: ignore[misc]
    def found(
        x_book: str = Front,
        text: str = Word,
        hall: str = Word,
        book: str = Word,
        product: str = Word,
        verdict: str = Word,
        person: str = Word,
        first: str = Day,
        last: str = Day,
    ) -> Any:
        """Batches over all books, the newest first; and packs, where the text is a number."""
        halls = shown.halls(x_book, hall)
        given = {"book": book, "product": product, "verdict": verdict, "person": person}
        batches = finding.batches(halls, text, given, search_period(first, last))
        packs = finding.packs(halls, int(text)) if text.isdecimal() and len(text) < 8 else []
        return {"batches": batches, "packs": packs}


def search_period(first: str, last: str) -> Period | None:
    """The days of a search; open ends are the first and the last day that there is."""
    if not first and not last:
        return None
    begins = period_of(first or "1970-01-01").first
    return Period(begins, period_of(last or LAST).last)


def add_old(app: Any, old: Old, shown: Shown) -> None:
    def number(x_book: str, book: str) -> int:
        hall, _, name = book.rpartition("~")
        found = [old.number(one, name) for one in shown.halls(x_book, hall)]
        there = [one for one in found if one is not None]
        if len(there) != 1:
            raise HTTPException(404, f"there are {len(there)} books {book!r}")
        return there[0]

    def answer(text: str, rows: int) -> Any:
        return PlainTextResponse(text, headers={"Book-Row": str(rows)})

    @app.get("/old/{book}/summary")  # type: ignore[misc]
    def summary(book: str, x_book: str = Front) -> Any:
        """The balance of a book; BOOK, or HALL~BOOK where several halls have one of the name."""
        found = number(x_book, book)
        return answer(old.summary(found), old.rows(found))

    @app.get("/old/{book}/batches/{name}")  # type: ignore[misc]
    def sheet(book: str, name: str, x_book: str = Front) -> Any:
        found = number(x_book, book)
        return answer(old.sheet(found, name), old.rows(found))

    @app.get("/old/{book}/batches/{name}/sample")  # type: ignore[misc]
    def sample(book: str, name: str, x_book: str = Front) -> Any:
        found = number(x_book, book)
        return answer(old.sample(found, name), old.rows(found))

    @app.get("/old/{book}/batches/{name}/packs/{above}")  # type: ignore[misc]
    def packs(
        book: str, name: str, above: int = Path(ge=0, le=MAX_ROWS), x_book: str = Front
    ) -> Any:
        found = number(x_book, book)
        return answer(old.packs(found, name, above), old.rows(found))

    @app.get("/old/{book}/papers/{name}")  # type: ignore[misc]
    def paper(book: str, name: str, x_book: str = Front) -> Any:
        found = number(x_book, book)
        return answer(old.paper(found, name.removesuffix(".txt")), old.rows(found))
