"""Reports over shifts, days, weeks, months, products, lanes, halls and books, of the sums that
are kept (`summing`). A report is one answer: its lines, their total, products by lanes, days,
verdicts and refused acts; each line says from which rows of which books it is."""

from collections import defaultdict
from collections.abc import Callable
from typing import Any, NamedTuple

from hall_archive.batch_nets import batch_nets
from hall_archive.figures import Goods, Line, Packs, Ran
from hall_archive.periods import BY, BadPeriod, Period, Span, ends, key_of, spans
from hall_archive.questions import Books
from hall_archive.report_settings import ReportSettings
from hall_archive.rows import day_text
from hall_archive.sums import QUARTER, UNKNOWN

# Closed batches that a report lists at most; all of them are counted.
LISTED = 100
HOURLESS = "hour unknown"
SUMS = """
    SELECT {place}, q.book, q.day, o.product, o.nominal, o.density, q.lane, q.signal, q.pile,
    sum(q.count), sum(q.gross), sum(q.net), sum(q.square), sum(q.short), sum(q.poor),
    sum(q.count * o.mass), sum(CASE WHEN q.quarter > 0 THEN q.count ELSE 0 END),
    min(q.first), max(q.last)
    FROM {source} JOIN opening o ON o.book = q.book AND o.batch = q.batch
    WHERE {terms} GROUP BY 1, 2, 3, 4, 5, 6, 7, 8, 9"""
PACES = """
    SELECT {place}, q.book, q.day, o.product, o.nominal, o.density, q.lane,
    sum(q.running), sum(q.stops), sum(q.stopped)
    FROM {source} JOIN opening o ON o.book = q.book AND o.batch = q.batch
    WHERE {terms} GROUP BY 1, 2, 3, 4, 5, 6, 7"""
CLOSED = """
    SELECT {place}, q.book, q.row, q.day, o.batch, o.name, o.product, o.nominal, o.density, b.verdict
    FROM {source} JOIN opening o ON o.book = q.book AND o.batch = q.batch
    JOIN batch b ON b.book = q.book AND b.row = q.batch
    WHERE {terms} ORDER BY q.book, q.row"""


class Asked(NamedTuple):
    """What a report is asked for; what is empty may be anything. Several halls are several
    names."""

    by: str
    period: Period
    halls: tuple[str, ...]
    book: str = ""
    product: str = ""
    lane: int = 0


class Source(NamedTuple):
    """A book that a report is made of: rows that it has and that are summed."""

    number: int
    hall: str
    name: str
    rows: int
    summed: int


class Closed(NamedTuple):
    """A batch that was closed in the period."""

    key: str
    source: Source
    row: int
    day: int
    batch: int
    name: str
    goods: Goods
    verdict: str


class Reports(Books):
    """Reads the sums, of one or several halls."""

    def halls(self) -> list[str]:
        return [hall for (hall,) in self.ask("SELECT DISTINCT hall FROM book ORDER BY hall")]

    def sources(self, asked: Asked) -> list[Source]:
        """The books that have packs or closings in the period, or around it for a night shift."""
        first, last = asked.period
        found = self.ask(
            """SELECT b.id, b.hall, b.name, b.upto, s.upto FROM book b
            JOIN summed s ON s.book = b.id
            WHERE s.first_day <= :last AND s.last_day >= :first ORDER BY b.hall, b.name""",
            first=first - 1,
            last=last + 1,
        )
        sources = [Source(*row) for row in found]
        return [one for one in sources if one.hall in asked.halls and asked.book in ("", one.name)]

    def report(self, asked: Asked, settings: ReportSettings) -> "Report":
        if asked.by not in BY:
            raise BadPeriod(f"no report is by {asked.by!r}: {', '.join(BY)}")
        report = Report(asked, settings, {one.number: one for one in self.sources(asked)})
        if report.sources:
            for part in self.parts(report):
                self.fill(report, part)
            self.fill_batches(report)
        self.fill_refused(report)
        return report

    def parts(self, report: "Report") -> list["Part"]:
        """What is asked of the database: by days, or by the spans of shifts, and behind these what
        has no hour."""
        asked = report.asked
        terms = [f"q.book IN ({', '.join(map(str, report.sources))})"]
        values: dict[str, Any] = {}
        if asked.product:
            terms.append("o.product = :product")
            values["product"] = asked.product
        first, last = asked.period
        days = [*terms, f"q.day >= {first}", f"q.day <= {last}"]
        if asked.by != "shift":
            return [Part([""], "0", "{table} q", days, values)]
        shifts = spans(asked.period, report.settings.shifts, report.settings.zone)
        by_shifts = of_spans if self.is_sqlite else of_buckets
        hourless = [*days, f"q.quarter = {UNKNOWN}"]
        return [
            by_shifts(shifts, terms, values),
            Part([HOURLESS], "0", "{table} q", hourless, values),
        ]

    def fill(self, report: "Report", part: "Part") -> None:
        """Adds the packs, lanes and closings of a part."""
        of_lane = [f"q.lane = {report.asked.lane}"] if report.asked.lane else []
        for row in self.ask(part.statement(SUMS, "quarter", of_lane), **part.values):
            place, book, day, product, *more = row
            goods, sums = Goods(product, *map(int, more[:2])), map(int, more[2:])
            source = report.sources[book]
            report.add(part.names[place], Packs(source.hall, source.name, day, goods, *sums))
        for row in self.ask(part.statement(PACES, "pace", of_lane), **part.values):
            place, book, day, product, *more = row
            goods, sums = Goods(product, *map(int, more[:2])), map(int, more[2:])
            source = report.sources[book]
            report.run(part.names[place], Ran(source.hall, source.name, day, goods, *sums))
        for row in self.ask(part.statement(CLOSED, "closing", []), **part.values):
            place, book, closing, day, batch, name, product, nominal, density, verdict = row
            goods, key = Goods(product, int(nominal), density), part.names[place]
            source = report.sources[book]
            report.close(Closed(key, source, closing, day, batch, name, goods, verdict))

    def fill_batches(self, report: "Report") -> None:
        """How many packs the closed batches have that are listed, and their nets."""
        wanted = ((one.source.number, one.batch) for one in report.worst())
        report.batches = batch_nets(self, wanted)

    def fill_refused(self, report: "Report") -> None:
        """Refused acts by the hour at which they were answered."""
        low, high = ends(report.asked.period, report.settings.zone)
        for hall, name, moment, act, person in self.ask(
            """SELECT b.hall, b.name, r.moment, r.act, r.person FROM refusal r
            JOIN book b ON b.id = r.book WHERE r.moment >= :low AND r.moment < :high""",
            low=low,
            high=high,
        ):
            if hall in report.asked.halls and report.asked.book in ("", name):
                report.refuse(hall, name, int(moment), act, person)


class Part(NamedTuple):
    """A question: names of lines, which of them sums are of (its place, as SQL), where it is asked,
    what has to hold, and what the statement begins with."""

    names: list[str]
    place: str
    source: str
    terms: list[str]
    values: dict[str, Any]
    begins: str = ""

    def statement(self, text: str, table: str, more: list[str]) -> str:
        terms = " AND ".join(self.terms + more)
        source = self.source.format(table=table)
        return self.begins + text.format(place=self.place, source=source, terms=terms)


def of_spans(shifts: list[Span], terms: list[str], values: dict[str, Any]) -> Part:
    """By shifts for SQLite: the quarters of each are found in the key of the sums."""
    rows = ", ".join(f"({place}, {one.low}, {one.high})" for place, one in enumerate(shifts))
    source = "span JOIN {table} q ON q.quarter >= low AND q.quarter < high"
    names = [one.key for one in shifts]
    begins = f"WITH span(place, low, high) AS (VALUES {rows})"
    return Part(names, "span.place", source, terms, values, begins)


def of_buckets(shifts: list[Span], terms: list[str], values: dict[str, Any]) -> Part:
    """By shifts for PostgreSQL, which would compare each quarter with each shift: the place is
    found by halves, in one pass over the sums."""
    bounds = [one.low for one in shifts] + [shifts[-1].high]
    within = [*terms, f"q.quarter >= {bounds[0]}", f"q.quarter < {bounds[-1]}"]
    names = [one.key for one in shifts]
    return Part(names, f"width_bucket(q.quarter, ARRAY{bounds}) - 1", "{table} q", within, values)


class Report:
    """A report in the making."""

    def __init__(self, asked: Asked, settings: ReportSettings, sources: dict[int, Source]) -> None:
        self.asked, self.settings, self.sources = asked, settings, sources
        self.total = Line()
        self.lines: dict[str, Line] = defaultdict(Line)
        self.matrix: dict[tuple[str, int], Line] = defaultdict(Line)
        self.days: dict[int, Line] = defaultdict(Line)
        self.closed: list[Closed] = []
        self.batches: dict[tuple[int, int], tuple[int, int]] = {}
        self.refused: dict[tuple[str, str], int] = defaultdict(int)

    def name(self, key: str, one: Packs | Ran) -> str:
        """Of which line sums are."""
        match self.asked.by:
            case "shift":
                return key
            case "product":
                return one.goods.product
            case "lane":
                return f"{one.lane:02}"
            case "hall":
                return one.hall
            case "book":
                return f"{one.hall} {one.book}"
        return key_of(self.asked.by, one.day)

    def places(self, key: str, one: Packs | Ran) -> tuple[Line, ...]:
        product, lane = one.goods.product, one.lane
        by_lane = (self.matrix[product, lane], self.matrix[product, 0], self.matrix["", lane])
        return (self.total, self.lines[self.name(key, one)], self.days[one.day], *by_lane)

    def add(self, key: str, packs: Packs) -> None:
        price = self.settings.prices.of(packs.goods.product, packs.day)
        for line in self.places(key, packs):
            line.add(packs, price)

    def run(self, key: str, ran: Ran) -> None:
        for line in self.places(key, ran):
            line.run(ran)

    def close(self, one: Closed) -> None:
        self.closed.append(one)
        verdict = one.verdict.split(" ")[0]
        of = {
            "shift": one.key,
            "product": one.goods.product,
            "hall": one.source.hall,
            "book": f"{one.source.hall} {one.source.name}",
        }
        name = of.get(self.asked.by, key_of(self.asked.by, one.day))
        # a batch is of several lanes
        lines = [self.total] + ([self.lines[name]] if self.asked.by != "lane" else [])
        for line in lines:
            line.verdicts[verdict] += 1

    def refuse(self, hall: str, book: str, moment: int, act: str, person: str) -> None:
        self.refused[act, person] += 1
        self.total.refused += 1
        name = {"hall": hall, "book": f"{hall} {book}"}.get(self.asked.by) or self.when(moment)
        if name:
            self.lines[name].refused += 1

    def when(self, moment: int) -> str:
        """Of which line of time a moment is; empty of none."""
        period, zone = self.asked.period, self.settings.zone
        if self.asked.by not in ("shift", "day", "week", "month"):
            return ""
        if self.asked.by == "shift":
            found = spans(period, self.settings.shifts, zone)
            keys = [one.key for one in found if one.low <= moment // QUARTER < one.high]
            return keys[0] if keys else ""
        days = range(period.first, period.last + 1)
        day = next(day for day in days if moment < ends(Period(day, day), zone)[1])
        return key_of(self.asked.by, day)

    # ---- what is shown

    def shown(self) -> dict[str, Any]:
        asked = self.asked
        return {
            "by": asked.by,
            "first": day_text(asked.period.first),
            "last": day_text(asked.period.last),
            "halls": list(asked.halls),
            "product": asked.product,
            "lane": asked.lane,
            "book": asked.book,
            "currency": self.settings.currency,
            "aim": self.settings.aim,
            "total": self.total.shown(),
            "lines": self.listed(lambda line: line.shown()),
            "matrix": [
                {"product": product, "lane": lane} | line.shown()
                for (product, lane), line in sorted(self.matrix.items())
            ],
            "days": [
                {"day": day_text(day)} | short(line) for day, line in sorted(self.days.items())
            ],
            "batches": [self.batch(one) for one in self.worst()],
            "closed": len(self.closed),
            "refused": [
                {"act": act, "person": person, "count": count}
                for (act, person), count in sorted(self.refused.items())
            ],
            "behind": self.behind(),
        }

    def listed(self, show: Callable[[Line], dict[str, Any]]) -> list[dict[str, Any]]:
        return [{"name": name} | show(line) for name, line in sorted(self.lines.items())]

    def worst(self) -> list[Closed]:
        """The batches that are listed: those withheld first, then the newest."""
        order = sorted(self.closed, key=lambda one: (one.verdict == "released", -one.day, -one.row))
        return order[:LISTED]

    def batch(self, one: Closed) -> dict[str, Any]:
        count, net = self.batches.get((one.source.number, one.batch), (0, 0))
        nominal = one.goods.nominal * (one.goods.density or 1_000_000) // 1_000_000
        return {
            "hall": one.source.hall,
            "book": one.source.name,
            "row": one.row,
            "day": day_text(one.day),
            "batch": one.name,
            "product": one.goods.product,
            "packs": count,
            "over": round(net / count - nominal, 3) if count else None,
            "verdict": one.verdict,
        }

    def behind(self) -> list[dict[str, Any]]:
        """Books whose newest rows aren't in the sums yet."""
        return [
            {"hall": one.hall, "book": one.name, "rows": one.rows, "summed": one.summed}
            for one in self.sources.values()
            if one.summed < one.rows
        ]


def short(line: Line) -> dict[str, Any]:
    """What the chart of the days needs of a line."""
    shown = line.shown()
    return {name: shown[name] for name in ("population", "over", "share", "readings")}
