"""Run by bench/months.sh: PROGRAM FOLDER ROWS PART. What reports, searches, PDFs, deliveries
and the next book take. Prints seconds of the clock, and of a processor with that of a server."""

import os
import subprocess
import sys
import time
from collections.abc import Callable
from typing import Any

HERE = os.path.dirname(os.path.realpath(__file__))
sys.path[:0] = [f"{HERE}/../archive", f"{HERE}/../tests"]

from archive_books import make_book  # noqa: E402
from archive_plans import Plans  # noqa: E402
from archive_room import Postgres  # noqa: E402
from months_books import first_book, months  # noqa: E402

from hall_archive import report_forms, store  # noqa: E402
from hall_archive.finding import Finding  # noqa: E402
from hall_archive.periods import period_of  # noqa: E402
from hall_archive.report_settings import read_reports  # noqa: E402
from hall_archive.reports import Asked, Reports  # noqa: E402

HALLS, BOOKS = 8, 22
MONTH = "2025-03"
SETTINGS = read_reports({"zone": "UTC", "aim": 0.8, "prices": {"rice250": 1.89, "oats250": 2.1}})
# Packs a second of a hall, and for how long they come.
RATE, SECONDS = 140, 60
WORKER = f"{HERE}/months_site.py"


def say(text: str) -> None:
    print(f"months: {text}; load {os.getloadavg()[0]:.1f}", flush=True)


def timed(
    said: str, work: Callable[[], Any], server: Postgres | None = None, times: int = 3
) -> Any:
    """The first time and the best of the next ones."""
    took = []
    for _ in range(times):
        used = time.process_time() + (server.seconds() if server else 0)
        began = time.monotonic()
        found = work()
        clock = time.monotonic() - began
        took.append((clock, time.process_time() + (server.seconds() if server else 0) - used))
    again = min(took[1:]) if times > 1 else took[0]
    say(f"{said}: {took[0][0]:.2f} s, {took[0][1]:.2f} of a processor; again {again[0]:.2f} s")
    return found


def reports(kind: str, url: str, lines: list[str], server: Postgres | None = None) -> None:
    engine = store.open_engine(url, True)
    store.migrate(engine)
    words = f"{kind}, {len(lines)} rows taken in and summed"
    kept = timed(words, lambda: first_book(engine, lines), server, 1)
    began = time.monotonic()
    months(kept, HALLS, BOOKS, 1)
    say(f"{kind}, {HALLS} halls of {BOOKS} books made in {time.monotonic() - began:.0f} s")
    reads = store.open_engine(url)
    asked, plans = Reports(reads), Plans(reads)
    halls = tuple(f"hall{at}" for at in range(1, HALLS + 1))
    for by in ("shift", "day", "product"):
        for some in (halls[:1], halls):
            words = f"{kind}, a month by {by} of {len(some)} halls of {BOOKS} books"
            timed(words, lambda: report(asked, by, some), server)
    search(kind, Finding(reads), halls, server)
    whole = plans.whole()
    say(f"{kind}, {len(plans.asked)} statements, {len(whole)} plans read all rows: {whole}")
    found = report(asked, "shift", halls[:1])
    if server is None:
        for form in ("csv", "xlsx", "pdf"):
            made = timed(
                f"{form} of a month by shift", lambda: report_forms.made(form, found, "en")
            )
        say(f"the PDF has {len(made)} bytes, {len(found['lines'])} lines")


def report(asked: Reports, by: str, halls: tuple[str, ...]) -> dict[str, Any]:
    return asked.report(Asked(by, period_of(MONTH), halls), SETTINGS).shown()


def search(kind: str, finding: Finding, halls: tuple[str, ...], server: Postgres | None) -> None:
    period = period_of("2025-03-10", "2025-03-12")
    none: dict[str, str] = {}
    for said, work in (
        ("all", lambda: finding.batches(halls, "", none, None)),
        ("a name", lambda: finding.batches(halls, "B17-", none, None)),
        ("a product", lambda: finding.batches(halls, "", {"product": "oats250"}, None)),
        ("a verdict", lambda: finding.batches(halls, "", {"verdict": "withheld"}, None)),
        ("a person", lambda: finding.batches(halls, "", {"person": "carla"}, None)),
        ("nobody", lambda: finding.batches(halls, "", {"person": "nobody"}, None)),
        ("days", lambda: finding.batches(halls, "", none, period)),
        ("a pack", lambda: finding.packs(halls, 500_000)),
    ):
        timed(f"{kind}, search for {said} in {HALLS * BOOKS} books", work, server)


# ---- eight halls into one database


def followers(folder: str) -> None:
    """Eight sites, a process each, deliver to one PostgreSQL."""
    server = Postgres(folder)
    try:
        store.migrate(store.open_engine(server.url, True))
        words = [sys.executable, "-B", WORKER, folder, server.url, str(RATE), str(SECONDS)]
        sites = [
            subprocess.Popen([*words, f"hall{at}"], stdout=subprocess.PIPE, text=True)
            for at in range(1, HALLS + 1)
        ]
        for site in sites:
            assert site.stdout
            site.stdout.readline()
        used, began = server.seconds(), time.monotonic()
        told = [site.communicate()[0].split() for site in sites]
        passed = time.monotonic() - began
        served = 100 * (server.seconds() - used) / passed
        parts = [sum(float(one[at]) for one in told) for at in range(3)]
        say(
            f"{HALLS} halls of {RATE} rows a second, {SECONDS} s: {parts[2]:.0f} rows delivered;"
            f" the server {served:.1f} % of a processor, delivering {parts[1]:.1f} % in all,"
            f" together {served + parts[1]:.1f} %; following into their own SQLite"
            f" {parts[0]:.1f} %"
        )
        [(bytes_of,)] = Reports(store.open_engine(server.url)).ask(
            "SELECT pg_database_size('archive')"
        )
        say(
            f"PostgreSQL has {bytes_of / max(1, parts[2]):.0f} bytes a row, its own 8 MB among them"
        )
    finally:
        server.kill()


# ---- the next book


def next_book(program: str, folder: str, rows: int) -> None:
    """How long lanes stand while a book of so many rows is followed by the next."""
    import filled_book
    from months_next import Halls

    halls = Halls(program, f"{folder}/next", "1")
    halls.settle("2026-12")
    filled_book.write_book(halls.path("2026-12"), rows - rows // 66)
    began = time.monotonic()
    halls.close("2026-12")
    say(f"all batches of {halls.rows('2026-12')} rows closed in {time.monotonic() - began:.0f} s")
    halls.control("enable", "hall@2026-12")
    halls.control("start", "hall@2026-12")
    try:
        status, said = halls.next("2026-12")
        for line in said.splitlines():
            say(f"next book ({status}): {line}")
    finally:
        halls.end()


def main() -> None:
    program, folder, rows, part = sys.argv[1], sys.argv[2], int(sys.argv[3]), sys.argv[4]
    if part == "next":
        return next_book(program, folder, rows)
    if part == "followers":
        return followers(folder)
    lines = make_book(rows)
    if part == "sqlite":
        return reports("SQLite", f"sqlite:///{folder}/archive.db", lines)
    server = Postgres(folder)
    try:
        reports("PostgreSQL", server.url, lines, server)
    finally:
        server.kill()


main()
