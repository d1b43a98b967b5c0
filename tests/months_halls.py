"""Several halls and one archive over PostgreSQL: each site has its own SQLite and delivers over
a line that is cut, with a database that is killed; a second PostgreSQL follows the first by its
own replication and answers reports. For tests/months.py."""

import os
import random
import socket
import subprocess
import sys
import threading
import time
from collections import Counter
from datetime import UTC, datetime, timedelta
from typing import Any

HERE = os.path.dirname(os.path.realpath(__file__))
sys.path[:0] = [f"{HERE}/../archive", f"{HERE}/../bench"]

from archive_books import make_book  # noqa: E402
from archive_room import POSTGRES, Postgres, wait  # noqa: E402
from clients import need  # noqa: E402

from hall_archive import store  # noqa: E402
from hall_archive.clock import Moment  # noqa: E402
from hall_archive.delivering import Delivering  # noqa: E402
from hall_archive.following import Follower, Page  # noqa: E402
from hall_archive.periods import period_of  # noqa: E402
from hall_archive.records import Records  # noqa: E402
from hall_archive.report_settings import read_reports  # noqa: E402
from hall_archive.reports import Asked, Reports  # noqa: E402
from hall_archive.rows import MAX_ROWS, PAGE_ROWS  # noqa: E402
from hall_archive.store import Store  # noqa: E402
from hall_archive.summing import Summing  # noqa: E402

SITES = 3
ROWS = 9_000
# Rows of an hour of a site, and ms of UTC of its first row, at 13:15: the late shift begins in it.
AN_HOUR, BEGIN = 7_200, 1_741_007_700_000
SETTINGS = read_reports({"zone": "UTC", "prices": {"rice250": 1.89, "oats250": 0.99}})


class Line:
    """A line from a site to the central database, which may be cut: a port of this machine."""

    def __init__(self, target: str) -> None:
        self.target = target
        self.is_cut = False
        self.ends: list[socket.socket] = []
        self.port = socket.create_server(("127.0.0.1", 0))
        threading.Thread(target=self.serve, daemon=True).start()

    @property
    def url(self) -> str:
        return f"postgresql+psycopg2://postgres@127.0.0.1:{self.port.getsockname()[1]}/archive"

    def serve(self) -> None:
        while True:
            one, _ = self.port.accept()
            if self.is_cut:
                one.close()
                continue
            other = socket.socket(socket.AF_UNIX)
            try:
                other.connect(self.target)
            except OSError:
                one.close()
                continue
            self.ends += [one, other]
            for ends in ((one, other), (other, one)):
                threading.Thread(target=carry, args=ends, daemon=True).start()

    def cut(self) -> None:
        self.is_cut = True
        ends, self.ends = self.ends, []
        for end in ends:
            try:
                end.shutdown(socket.SHUT_RDWR)
            except OSError:
                pass


def carry(one: socket.socket, other: socket.socket) -> None:
    try:
        while piece := one.recv(65_536):
            other.sendall(piece)
        other.shutdown(socket.SHUT_WR)
    except OSError:
        pass


class Text:
    """A book as a door has it, of which so many rows are there so far."""

    is_new = False

    def __init__(self, lines: list[str]) -> None:
        self.lines, self.shown = lines, 0

    def ask(self, after: int) -> Page:
        upto = min(self.shown, after + PAGE_ROWS)
        return Page("".join(self.lines[after:upto]), self.shown)

    def close(self) -> None:
        pass


class Site:
    """A hall with its own archive, whose clock goes with its rows."""

    def __init__(self, folder: str, hall: str, lines: list[str], line: Line) -> None:
        os.makedirs(folder)
        self.hall, self.line, self.source = hall, line, Text(lines)
        url = f"sqlite:///{folder}/archive.db"
        engine = store.open_engine(url, True)
        store.migrate(engine)
        self.kept = Store(engine, hall, "day")
        self.follower = Follower("day", self.source, self.kept, now=self.now)
        self.summing = Summing(engine, self.kept.reads, self.kept.book, "day")
        self.records = Records(engine)
        self.delivering = Delivering(self.kept, line.url)
        self.delivering.start()
        # when each row came, by the site's clock
        self.times: list[datetime] = []

    def now(self, boot: str) -> Moment:
        passed = self.source.shown * 3_600_000 // AN_HOUR
        return Moment(BEGIN + passed, passed, boot)

    def weigh(self, rows: int) -> None:
        """So many rows come, two a second of the site's clock."""
        upto = min(len(self.source.lines), self.source.shown + rows)
        while self.source.shown < upto:
            came = min(upto, self.source.shown + 8)
            moment = (BEGIN + came * 3_600_000 // AN_HOUR) / 1000
            self.times += [datetime.fromtimestamp(moment, UTC)] * (came - self.source.shown)
            self.source.shown = came
            while self.follower.step()[0] == PAGE_ROWS:
                pass
        self.summing.look()

    def shifts(self) -> Counter[str]:
        """How many packs each shift weighed: early from 6 o'clock, late from 14, night from 22."""
        found: Counter[str] = Counter()
        for line, came in zip(self.source.lines, self.times, strict=False):
            if "\tweigh " in line:
                day = (came - timedelta(hours=6)).date()
                word = ("early", "late", "night")[(came.hour - 6) % 24 // 8]
                found[f"{day} {word}"] += 1
        return found

    def check_scale(self, place: int) -> None:
        body = '{"errors": [0], "limit": 5, "result": "good", "shown": [5], "weights": [5]}'
        self.records.add(self.hall, "scale", str(place), BEGIN + place, "anna", body)


class Central:
    """The archive of the halls, and what follows it."""

    def __init__(self, folder: str) -> None:
        self.folder = folder
        self.books: dict[str, Store] = {}
        self.server = Postgres(folder)
        store.migrate(store.open_engine(self.server.url, True))
        self.replica = f"{folder}/replica"
        os.makedirs(self.replica)
        subprocess.run(["chown", "postgres", self.replica], check=True)
        data = f"{self.replica}/data"
        words = ("-h", self.server.folder, "-D", data, "-R", "-X", "stream", "-c", "fast")
        self.server.control("pg_basebackup", *words)
        options = f"-k {self.replica} -c listen_addresses="
        self.of_replica("start", "-o", options, "-l", f"{self.replica}/log")
        self.replica_url = f"postgresql+psycopg2://postgres@/archive?host={self.replica}"

    def of_replica(self, *words: str) -> None:
        self.server.control("pg_ctl", "-D", f"{self.replica}/data", "-w", *words)

    def book(self, hall: str) -> Store:
        """A book there; by the same links each time, since a server has a hundred."""
        if hall not in self.books:
            self.books[hall] = Store(store.open_engine(self.server.url, True), hall, "day")
        return self.books[hall]

    def end(self) -> None:
        self.of_replica("stop", "-m", "immediate")
        self.server.kill()


def report(url: str, halls: tuple[str, ...], by: str) -> dict[str, Any]:
    asked = Asked(by, period_of("2025-03-01", "2025-03-31"), halls)
    return Reports(store.open_engine(url)).report(asked, SETTINGS).shown()


def compare(site: Site, central: Central) -> None:
    """What the central archive has of a site is what the site has, once."""
    there = central.book(site.hall)
    need(there.lines(0, MAX_ROWS) == site.kept.lines(0, MAX_ROWS), f"{site.hall}: other rows")
    for what in (
        "SELECT low, high, upto, kind FROM answer WHERE book = {} ORDER BY upto",
        "SELECT pack, row, pile FROM move WHERE book = {} ORDER BY pack",
        "SELECT row, name, reason, low, high FROM person WHERE book = {} ORDER BY row",
        "SELECT row, name, product, state, verdict, first, last, closed FROM batch WHERE"
        " book = {} ORDER BY row",
        "SELECT quarter, batch, day, lane, signal, pile, count, gross, net, square, short, poor,"
        " first, last FROM quarter WHERE book = {} ORDER BY 1, 2, 3, 4, 5, 6",
        "SELECT quarter, batch, day, lane, running, stops, stopped FROM pace WHERE book = {}"
        " ORDER BY 1, 2, 3, 4",
        "SELECT block, batch, day, lane, signal, count, gross FROM block WHERE book = {}"
        " ORDER BY 1, 2, 3, 4, 5",
    ):
        ours, theirs = (asked(one, what.format(one.book)) for one in (site.kept, there))
        need(ours == theirs, f"{site.hall}: {what}: {ours[:2]} and {theirs[:2]}")
    chain = (
        f"SELECT kind, subject, before, digest FROM evidence WHERE hall = '{site.hall}' ORDER BY id"
    )
    need(asked(site.kept, chain) == asked(there, chain), f"{site.hall}: other evidence")


def asked(kept: Store, statement: str) -> list[Any]:
    with store.reaching(kept.reads.connect) as link:
        return [tuple(row) for row in link.exec_driver_sql(statement)]


def parts_of(central: Central) -> None:
    """Each hall has its own partitions: a question of a book reads those of its hall alone."""
    there = central.book("hall1")
    plan = asked(there, f"EXPLAIN SELECT * FROM pack WHERE book = {there.book} AND row = 5")
    said = "\n".join(line for (line,) in plan)
    need("pack_h" in said and said.count("pack_h") <= 2, f"a question of one book: {said}")


def several(folder: str, seed: str) -> str:
    """Sites at work; one is cut off for an hour of its clock, the database killed meanwhile."""
    chance = random.Random(seed)
    central = Central(folder)
    target = f"{central.server.folder}/.s.PGSQL.5432"
    lines = make_book(ROWS)
    sites = [
        Site(f"{folder}/site{at}", f"hall{at}", lines[: ROWS - 500 * at], Line(target))
        for at in range(1, SITES + 1)
    ]
    try:
        for site in sites:
            site.weigh(600)
            site.check_scale(1)
        lost = sites[0]
        wait(lambda: central.book("hall1").cursor().upto == 600, "the first rows are there")
        lost.line.cut()
        work_on(sites, chance, central)
        need(central.book("hall1").cursor().upto == 600, "a cut line delivers")
        lost.line.is_cut = False
        for site in sites:
            site.check_scale(2)
            site.weigh(ROWS)
            upto = site.source.shown
            wait(lambda: central.book(site.hall).cursor().upto == upto, f"{site.hall} caught up")
        for site in sites:
            site.delivering.stop.set()
            site.delivering.join(60)
            compare(site, central)
            told = report(central.server.url, (site.hall,), "shift")["lines"]
            found = {line["name"]: line["readings"] for line in told}
            need(found == site.shifts() and len(found) > 1, f"shifts: {found}, {site.shifts()}")
        parts_of(central)
        replicated(central)
        rows = sum(site.source.shown for site in sites)
        return (
            f"{SITES} halls, {rows} rows there once, {AN_HOUR} of an hour without a line caught up"
        )
    finally:
        central.end()


def work_on(sites: list[Site], chance: random.Random, central: Central) -> None:
    """An hour of each site, while the database is killed and begun again."""
    left = AN_HOUR
    while left:
        rows = min(left, chance.randint(200, 1_500))
        left -= rows
        for site in sites:
            site.weigh(rows)
        if chance.random() < 0.4:
            central.server.kill()
            time.sleep(chance.uniform(0, 1))
            central.server.begin()


def replicated(central: Central) -> None:
    """The second database answers the same report, and writes nothing."""
    halls = tuple(f"hall{at}" for at in range(1, SITES + 1))
    for by in ("hall", "shift", "product"):
        first = report(central.server.url, halls, by)
        wait(lambda: report(central.replica_url, halls, by) == first, "the replica is as far", 60)
        need(first["total"]["readings"] > 0 and not first["behind"], f"an empty report by {by}")
