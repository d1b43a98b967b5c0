"""The archive beside a hall at work: see tests/archive.sh.

usage: archive.py PROGRAM FOLDER KILLS SEED"""

import json
import os
import random
import signal
import subprocess
import sys
import time
from typing import Any

import sqlalchemy
from archive_hall import ARCHIVE_PORT, RATE, Known, Work, now
from archive_room import Postgres, Room, wait
from archive_spoiled import spoiled
from clients import Wrong, need
from front_clients import Person, expect
from front_room import Front, mount_room, run

HERE = os.path.dirname(os.path.realpath(__file__))
sys.path.insert(0, f"{HERE}/../archive")

from archive_hall import PEOPLE  # noqa: E402

import archive_questions  # noqa: E402

from hall_archive import schema, store  # noqa: E402
from hall_archive.keeping import BLOCK  # noqa: E402
from hall_archive.questions import Books  # noqa: E402
from hall_archive.search import Search  # noqa: E402
from hall_archive.store import Store  # noqa: E402

LOG = "/var/log/nginx/hall-acts.log"
# ms within which an hour fits what the sender knew, where nothing was killed.
CLOSE = 300
# Seconds for which a quiet room is watched, how often, and the rows that are behind when the load
# begins.
QUIET, STRETCHES, LOAD = 4, 3, 20_000
EVER = 1 << 52


class Checked:
    """What the archive of a room has, beside what the hall's users know."""

    def __init__(self, room: Room, work: Work, database: str) -> None:
        self.room, self.work = room, work
        self.engine = store.open_engine(database)
        self.store = Store(store.open_engine(database, True), "main", "day")
        self.books = Books(self.engine)
        self.search = Search(self.engine)

    def taken(self) -> int:
        try:
            return self.store.cursor().upto
        except store.Unkept:
            return 0

    def has_all(self, rows: int) -> None:
        wait(lambda: self.taken() >= rows, f"{rows} rows are taken")
        need(self.taken() == rows, f"{self.taken()} rows are taken of {rows}")

    def whole(self) -> str:
        """Behind the good end of a hall: all of it is there once, as the book has it, the register
        and sheets are the book's, and each act has its person."""
        text = self.work.text()
        lines = text.splitlines()
        self.begin_at_rest()
        self.has_all(len(lines))
        for one, other in zip(self.store.lines(0, EVER >> 22), lines, strict=True):
            need(one == other, f"kept is {one!r}, and it was {other!r}")
        self.people()
        self.work.hall.kill()
        told = run(self.work.program, "export", "--book", self.work.path)
        need(self.room.ask("register", "day") == (0, told), "the register differs")
        status, said = self.room.ask("check", "day")
        need(status == 0, f"check: {said}")
        alarms = self.books.ask("SELECT what FROM alarm")
        need(not alarms, f"alarms: {alarms}")
        return said.strip()

    def begin_at_rest(self) -> None:
        """The hall of a book at rest: it adds no row."""
        self.work.begin(lanes=0)

    def people(self) -> int:
        """Every act has the one who did it first, and the reason."""
        wanted = {row: (act.person, act.reason) for row, act in self.work.acts.items()}
        wait(lambda: len(self.persons()) >= len(wanted), "each act has its person", 30)
        found = self.persons()
        rows = sorted(found.keys() | wanted.keys())
        other = [(row, found.get(row), wanted.get(row)) for row in rows]
        other = [one for one in other if one[1] != one[2]]
        need(not other, f"{len(other)} acts of others: {other[:3]}")
        return len(found)

    def persons(self) -> dict[int, tuple[str, str | None]]:
        statement = "SELECT row, name, reason FROM person WHERE book = :b"
        return {row: (name, why) for row, name, why in self.books.ask(statement, b=self.store.book)}

    def hours(self) -> dict[int, int]:
        """Each row's hour holds the time at which it came; for each pack that a gate let out and
        each act, the ms by which its hour goes beyond what its sender knew."""
        text = self.work.text()
        known = self.work.known(text)
        rows = len(text.splitlines())
        low, high = bounds(known, rows)
        off = {}
        for row in range(1, rows + 1):
            hour = self.books.hour(self.store.book, row)
            assert hour
            need(hour.high >= low[row], f"row {row} came behind {low[row]}: {hour}")
            need(
                hour.low is None or hour.low <= high[row], f"row {row}: before {high[row]}, {hour}"
            )
            if row in known and known[row].high < EVER and hour.low:
                off[row] = max(0, known[row].low - hour.low, hour.high - known[row].high)
        return off

    def answers(self) -> int:
        """Drawn questions, by words and by spans of time; how many were answered well."""
        chance = random.Random(self.work.seed)
        register = self.room.ask("register", "day")[1]
        with archive_questions.small(BLOCK, 900):
            asked = archive_questions.compare(self.search, "main", "day", register, chance)
            return asked + archive_questions.compare_spans(self.search, "main", "day", chance)

    def witness(self) -> str:
        status, said = self.room.ask("verify", "day")
        need(status == 0, f"verify: {said}")
        return said.strip()


def bounds(known: dict[int, Known], rows: int) -> tuple[list[int], list[int]]:
    """For each row what is known by those before and behind it: rows come in order."""
    low, high = [0] * (rows + 1), [EVER] * (rows + 2)
    for row in range(1, rows + 1):
        low[row] = max(low[row - 1], known[row].low if row in known else 0)
    for row in range(rows, 0, -1):
        high[row] = min(high[row + 1], known[row].high if row in known else EVER)
    return low, high


def say(text: str) -> None:
    print(f"archive: {text}", flush=True)


def quiet(room: Room, work: Work, checked: Checked) -> str:
    """Nothing is killed: hours are close, in one stretch at least in which the machine did all that
    was asked of it in time. Says where they are in none, so that the rest is tried too."""
    work.begin()
    room.follower.begin()
    wait(lambda: checked.taken() > 3, "the beginning is taken")
    work.work()
    stretches = []
    for _ in range(STRETCHES):
        first, began, took = checked.taken(), time.monotonic(), room.follower.seconds()
        time.sleep(QUIET)
        share = 100 * (room.follower.seconds() - took) / (time.monotonic() - began)
        stretches.append((first, checked.taken(), share))
    with work.still():
        work.end()
        said = checked.whole()
        off = checked.hours()
        answers = checked.answers()
    most = []
    for first, last, share in stretches:
        of = sorted(off[row] for row in range(first + 2, last) if row in off)
        most.append(of[-1])
        say(
            f"{last - first} rows in {QUIET} s, hours beyond what was known: 99 % at most"
            f" {of[len(of) * 99 // 100]} ms, all {of[-1]}; {share:.1f} % of a processor"
        )
    say(f"{len(work.acts)} acts with their persons; {said}; {answers} drawn questions answered")
    return f"in each stretch hours are off, by {most} ms" if min(most) > CLOSE else ""


def killed(room: Room, work: Work, checked: Checked, kills: int, postgres: Any) -> None:
    """Follower, hall and database are killed in turn while packs come; the front's log is
    turned."""
    chance = random.Random(f"kills {work.seed}")
    turns = [room.follower, work] + ([postgres] if postgres else [])
    work.begin()
    for turn in range(kills):
        time.sleep(chance.uniform(0.1, 1.2))
        one = turns[turn % len(turns)]
        one.kill()
        time.sleep(chance.uniform(0, 0.6))
        one.begin()
        if turn == kills // 2:
            turn_log(work.front)
    with work.still():
        work.end()
        said = checked.whole()
        checked.hours()
    need(room.follower.is_running(), "the follower has ended")
    repeats = sum(desk.repeats for desk in work.desks)
    rows = len(work.text().splitlines())
    say(f"{kills} kills, {rows} rows once, {len(work.acts)} acts with their persons and reasons,")
    say(f"{repeats} of them asked again by another; {said}")


def turn_log(front: Front) -> None:
    """As logrotate does."""
    os.rename(LOG, f"{LOG}.1")
    front.process.send_signal(signal.SIGUSR1)


def loaded(room: Room, work: Work, checked: Checked, postgres: Postgres) -> None:
    """The database is restarted, and killed, while a follower catches up."""
    need(room.follower.kill(signal.SIGTERM) == 0, "the follower ends well")
    work.pause = 0
    work.begin()
    wait(lambda: sum(len(lane.times) for lane in work.rounds[-1].lanes) > LOAD, "packs are sent")
    behind = checked.taken()
    room.follower.begin()
    for restart in (postgres.restart, lambda: (postgres.kill(), postgres.begin())):
        wait(lambda: checked.taken() > behind, "some rows are taken")
        restart()
        behind = checked.taken()
    work.pause = 1 / RATE
    work.rest()
    work.end()
    said = checked.whole()
    checked.hours()
    say(f"PostgreSQL was restarted and killed in mid-load: {said}")


def witnessed(room: Room, checked: Checked) -> None:
    """The follower's good end, and its start beside a book at rest; the witness holds."""
    need(room.follower.kill(signal.SIGTERM) == 0, "the follower ends well")
    checked.witness()
    before = room.fingerprints()
    room.follower.begin()
    # by its file: who reads the book itself keeps its newest row from others
    wait(lambda: room.fingerprints() > before, "a witness", 30)
    say(f"witness: {checked.witness()}")


def pages(room: Room, work: Work, front: Front) -> None:
    """Persons ask the archive by the front; one that is stopped delays no act."""
    room.pages.begin()
    anna, wall = Person(front, "anna"), Person(front, "wall")
    wait(lambda: anna.send("GET", "/archive/books").status == 200, "the pages answer", 30)
    row, act = next((row, act) for row, act in work.acts.items() if act.reason)
    found = json.loads(wall.send("GET", f"/archive/acts?book=day&person={act.person}").body)
    one = next(one for one in found if one["row"] == row)
    need((one["person"], one["reason"]) == (act.person, act.reason), f"row {row}: {one}")
    entered = {"nominal": 250_000, "empties": [10_000 + 7 * at for at in range(10)]}
    expect(wall.send("POST", "/archive/evidence/tare/P", json.dumps(entered).encode()), 403, "wall")
    reply = anna.send("POST", "/archive/evidence/tare/P", json.dumps(entered).encode())
    expect(reply, 201, f"anna's tare: {reply.body[:300]!r}")
    need(json.loads(reply.body)["person"] == "anna", f"{reply.body[:300]!r}")
    checked_slow(room, work, anna)
    room.pages.kill()


def checked_slow(room: Room, work: Work, anna: Person) -> None:
    """Acts while both of the archive's services are stopped."""
    work.begin(lanes=0)
    for one in (room.pages, room.follower):
        assert one.run
        one.run.send_signal(signal.SIGSTOP)
    began = time.monotonic()
    for _ in range(20):
        expect(anna.send("GET", "/hall/summary"), 200, "the hall beside a stopped archive")
    took = time.monotonic() - began
    for one in (room.pages, room.follower):
        assert one.run
        one.run.send_signal(signal.SIGCONT)
    work.hall.kill()
    need(took < 10, f"20 questions took {took} s")
    say(f"20 questions beside a stopped archive: {took:.2f} s")


def full(program: str, front: Front, folder: str, seed: str) -> None:
    """The disk of the archive, its database and all that it keeps, fills up, and has room again."""
    disk = f"{folder}/disk"
    os.makedirs(disk)
    subprocess.run(["mount", "-t", "tmpfs", "-o", "size=16m", "tmpfs", disk], check=True)
    database = f"sqlite:///{disk}/archive.db"
    room, work, checked = furnish(program, front, folder, database, seed, disk)
    room.follower.log = f"{folder}/follow.log"
    try:
        work.begin()
        room.follower.begin()
        wait(lambda: checked.taken() > 3, "the beginning is taken")
        work.work()
        with open(f"{disk}/filler", "wb", buffering=0) as filler:
            fill(filler)
        time.sleep(10)
        taken = checked.taken()
        need("database or disk is full" in room.follower.said(), "the disk isn't full")
        os.remove(f"{disk}/filler")
        work.rest()
        work.end()
        said = checked.whole()
        checked.hours()
        say(f"a full disk held the rows behind {taken} up; each is there once: {said}")
    finally:
        end(room, work)
        subprocess.run(["umount", "-l", disk], check=False)


def fill(filler: Any) -> None:
    try:
        while True:
            filler.write(bytes(4096))
    except OSError:
        pass


def furnish(
    program: str, front: Front, folder: str, database: str, seed: str, own: str = ""
) -> tuple[Room, Work, Checked]:
    """A hall in a folder, and its archive in one of its own, or in the same."""
    os.makedirs(folder, exist_ok=True)
    for path in (LOG, f"{LOG}.1"):
        if os.path.exists(path):
            os.remove(path)
    front.process.send_signal(signal.SIGUSR1)
    work = Work(program, folder, front, seed)
    room = Room(
        own or folder, database, front=LOG, program=program, books=folder, door=ARCHIVE_PORT
    )
    done = room.ask("migrate")
    need(done == (0, ""), f"the tables are made: {done}")
    check_indexes(database)
    return room, work, Checked(room, work, database)


def check_indexes(database: str) -> None:
    """Each index that the questions rest on is there, by whatever steps the tables came about."""
    link = sqlalchemy.inspect(store.open_engine(database))
    for table in schema.metadata.sorted_tables:
        there = {one["name"] for one in link.get_indexes(table.name)}
        lacks = {one.name for one in table.indexes} - there
        need(not lacks, f"{table.name} lacks {lacks}")


def end(room: Room, work: Work) -> None:
    work.is_over.set()
    for one in (room.follower, room.pages):
        if one.is_running():
            one.kill()
    if work.hall:
        work.hall.kill()


def over(kind: str, program: str, front: Front, folder: str, kills: int, seed: str) -> str:
    """All of it over one kind of database; where hours are off, by how much."""
    postgres = Postgres(folder) if kind == "postgresql" else None
    url = postgres.url if postgres else f"sqlite:///{folder}/archive.db"
    say(f"over {kind}")
    room, work, checked = furnish(program, front, f"{folder}/{kind}", url, f"{seed} {kind}")
    try:
        off = quiet(room, work, checked)
        killed(room, work, checked, kills, postgres)
        if postgres:
            loaded(room, work, checked, postgres)
        else:
            work.begin()
            work.rest()
            work.end()
            checked.whole()
        witnessed(room, checked)
        pages(room, work, front)
        say(spoiled(room, work, checked.store))
        return off
    except (Wrong, AssertionError):
        print(room.follower.said()[-3000:], file=sys.stderr)
        raise
    finally:
        end(room, work)
        if postgres:
            postgres.kill()


def main() -> None:
    program, folder, kills, seed = sys.argv[1], sys.argv[2], int(sys.argv[3]), sys.argv[4]
    mount_room()
    front = Front(PEOPLE)
    front.start()
    began = now()
    try:
        off = over("sqlite", program, front, folder, kills // 2, seed)
        off += over("postgresql", program, front, folder, kills - kills // 2, seed)
        full(program, front, f"{folder}/full", seed)
    finally:
        front.stop()
    need(not off, off)
    say(f"seed {seed}, {(now() - began) // 1000} s")


if __name__ == "__main__":
    main()
