"""Run by bench/archive.sh, in a network of its own: PROGRAM FOLDER ROWS. A hall over a book of so
many rows, whose four lanes weigh 140 packs a second, nobody at its desks, and the archive that
follows it: how fast it catches up, what it takes of a processor, how long after its gate was told a
pack stands in the archive, and how long until it follows again behind a kill. Then a witness of the
book with a fingerprint at each closing is verified."""

import io
import os
import sys
import threading
import time
from types import SimpleNamespace

HERE = os.path.dirname(os.path.realpath(__file__))
sys.path[:0] = [f"{HERE}/../archive", f"{HERE}/../tests"]

import filled_book  # noqa: E402
from archive_hall import ARCHIVE_PORT, Round, Work, now  # noqa: E402
from archive_room import Postgres, Room  # noqa: E402

from hall_archive import store, witness  # noqa: E402
from hall_archive.reading import Program  # noqa: E402
from hall_archive.rows import ROW_BYTES  # noqa: E402
from hall_archive.store import Store  # noqa: E402

SETTLING, STRETCHES, SECONDS = 4, 4, 15.0
# Seconds between two looks into the archive.
LOOK = 0.005
# Rows of a minute.
MINUTE = 8_400


class Looks(threading.Thread):
    """Looks again and again how many rows the archive has."""

    def __init__(self, kept: Store) -> None:
        super().__init__(daemon=True)
        self.kept = kept
        self.ends = threading.Event()
        # (ms of UTC, rows), each time that there are more
        self.seen = [(now(), kept.cursor().upto)]

    def run(self) -> None:
        while not self.ends.wait(LOOK):
            upto = self.kept.cursor().upto
            if upto > self.seen[-1][1]:
                self.seen.append((now(), upto))


def delays(work: Work, seen: list[tuple[int, int]]) -> list[int]:
    """For each pack that a gate was told of, the ms until the archive had it, ascending."""
    heard = {
        row: at
        for lane in work.rounds[-1].lanes
        for row, at in zip(lane.opened, lane.heard, strict=False)
    }
    found, looks = [], iter(seen[1:])
    at, upto = seen[0]
    for row in sorted(row for row in heard if row > upto):
        while upto < row:
            if (look := next(looks, None)) is None:
                return sorted(found)
            at, upto = look
        found.append(max(0, at - heard[row]))
    return sorted(found)


class Bench:
    """A hall at work over a book, and its archive over one kind of database."""

    def __init__(
        self, kind: str, program: str, folder: str, url: str, server: Postgres | None
    ) -> None:
        self.kind, self.server = kind, server
        os.makedirs(folder)
        self.work = Work(program, folder, SimpleNamespace(passwords={}), kind)  # type: ignore
        self.room = Room(folder, url, program=program, books=folder, door=ARCHIVE_PORT)
        self.room.ask("migrate")
        self.kept = Store(store.open_engine(url, True), "main", "day")

    def say(self, said: str) -> None:
        print(f"archive: {self.kind}, {said}; load {os.getloadavg()[0]:.1f}", flush=True)

    def follow(self, rows: int) -> None:
        filled_book.write_book(self.work.path, rows)
        # what is there already has the day, the product and its tare
        self.work.rounds.append(Round("B0", now(), []))
        self.work.begin()
        self.timed(f"{rows} rows caught up with", rows)
        # what was weighed meanwhile is caught up with, and the first fingerprint taken
        for _ in range(SETTLING):
            self.stretch()
        # a batch is full at 10 000 packs, and then no gate is told: another one
        self.work.end()
        self.work.begin()
        before = self.kept.cursor().upto
        while self.kept.cursor().upto <= before:
            time.sleep(LOOK)
        looks = Looks(self.kept)
        looks.start()
        for _ in range(STRETCHES):
            self.stretch()
        looks.ends.set()
        looks.join()
        self.room.follower.kill()
        self.timed("follows again behind a kill", self.kept.cursor().upto)
        self.room.follower.kill()
        self.work.hall.kill()
        found = delays(self.work, looks.seen)
        parts = [found[len(found) * part // 1000] for part in (500, 990, 999)]
        self.say(
            f"{len(found)} packs stand there after {parts[0]} ms (half), {parts[1]} (99 %),"
            f" {parts[2]} (99.9 %), {found[-1]} (all)"
        )

    def timed(self, said: str, upto: int) -> None:
        """Begins the follower: the time until the archive has more than so many rows."""
        server = self.server.seconds() if self.server else 0.0
        began = time.monotonic()
        self.room.follower.begin()
        while self.kept.cursor().upto <= upto:
            time.sleep(LOOK)
        took = time.monotonic() - began
        used = self.room.follower.seconds()
        beside = f" and {self.server.seconds() - server:.2f} of the server" if self.server else ""
        self.say(f"{said}: {took:.2f} s, {used:.2f} of a processor{beside}")

    def stretch(self) -> None:
        server = self.server.seconds() if self.server else 0.0
        used = self.room.follower.seconds()
        began, first = time.monotonic(), self.kept.cursor().upto
        time.sleep(SECONDS)
        passed = time.monotonic() - began
        rate = (self.kept.cursor().upto - first) / passed
        share = 100 * (self.room.follower.seconds() - used) / passed
        said = f"{rate:.0f} rows a second: {share:.1f} % of a processor"
        if self.server:
            said += f", the server {100 * (self.server.seconds() - server) / passed:.1f}"
        self.say(said)

    def verify(self) -> None:
        """A line at each minute of the book, and at each closing one with a fingerprint."""
        shipped = b"".join(Program(self.work.program, self.room.folder).ask("day", "ship"))
        body = memoryview(witness.read_shipment(io.BytesIO(shipped)))
        os.remove(f"{self.room.folder}/main.day.witness")
        lines, running = witness.Witness(f"{self.room.folder}/main.day.witness"), witness.Running()
        for row in range(MINUTE, len(body) // ROW_BYTES, MINUTE):
            running.add([body[running.rows * ROW_BYTES : row * ROW_BYTES]])
            audit = witness.fingerprint(row, [body[: row * ROW_BYTES]])
            lines.append(now(), row, running.hex(), audit)
        began, used = time.monotonic(), time.process_time()
        status, said = self.room.ask("verify", "day")
        took, used = time.monotonic() - began, time.process_time() - used
        self.say(f"verify ({status}, {said.strip()}): {took:.2f} s, {used:.2f} of a processor here")


def main() -> None:
    program, folder, rows = sys.argv[1], sys.argv[2], int(sys.argv[3])
    bench = Bench("SQLite", program, f"{folder}/sqlite", f"sqlite:///{folder}/follow.db", None)
    bench.follow(rows)
    bench.verify()
    postgres = Postgres(folder)
    try:
        url = postgres.url
        Bench("PostgreSQL", program, f"{folder}/postgresql", url, postgres).follow(rows)
    finally:
        postgres.kill()


main()
