#!/usr/bin/python3
"""The example of docs/INSPECTOR.md, in examples/appendix: the appendix to the paper of the batch of
examples/whole_batch.txt, as an archive makes it of a book whose rows, persons and evidence came at
the hours of archive_story.py. Says what stands there otherwise than it is made now, but for seal and
versions; with the word --write it is made anew, with a key that is thrown away.

usage: tests/appendix_example.py [--write]     HALL names the program; needs sqlalchemy, alembic,
                                               openssl"""

import os
import shutil
import sys
import tempfile
from datetime import datetime
from typing import Any

HERE = os.path.dirname(os.path.realpath(__file__))
sys.path[:0] = [f"{HERE}/../archive", f"{HERE}/../archive/tests"]

from archive_rest import Room  # noqa: E402
from archive_stamps import openssl  # noqa: E402
from archive_story import BOOK, make_book  # noqa: E402
from memory_archive import Text  # noqa: E402

from hall_archive import evidence, settings, store  # noqa: E402
from hall_archive.clock import Moment  # noqa: E402
from hall_archive.following import Follower  # noqa: E402
from hall_archive.records import Records  # noqa: E402
from hall_archive.service import People, Witnessing  # noqa: E402
from hall_archive.store import Store  # noqa: E402
from hall_archive.witness import Witness  # noqa: E402

PROGRAM = f"{HERE}/../crates/hall_cli/out/hall_cli"
PLACE = f"{HERE}/../examples/appendix"
BATCH = "MORNING"
# When rows came; between these they came evenly.
ANCHORS = (
    (1, "2025-03-03T08:00:00"),
    (72, "2025-03-03T09:41:07"),
    (73, "2025-03-03T09:42:00"),
    (74, "2025-03-04T06:00:00"),
    (115, "2025-03-04T07:12:30"),
    (118, "2025-03-04T07:58:02"),
    (119, "2025-03-04T08:03:44"),
    (150, "2025-03-04T08:40:15"),
    (181, "2025-03-04T09:15:51"),
)
POLL = 100
EMPTIES = [10_150, 10_180, 10_210, 10_190, 10_220, 10_200, 10_230, 10_170, 10_240, 10_210]
PROOFS: tuple[tuple[str, str, str, str, dict[str, Any]], ...] = (
    ("scale", "lane1", "2025-03-03T07:40:00", "ben", {"shown": [100_000, 250_010]}),
    ("scale", "lane2", "2025-03-03T07:45:00", "ben", {"shown": [99_990, 250_000]}),
    ("scale", "lane1", "2025-03-04T05:40:00", "ben", {"shown": [100_010, 250_010]}),
    ("scale", "lane2", "2025-03-04T05:45:00", "ben", {"shown": [100_000, 250_000]}),
    ("tare", "rice250", "2025-03-04T07:10:00", "anna", {"nominal": 250_000, "empties": EMPTIES}),
)
WEIGHTS = {"weights": [100_000, 250_000], "limit": 50}


def at(utc: str) -> int:
    """ms of UTC."""
    return int(datetime.fromisoformat(f"{utc}+00:00").timestamp() * 1000)


def moment_of(row: int) -> int:
    """When a row came."""
    (first, begin), (last, end) = next(
        (one, other) for one, other in zip(ANCHORS, ANCHORS[1:]) if row <= other[0]
    )
    return at(begin) + (at(end) - at(begin)) * (row - first) // (last - first)


class Polls:
    """The hours of polls ten times a second: each is asked, and answered, at its own time."""

    def __init__(self) -> None:
        self.moment = 0

    def now(self, boot: str) -> Moment:
        return Moment(self.moment, self.moment - at(ANCHORS[0][1]), boot)


def follow(kept: Store, lines: list[str]) -> None:
    """Rows as they come, each found by the poll behind one that found nothing."""
    polls, source = Polls(), Text("")
    follower = Follower(kept.name, source, kept, boot="example", now=polls.now)
    for row in range(1, len(lines) + 1):
        came = moment_of(row) - moment_of(row) % POLL
        for count, moment in ((row - 1, came), (row, came + POLL)):
            source.lines, polls.moment = lines[:count], moment
            follower.step()


def make(room: Room) -> str:
    """The path of the appendix, sealed by a new key."""
    make_book(room.program, room.folder)
    room.name(BOOK)
    words = ("req", "-x509", "-newkey", "ec", "-pkeyopt", "ec_paramgen_curve:P-256", "-nodes")
    names = ("-subj", "/CN=the example hall", "-days", "36500")
    files = ("-keyout", f"{room.folder}/seal.key", "-out", f"{room.folder}/seal.pem")
    openssl(*words, *names, *files)
    with open(room.path, "r+", encoding="utf-8") as file:
        text = file.read()
        file.seek(0)
        file.write(f'seal = "{room.folder}/seal.pem"\nseal_key = "{room.folder}/seal.key"\n{text}')
    found = settings.load(room.path)
    engine = store.open_engine(found.database, True)
    store.migrate(engine)
    kept = Store(engine, "main", BOOK)
    asked = found.reader().ask(BOOK, "acts")
    follow(kept, b"".join(asked).decode("ascii").splitlines(keepends=True))
    People(kept, f"{room.folder}/front.log").look()
    witness = Witness(found.witness(found.followed[0]))
    Witnessing(kept, witness, found.reader()).look(True, at("2025-03-04T09:15:52"))
    records = Records(engine)
    for kind, subject, utc, person, entered in PROOFS:
        body = evidence.evaluate(kind, entered if kind == "tare" else entered | WEIGHTS)
        records.add("main", kind, subject, at(utc), person, body)
    status, said = room.ask("appendix", BOOK, BATCH)
    if status:
        sys.exit(f"appendix: {status} {said}")
    return said.split("\n")[0]


def lines_of(path: str) -> list[str]:
    """The lines of a text, but for versions."""
    with open(path, encoding="ascii") as file:
        return [line for line in file if not line.startswith(("program ", "package "))]


def main() -> None:
    program = os.path.realpath(os.environ.get("HALL", PROGRAM))
    with tempfile.TemporaryDirectory() as folder:
        room = Room(program, folder)
        path, stands = make(room), f"{PLACE}/{BATCH}.appendix"
        if sys.argv[1:] == ["--write"]:
            os.makedirs(PLACE, exist_ok=True)
            for end in ("", ".paper", ".p7s"):
                shutil.copyfile(f"{path}{end}", f"{stands}{end}")
            shutil.copyfile(f"{folder}/seal.pem", f"{PLACE}/seal.pem")
        for end in ("", ".paper"):
            if lines_of(f"{path}{end}") != lines_of(f"{stands}{end}"):
                sys.exit(f"{stands}{end} is made otherwise now")
    print(f"examples/appendix/{BATCH}.appendix is as it is made")


if __name__ == "__main__":
    main()
