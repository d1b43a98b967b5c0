"""For tests/archive.py: books that were changed behind the archive's back, and what tells it."""

import os
import random
import shutil
import signal
from typing import Any

from archive_hall import Work
from archive_room import Room, wait
from clients import need
from sqlalchemy import text

# A row's bytes; the first of a file is its head, whose ninth byte says that a snapshot follows.
SLOT = 96
SNAPSHOT = 8
# A byte of a row that may be another one, of its caller.
CALLER = 6
OTHER = 5


def changed(path: str, row: int) -> None:
    """A row of another caller, in a file without a snapshot, so that the rows are read."""
    with open(path, "r+b") as file:
        file.seek(SLOT * row + CALLER)
        by = file.read(1)[0]
        file.seek(SLOT * row + CALLER)
        file.write(bytes([by ^ 1]))
        file.seek(SNAPSHOT)
        file.write(b"\0")


def cut(path: str, rows: int) -> None:
    """A file of its first rows alone."""
    with open(path, "r+b") as file:
        file.truncate(SLOT * (rows + 1))
        file.seek(SNAPSHOT)
        file.write(b"\0")


def exchanged(work: Work, lines: list[str]) -> None:
    """A book of as many lawful rows and more, of which the first are others."""
    script = ["day 1999-12-31", "product other 250", *(line.split("\t")[2] for line in lines[2:])]
    os.remove(work.path)
    # what the program refuses of it isn't in the book
    script += ["day 2030-01-01"] * len(lines)
    work.replay(script)


def spoiled(room: Room, work: Work, store: Any) -> str:
    """Each is told: by the follower's refusal, or by its first look; and by `verify`."""
    need(room.follower.kill(signal.SIGTERM) == 0, "the follower ends well")
    good, lines = f"{work.path}.good", work.text().splitlines()
    rows = len(lines)
    shutil.copy(work.path, good)
    early = random.Random(work.seed).choice(range(5, rows - 200))
    told = []
    for name, spoil in (
        (f"row {early} changed", lambda: changed(work.path, early)),
        (f"row {rows - 3} changed", lambda: changed(work.path, rows - 3)),
        ("the last row cut off", lambda: cut(work.path, rows - 1)),
        ("another book", lambda: exchanged(work, lines)),
    ):
        shutil.copy(good, work.path)
        spoil()
        status, said = room.ask("verify", "day")
        need(status == 1, f"{name}: verify says {status}, {said}")
        told.append(f"{name}: {said.strip()[:90]}")
        follow(room, work, store, name, is_early=name.startswith(f"row {early} "))
    shutil.copy(good, work.path)
    status, said = room.ask("verify", "day")
    need(status == 0, f"the good book: {said}")
    return "told: " + "; ".join(told)


def follow(room: Room, work: Work, store: Any, name: str, is_early: bool) -> None:
    """A follower of a hall over the spoiled book: it ends by itself, or, for a row that is long
    past, has an alarm."""
    work.begin(lanes=0)
    room.follower.begin()
    if is_early:
        wait(lambda: alarms(store), f"{name}: an alarm", 60)
        room.follower.kill()
        with store.engine.begin() as link:
            link.exec_driver_sql("DELETE FROM alarm")
    else:
        assert room.follower.run
        status = room.follower.run.wait(60)
        need(status == OTHER, f"{name}: it is followed, {status}")
        said = room.follower.said().splitlines()[-1]
        need("book day isn't the one that was followed" in said, f"{name}: {said}")
    work.hall.kill()
    forgive(store)


def alarms(store: Any) -> list[Any]:
    wanted = text("SELECT what FROM alarm WHERE what LIKE '%aren''t those%'")
    with store.engine.connect() as link:
        return list(link.execute(wanted))


def forgive(store: Any) -> None:
    """Takes the refusal back, as a person would who has put the right book there."""
    with store.engine.begin() as link:
        link.exec_driver_sql("UPDATE book SET refused = NULL")
