#!/usr/bin/python3
"""The archive beside the program itself: books that are drawn at random, through the script line by
line, are taken in by `hall acts`, and the register and every sheet are compared with `export` and
`report`; drawn questions are answered as the register says; the witness is made and holds against
`ship` and `audit`. Each book is then spoiled: with a row changed, one cut off, and another book in
its place. First the story of docs/INSPECTOR.md.

usage: tests/archive_rest.py [BOOKS [SEED]]     HALL names the program; needs sqlalchemy, alembic"""

import io
import os
import random
import shutil
import subprocess
import sys
import tempfile
from contextlib import redirect_stderr, redirect_stdout

HERE = os.path.dirname(os.path.realpath(__file__))
sys.path[:0] = [f"{HERE}/../archive", f"{HERE}/../archive/tests"]

import archive_questions  # noqa: E402
import archive_story  # noqa: E402
from drawn_books import Draw, draw_book  # noqa: E402
from memory_archive import Text  # noqa: E402

from hall_archive import settings, store  # noqa: E402
from hall_archive.__main__ import main as archive  # noqa: E402
from hall_archive.following import Follower  # noqa: E402
from hall_archive.search import Search  # noqa: E402
from hall_archive.service import People, Witnessing  # noqa: E402
from hall_archive.store import Store  # noqa: E402
from hall_archive.witness import HEAD_BYTES, Witness  # noqa: E402

SLOT = 96
MOMENT = 1_764_585_125_250


class Room:
    """A folder with books, and an archive over SQLite."""

    def __init__(self, program: str, folder: str) -> None:
        self.program, self.folder = program, folder
        self.path = f"{folder}/archive.toml"

    def name(self, book: str) -> None:
        with open(self.path, "w", encoding="utf-8") as file:
            file.write(
                f'database = "sqlite:///{self.folder}/archive.db"\nfolder = "{self.folder}"\n'
                f'program = "{self.program}"\nbooks = "{self.folder}"\n'
                f'[[book]]\nhall = "main"\nname = "{book}"\n'
            )

    def ask(self, *words: str) -> tuple[int, str]:
        out = io.TextIOWrapper(io.BytesIO(), "utf-8", write_through=True)
        with redirect_stdout(out), redirect_stderr(out):
            status = archive(["--settings", self.path, *words])
        return status, out.buffer.getvalue().decode()  # type: ignore[attr-defined]

    def wanted(self, status: int, said: str, *words: str) -> None:
        found = self.ask(*words)
        if found[0] != status or said not in found[1]:
            sys.exit(f"{words}: {found} for {status}, {said!r}")

    def witness(self, book: str) -> None:
        """Has a line of the witness made, with the fingerprint of `audit`."""
        found = settings.load(self.path)
        engine = store.open_engine(found.database, True)
        kept = Store(engine, "main", book)
        with redirect_stderr(io.StringIO()):
            witnessing = Witnessing(kept, Witness(found.witness(found.followed[0])), found.reader())
            witnessing.look(False, MOMENT)


def try_book(room: Room, place: int, seed: str) -> int:
    """A book in two parts, taken in behind each, and spoiled; how many rows it has."""
    book, chance = f"b{place}", random.Random(f"{seed} {place}")
    path, drawn = f"{room.folder}/{book}.book", Draw(chance)
    room.name(book)
    for _ in range(2):
        draw_book(room.program, path, drawn)
        room.wanted(0, "sheets are the book's", "take", book)
        room.witness(book)
    room.wanted(0, " hold", "verify", book)
    search = Search(store.open_engine(settings.load(room.path).database))
    archive_questions.compare(search, "main", book, room.ask("register", book)[1], chance)
    rows = subprocess.run(
        [room.program, "check", "--book", path], capture_output=True, text=True, check=True
    )
    count = int(rows.stdout.split()[1])
    try_restarts(room, book, path, chance)
    if count > 3:
        spoil(room, book, path, count, chance)
    return count


def try_restarts(room: Room, book: str, path: str, chance: random.Random) -> None:
    """The same book, followed by one that is begun anew behind each of some rows: the register is
    the book's, and so are the rows that the witness hashes."""
    told = subprocess.run(
        [room.program, "acts", "--book", path], capture_output=True, text=True, check=True
    ).stdout
    lines = told.splitlines(keepends=True)
    kept = Store(store.open_engine(settings.load(room.path).database, True), "other", book)
    most = len(lines) if chance.random() < 0.3 else min(len(lines), 12)
    for part in (*sorted(chance.sample(range(1, len(lines) + 1), most)), len(lines)):
        follower = Follower(book, Text("".join(lines[:part])), kept)
        while follower.step()[0]:
            pass
    books = Search(kept.reads)
    due = subprocess.run([room.program, "export", "--book", path], capture_output=True, check=True)
    if "".join(books.register(kept.book)) != due.stdout.decode():
        sys.exit(f"{book}: begun anew behind rows, the register is another")
    shipped = subprocess.run(
        [room.program, "ship", "--book", path], capture_output=True, check=True
    )
    if b"".join(kept.packed(0, len(lines))) != shipped.stdout[HEAD_BYTES:]:
        sys.exit(f"{book}: the rows are others")


def spoil(room: Room, book: str, path: str, count: int, chance: random.Random) -> None:
    """A row changed in its desk, the last row cut off, and a book of other rows: each is told. A
    changed row is carried by a shipment, whose rows are lawful."""
    acts = subprocess.run(
        [room.program, "acts", "--book", path], capture_output=True, text=True, check=True
    ).stdout.splitlines()
    scripts = [line.split("\t")[2] for line in acts]
    good = f"{path}.good"
    shutil.copy(path, good)
    for lines, said in (
        (scripts[:-1], "rows, "),
        (["day 1999-12-31", "product other 250", *scripts[2:]], "another row 1 than was taken"),
    ):
        os.remove(path)
        subprocess.run(
            [room.program, "run", "--book", path],
            input="".join(f"{line}\n" for line in lines),
            capture_output=True,
            text=True,
            check=False,
        )
        room.wanted(1, "", "verify", book)
        room.wanted(5, said, "take", book)
        with store.open_engine(settings.load(room.path).database, True).begin() as link:
            link.exec_driver_sql("UPDATE book SET refused = NULL")
    shutil.copy(good, path)
    with open(path, "r+b") as file:
        row = chance.randint(1, count)
        file.seek(SLOT * row + 6)
        by = file.read(1)[0]
        file.seek(SLOT * row + 6)
        file.write(bytes([by ^ 1]))
        # no snapshot any more, so that the slots are read
        file.seek(8)
        file.write(b"\0")
    room.wanted(1, "rows are others", "verify", book)


def try_story(room: Room) -> None:
    """The story that docs/INSPECTOR.md shows is what the archive says of the same batch."""
    archive_story.make_book(room.program, room.folder)
    room.name(archive_story.BOOK)
    room.wanted(0, "sheets are the book's", "take", archive_story.BOOK)
    engine = store.open_engine(settings.load(room.path).database, True)
    People(Store(engine, "main", archive_story.BOOK), f"{room.folder}/front.log").look()
    status, story = room.ask("story", archive_story.BOOK, "MORNING")
    if faults := archive_story.differences(story):
        sys.exit("\n".join(faults))


def main() -> None:
    books = int(sys.argv[1]) if len(sys.argv) > 1 else 30
    seed = sys.argv[2] if len(sys.argv) > 2 else str(random.randrange(10**6))
    program = os.path.realpath(os.environ.get("HALL", f"{HERE}/../hall"))
    rows = 0
    with tempfile.TemporaryDirectory() as folder:
        room = Room(program, folder)
        try_story(room)
        with archive_questions.small(block=16, page=7):
            for place in range(books):
                rows += try_book(room, place, seed)
    print(f"{books} books, {rows} rows: register, sheets, answers, witness hold; spoiled ones told")
    print(f"seed {seed}")


if __name__ == "__main__":
    main()
