#!/usr/bin/env python3
"""What examples/standby.sh follows, and what it refuses and why: a copy that is a beginning of the
book gets the rest of it; a copy with other rows, a path or a command that can't be used, and a door
of another book end it with status 1 and a reason, and change nothing.

usage: tests/standby.py      (HALL names another program than the one that `./hall` builds)
"""

# mypy: allow-untyped-calls

import os
import subprocess
import tempfile
from pathlib import Path

from clients import Hall, free_ports, need

TOP = Path(__file__).resolve().parent.parent
STANDBY = TOP / "examples/standby.sh"
DAY = "day 2025-03-03\nproduct P 250\ntare P 2025-03-03 10\nopen A P\nstart 1 A\n"
LOOKS = "3"


def make_book(program: str, path: Path, script: str) -> Path:
    ran = subprocess.run([program, "run", f"--book={path}"], input=script, text=True,
                         capture_output=True, check=False)  # fmt: skip
    need(ran.returncode == 0, f"a book ends with {ran}")
    return path


def follow(program: str, *words: object, **settings: object) -> subprocess.CompletedProcess[str]:
    """A few looks of standby.sh at BOOK COPY [COMMAND..]."""
    given = {"HALL": program, "TIMES": LOOKS} | {key: str(value) for key, value in settings.items()}
    return subprocess.run(["sh", str(STANDBY), *map(str, words)], env=os.environ | given, text=True,
                          capture_output=True, timeout=300, check=False)  # fmt: skip


def print_of(program: str, book: Path) -> str:
    """How many rows a book has, and their fingerprint."""
    ran = subprocess.run([program, "audit", f"--book={book}"], stdin=subprocess.DEVNULL, text=True,
                         capture_output=True, check=False)  # fmt: skip
    need(ran.returncode == 0, f"audit of {book} ends with {ran}")
    return ran.stdout


def check_followed(program: str, room: Path, book: Path) -> None:
    """A new copy, and one that has the book's beginning."""
    for copy, begun in ((room / "new", ""), (room / "begun", DAY)):
        if begun:
            make_book(program, copy, begun)
        ran = follow(program, book, copy)
        need(ran.returncode == 0, f"{copy.name} is followed: {ran}")
        need(print_of(program, copy) == print_of(program, book), f"{copy.name} isn't the book")


def check_refused(program: str, room: Path, book: Path) -> None:
    """What can't be followed; the copy stays as it is."""
    other = make_book(program, room / "other", DAY + "weigh 1 263\nweigh 1 264\n")
    stood = other.read_bytes()
    for words, reason in (
        ((book, other), f"{other} has other rows than {book} under the same numbers, "),
        ((other, book), f"{book} has other rows than {other} under the same numbers, "),
        ((room / "gone", room / "x"), f"there is no book {room}/gone"),
        ((book, room / "no/folder"), f"there is no folder for {room}/no/folder"),
        ((book, room / "x", "/no/such/command"), f"{room}/x can't be used, status 127: "),
        ((book, STANDBY), f"{STANDBY} can't be used, status 8: "),
    ):
        ran = follow(program, *words)
        need(ran.returncode == 1 and f"standby: {reason}" in ran.stderr, f"{words}: {ran}")
    need(other.read_bytes() == stood and not (room / "x").exists(), "a refused copy was changed")
    folder = room / "lanes"
    folder.mkdir()
    hall = Hall(program, str(folder), "", book=str(other), doors=1, port=free_ports())
    hall.wait_for_door(hall.ports[0])
    ran = follow(program, book, room / "copy", DOOR=hall.ports[0])
    hall.kill()
    said = f"the hall at port {hall.ports[0]} serves another book"
    need(ran.returncode == 1 and said in ran.stderr, f"another book at the door: {ran}")


def main() -> None:
    program = os.path.abspath(os.environ.get("HALL") or TOP / "crates/hall_cli/out/hall_cli")
    if "HALL" not in os.environ:
        subprocess.run([TOP / "hall", "run"], stdin=subprocess.DEVNULL, check=True)
    with tempfile.TemporaryDirectory() as folder:
        room = Path(folder)
        book = make_book(program, room / "book", DAY + "weigh 1 262\nweigh 1 262.5\n")
        check_followed(program, room, book)
        check_refused(program, room, book)
    print("standby: 2 copies followed, 6 of other books, paths and commands and a door refused")


if __name__ == "__main__":
    main()
