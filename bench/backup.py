"""The figures of bench/backup.sh: PROGRAM FOLDER ROWS TURNS."""

import os
import shutil
import socket
import subprocess
import sys
import threading
import time
from collections.abc import Callable
from dataclasses import dataclass

HERE = os.path.dirname(os.path.abspath(__file__))
TOP = os.path.dirname(HERE)
sys.path.insert(0, f"{TOP}/tests")

from filled_book import write_book  # noqa: E402  pylint: disable=wrong-import-position

NAME = "full"
# What a copy of 900 000 rows may take, in seconds.
ALLOWED = 15
LOOK = 0.02


@dataclass
class Place:
    """The folders of a book and its copies."""

    program: str
    folder: str

    @property
    def book(self) -> str:
        return f"{self.folder}/{NAME}.book"

    @property
    def backups(self) -> str:
        return f"{self.folder}/backups"

    @property
    def memory(self) -> str:
        return "/dev/shm" if os.path.isdir("/dev/shm") else self.folder

    def backup(self, *words: str) -> str:
        """What the script says, which has to be done."""
        own = {"HALL": self.program, "BOOKS": self.folder, "BACKUPS": self.backups,
               "SETTINGS": self.folder, "MEMORY": self.memory}  # fmt: skip
        ran = subprocess.run([f"{TOP}/deploy/backup", *words, NAME], env=os.environ | own,
                             capture_output=True, encoding="utf-8", check=False)  # fmt: skip
        assert ran.returncode == 0, ran
        return ran.stdout

    def audit(self) -> str:
        words = [self.program, "audit", "--book", self.book]
        return subprocess.run(words, capture_output=True, encoding="utf-8", check=True).stdout

    def forget(self) -> None:
        shutil.rmtree(self.backups)
        os.mkdir(self.backups)

    def copy(self) -> None:
        """What a copy costs that nobody ships or audits."""
        subprocess.run(["cp", self.book, f"{self.backups}/plain"], check=True)
        subprocess.run(["sync", f"{self.backups}/plain"], check=True)
        os.remove(f"{self.backups}/plain")


def measured(what: Callable[[], object], before: Callable[[], object], turns: int) -> float:
    """The fewest seconds of so many calls, each after another one that isn't measured."""
    best = float("inf")
    for _ in range(turns):
        before()
        began = time.perf_counter()
        what()
        best = min(best, time.perf_counter() - began)
    return best


class Room(threading.Thread):
    """Takes down the most room that copies have in memory."""

    def __init__(self, folder: str):
        super().__init__(daemon=True)
        self.folder, self.most = folder, 0
        self.is_done = threading.Event()

    def run(self) -> None:
        while not self.is_done.wait(LOOK):
            self.most = max(self.most, self.taken())

    def taken(self) -> int:
        rooms = [one for one in os.listdir(self.folder) if one.startswith(f"hall-backup.{NAME}.")]
        files = [f"{self.folder}/{room}/book" for room in rooms]
        return sum(os.stat(file).st_blocks * 512 for file in files if os.path.exists(file))


def serve(place: Place) -> subprocess.Popen[bytes]:
    """A hall over the book, with one door and no lanes."""
    with socket.create_server(("127.0.0.1", 0)) as free:
        port: int = free.getsockname()[1]
    words = ["serve", "--book", place.book, "--doors", "1", "--port", str(port)]
    hall = subprocess.Popen([place.program, *words], stdin=subprocess.DEVNULL,
                            stdout=subprocess.DEVNULL, stderr=subprocess.PIPE)  # fmt: skip
    assert hall.stderr
    said = hall.stderr.readline()
    assert said.startswith(b"hall: serving, "), said
    return hall


def main() -> None:
    program, folder, rows, turns = sys.argv[1], sys.argv[2], int(sys.argv[3]), int(sys.argv[4])
    place = Place(program, folder)
    os.mkdir(place.backups)
    write_book(place.book, rows)
    room = Room(place.memory)
    room.start()
    figures = {
        "audit": measured(place.audit, lambda: None, turns),
        "cp and sync": measured(place.copy, lambda: None, turns),
        "hall-backup": measured(place.backup, place.forget, turns),
    }
    # a copy is named by its second
    again = measured(place.backup, lambda: time.sleep(1), turns)
    figures["hall-backup, a copy before"] = again
    figures["--try-restore"] = measured(lambda: place.backup("--try-restore"), place.audit, turns)
    hall = serve(place)
    figures["hall-backup, a hall serves"] = measured(place.backup, place.forget, turns)
    hall.terminate()
    hall.wait()
    room.is_done.set()
    print(f"a book of {rows} rows, {os.path.getsize(place.book) / 1e6:.0f} MB; best of {turns}")
    for what, seconds in figures.items():
        print(f"{what}: {seconds:.1f} s")
    print(f"room in memory: {room.most / 1e6:.0f} MB")
    print(f"most that is allowed: {ALLOWED} s for 900 000 rows")


if __name__ == "__main__":
    main()
