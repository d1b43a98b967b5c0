"""A room for tests/archive.py: an archive over SQLite or a PostgreSQL of its own, and the service
that follows. Entered as tests/front_room.py says."""

import io
import os
import signal
import subprocess
import sys
import time
from collections.abc import Callable
from contextlib import redirect_stderr, redirect_stdout
from typing import Any

HERE = os.path.dirname(os.path.realpath(__file__))
sys.path.insert(0, f"{HERE}/../archive")

from clients import need  # noqa: E402

from hall_archive.__main__ import main as archive  # noqa: E402

ARCHIVE = f"{HERE}/../archive/hall-archive"
POSTGRES = "/usr/lib/postgresql/15/bin"
PATIENCE = 300
# The words of a line of the witness with a fingerprint.
LINE_WORDS = 5


def times_of(pid: int) -> list[float]:
    """Seconds of a processor that a process took: for itself, in the kernel, and the same of its
    children that have ended."""
    with open(f"/proc/{pid}/stat", encoding="ascii") as file:
        fields = file.read().rpartition(")")[2].split()
    return [int(field) / os.sysconf("SC_CLK_TCK") for field in fields[11:15]]


class Process:
    """A process that is begun, killed and begun again."""

    def __init__(self, words: list[str], log: str) -> None:
        self.words, self.log = words, log
        self.run: subprocess.Popen[bytes] | None = None

    def begin(self) -> None:
        with open(self.log, "ab") as log:
            self.run = subprocess.Popen(self.words, stdout=log, stderr=log)

    def is_running(self) -> bool:
        return self.run is not None and self.run.poll() is None

    def kill(self, how: int = signal.SIGKILL) -> int:
        assert self.run
        self.run.send_signal(how)
        return self.run.wait(PATIENCE)

    def seconds(self) -> float:
        """Seconds of a processor that it took."""
        assert self.run
        return sum(times_of(self.run.pid)[:2])

    def said(self) -> str:
        with open(self.log, encoding="utf-8", errors="replace") as log:
            return log.read()


class Postgres:
    """A PostgreSQL of this test's own, in a folder, over a socket there."""

    def __init__(self, folder: str) -> None:
        self.folder = f"{folder}/postgres"
        os.makedirs(self.folder)
        subprocess.run(["chown", "postgres", self.folder], check=True)
        self.control("initdb", "-D", f"{self.folder}/data", "-A", "trust")
        self.begin()
        self.control("createdb", "-h", self.folder, "archive")
        self.url = f"postgresql+psycopg2://postgres@/archive?host={self.folder}"

    def control(self, program: str, *words: str) -> None:
        as_postgres = ["setpriv", "--reuid=postgres", "--regid=postgres", "--init-groups"]
        done = subprocess.run(
            [*as_postgres, f"{POSTGRES}/{program}", *words],
            stdout=subprocess.DEVNULL,
            stderr=subprocess.PIPE,
            cwd=self.folder,
            check=False,
        )
        need(done.returncode == 0, f"{program}: {done.stderr.decode()}")

    def begin(self) -> None:
        options = f"-k {self.folder} -c listen_addresses="
        self.server("start", "-o", options, "-l", f"{self.folder}/log")

    def kill(self) -> None:
        """Ends at once, as after a crash."""
        self.server("stop", "-m", "immediate")

    def restart(self) -> None:
        self.server("restart", "-m", "fast")

    def seconds(self) -> float:
        """Seconds of a processor that the server and all that it began took."""
        with open(f"{self.folder}/data/postmaster.pid", encoding="ascii") as file:
            first = int(file.readline())
        with open(f"/proc/{first}/task/{first}/children", encoding="ascii") as file:
            children = [int(pid) for pid in file.read().split()]
        return sum(times_of(first)) + sum(sum(times_of(pid)[:2]) for pid in children)

    def server(self, *words: str) -> None:
        self.control("pg_ctl", "-D", f"{self.folder}/data", "-w", *words)


class Room:
    """The archive of a book, in a folder."""

    def __init__(self, folder: str, database: str, **settings: Any) -> None:
        self.folder = folder
        self.settings = f"{folder}/archive.toml"
        door = settings.pop("door")
        lines = {"database": database, "folder": folder} | settings
        with open(self.settings, "w", encoding="utf-8") as file:
            for name, value in lines.items():
                file.write(f"{name} = {value!r}\n".replace("'", '"'))
            file.write(f'[[book]]\nhall = "main"\nname = "day"\ndoor = {door}\n')
        self.follower = Process(self.words("follow", "day"), f"{folder}/follow.log")
        self.pages = Process(self.words("serve"), f"{folder}/serve.log")

    def words(self, *words: str) -> list[str]:
        return [sys.executable, "-B", ARCHIVE, "--settings", self.settings, *words]

    def fingerprints(self) -> int:
        """How many lines of the witness have a fingerprint of `audit`."""
        with open(f"{self.folder}/main.day.witness", encoding="ascii") as file:
            return sum(len(line.split()) == LINE_WORDS for line in file)

    def ask(self, *words: str) -> tuple[int, str]:
        """The status and all that a command of the archive says, in this process."""
        out = io.TextIOWrapper(io.BytesIO(), "utf-8", write_through=True)
        with redirect_stdout(out), redirect_stderr(out):
            status = archive(["--settings", self.settings, *words])
        return status, out.buffer.getvalue().decode()  # type: ignore[attr-defined]


def wait(holds: Callable[[], object], said: str, seconds: float = PATIENCE) -> None:
    end = time.monotonic() + seconds
    while not holds():
        need(time.monotonic() < end, f"not within {seconds} s: {said}")
        time.sleep(0.1)
