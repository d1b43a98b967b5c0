"""The machine on which `hall-next` works: its folders, its programs, systemd, and the program
`hall`, which alone reads and makes books."""

import fcntl
import grp
import http.client
import os
import shlex
import subprocess
import time
from collections.abc import Iterator
from contextlib import contextmanager

from next_book import NAME, Unfit

# Seconds that a door is waited for.
PATIENCE = 20
# What the program says of a book that another has open, and how often such a one is asked again.
IN_USE, TRIES, AGAIN = ": it is in use; ", 240, 0.25


class Failed(Exception):
    """A step failed; the text says how."""


@contextmanager
def alone(path: str) -> Iterator[None]:
    """Waits until no other `hall-next` has this file or folder; the lock goes with the process."""
    file = os.open(path, os.O_RDONLY)
    try:
        fcntl.flock(file, fcntl.LOCK_EX)
        yield
    finally:
        os.close(file)


def sync(path: str) -> None:
    file = os.open(path, os.O_RDONLY)
    os.fsync(file)
    os.close(file)


def write(path: str, text: str, mode: int = 0o644, like: str = "") -> None:
    """Writes a file whole, and synced; where a file is named that it is to be like, with that one's
    mode and owner."""
    with open(f"{path}.new", "w", encoding="utf-8") as file:
        if like:
            before = os.stat(like)
            os.fchown(file.fileno(), before.st_uid, before.st_gid)
            mode = before.st_mode & 0o777
        os.fchmod(file.fileno(), mode)
        file.write(text)
        file.flush()
        os.fsync(file.fileno())
    os.replace(f"{path}.new", path)


def read(path: str) -> str:
    with open(path, encoding="utf-8") as file:
        return file.read()


class Place:
    """The folders and programs of this machine."""

    def __init__(self, known: dict[str, str]) -> None:
        self.books = known.get("BOOKS", "/var/lib/hall")
        self.settings = known.get("SETTINGS", "/etc/hall")
        self.shown = known.get("SHOWN", "/run/hall")
        self.hall = known.get("HALL", "/usr/bin/hall")
        self.lib = known.get("LIB", "/usr/lib/hall")
        self.systemctl = shlex.split(known.get("SYSTEMCTL", "systemctl"))
        self.site = shlex.split(known.get("SITE", "hall-site"))
        self.archive = shlex.split(known.get("ARCHIVE", "hall-archive"))
        self.has_users = known.get("USERS", "yes") != "no"
        # what the program that was run last said on standard error
        self.beside = ""

    def old_settings(self, name: str) -> str:
        """The settings of a book that is there; Unfit where there is no such one."""
        if not NAME.fullmatch(name):
            raise Unfit(f"{name!r} is no name of a book")
        env = f"{self.settings}/{name}.env"
        for path in (f"{self.books}/{name}.book", env):
            if not os.path.exists(path):
                raise Unfit(f"there is no {path}")
        return env

    def run(self, words: list[str], given: str = "", env: dict[str, str] | None = None) -> str:
        """What a program prints; Failed where its status isn't 0."""
        ran = subprocess.run(
            words,
            input=given,
            capture_output=True,
            encoding="utf-8",
            env=os.environ | (env or {}),
            check=False,
        )
        if ran.returncode:
            said = (ran.stderr.strip() or ran.stdout.strip())[-500:]
            raise Failed(f"{' '.join(words)} ends with {ran.returncode}: {said}")
        self.beside = ran.stderr
        return ran.stdout

    def as_user(self, user: str, words: list[str], group: str = "") -> list[str]:
        more = ["-g", user, "-G", group] if group else []
        return ["runuser", "-u", user, *more, "--", *words] if self.has_users else words

    def journal(self, said: str) -> None:
        """Has lines in the journal, where they leave the machine with it."""
        if self.has_users:
            self.run(["logger", "--tag", "hall-next"], given=said)

    def control(self, *words: str) -> str:
        return self.run([*self.systemctl, *words])

    def holds(self, *words: str) -> bool:
        """Whether systemctl says yes: is-enabled, is-active."""
        return subprocess.run([*self.systemctl, *words], capture_output=True).returncode == 0

    def of_hall(self, command: str, path: str, *words: str, given: str = "") -> str:
        """What the program says of a book. Of one that another has open it reads all but the newest
        row: a book at rest is asked again, since its reader, a backup or the archive, is soon done.
        """
        asked = self.as_user("hall", [self.hall, command, "--book", path, *words])
        for _ in range(TRIES):
            said = self.run(asked, given)
            if IN_USE not in self.beside:
                return said
            time.sleep(AGAIN)
        raise Failed(f"{path} stays in use: {self.beside.strip()[-200:]}")

    def listing(self, path: str) -> str:
        return self.of_hall("list", path)

    def of_served(self, command: str, path: str, *words: str) -> str:
        """What the program says of a book that may be served: then without its newest row."""
        return self.run(self.as_user("hall", [self.hall, command, "--book", path, *words]))

    def seen(self, path: str) -> str:
        return self.of_served("list", path)

    def ask(self, port: int, path: str) -> str | None:
        """What a door says; the walls let the group hall-doors ask. None without an answer."""
        link = http.client.HTTPConnection("127.0.0.1", port, timeout=PATIENCE)
        try:
            if self.has_users:
                os.setegid(grp.getgrnam("hall-doors").gr_gid)
            link.request("GET", path, headers={"Connection": "close"})
            answer = link.getresponse()
            return answer.read().decode("ascii") if answer.status == 200 else None
        except (OSError, KeyError, http.client.HTTPException):
            return None
        finally:
            os.setegid(os.getgid())
            link.close()

    def is_unit(self, unit: str) -> bool:
        return self.holds("is-enabled", "--quiet", unit)
