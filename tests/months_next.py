"""Books that follow each other, drawn at random: each is served, worked at, and handed over by
`hall-next`, which is killed in its midst and run again. For tests/months.py; what systemd does
there stands in months_control.py."""

import glob
import os
import random
import signal
import socket
import subprocess
import sys
import time
from collections.abc import Iterator
from contextlib import contextmanager
from typing import Any

HERE = os.path.dirname(os.path.realpath(__file__))
TOP = os.path.dirname(HERE)

from clients import need  # noqa: E402
from drawn_books import Draw, Script  # noqa: E402

CARRIED = ("day", "product", "tare")
OPEN, UNFIT = 1, 2
PORT = 22_471
DOORS = 2
PATIENCE = 600
STEPS = 1_500
# Batches without a verdict, at which it refuses.
LATE = ("LATE", "LATER")


class Halls:
    """A folder with books and settings, and a hall that is served from it."""

    def __init__(self, program: str, folder: str, seed: str) -> None:
        self.program, self.folder = program, folder
        self.chance = random.Random(seed)
        self.books = f"{folder}/books"
        self.etc = f"{folder}/etc"
        for one in (self.books, self.etc, f"{folder}/run", f"{folder}/shown", f"{folder}/units"):
            os.makedirs(one)
        control = f"{sys.executable} -B {HERE}/months_control.py"
        archive = f"{sys.executable} -B {TOP}/archive/hall-archive"
        self.known = os.environ | {
            "ROOM": folder, "BOOKS": self.books, "SETTINGS": self.etc, "SHOWN": f"{folder}/shown",
            "HALL": program, "LIB": f"{TOP}/deploy", "SYSTEMCTL": control, "SITE": "true",
            "ARCHIVE": archive, "USERS": "no",
        }  # fmt: skip
        self.kills = 0

    def path(self, name: str) -> str:
        return f"{self.books}/{name}.book"

    def hall(self, *words: str, given: str = "") -> str:
        ran = subprocess.run(
            [self.program, *words], input=given, capture_output=True, text=True, check=False
        )
        need(ran.returncode == 0, f"{words}: {ran.returncode} {ran.stderr}")
        return ran.stdout

    def control(self, *words: str) -> int:
        ran = subprocess.run(
            [*self.known["SYSTEMCTL"].split(), *words],
            env=self.known, capture_output=True, text=True, check=False,
        )  # fmt: skip
        if words[0] in ("start", "stop"):
            need(ran.returncode == 0, f"{words}: {ran.stderr}")
        return ran.returncode

    def settle(self, name: str) -> None:
        """Settings of a first book, and a plan without lanes."""
        with open(f"{self.etc}/{name}.env", "w", encoding="ascii") as file:
            file.write(f"LANES=0\nDOORS={DOORS}\nPORT={PORT}\nOWN_DOORS=1\nLIMIT=1000000\n")
        open(f"{self.etc}/{name}.toml", "w", encoding="ascii").close()

    # ---- what is drawn

    def work(self, name: str) -> None:
        """Drawn acts over a book at rest, and a verdict for each batch."""
        self.wait_free(name)
        # (before the script has it open: a reader may have it first)
        listing = self.hall("list", "--book", self.path(name)) if self.rows(name) else "day none"
        drawn = Draw(self.chance)
        script = drawn.script = Script(self.program, self.path(name))
        day = listing.split("\n")[0].split(" ")[1]
        if day == "none":
            drawn.script.ask(f"day {drawn.date(0, 0)}")
        else:
            from datetime import date

            drawn.day = date.fromisoformat(day).toordinal()
        for _ in range(self.chance.randint(0, STEPS)):
            drawn.ask()
        need(script.end() == 0, "the script ended early")
        self.close(name)

    @contextmanager
    def at_rest(self, name: str) -> Iterator[None]:
        """Neither a hall nor the archive has the book open."""
        follower = f"hall-archive-follow@{name}"
        followed = self.control("is-active", follower) == 0
        for unit in [follower] * followed + [f"hall@{name}"]:
            self.control("stop", unit)
        self.wait_free(name)
        yield
        for unit in [f"hall@{name}"] + [follower] * followed:
            self.control("start", unit)

    def wait_free(self, name: str) -> None:
        """Until no reader has the book open: the archive's audit, a moment ago."""
        words = [self.program, "run", "--book", self.path(name)]
        end = time.monotonic() + PATIENCE
        while subprocess.run(words, input=b"", capture_output=True, check=False).returncode:
            need(time.monotonic() < end, f"{name} stays in use")
            time.sleep(0.1)

    def rows(self, name: str) -> int:
        if not os.path.exists(self.path(name)):
            return 0
        return int(self.hall("check", "--book", self.path(name)).split()[1])

    def close(self, name: str) -> None:
        """Every batch gets its verdict, by the means of a desk."""
        self.wait_free(name)
        listing = self.hall("list", "--book", self.path(name))
        words = [line.split(" ") for line in listing.splitlines()]
        script = Script(self.program, self.path(name))
        for lane in [one[1] for one in words if one[0] == "lane"]:
            script.ask(f"stop {lane}")
        for one in words:
            if one[0] == "batch" and one[5] != "closed":
                self.finish(script, one[1])
        need(script.end() == 0, "the script ended early")

    def finish(self, script: Any, batch: str) -> None:
        script.ask(f"end {batch}")
        script.ask(f"draw {batch} keep {self.chance.randint(0, 99)}")
        for words in (f"sample {batch}",):
            picked = [word for word in script.ask(words)[3:] if word.isdecimal()]
            for pack in picked:
                script.ask(f"measure {pack} 262")
        if script.ask(f"close {batch}")[0] == "refused":
            script.ask(f"second {batch} {self.chance.randint(0, 99)}")
            for pack in [word for word in script.ask(f"sample {batch}")[3:] if word.isdecimal()]:
                script.ask(f"measure {pack} 262")
            told = script.ask(f"close {batch}")
            need(told[0] != "refused", f"{batch} isn't closed: {told}")

    # ---- the next book

    def next(self, name: str, *words: str) -> tuple[int, str]:
        ran = subprocess.run(
            [sys.executable, "-B", f"{TOP}/deploy/hall-next", *words, name],
            env=self.known, capture_output=True, text=True, check=False, timeout=900,
        )  # fmt: skip
        return ran.returncode, ran.stdout + ran.stderr

    def next_killed(self, name: str, after: float) -> bool:
        """Begins it, and kills it and all that it began; whether it was still at work."""
        run = subprocess.Popen(
            [sys.executable, "-B", f"{TOP}/deploy/hall-next", name],
            env=self.known, stdout=subprocess.DEVNULL, stderr=subprocess.DEVNULL,
            start_new_session=True,
        )  # fmt: skip
        time.sleep(after)
        was = run.poll() is None
        os.killpg(run.pid, signal.SIGKILL) if was else None
        run.wait()
        self.kills += was
        return was

    def hand_over(self, name: str, kills: int, longest: float) -> str:
        """Hands a served book over, with kills; the name of the next, which has to be as the old
        one but for batches, desks and rows."""
        # of a running book the newest row isn't read
        with self.at_rest(name):
            before = self.hall("list", "--book", self.path(name))
        for _ in range(kills):
            self.next_killed(name, self.chance.uniform(0, longest))
        status, said = self.next(name)
        need(status == 0, f"hall-next {name}: {status} {said}")
        found = said.split(" is followed by ")[1].split(";")[0].split()[0]
        need(self.control("is-active", f"hall@{found}") == 0, f"{found} isn't served")
        need(answers(PORT), "no door answers")
        with self.at_rest(found):
            after = self.hall("list", "--book", self.path(found))
        need(carried(before) == carried(after), f"{before}\nbecame\n{after}")
        self.check_old(name, before)
        need(self.control("is-active", f"hall@{name}") != 0, f"{name} is still served")
        need(self.control("is-enabled", f"hall@{found}") == 0, f"{found} isn't enabled")
        need(self.control("is-enabled", f"hall@{name}") != 0, f"{name} is still enabled")
        need(not glob.glob(f"{self.books}/*.new"), "something is left")
        again = self.next(name)
        need(again[0] == 0 and "already" in again[1], f"again: {again}")
        return found

    def check_old(self, name: str, before: str) -> None:
        """The old book is as it was, noted, and read-only."""
        self.check_read_only(name)
        need(self.hall("list", "--book", self.path(name)) == before, f"{name} was changed")

    def check_read_only(self, name: str) -> None:
        path = self.path(name)
        need(os.stat(path).st_mode & 0o777 == 0o440, f"{name} may be written")
        audited = self.hall("audit", "--book", path)
        with open(f"{self.books}/{name}.audit", encoding="ascii") as file:
            need(file.read() == audited, f"{name} was noted otherwise")

    def end(self) -> None:
        for path in glob.glob(f"{self.etc}/*.env"):
            self.control("stop", f"hall@{os.path.basename(path).removesuffix('.env')}")
        for path in glob.glob(f"{self.folder}/units/hall-*.pid"):
            self.control("stop", os.path.basename(path).removesuffix(".pid"))


def carried(listing: str) -> list[str]:
    return [line for line in listing.splitlines() if line.split(" ")[0] in CARRIED]


def answers(port: int) -> bool:
    try:
        with socket.create_connection(("127.0.0.1", port), timeout=20) as link:
            link.sendall(b"GET /summary HTTP/1.1\r\nHost: a\r\nConnection: close\r\n\r\n")
            return link.recv(12) == b"HTTP/1.1 200"
    except OSError:
        return False


def refused(halls: Halls, name: str) -> None:
    """It refuses while a batch has no verdict, and the hall goes on."""
    rows = halls.rows(name)
    listing = halls.hall("list", "--book", halls.path(name))
    goods = next(line.split()[1] for line in listing.splitlines() if " g tare " in line)
    # of a running book the newest row isn't read: the first of the two is named
    opened = "".join(f"open {batch} {goods}\n" for batch in LATE)
    with halls.at_rest(name):
        halls.hall("run", "--book", halls.path(name), given=opened)
    status, said = halls.next(name)
    need(status == OPEN and f"2 batches of {name} have no verdict: {LATE[0]}" in said,
         f"open batches: {status} {said}")  # fmt: skip
    need(answers(PORT), "the hall doesn't go on")
    need(halls.rows(name) >= rows, "rows are gone")
    # (an empty batch is closed by its end and its closing alone)
    closed = "".join(f"end {batch}\nclose {batch}\n" for batch in LATE)
    with halls.at_rest(name):
        halls.hall("run", "--book", halls.path(name), given=closed)
    status, said = halls.next("nothing")
    need(status == UNFIT, f"a book that isn't there: {status} {said}")


def days(halls: Halls, name: str) -> None:
    """The day's desk enters a day once, makes a missed one up, and is refused one of before."""
    from datetime import date, timedelta

    listing = halls.hall("list", "--book", halls.path(name))
    newest = date.fromisoformat(listing.split("\n")[0].split(" ")[1])
    known = halls.known | {"PORT": str(PORT), "DOORS": str(DOORS)}

    def enter(day: date) -> int:
        words = [sys.executable, "-B", f"{TOP}/deploy/day", name, day.isoformat()]
        ran = subprocess.run(words, env=known, capture_output=True, text=True, check=False)
        said.append(ran.stdout + ran.stderr)
        return ran.returncode

    said: list[str] = []
    first, rows = newest + timedelta(1), halls.rows(name)
    need(enter(first) == 0 and enter(first) == 0, f"a day isn't entered: {said}")
    need(enter(first + timedelta(3)) == 0, "a missed day isn't made up")
    need(enter(newest) == 1, "a day of before is entered")
    with halls.at_rest(name):
        acts = halls.hall("acts", "--book", halls.path(name), "--after", str(rows)).splitlines()
        need(enter(newest + timedelta(9)) == 3, "a hall that is gone")
    told = [line.split("\t")[2] for line in acts]
    wanted = [f"@163 1 day {first}", f"@163 2 day {first + timedelta(3)}"]
    need(told[-2:] == wanted and len(told) <= 3, f"entered was {told}")
