"""`hall-next --wait`: while batches have no verdict the hall goes on, and what it waits for is
told; once a desk has closed the last one, the next book is served. For tests/months.py."""

import http.client
import json
import subprocess
import sys
import threading
from typing import Any

from clients import need
from months_next import PORT, TOP, Halls, answers, carried

DESK = 101
# Seconds for a word of it, and for all of the hand-over.
PATIENCE = 120


class Desk:
    """A desk at a door of the hall."""

    def post(self, request: int, members: dict[str, object]) -> tuple[int, dict[str, Any]]:
        link = http.client.HTTPConnection("127.0.0.1", PORT, timeout=PATIENCE)
        body = json.dumps({"desk": DESK, "request": request} | members)
        link.request("POST", "/acts", body, {"Connection": "close"})
        answer = link.getresponse()
        said = answer.status, json.loads(answer.read())
        link.close()
        return said

    def act(self, **members: object) -> None:
        """An act under the desk's next number."""
        _, said = self.post(0, {"act": "day", "day": "1970-01-01"})
        status, said = self.post(int(said["kept"] or 0) + 1, members)
        need(status == 200, f"{members} is answered {said}")


class Waiting:
    """hall-next --wait at work, and what it has said so far."""

    def __init__(self, halls: Halls, name: str) -> None:
        self.run = subprocess.Popen(
            [sys.executable, "-B", f"{TOP}/deploy/hall-next", "--wait", name],
            env=halls.known, stdout=subprocess.PIPE, stderr=subprocess.STDOUT, text=True,
        )  # fmt: skip
        self.lines: list[str] = []
        self.came = threading.Condition()
        self.reader = threading.Thread(target=self.read, daemon=True)
        self.reader.start()

    def read(self) -> None:
        assert self.run.stdout
        for line in self.run.stdout:
            with self.came:
                self.lines.append(line)
                self.came.notify_all()

    def says(self, word: str) -> None:
        """Waits until it says a word."""
        with self.came:
            found = self.came.wait_for(lambda: word in "".join(self.lines), PATIENCE)
        need(found, f"it doesn't say {word}: {self.lines}")

    def ends(self) -> str:
        status = self.run.wait(PATIENCE)
        self.reader.join()
        need(status == 0, f"hall-next --wait: {status} {self.lines}")
        return "".join(self.lines)


def waits(halls: Halls, name: str) -> str:
    """The name of the next book, which was waited for with two batches open at a desk."""
    desk = Desk()
    with halls.at_rest(name):
        before = halls.hall("list", "--book", halls.path(name))
    goods = next(line.split()[1] for line in before.splitlines() if " g tare " in line)
    desk.act(act="open", batch="LATE1", product=goods)
    waiting = Waiting(halls, name)
    # the newest row of a running book isn't read: how many are open is known, and not yet which
    waiting.says("waits: 1 batches")
    desk.act(act="open", batch="LATE2", product=goods)
    waiting.says("waits: 2 batches of")
    waiting.says("LATE1")
    need(answers(PORT), "the hall doesn't go on")
    for batch in ("LATE1", "LATE2"):
        need(waiting.run.poll() is None, f"it doesn't wait: {waiting.lines}")
        desk.act(act="end", batch=batch)
        desk.act(act="close", batch=batch)
    said = waiting.ends()
    found = said.split(" is followed by ")[1].split(";")[0]
    need(halls.control("is-active", f"hall@{found}") == 0, f"{found} isn't served")
    with halls.at_rest(found):
        after = halls.hall("list", "--book", halls.path(found))
    need(carried(before) == carried(after), f"{before}\nbecame\n{after}")
    halls.check_read_only(name)
    return found
