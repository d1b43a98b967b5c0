"""What the book has of a lane, for a sender that said a weight and heard nothing of it."""

import base64
import enum
import http.client
import time
import urllib.parse
from collections.abc import Iterator

from hall_adapter.sender_lines import report

# How long to wait before a hall that is gone is asked again, in seconds.
RETRY = 0.1
# Behind how many acknowledgements it is noted how many rows the book has.
MARK_EVERY = 50
# What the front answers where no hall is there.
NO_HALL = (502, 503, 504)
# How long the book is asked in vain before a weight is said without that, in seconds.
ASK_WAIT = 30.0


class Unasked(Exception):
    """The book can't be asked, though its hall may be there."""


class Newest(enum.Enum):
    """A weight of the lane that wasn't acknowledged. One that isn't settled is of a hall that goes
    on, and acknowledges it again, or is about to end: it is settled then, or voided by the next."""

    NONE = enum.auto()
    UNSETTLED = enum.auto()
    SETTLED = enum.auto()


class Book:
    """What the book has of a lane, as a door or the front says."""

    def __init__(self, url: str, lane: int, login: str | None, seconds: float):
        self.url = urllib.parse.urlsplit(url)
        self.lane = lane
        self.seconds = seconds
        self.headers = {}
        if login is not None:
            self.headers["Authorization"] = "Basic " + base64.b64encode(login.encode()).decode()
        # how many rows the book had, and how many weights were acknowledged since
        self.rows: int | None = None
        self.since = 0
        # whether no hall was there, and whether it is reported that it couldn't be asked
        self.is_gone = False
        self.is_reported = False

    def connect(self) -> http.client.HTTPConnection:
        kind = http.client.HTTPSConnection if self.url.scheme == "https" else None
        return (kind or http.client.HTTPConnection)(self.url.netloc, timeout=self.seconds)

    def ask(self, link: http.client.HTTPConnection, path: str) -> list[str] | None:
        """The words of an answer, or nothing where it is a refusal."""
        try:
            link.request("GET", self.url.path.rstrip("/") + path, headers=self.headers)
            answer = link.getresponse()
            text = answer.read().decode()
        except http.client.HTTPException as fault:
            raise OSError(f"no answer: {fault!r}") from fault
        if answer.status in NO_HALL:
            raise OSError(f"{path} is answered {answer.status}")
        if answer.status not in (200, 409):
            raise Unasked(f"{path} is answered {answer.status}")
        return text.split() if answer.status == 200 else None

    def count_rows(self, link: http.client.HTTPConnection) -> int:
        said = self.ask(link, "/summary")
        if said is None or said[0] != "rows":
            raise Unasked("the summary has no rows")
        return int(said[1])

    def mark(self) -> None:
        """Notes how many rows there are, with all that was acknowledged among them."""
        link = self.connect()
        try:
            self.rows = self.count_rows(link)
            self.since = 0
            self.is_reported = False
        except (OSError, Unasked) as fault:
            self.is_gone = isinstance(fault, OSError)
            self.report(fault)
        finally:
            link.close()

    def report(self, fault: Exception) -> None:
        """Reports that it can't be asked, once until it can be."""
        if not self.is_reported:
            report(f"the book can't be asked: {fault}")
        self.is_reported = True

    def begin(self) -> None:
        """Notes it before the first weight. A hall is waited for; one that refuses, for a time."""
        until = time.monotonic() + ASK_WAIT
        self.mark()
        while self.rows is None and (self.is_gone or time.monotonic() < until):
            time.sleep(RETRY)
            self.mark()

    def note(self, is_change: bool) -> None:
        """A weight was acknowledged; or a batch, before which weights may have had none."""
        self.since += 1
        if self.rows is None or self.since >= MARK_EVERY or is_change:
            self.mark()

    def newest(self) -> Newest:
        """What the lane has beside the weights that were acknowledged."""
        if self.rows is None:
            raise Unasked("it wasn't asked before")
        link = self.connect()
        try:
            packs = list(self.packs(link, self.rows, self.count_rows(link)))
            if len(packs) != self.since + 1 or packs[-1][-1] == "voided":
                return Newest.NONE
            lane = self.ask(link, f"/lanes/{self.lane}") or []
            is_open = lane[-2:] == ["unsettled", packs[-1][1]]
            return Newest.UNSETTLED if is_open else Newest.SETTLED
        finally:
            link.close()

    def packs(self, link: http.client.HTTPConnection, after: int, rows: int) -> Iterator[list[str]]:
        """The lane's packs after a row: `pack N batch B lane L gross G .. PILE`."""
        for row in range(after + 1, rows + 1):
            pack = self.ask(link, f"/packs/{row}")
            if pack is not None and pack[5] == str(self.lane):
                yield pack
