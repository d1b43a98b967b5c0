"""The office of a hall, as a desk and as a reader: questions by their path, and `void`.

A desk numbers its acts, and the book takes each number once (docs/OPERATING.md). Where an answer
was lost the same act is asked again under its number."""

import base64
import http.client
import json
import urllib.parse
from typing import Any

# Seconds that an answer is waited for.
PATIENCE = 10.0
# The refusal of a pack whose lane has weighed none since: its gate isn't told yet.
UNSETTLED = 26


class Refused(Exception):
    """The book refuses an act, by the number of the refusal."""

    def __init__(self, number: int, name: str) -> None:
        super().__init__(f"refused {number} {name}")
        self.number = number


class Office:
    """A door of the office, or the front, which wants to know who asks."""

    def __init__(self, url: str, headers: dict[str, str] | None = None) -> None:
        self.url = urllib.parse.urlsplit(url)
        self.headers = headers or {}

    def ask(self, path: str, act: dict[str, Any] | None = None) -> tuple[int, bytes]:
        """What is answered at a path, with its status; an OSError where nothing is."""
        is_safe = self.url.scheme == "https"
        kind = http.client.HTTPSConnection if is_safe else http.client.HTTPConnection
        link = kind(self.url.netloc, timeout=PATIENCE)
        try:
            body = None if act is None else json.dumps(act).encode()
            method, where = "GET" if act is None else "POST", self.url.path.rstrip("/") + path
            link.request(method, where, body, self.headers)
            answer = link.getresponse()
            return answer.status, answer.read()
        except http.client.HTTPException as fault:
            raise OSError(f"no answer: {fault!r}") from fault
        finally:
            link.close()

    def text(self, path: str) -> str | None:
        """The text that answers a question; nothing where it is refused."""
        status, body = self.ask(path)
        if status not in (200, 409):
            raise OSError(f"{path} is answered {status}")
        return body.decode() if status == 200 else None


def login_of(path: str) -> dict[str, str]:
    """The header by which the front knows who asks, of a file with a line `NAME:PASSWORD`."""
    with open(path, encoding="utf-8") as source:
        login = source.readline().strip()
    return {"Authorization": "Basic " + base64.b64encode(login.encode()).decode()}


class VoidDesk:
    """A desk that takes packs back."""

    def __init__(self, url: str, number: int) -> None:
        self.office = Office(url)
        self.number = number
        # the number of the next request; not known at the beginning
        self.request: int | None = None

    def act(self, request: int, act: dict[str, Any]) -> tuple[int, dict[str, Any]]:
        """What an act is answered."""
        status, body = self.office.ask("/acts", {"desk": self.number, "request": request, **act})
        if status not in (200, 409):
            raise OSError(f"an act is answered {status}")
        answer: dict[str, Any] = json.loads(body)
        return status, answer

    def catch_up(self) -> int:
        """The number of the next request: the refusal of request 0 has the last one."""
        if self.request is None:
            _, answer = self.act(0, {"act": "day", "day": "1970-01-01"})
            self.request = int(answer["kept"]) + 1
        return self.request

    def void(self, row: int) -> int:
        """Takes a pack back, and gives the row of that."""
        request = self.catch_up()
        status, answer = self.act(request, {"act": "void", "pack": row})
        if status == 409:
            raise Refused(int(answer["refused"]), str(answer["name"]))
        self.request = request + 1
        return int(answer["row"])
