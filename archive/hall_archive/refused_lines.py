"""Acts that a hall refused, of the lines that the front writes (`people`): who asked what, and
when. Pure."""

import json
from typing import NamedTuple

CONFLICT = 409
MOST_LETTERS = 2_000


class Refused(NamedTuple):
    """A refused act: when it was answered, in ms of UTC, who asked, and what."""

    moment: int
    person: str
    act: str
    line: str


def read_refused(text: str, book: str) -> Refused | None:
    """A refused act of this book; None for each other line. A page asks for its desk's number by
    request 0, which is no act."""
    try:
        said = json.loads(text)
        body = json.loads(said["body"])
        is_act = said["book"] == book and int(said["status"]) == CONFLICT
        if not is_act or int(body["request"]) == 0:
            return None
        moment = round(float(said["time"]) * 1000)
        return Refused(moment, str(said["person"]), str(body["act"])[:32], text[:MOST_LETTERS])
    except (ValueError, KeyError, TypeError):
        return None
