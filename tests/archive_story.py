"""For tests/archive_rest.py: the story of the batch of docs/INSPECTOR.md, read from the archive
alone, beside the block that shows it there. Persons, reasons and hours come from lines of a
front."""

import json
import os
import re
import subprocess
from datetime import datetime
from typing import Any

HERE = os.path.dirname(os.path.realpath(__file__))
PAGES = [f"{HERE}/../docs/INSPECTOR{more}.md" for more in ("", ".de")]
SCRIPT = f"{HERE}/../examples/whole_batch.txt"
BOOK = "2025-03"
SHOWN = re.compile(r"^\$ hall-archive story .*?\n(.*?)^```$", re.M | re.S)
# Of each act of desk 101, in order of its requests, and of the last of 102: when, and why.
HOURS = {
    (101, 1): ("2025-03-03T09:41:07+00:00", "the bag is torn"),
    (101, 2): ("2025-03-04T07:12:30+00:00", "10 empties weighed anew"),
    (101, 3): ("2025-03-04T07:58:02+00:00", None),
    (101, 4): ("2025-03-04T08:03:44+00:00", None),
    (101, 5): ("2025-03-04T08:40:15+00:00", None),
    (101, 6): ("2025-03-04T09:15:51+00:00", "the second sample decides"),
}
PEOPLE = {101: "anna", 102: "ben"}
MEASURED = ("2025-03-04T08:30:00+00:00", None)


def front_line(row: int, said: str) -> str:
    """The line of the front for an act of a desk, as a row of the book has it."""
    desk, request, kind = re.findall(r"^@(\d+) (\d+) (\w+)", said)[0]
    utc, reason = HOURS.get((int(desk), int(request)), MEASURED)
    body: dict[str, Any] = {"act": kind, "desk": int(desk), "request": int(request)}
    if reason:
        body["reason"] = reason
    line = {"time": f"{datetime.fromisoformat(utc).timestamp():.3f}", "took": "0.010"}
    line |= {"book": BOOK, "person": PEOPLE[int(desk)], "status": "200", "row": str(row)}
    return json.dumps(line | {"body": json.dumps(body)}) + "\n"


def make_book(program: str, folder: str) -> None:
    """The example's book, and what the front wrote of its desks."""
    path = f"{folder}/{BOOK}.book"
    with open(SCRIPT, encoding="ascii") as script:
        subprocess.run(
            [program, "run", "--book", path], stdin=script, capture_output=True, check=True
        )
    acts = subprocess.run([program, "acts", "--book", path], capture_output=True, check=True)
    rows = [line.split("\t") for line in acts.stdout.decode("ascii").splitlines()]
    with open(f"{folder}/front.log", "w", encoding="utf-8") as log:
        for told, _, said in rows:
            if said.startswith("@"):
                log.write(front_line(int(told.split(" ")[0]), said))


def of_people(story: str) -> str:
    """What anna and ben did but for measuring: as the pages' grep."""
    lines = [line for line in story.splitlines() if re.search("  (anna|ben)  ", line)]
    return "".join(f"{line}\n" for line in lines if "measure" not in line)


def differences(story: str) -> list[str]:
    """The pages that show another story."""
    found = []
    for path in PAGES:
        with open(path, encoding="utf-8") as page:
            shown = SHOWN.search(page.read())
        if not shown or shown[1] != of_people(story):
            found.append(f"{path} shows another story than\n{of_people(story)}")
    return found
