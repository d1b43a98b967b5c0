"""Stamps of RFC 3161 over lines of a witness: an authority elsewhere says that a line was there at
its time, and with it all lines before, since each has the digest of the one before. By Debian's
openssl; a stamp is a file beside the witness, WITNESS.LINE.tsr."""

import glob
import os
import re
import subprocess
import tempfile

from hall_archive.witness import Differs, Line, digest_of

PATIENCE = 30
MOST_BYTES = 1 << 20
ASKED = {"Content-Type": "application/timestamp-query"}
TIME = re.compile(r"^Time stamp: (.+)$", re.M)


class NotStamped(Exception):
    """The authority, or openssl, gave no stamp; the text says why."""


def openssl(*words: str) -> bytes:
    run = subprocess.run(
        ["openssl", "ts", *words], stdin=subprocess.DEVNULL, capture_output=True, timeout=PATIENCE
    )
    if run.returncode:
        said = run.stderr.decode(errors="replace").strip() or run.stdout.decode(errors="replace")
        raise NotStamped(f"openssl ts {words[0]}: {said.splitlines()[-1][:200] if said else ''}")
    return run.stdout


def post(url: str, query: bytes) -> bytes:
    """The authority's answer to a query. What speaks HTTP is loaded here: a follower that begins
    has no need of it."""
    import urllib.request

    try:
        asked = urllib.request.Request(url, query, ASKED)
        with urllib.request.urlopen(asked, timeout=PATIENCE) as answer:
            body: bytes = answer.read(MOST_BYTES)
            return body
    except (OSError, ValueError) as fault:
        raise NotStamped(f"{url}: {fault}") from fault


def path_of(witness: str, number: int) -> str:
    return f"{witness}.{number}.tsr"


def stamp_newest(witness: str, lines: list[Line], url: str, authority: str) -> str:
    """Has the newest line of a witness stamped, once; what to say of it."""
    number, line = len(lines), lines[-1]
    path = path_of(witness, number)
    is_there = os.path.exists(path)
    if not is_there:
        stamp(digest_of(str(line)), path, url, authority)
    already = " already" if is_there else ""
    return f"line {number} ({line.utc}) is stamped{already}: {time_of(path)}"


def stamp(digest: str, path: str, url: str, authority: str) -> None:
    """Has a SHA-256 stamped, and keeps the stamp at a path where it holds."""
    with tempfile.TemporaryDirectory(dir=os.path.dirname(path)) as folder:
        query, reply = f"{folder}/query", f"{folder}/reply"
        words = ("-query", "-sha256", "-digest", digest, "-cert", "-out", query)
        openssl(*words)
        with open(query, "rb") as asked, open(reply, "wb") as answer:
            answer.write(post(url, asked.read()))
            answer.flush()
            os.fsync(answer.fileno())
        # that it is of this query, with its number
        openssl("-verify", "-queryfile", query, "-in", reply, "-CAfile", authority)
        os.replace(reply, path)


def time_of(path: str) -> str:
    """When the authority says that it was asked."""
    found = TIME.search(openssl("-reply", "-in", path, "-text").decode(errors="replace"))
    return found[1] if found else "at no time"


def check(witness: str, lines: list[Line], authority: str) -> int:
    """Holds each stamp against its line; how many there are. Differs names the first line whose
    stamp isn't of it, or isn't the authority's."""
    numbers = sorted(map(number_of, glob.glob(f"{glob.escape(witness)}.*.tsr")))
    for number in numbers:
        if not 0 < number <= len(lines):
            raise Differs(f"line {number} is stamped, and the witness has {len(lines)}")
        line = lines[number - 1]
        words = ("-digest", digest_of(str(line)), "-in", path_of(witness, number))
        try:
            openssl("-verify", *words, "-CAfile", authority)
        except NotStamped as fault:
            raise Differs(f"line {number} ({line.utc}): its stamp doesn't hold: {fault}") from fault
    return len(numbers)


def number_of(path: str) -> int:
    number = path.split(".")[-2]
    return int(number) if number.isdecimal() else 0
