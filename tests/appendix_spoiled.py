#!/usr/bin/env python3
"""What inspector/hall-appendix tells, as an inspector has it: files alone, the program and openssl. An
appendix, its paper and its seal are changed and exchanged, its lines changed by somebody with the
hall's own key, and the book: one row changed, cut off, another book. By itself it does so to
examples/appendix, sealed anew by a key of its own; tests/appendix.py does so to drawn batches.

usage: tests/appendix_spoiled.py [SEED]        HALL names the program; needs openssl; 1 minute"""

import os
import random
import re
import shutil
import subprocess
import sys
import tempfile
from typing import Any

HERE = os.path.dirname(os.path.realpath(__file__))
sys.path[:0] = [HERE]

from clients import need  # noqa: E402

CHECK = f"{HERE}/../inspector/hall-appendix"
PROGRAM = f"{HERE}/../crates/hall_cli/out/hall_cli"
EXAMPLE = f"{HERE}/../examples/appendix/MORNING.appendix"
SCRIPT = f"{HERE}/../examples/whole_batch.txt"
SLOT = 96
ENDS = ("", ".paper", ".p7s", ".tsr")


def openssl(*words: str) -> None:
    subprocess.run(["openssl", *words], check=True, capture_output=True, stdin=subprocess.DEVNULL)


def make_keys(folder: str) -> None:
    """A hall's key with its certificate, and somebody else's."""
    words = ("req", "-x509", "-newkey", "ec", "-pkeyopt", "ec_paramgen_curve:P-256", "-nodes")
    for name in ("seal", "other"):
        files = ("-keyout", f"{folder}/{name}.key", "-out", f"{folder}/{name}.pem")
        openssl(*words, "-days", "2", "-subj", f"/CN={name}", *files)


class Asked:
    """The program over a book."""

    def __init__(self, program: str, path: str) -> None:
        self.program, self.path = program, path

    def say(self, *words: str, given: str = "") -> str:
        done = subprocess.run(
            [self.program, words[0], "--book", self.path, *words[1:]],
            input=given,
            capture_output=True,
            text=True,
            check=False,
        )
        return done.stdout

    def run(self, lines: list[str]) -> list[str]:
        return self.say("run", given="".join(f"{line}\n" for line in lines)).splitlines()

    def register(self) -> list[tuple[str, str, str]]:
        rows = [line.split(",") for line in self.say("export").splitlines()[1:]]
        return [(row[0], row[1], row[-1]) for row in rows]

    def rows(self) -> list[str]:
        return self.say("acts").splitlines()


class Check:
    """The inspector's check, with a machine of his own: files alone, and the program."""

    def __init__(self, program: str, folder: str, authority: str = "") -> None:
        self.program, self.folder, self.authority = program, folder, authority
        self.told = 0

    def run(self, path: str, book: str, seal: str = "seal") -> tuple[int, str]:
        words = ["--seal", f"{self.folder}/{seal}.pem"]
        words += ["--stamps", self.authority] if self.authority else []
        done = subprocess.run(
            [CHECK, path, book, *words, "--hall", self.program],
            capture_output=True,
            text=True,
            check=False,
            timeout=120,
        )
        return done.returncode, done.stdout + done.stderr

    def holds(self, path: str, book: str) -> int:
        status, said = self.run(path, book)
        need(status == 0 and "differs" not in said, f"{path}: {status}\n{said}")
        return said.count("same: ")

    def tells(self, what: str, path: str, book: str, seal: str = "seal") -> None:
        status, said = self.run(path, book, seal)
        need(status in (1, 2) and what in said, f"{path} for {what!r}: {status}\n{said}")
        self.told += 1


def copied(folder: str, path: str) -> str:
    """A copy of an appendix with its paper, seal and stamp."""
    os.makedirs(folder, exist_ok=True)
    copy = f"{folder}/appendix"
    for end in ENDS:
        if os.path.exists(f"{path}{end}"):
            shutil.copy(f"{path}{end}", f"{copy}{end}")
    return copy


def put(path: str, change: Any) -> None:
    with open(path, encoding="ascii", newline="") as file:
        text = file.read()
    changed = change(text)
    need(changed != text, f"{path} isn't changed")
    with open(path, "w", encoding="ascii", newline="") as file:
        file.write(changed)


def resealed(folder: str, copy: str) -> None:
    """Seals a changed appendix by the hall's key: what is wrong then is told by paper and book."""
    key = ("-signer", f"{folder}/seal.pem", "-inkey", f"{folder}/seal.key", "-md", "sha256")
    openssl("cms", "-sign", "-binary", *key, "-in", copy, "-outform", "PEM", "-out", f"{copy}.p7s")


def spoil(check: Check, folder: str, path: str, others: list[str], book: str, pick: Any) -> None:
    """Each file changed, each exchanged, and the appendix' lines changed with the hall's own key."""
    copies = f"{folder}/copies"
    seal, stamp = "differs: the appendix and its seal", "differs: the seal and its stamp"
    put(copied(copies, path), lambda text: text.replace("hall main", "hall mean"))
    check.tells(seal, f"{copies}/appendix", book)
    check.tells(seal, copied(copies, path), book, "other")
    exchanged = [("", seal), (".paper", "differs: the appendix and the paper"), (".p7s", seal)]
    for end, said in exchanged + [(".tsr", stamp)] * bool(check.authority):
        copy = copied(copies, path)
        shutil.copy(f"{pick.choice(others)}{end}", f"{copy}{end}")
        check.tells(said, copy, book)
    copy = copied(copies, path)
    put(f"{copy}.paper", lambda text: re.sub(r"(?m)^(pack .*|batch .*)\d$", r"\g<1>x", text))
    check.tells("differs: the appendix and the paper", copy, book)
    for said, change in lines_changed(pick):
        copy = copied(copies, path)
        put(copy, lambda text, change=change: ended(change(text)))
        resealed(folder, copy)
        check.tells(said, copy, book)
    put(copied(copies, path), lambda text: text[: len(text) // 2])
    check.tells("isn't a whole appendix", f"{copies}/appendix", book)


def ended(text: str) -> str:
    """A text with as many lines as its end says."""
    lines = text.splitlines()[:-1]
    return "".join(f"{line}\n" for line in (*lines, f"end {len(lines)}"))


def lines_changed(pick: Any) -> list[tuple[str, Any]]:
    """What is told of an appendix whose lines were changed by somebody with the hall's key."""

    def digit(word: str) -> Any:
        return lambda text: re.sub(
            rf"(?m)^({word} .*?)(\d)(\D*)$",
            lambda found: f"{found[1]}{(int(found[2]) + 1) % 10}{found[3]}",
            text,
            count=1,
        )

    def without_row(text: str) -> str:
        lines = text.splitlines()
        rows = [at for at, line in enumerate(lines) if line.startswith("row ")]
        del lines[pick.choice(rows)]
        return "".join(f"{line}\n" for line in lines)

    return [
        ("differs: limits, plan", digit("limits")),
        ("differs: the fingerprint and the book", digit("audit")),
        ("rows and the book", without_row),
        ("rows and the book", digit("row")),
        ("differs: evidence", digit('evidence .*"moment":')),
        (
            "differs: the witness' line",
            lambda text: re.sub(r"(?m)^(witness \S+ \d+ .{9})(.)", other_letter, text),
        ),
        ("differs: the paper and its verdict", lambda text: text.replace("verdict ", "verdict un")),
    ]


def other_letter(found: re.Match[str]) -> str:
    return found[1] + ("0" if found[2] == "f" else "f")


def changed_books(check: Check, folder: str, path: str, ask: Asked, pick: Any) -> None:
    """A book with one changed row, one with its last rows cut off, and another book."""
    other, row = f"{folder}/changed.book", pick.randint(1, len(ask.rows()))
    shutil.copy(ask.path, other)
    with open(other, "r+b") as file:
        file.seek(SLOT * row + 6)
        by = file.read(1)[0]
        file.seek(SLOT * row + 6)
        file.write(bytes([by ^ 1]))
        # no snapshot any more, so that the slots are read
        file.seek(8)
        file.write(b"\0")
    closed = int(re.findall(r"(?m)^batch .* row (\d+)$", text_of(path))[0])
    if row <= closed:
        check.tells("differs: the fingerprint and the book", path, other)
    scripts = [line.split("\t")[2] for line in ask.rows()]
    for name, lines in (("cut", scripts[: closed - 1]), ("exchanged", ["day 1999-12-31"])):
        made = Asked(ask.program, f"{folder}/{name}.book")
        made.run(lines)
        check.tells("differs: the fingerprint and the book", path, made.path)
        os.remove(made.path)


def text_of(path: str) -> str:
    with open(path, encoding="ascii") as file:
        return file.read()


def try_example(check: "Check", ask: Asked, folder: str, chance: random.Random) -> int:
    """The example and one like it, both sealed anew; how many answers are that it belongs together."""
    with open(SCRIPT, encoding="ascii") as script:
        ask.say("run", given=script.read())
    path = copied(f"{folder}/own", EXAMPLE)
    other = copied(f"{folder}/like", EXAMPLE)
    put(other, lambda text: text.replace("book 2025-03", "book 2025-04"))
    put(f"{other}.paper", lambda text: text.replace("word 4711", "word 4712"))
    for one in (path, other):
        resealed(folder, one)
    held = check.holds(path, ask.path)
    spoil(check, folder, path, [other], ask.path, chance)
    changed_books(check, folder, path, ask, chance)
    return held


def main() -> None:
    seed = sys.argv[1] if len(sys.argv) > 1 else str(random.randrange(10**6))
    program = os.path.realpath(os.environ.get("HALL", PROGRAM))
    with tempfile.TemporaryDirectory() as folder:
        make_keys(folder)
        check = Check(program, folder)
        ask = Asked(program, f"{folder}/day.book")
        held = try_example(check, ask, folder, random.Random(seed))
    print(
        f"the example appendix: {held} answers that it belongs together; {check.told} spoiled ones told"
    )
    print(f"seed {seed}")


if __name__ == "__main__":
    main()
