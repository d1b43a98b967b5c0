#!/usr/bin/python3
"""The appendix to a paper, and the check that holds both against a book. Drawn batches are weighed,
tested and closed in a book of the program, and archived with persons, reasons, hours and evidence;
each one's appendix is made, sealed by a key and stamped by an authority of this test's own, and
inspector/hall-appendix finds that it belongs to paper and book. Then each is spoiled: a line of the
appendix, the paper or the seal changed, one of another batch in its place, a book with one row
changed or cut off; each is told.

usage: tests/appendix.py [BATCHES [SEED]]      12 batches; HALL names the program; needs sqlalchemy,
                                               alembic, openssl; done in 3 minutes"""

import json
import os
import random
import re
import sys
import tempfile
from typing import Any

HERE = os.path.dirname(os.path.realpath(__file__))
sys.path[:0] = [f"{HERE}/../archive"]

from appendix_spoiled import (  # noqa: E402
    PROGRAM,
    Asked,
    Check,
    changed_books,
    make_keys,
    spoil,
)
from archive_rest import Room  # noqa: E402
from archive_stamps import Authority  # noqa: E402
from clients import need  # noqa: E402

from hall_archive import evidence, settings, store  # noqa: E402
from hall_archive.records import Records  # noqa: E402
from hall_archive.service import People, Witnessing  # noqa: E402
from hall_archive.store import Store  # noqa: E402
from hall_archive.witness import Witness  # noqa: E402

BOOK, TARE, MOMENT = "day", 10_000, 1_764_585_125_250
PEOPLE = {101: "anna", 102: "ben"}
# Packs of a batch, at both sides of the rows of the plans; and goods.
SIZES = (0, 1, 39, 99, 100, 130, 501)
GOODS = (("250", ""), ("500 ml", "1030.000"), ("75", ""))
SPREAD = 4_000


def grams(mass: int) -> str:
    return f"{mass // 1000}.{mass % 1000:03}"


class Drawn:
    """A batch that is drawn, as lines of a script."""

    def __init__(self, chance: random.Random, place: int, requests: list[int]) -> None:
        self.chance, self.name, self.product = chance, f"B{place}", f"p{place}"
        self.label, self.density = GOODS[place % len(GOODS)]
        self.count = SIZES[place % len(SIZES)]
        nominal = int(self.label.split()[0]) * 1000
        self.mass = nominal * (1030 if self.density else 1000) // 1000
        self.mode = "destroy" if self.count > 200 and chance.random() < 0.5 else "keep"
        self.requests = requests

    def gross(self) -> str:
        return grams(max(0, TARE + self.mass + int(self.chance.gauss(1_000, SPREAD))))

    def act(self, said: str) -> str:
        self.requests[0] += 1
        return f"@101 {self.requests[0]} {said}"

    def weighed(self) -> list[str]:
        """Opened, weighed with a tare corrected on the way, and ended. The lane says of some gates
        that they stayed shut, and a pack or two is voided by the office."""
        lines = [self.act(f"product {self.product} {self.label}")]
        lines += [self.act(f"tare {self.product} 2025-03-03 9.900")]
        lines += [self.act(f"open {self.name} {self.product} {self.density}".strip())]
        lines += [f"start 1 {self.name}"]
        lines += [f"weigh 1 {self.gross()}" for _ in range(self.count)]
        lines += ["stop 1", self.act(f"tare {self.product} 2025-03-03 {grams(TARE)}")]
        return lines

    def tested(self, ask: Any) -> None:
        """Ended, drawn, measured, and closed, by what the book answers."""
        passed = [pack for pack, of, pile in ask.register() if (of, pile) == (self.name, "passed")]
        for pack in self.chance.sample(passed, min(2, len(passed) // 10)):
            ask.run([self.act(f"void {pack}")])
        ask.run([self.act(f"end {self.name}")])
        if not passed:
            ask.run([self.act(f"close {self.name}")])
            return
        if len(passed) - 2 < 100:
            self.mode = "keep"
        ask.run([self.act(f"draw {self.name} {self.mode} {self.chance.randrange(1 << 64)}")])
        self.measure(ask, "first")
        second = self.act(f"second {self.name} {self.chance.randrange(1 << 64)}")
        if ask.run([second])[0].startswith("refused"):
            # a refused number comes again
            self.requests[0] -= 1
        else:
            self.measure(ask, "second")
        ask.run([self.act(f"close {self.name}")])

    def measure(self, ask: Any, which: str) -> None:
        [line] = [line for line in ask.run([f"sample {self.name}"]) if line.startswith("sample ")]
        first, _, second = line.partition(" second ")
        picks = second if which == "second" else first.partition(" first ")[2]
        empty = f" {grams(TARE + 100)}" if self.mode == "destroy" else ""
        ask.run([self.act(f"measure {pack} {self.gross()}{empty}") for pack in picks.split()])


class Archived(Room):
    """An archive that seals and stamps, of the book."""

    def begin(self, own: Authority) -> None:
        make_keys(self.folder)
        self.name(BOOK)
        with open(self.path, encoding="utf-8") as file:
            text = file.read()
        more = {"stamps": own.url, "authority": own.path("ca.crt")}
        more |= {"seal": f"{self.folder}/seal.pem", "seal_key": f"{self.folder}/seal.key"}
        with open(self.path, "w", encoding="utf-8") as file:
            file.write("".join(f'{key} = "{value}"\n' for key, value in more.items()) + text)

    def take(self, rows: list[str]) -> None:
        """All rows, the persons of the desks, a line of the witness, and evidence."""
        self.wanted(0, "sheets are the book's", "take", BOOK)
        with open(f"{self.folder}/front.log", "w", encoding="utf-8") as log:
            log.writelines(front_line(line) for line in rows if "\t@" in line)
        found = settings.load(self.path)
        engine = store.open_engine(found.database, True)
        kept = Store(engine, "main", BOOK)
        People(kept, f"{self.folder}/front.log").look()
        witness = Witness(found.witness(found.followed[0]))
        Witnessing(kept, witness, found.reader()).look(True, MOMENT)
        records = Records(engine)
        shift = evidence.evaluate("scale", {"weights": [200_000], "shown": [200_010], "limit": 50})
        records.add("main", "scale", "lane1", 1, "ben", shift)
        empties = {"nominal": 250_000, "empties": [10_000 + at for at in range(10)]}
        records.add("main", "tare", "p0", 2, "anna", evidence.evaluate("tare", empties))

    def appendix(self, batch: str) -> str:
        status, said = self.ask("appendix", BOOK, batch)
        need(status == 0 and "\nsealed, and stamped: " in said, f"{batch}: {status} {said}")
        return said.split("\n")[0]


def front_line(row: str) -> str:
    desk, request, kind = re.findall(r"\t@(\d+) (\d+) (\w+)", row)[0]
    body = {"act": kind, "desk": int(desk), "request": int(request), "reason": f'"why" of {kind}\t'}
    said = {"time": f"{MOMENT / 1000:.3f}", "took": "0.010", "book": BOOK, "status": "200"}
    said |= {"person": PEOPLE[int(desk)], "row": row.split(" ")[0], "body": json.dumps(body)}
    return json.dumps(said) + "\n"


def make_book(ask: Asked, chance: random.Random, count: int) -> list[str]:
    requests = [0]
    batches = [Drawn(chance, place, requests) for place in range(count)]
    ask.run(["day 2025-03-03"])
    for batch in batches:
        ask.run(batch.weighed())
        batch.tested(ask)
    names = {line.split("\t")[2].split(" ")[-1] for line in ask.rows() if " close " in line}
    need(len(names) == count, f"{len(names)} batches are closed of {count}")
    return [batch.name for batch in batches]


def main() -> None:
    count = int(sys.argv[1]) if len(sys.argv) > 1 else 12
    seed = sys.argv[2] if len(sys.argv) > 2 else str(random.randrange(10**6))
    chance, program = random.Random(seed), os.path.realpath(
        os.environ.get("HALL", f"{HERE}/../hall")
    )
    with tempfile.TemporaryDirectory() as folder:
        own, ask = Authority(folder, "own"), Asked(program, f"{folder}/{BOOK}.book")
        room = Archived(program, folder)
        names = make_book(ask, chance, count)
        room.begin(own)
        room.take(ask.rows())
        check = Check(program, folder, own.path("ca.crt"))
        paths = [room.appendix(name) for name in names]
        held = sum(check.holds(path, ask.path) for path in paths)
        ask.run(["day 2025-03-05"])
        held += sum(check.holds(path, ask.path) for path in paths[:3])
        for path in chance.sample(paths, 3):
            others = [one for one in paths if one != path]
            spoil(check, folder, path, others, ask.path, chance)
            changed_books(check, folder, path, ask, chance)
        own.server.shutdown()
    print(f"appendix: {count} batches, {held} answers that all belongs together; {check.told} told")
    print(f"seed {seed}")


if __name__ == "__main__":
    main()
