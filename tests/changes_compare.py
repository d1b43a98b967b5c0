"""What tests/changes.py compares: the lines that a lane's adapter said with those of its devices,
and the rows of the book with these lines.

A batch that begins with B is open; any other is unknown, or was ended. What the book has is read
from its file, by tests/rows.py.
"""

# mypy: allow-untyped-calls

from bisect import bisect_right
from dataclasses import dataclass, field
from datetime import datetime
from typing import NamedTuple

from changing_lane import ChangingLane, Said
from clients import need
from rows import Piles, Row

# Seconds by which a device's line may come before or behind another's that is said later, on a
# machine that is hardly served.
NEAR = 2.0


class Line(NamedTuple):
    """A line that an adapter said, or that a reader came, and when."""

    what: str
    at: float


class Pack(NamedTuple):
    """A pack as the book has it, or has to have it."""

    batch: str
    gross: str


@dataclass
class Session:
    """What was said to one hall, and which packs and starts come of it."""

    packs: list[Pack] = field(default_factory=list)
    times: list[float] = field(default_factory=list)
    # for each good change of a lane that weighs: when it was said, and the first weight behind it
    changes: list[tuple[float, str]] = field(default_factory=list)
    without: int = 0


def grams(gross: int) -> str:
    return f"{gross // 1000}.{gross % 1000:03}"


def read_record(path: str) -> list[Line]:
    """The lines of an adapter's record."""
    found = []
    with open(path, encoding="ascii") as text:
        for line in text:
            moment, what = line.rstrip("\n").split(" ", 1)
            at = datetime.strptime(moment, "%Y-%m-%dT%H:%M:%S.%f%z").timestamp()
            found.append(Line(what, at))
    return found


def sessions_of(lines: list[Line]) -> list[Session]:
    """What has to come of the lines, reader by reader."""
    sessions: list[Session] = []
    batch: str | None = None
    change: float | None = None
    for what, at in lines:
        if what.startswith("# "):
            sessions.append(Session())
            batch = change = None
        elif what.startswith("batch "):
            name = what.removeprefix("batch ")
            is_weighing = bool(sessions[-1].packs) or sessions[-1].without > 0
            batch = name if name.startswith("B") else None
            change = at if batch is not None and is_weighing else None
        elif batch is None:
            sessions[-1].without += 1
        else:
            session = sessions[-1]
            session.packs.append(Pack(batch, what))
            session.times.append(at)
            if change is not None:
                session.changes.append((change, what))
                change = None
    return sessions


def compare_record(lane: ChangingLane, lines: list[Line], is_whole: bool) -> int:
    """The adapter said what the devices said: weights in their order, each once, all of them where
    it is whole; each batch between the weights before and behind it. How many weights it dropped.
    """
    weights = [line.what for line in lines if not line.what.startswith(("# ", "batch "))]
    sent = {said.what: at for at, said in enumerate(lane.weights)}
    places = [sent[weight] for weight in weights]
    need(places == sorted(set(places)), f"lane {lane.number}: weights twice or in another order")
    dropped = len(lane.weights) - len(weights)
    need(dropped == 0 or not is_whole, f"lane {lane.number}: {dropped} weights weren't said")
    said = {line.what: line.at for line in lines}
    compare_first(lane, lines)
    moments = [weight.done for weight in lane.weights]
    for batch in lane.batches:
        is_there = stands(lane, batch, lines, said, moments)
        need(
            is_there or was_overtaken(batch, lines), f"lane {lane.number}: {batch} stands elsewhere"
        )
    return dropped


def compare_first(lane: ChangingLane, lines: list[Line]) -> None:
    """Each reader heard the batch first that was said last: by the adapter, or meanwhile."""
    newest = ""
    for before, line, then in zip(lines, lines[1:], lines[2:]):
        if before.what.startswith("batch "):
            newest = before.what
        if line.what.startswith("# ") and newest:
            meanwhile = [f"batch {batch.what}" for batch in lane.batches
                         if before.at - NEAR < batch.done and batch.began < then.at]  # fmt: skip
            need(then.what == newest or then.what in meanwhile,
                 f"lane {lane.number}: a reader heard {then.what} and not {newest}")  # fmt: skip


def was_overtaken(batch: Said, lines: list[Line]) -> bool:
    """Whether a batch was said while nobody read, and another one before the next reader came: that
    one alone is said then."""
    gaps = [(before.at, line.at) for before, line in zip(lines, lines[1:])
            if line.what.startswith("# ")]  # fmt: skip
    return any(left - NEAR <= batch.began and batch.done <= came + NEAR for left, came in gaps)


def stands(lane: ChangingLane, batch: Said, lines: list[Line], said: dict[str, float],
           moments: list[float]) -> bool:  # fmt: skip
    """Whether the weights well before a batch were said before it, and those well behind it behind
    it. It may have been said again, to another hall, and by a device too: one such place fits."""
    before = bisect_right(moments, batch.began - NEAR)
    behind = bisect_right(moments, batch.done + NEAR)
    least = max((said[one.what] for one in lane.weights[:before][-50:] if one.what in said),
                default=0.0)  # fmt: skip
    most = min((said[one.what] for one in lane.weights[behind : behind + 50] if one.what in said),
               default=float("inf"))  # fmt: skip
    return any(least <= line.at <= most for line in lines if line.what == f"batch {batch.what}")


class LaneRows:
    """The rows of a lane in the book."""

    def __init__(self, rows: list[Row], number: int):
        self.packs: list[Pack] = []
        self.numbers: list[int] = []
        self.starts: list[str] = []
        self.unknown = 0
        batch = ""
        for row in rows:
            if row.act.get("lane") != number:
                continue
            if row.act["act"] == "start":
                batch = row.act["batch"]
                self.starts.append(batch)
            elif row.act["act"] == "weigh":
                need(row.act["prior"] != "unknown", f"row {row.number} settles by unknown")
                self.packs.append(Pack(batch, grams(row.act["gross"])))
                self.numbers.append(row.number)
            else:
                self.unknown += row.act["prior"] == "unknown"


def piles_of(rows: list[Row]) -> dict[int, str]:
    """In which pile each pack lies."""
    piles = Piles()
    for row in rows:
        piles.add(row)
    return {number: pile for number, (pile, _) in piles.packs.items()}


def compare_pipes(number: int, found: LaneRows, sessions: list[Session]) -> int:
    """Of each hall the book has the packs that were said to it, in order, under the batch that was
    said last: all of them, or those before a kill. How many weights were said and not booked."""
    packs, lost = list(found.packs), 0
    place = {pack.gross: at for at, session in enumerate(sessions) for pack in session.packs}
    for at, session in enumerate(sessions):
        own = [pack for pack in packs if place.get(pack.gross) == at]
        need(own == session.packs[: len(own)], difference(number, own, session.packs))
        lost += len(session.packs) - len(own)
        is_last = at == len(sessions) - 1
        need(own == session.packs or not is_last, f"lane {number}: the last hall lacks packs")
    need(all(pack.gross in place for pack in packs), f"lane {number}: a pack of no batch is booked")
    need([place[pack.gross] for pack in packs] == sorted(place[pack.gross] for pack in packs),
         f"lane {number}: packs stand in another order")  # fmt: skip
    return lost


def compare_ports(number: int, found: LaneRows, wanted: list[Pack], voided: set[int]) -> None:
    """Over a port each pack stands once, in order, under the batch that was said last; one that a
    kill voided may stand once more, or alone."""
    counted = [pack for pack, row in zip(found.packs, found.numbers) if row not in voided]
    gone = {pack for pack, row in zip(found.packs, found.numbers) if row in voided}
    need(gone <= set(wanted), f"lane {number}: {gone - set(wanted)} are under another batch")
    stands = set(counted)
    rest = [pack for pack in wanted if pack in stands or pack not in gone]
    need(counted == rest, difference(number, counted, rest))


def difference(number: int, found: list[Pack], wanted: list[Pack]) -> str:
    """Where packs differ first from those that were wanted."""
    at = next((at for at, pair in enumerate(zip(found, wanted)) if pair[0] != pair[1]),
              min(len(found), len(wanted)))  # fmt: skip
    return (f"lane {number}: {len(found)} packs for {len(wanted)}; from place {at} on they are"
            f" {found[at - 1 : at + 3]} for {wanted[at - 1 : at + 3]}")  # fmt: skip


def check_voided(number: int, found: LaneRows, voided: set[int], kills: int) -> int:
    """No pack is voided but the newest of a kill. How many are."""
    own = voided & set(found.numbers)
    need(len(own) == found.unknown and len(own) <= kills,
         f"lane {number}: {len(own)} packs are voided, {found.unknown} stops say unknown, {kills}"
         " kills")  # fmt: skip
    return len(own)
