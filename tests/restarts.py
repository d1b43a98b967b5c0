"""A hall that is ended in good order and begun again, again and again, under load: the cases of
tests/operation.py over pipes and over ports."""

# mypy: allow-untyped-calls

import re
import time
from collections.abc import Sequence
from typing import NamedTuple

from clients import need

from operation_room import (
    NetworkScale, PipeScale, Place, Service, Tunnel, ask, grams, plan_of, wait_for, weights,
)  # fmt: skip

LANES = 2
# Seconds between two weights of a lane, and how long a hall serves before it is ended: over pipes,
# and over ports in turn, where a scale takes a while to find the new hall.
EVERY = 0.1
OVER_PIPES, OVER_PORTS = (0.4,), (0.4, 1.0, 2.0)
# How many packs a lane has: more than are weighed until the last restart, and no more than the
# 10 000 that a batch takes.
PACKS = 9_900


class Restarts(NamedTuple):
    """How often a hall was begun again; seconds that the longest end took; how many packs were let
    out meanwhile; and at how many starts a lane let out none."""

    times: int
    longest: float
    packs: int
    idle: int

    def tell(self, way: str, count: int) -> None:
        print(f"    {self.times} good ends over {way}, {count} packs, none voided, twice or lost,"
              f" no lane dead; {self.packs} packs meanwhile, at {self.idle} starts a lane had none;"
              f" the longest end {self.longest:.1f} s", flush=True)  # fmt: skip


def restart(
    place: Place, text: str, times: int, served: Sequence[float], **settings: object
) -> Restarts:
    """Ends the hall and begins it again, so often."""
    ends, opened = [], []
    for at in range(times):
        service = Service(place, text, LANES=LANES, **settings)
        service.wait_until_served()
        time.sleep(served[at % len(served)])
        status, took = service.stop()
        need(status == 0, f"a good end has status {status}: {service.said()} {service.errors()}")
        ends.append(took)
        opened.append(opened_by(service.said()))
    packs = sum(sum(lanes) for lanes in opened)
    return Restarts(times, max(ends), packs, sum(0 in lanes for lanes in opened))


def opened_by(said: list[str]) -> list[int]:
    """How often each lane's gate opened, by what a hall printed at its end."""
    lanes = [re.fullmatch(r"lane \d+ opened (\d+) done", line) for line in said]
    found = [int(lane[1]) for lane in lanes if lane]
    need(len(found) == LANES, f"a hall ended in good order with {said}")
    return found


def finish(scales: Sequence[PipeScale | NetworkScale]) -> list[list[str]]:
    """Ends the scales, none of which had sent all its weights; what each sent."""
    for scale in scales:
        need(not scale.is_done.is_set(), "a scale weighed at each restart")
        scale.enough.set()
    for scale in scales:
        wait_for(scale.is_done.is_set, "a scale has sent its last weight")
    return [scale.sent for scale in scales]


def compare(place: Place, given: list[list[str]]) -> int:
    """Each weight of each lane stands once, in order, and counts. How many packs there are."""
    packs = place.packs()
    for lane, wanted in enumerate(given, 1):
        own = [pack for pack in packs if pack["lane"] == str(lane)]
        odd = [pack for pack in own if (pack["signal"], pack["pile"]) != ("pass", "passed")]
        need(not odd, f"lane {lane} has packs that don't count: {odd[:3]}")
        stands = [pack["gross"] for pack in own]
        need(stands == [grams(weight) for weight in wanted], difference(lane, stands, wanted))
    return len(packs)


def compare_gates(place: Place, scales: Sequence[PipeScale | NetworkScale]) -> None:
    rows = [int(pack["pack"]) for pack in place.packs()]
    opened = sorted(row for scale in scales for row in scale.gate.opened)
    need(opened == rows, "each gate opened once for each pack of its lane")


def difference(lane: int, stands: list[str], wanted: list[str]) -> str:
    """Where the packs of a lane differ first from the weights that were sent."""
    sent = [grams(weight) for weight in wanted]
    at = next((at for at, pair in enumerate(zip(stands, sent)) if pair[0] != pair[1]),
              min(len(stands), len(sent)))  # fmt: skip
    return (f"lane {lane}: {len(stands)} packs of {len(sent)} weights; from place {at} on they are"
            f" {stands[at - 1 : at + 3]} for {sent[at - 1 : at + 3]}")  # fmt: skip


def restarts_over_pipes(place: Place, times: int) -> None:
    """Scales and gates over pipes, which stay open meanwhile."""
    place.script("")
    text = plan_of(["A", "B"])
    first = Service(place, text, LANES=LANES)
    first.wait_until_served()
    given = [weights(lane, PACKS) for lane in range(1, LANES + 1)]
    scales = [PipeScale(place.run, lane, given[lane - 1], EVERY) for lane in range(1, LANES + 1)]
    for scale in scales:
        scale.start()
    first.stop()
    seen = restart(place, text, times, OVER_PIPES)
    last = Service(place, text, LANES=LANES)
    last.wait_until_served()
    sent = finish(scales)
    for scale in scales:
        wait_for(lambda: scale.gate.count() == len(scale.sent), "each pack was let out")
    status, _ = last.stop()
    need(status == 0, f"the last end has status {status}: {last.errors()}")
    count = compare(place, sent)
    compare_gates(place, scales)
    need(seen.idle * 10 <= times, f"at {seen.idle} of {times} starts a lane had no pack")
    seen.tell("pipes", count)


def restarts_over_ports(place: Place, times: int) -> None:
    """Scales over ports, the second behind a tunnel that holds its connection, so that its sender
    asks the book."""
    place.script("")
    text = plan_of(["A", "B"])
    remote = place.port + 4
    tunnel = Tunnel(remote + 1)
    given = [weights(lane, PACKS) for lane in range(1, LANES + 1)]
    book = ("--book", f"http://127.0.0.1:{place.port}", "--lane", "2")
    scales = [NetworkScale(place.folder, lane, port, given[lane - 1], EVERY, words)
              for lane, port, words in ((1, remote, ()), (2, tunnel.port, book))]  # fmt: skip
    for scale in scales:
        scale.start()
    seen = restart(place, text, times, OVER_PORTS, REMOTE=remote)
    last = Service(place, text, LANES=LANES, REMOTE=remote)
    last.wait_until_served()
    sent = finish(scales)
    # a gate that isn't read holds its lane up
    wait_for(lambda: have_ended(scales), "both senders have sent the rest", 3600)
    for scale in scales:
        status = scale.process.returncode
        need(status == 0, f"a sender ends with {status}: {scale.complaints()}")
        wait_for(lambda: scale.gate.count() == len(scale.sent), "each pack was let out")
    status, _ = last.stop()
    need(status == 0, f"the last end has status {status}: {last.errors()}")
    count = compare(place, sent)
    compare_gates(place, scales)
    for scale in scales:
        need(scale.acknowledged() == [grams(weight) for weight in scale.sent],
             "each weight was acknowledged once, in order")  # fmt: skip
    seen.tell("ports", count)


def have_ended(scales: Sequence[NetworkScale]) -> bool:
    """Whether the senders have ended; what their gates got meanwhile is taken down."""
    for scale in scales:
        scale.gate.count()
    return all(scale.process.poll() is not None for scale in scales)


def lost_acknowledgement(place: Place) -> None:
    """A weight that a good end settled, and whose acknowledgement is lost in a tunnel: with the
    book asked it stands once; without it stands twice, and is reported."""
    place.script("")
    text = plan_of(["A", "B"])
    remote = place.port + 4
    tunnels = [Tunnel(remote), Tunnel(remote + 1)]
    book = f"http://127.0.0.1:{place.port}"
    words = ((), ("--book", book, "--lane", "2"))
    service = Service(place, text, LANES=LANES, REMOTE=remote)
    service.wait_until_served()
    given = [weights(lane, 5) for lane in range(1, LANES + 1)]
    scales = [NetworkScale(place.folder, lane, tunnels[lane - 1].port, given[lane - 1], 0.0,
                           words[lane - 1]) for lane in range(1, LANES + 1)]  # fmt: skip
    for scale in scales:
        send(scale, 0, 3)
        wait_for(lambda: len(scale.acknowledged()) == 3, "three weights are acknowledged")
    for tunnel in tunnels:
        tunnel.is_deaf = True
    for scale in scales:
        send(scale, 3, 4)
    wait_for(lambda: ask(place.port, "/summary")[1].find("\nreadings 8 ") > 0, "eight packs")
    service.stop()
    for tunnel in tunnels:
        tunnel.is_deaf = False
    service = Service(place, text, LANES=LANES, REMOTE=remote)
    for scale in scales:
        send(scale, 4, 5)
        assert scale.process.stdin
        scale.process.stdin.close()
        need(scale.process.wait(180) == 0, f"a sender: {scale.complaints()}")
    service.stop()
    twice = [given[0][:4] + given[0][3:], given[1]]
    compare(place, twice)
    need([scale.complaints().count("\n") for scale in scales] == [1, 0], "the doubt is reported")


def send(scale: NetworkScale, begin: int, end: int) -> None:
    assert scale.process.stdin
    for weight in scale.given[begin:end]:
        scale.process.stdin.write(f"{grams(weight)}\n".encode())
        scale.process.stdin.flush()
