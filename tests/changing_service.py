"""A service of lanes that change their batch, by its scripts: a case of tests/operation.py."""

# mypy: allow-untyped-calls

import os
import re
import signal
import time

from changing_lane import ChangingLane
from clients import need
from operation_room import NAME, Place, Service, ask, wait_for

DEVICES = 40
PLAN = "".join(f"[[lane]]\nnumber = {lane}\nchanges = true\n" for lane in (1, 2))
SETTINGS: dict[str, object] = {"LANES": 2, "AGAIN": "yes"}


class Desk:
    """A desk that numbers its acts."""

    def __init__(self, port: int):
        self.port, self.request = port, 0

    def act(self, act: str, **members: object) -> None:
        self.request += 1
        body = {"act": act, "desk": 101, "request": self.request} | members
        status, said = ask(self.port, "/acts", body)
        need(status == 200, f"{body} is answered {status} {said}")


class Weighed:
    """Lane 1, what it weighed, and how often its gate opened."""

    def __init__(self, place: Place, service: Service):
        self.place, self.service = place, service
        self.lane = ChangingLane(place.run, 1, place.port + DEVICES)
        self.gate = os.open(f"{place.run}/gate-1.txt", os.O_RDWR | os.O_NONBLOCK)
        self.count = 0
        self.held = b""

    def weigh(self, count: int) -> None:
        """Weighs so many packs, each of which is let out."""
        wanted = self.opened() + count
        for _ in range(count):
            self.count += 1
            self.lane.weigh(262_000 + self.count)
        wait_for(lambda: self.opened() == wanted, f"{count} packs are let out", 60)

    def opened(self) -> int:
        try:
            self.held += os.read(self.gate, 65536)
        except BlockingIOError:
            pass
        return self.held.count(b"\n")

    def wait_state(self, state: str) -> None:
        wait_for(lambda: self.service.lanes()[:1] == [f"lane 1 changes {state}"],
                 f"lanes.txt says {state}; it has {self.service.lanes()}", 60)  # fmt: skip

    def wait_batch(self, batch: str) -> None:
        """Waits until the lane has a batch."""
        wait_for(lambda: ask(self.place.port, "/lanes/1")[1].startswith(f"lane 1 batch {batch} "),
                 f"lane 1 has {batch}", 60)  # fmt: skip


def hall_of(service: Service) -> int:
    """The hall that deploy/start began."""
    pid = service.process.pid
    with open(f"/proc/{pid}/task/{pid}/children", encoding="ascii") as text:
        for child in map(int, text.read().split()):
            with open(f"/proc/{child}/cmdline", "rb") as words:
                if b"serve" in words.read().split(b"\0"):
                    return child
    raise ProcessLookupError("no hall")


def changing_lanes(place: Place) -> None:
    """Begun over a book that has nothing yet; a start that is refused; an adapter and a hall that
    are killed; an evening."""
    place.script("")
    service = Service(place, PLAN, **SETTINGS)
    service.wait_until_served()
    one = Weighed(place, service)
    one.wait_state("serving")
    one.lane.weigh(300_000)
    service.wait_for_error("hall: lane 1 waits: a weight came without a batch")
    one.wait_state("waits weights")
    desk = Desk(place.port)
    desk.act("day", day="2025-03-03")
    desk.act("product", name="P", nominal=250_000)
    desk.act("tare", product="P", day="2025-03-03", tare=10_000)
    for batch in ("A", "B"):
        desk.act("open", batch=batch, product="P")
    one.lane.page("A")
    one.wait_state("serving")
    one.weigh(5)
    check_refused(place, one)
    check_adapter(service, one)
    one = check_killed(place, service, one)
    desk.act("end", batch="A")
    one.weigh(4)
    one.lane.end()
    status, _ = one.service.stop()
    need(
        status == 0 and "lane 1 opened 4 done" in one.service.said(), f"{status}: {service.said()}"
    )
    packs = [(pack["batch"], pack["pile"]) for pack in place.packs()]
    wanted = [("A", "passed")] * 9 + [("A", "voided")] + [("B", "passed")] * 4
    need(packs == wanted, f"the book has {packs}")


def check_refused(place: Place, one: Weighed) -> None:
    """A start that is refused is told by standard error, lanes.txt and hall-status; the batch that
    was before comes back when it is said."""
    one.lane.scan("X")
    one.service.wait_for_error("hall: lane 1 waits, batch X: refused 14 BatchUnknown at ")
    state = "waits batch X refused 14 BatchUnknown"
    one.wait_state(state)
    ran = place.script_of("status", NAME)
    need(ran.returncode == 0 and f"lane 1 changes {state}" in ran.stdout.splitlines(), f"{ran}")
    need(ask(place.port, "/lanes/1")[1] == "lane 1 idle\n", "the lane is idle")
    one.lane.weigh(300_001)
    one.lane.page("A")
    service_says = "hall: lane 1: 1 weight"
    wait_for(lambda: one.service.errors().count(service_says) == 2, "the count is told", 60)
    one.wait_batch("A")
    one.weigh(3)


def check_adapter(service: Service, one: Weighed) -> None:
    """An adapter that is killed leaves the lane waiting; the next one says the batch again."""
    one.lane.kill()
    time.sleep(1)
    need("changing: " not in service.errors(), f"the lane ended: {service.errors()}")
    one.lane.process = one.lane.begin()
    one.weigh(2)


def check_killed(place: Place, service: Service, one: Weighed) -> Weighed:
    """A hall that is killed, and another batch said before the next one."""
    os.kill(hall_of(service), signal.SIGKILL)
    need(service.status() == 137, f"the service ends with {service.process.returncode}")
    time.sleep(0.5)
    one.lane.page("B")
    again = Service(place, PLAN, **SETTINGS)
    again.wait_until_served()
    found = re.search(r"^start: a kill left it started: stop 1 unknown$", again.errors(), re.M)
    need(found is not None, f"start settles lane 1: {again.errors()}")
    one.service = again
    one.wait_batch("B")
    return one
