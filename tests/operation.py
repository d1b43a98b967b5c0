"""A hall in operation, for tests/operation.sh: PROGRAM FOLDER RESTARTS [CASE..].

Each case has folders and a book of its own. What is compared was worked out by hand from
docs/OPERATING.md and docs/FORMATS.md.
"""

# mypy: allow-untyped-calls

import os
import re
import socket
import subprocess
import sys
import time
from collections.abc import Callable

from changing_service import changing_lanes
from clients import free_ports, need
from filled_book import write_book

from operation_room import (
    NAME, PipeScale, Place, Service, ask, end_all, grams, plan_of, read, wait_for, weights,
)  # fmt: skip
from restarts import lost_acknowledgement, restarts_over_pipes, restarts_over_ports

# The size of a small disk; how long it is full, and how soon lanes are back, in seconds: only a
# busy machine may take longer.
DISK_BYTES = 600_000
FULL_FOR = 40
BACK_WITHIN = 60


def note(took: float, said: str) -> None:
    print(f"    {said} {took:.1f} s", flush=True)


def wrong_plan(place: Place) -> None:
    """A plan of another number of lanes, and one that names a batch that isn't open."""
    place.script("")
    service = Service(place, plan_of(["A"]), LANES=2)
    need(service.status() == 3, "a plan of one lane, LANES=2, has status 3")
    need("hall: plan has 1 lane, --lanes 2" in service.errors(), service.errors())
    need(not service.is_ready(), "a hall that didn't serve isn't ready")

    text = plan_of(["MORNING"]) + '\n[[lane]]\nnumber = 2\nbatch = "EVENING"\n'
    service = Service(place, text, LANES=2, AGAIN="yes")
    service.wait_until_served()
    scales = [PipeScale(place.run, lane, weights(lane, 30), 0.01) for lane in (1, 2)]
    scales[0].start()
    service.wait_for_error("hall: lane 2, batch EVENING: refused 14 BatchUnknown at ")
    wait_for(service.is_ready, "systemd was told that it is ready")
    wanted = ["lane 1 batch MORNING weighing", "lane 2 batch EVENING refused 14 BatchUnknown at "]
    wait_for(lambda: all(line.startswith(want) for line, want in zip(service.lanes(), wanted))
             and len(service.lanes()) == 3, f"lanes.txt says so: {service.lanes()}")  # fmt: skip
    need(re.fullmatch(r"book rows \d+ left \d+", service.lanes()[2]) is not None, "the book's line")
    status, said = ask(place.port, "/acts", {"act": "open", "desk": 101, "request": 1,
                                             "batch": "EVENING", "product": "P"})  # fmt: skip
    began = time.monotonic()
    need(status == 200, f"a desk opens the batch: {status} {said}")
    scales[1].start()
    wait_for(lambda: scales[1].gate.count() == 30, "lane 2 is back")
    note(time.monotonic() - began, "a lane whose batch was opened late was back after")
    wait_for(lambda: scales[0].gate.count() == 30, "lane 1 weighs on")
    service.stop()
    need({pack["pile"] for pack in place.packs()} == {"passed"}, "no pack is voided")


def full_book(place: Place) -> None:
    """A book that becomes full: what is left is said before, and then that it is full."""
    service = Service(place_with_book(place), plan_of(["A"]), LANES=1, LIMIT=300, AGAIN="yes")
    service.wait_until_served()
    scale = PipeScale(place.run, 1, weights(1, 320), 0)
    scale.start()
    service.wait_for_error("hall: the book is full: ")
    need("hall: 3 rows are left of 300: " in service.errors(), service.errors())
    service.wait_for_error("hall: lane 1, batch A: refused 5 BookFull at 300")
    wait_for(lambda: service.lanes()[-1:] == ["book full"], "lanes.txt says that it is full")
    status, _ = ask(place.port, "/summary")
    need(status == 200, "the door answers")
    time.sleep(5)
    need(service.errors().count("hall: serving, ") == 1, "a full book is no reason to begin again")
    service.stop()
    need(place.rows() == 300, "the book has its limit of rows")


def place_with_book(place: Place) -> Place:
    place.script("")
    return place


def full_disk(place: Place) -> None:
    """The book's disk fills up, and room is made: lanes are back by themselves."""
    subprocess.run(["mount", "-t", "tmpfs", "-o", f"size={DISK_BYTES}", "tmpfs", place.books],
                   check=True)  # fmt: skip
    service = Service(place_with_book(place), plan_of(["A", "A"]), LANES=2, AGAIN="yes")
    service.wait_until_served()
    scales = [PipeScale(place.run, lane, weights(lane, 4000), 0.02) for lane in (1, 2)]
    for scale in scales:
        scale.start()
    wait_for(lambda: scales[0].gate.count() > 5, "lane 1 weighs")
    filler = f"{place.books}/filler"
    with open(filler, "wb", buffering=0) as rest:
        try:
            while True:
                rest.write(bytes(4096))
        except OSError:
            pass
    service.wait_for_error("hall: lane 1, batch A: disk")
    service.wait_for_error("hall: lane 2, batch A: disk")
    time.sleep(FULL_FOR)
    os.remove(filler)
    opened, began = sum(len(scale.gate.opened) for scale in scales), time.monotonic()
    wait_for(
        lambda: sum(len(scale.gate.opened) for scale in scales) > opened + 20, "lanes are back"
    )
    took = time.monotonic() - began
    note(took, f"after a full disk the lanes were back after (at most {BACK_WITHIN})")
    service.stop()
    packs = place.packs()
    counted = [pack for pack in packs if pack["signal"] == "pass" and pack["pile"] == "passed"]
    for scale, lane in zip(scales, ("1", "2")):
        own = [int(pack["pack"]) for pack in counted if pack["lane"] == lane]
        wait_for(lambda: set(scale.gate.opened) >= set(own), "each pack that counts was let out")
    subprocess.run(["umount", place.books], check=True)


def ports_taken(place: Place) -> None:
    """A door's or a scale's port that another has: the hall ends before anything is done."""
    place.script("day 2025-03-03\n")
    for port, settings in ((place.port + 1, {"DOORS": 2}),
                           (place.port + 3, {"REMOTE": place.port + 2, "LANES": 2})):  # fmt: skip
        with socket.create_server(("127.0.0.1", port)):
            batches = ["A"] * int(settings.get("LANES", 0))
            service = Service(place, plan_of(batches), **settings)
            need(service.status() == 6, f"a taken port has status {service.process.returncode}")
        need(f"can't listen at port {port}" in service.errors(), service.errors())
        need(service.said()[-1] == "disk fault", f"its last line is {service.said()[-1:]}")
        need(not service.is_ready() and place.rows() == 1, "nothing was done")


def unread_gate(place: Place) -> None:
    """A gate whose pipe nobody reads is told after 5 s, once; then it is read."""
    service = Service(place_with_book(place), plan_of(["A"]), LANES=1)
    service.wait_until_served()
    cell = os.open(f"{place.run}/cell-1.txt", os.O_RDWR)
    os.write(cell, b"262\n")
    service.wait_for_error("hall: ")
    wait_for(lambda: "gate-1.txt: nobody has read it for 5 s" in service.errors(), "the gate")
    need(service.errors().count("nobody has read it") == 1, "it is said once")
    gate = os.open(f"{place.run}/gate-1.txt", os.O_RDWR)
    need(os.read(gate, 100).startswith(b"open "), "the gate gets its line")
    service.stop()
    need([pack["pile"] for pack in place.packs()] == ["passed"], "the pack counts")


def good_end(place: Place) -> None:
    """An evening under load: lanes over pipes and a desk; it ends in good order."""
    service = Service(place_with_book(place), plan_of(["A", "B"]), LANES=2, DOORS=2)
    service.wait_until_served()
    found = re.search(r"^hall: serving, lanes 2, doors 2 at ports (\d+) to (\d+), rows (\d+),"
                      r" left (\d+)$", service.errors(), re.MULTILINE)  # fmt: skip
    need(found is not None and [int(one) for one in found.groups()]
         == [place.port, place.port + 1, 5, 999_995], service.errors())  # fmt: skip
    wait_for(service.is_ready, "systemd was told that it is ready")
    scales = [PipeScale(place.run, lane, weights(lane, 3000), 0.005) for lane in (1, 2)]
    for scale in scales:
        scale.start()
    answered = 0
    while min(scale.gate.count() for scale in scales) < 20:
        answered += 1
        act = {"act": "product", "desk": 101, "request": answered, "name": f"Q{answered}",
               "nominal": 250_000}  # fmt: skip
        status, said = ask(place.port, "/acts", act)
        need(status == 200, f"a desk is answered {status} {said}")
    check_status(place, True)
    status, took = service.stop()
    need(status == 0, f"a good end has status {status}: {service.said()} {service.errors()}")
    note(took, "a good end under load took")
    lines = service.said()
    need(any(re.fullmatch(r"lane 1 opened \d+ done", line) for line in lines)
         and lines[-1].startswith("batches running 2 "), f"it printed {lines}")  # fmt: skip
    packs = place.packs()
    need({pack["pile"] for pack in packs} == {"passed"}, "each pack counts")
    for scale, lane in zip(scales, (1, 2)):
        own = [int(pack["pack"]) for pack in packs if pack["lane"] == str(lane)]
        scale.gate.count()
        need(scale.gate.opened == own, f"gate {lane} opened for each pack of its lane, in order")
        need([pack["gross"] for pack in packs if pack["lane"] == str(lane)]
             == [grams(weight) for weight in scale.given[: len(own)]], "in order")  # fmt: skip
    need(place.rows() == 5 + answered + len(packs) + 4, "no row is more or less")
    check_status(place, False)


def check_status(place: Place, serves: bool) -> None:
    """What hall-status says, as text and for Prometheus."""
    ran = place.script_of("status", NAME)
    need(ran.returncode == (0 if serves else 1), f"hall-status: {ran}")
    lines = ran.stdout.splitlines()
    need(lines[0] == f"serves {'yes' if serves else 'no'}", f"hall-status says {lines}")
    need(not serves or lines[1] == "lane 1 batch A weighing", f"hall-status says {lines}")
    need("batches running 2" in lines, f"hall-status says {lines}")
    if not serves:
        need(f"rows {place.rows()}" in lines, f"hall-status says {lines}")
    gauges = place.script_of("status", "--prometheus", NAME).stdout
    form = r'(# (HELP|TYPE) hall_[a-z_]+ .+|hall_[a-z_]+\{book="day"(,[a-z]+="[^"]*")*\} \d+)'
    bad = [line for line in gauges.splitlines() if not re.fullmatch(form, line)]
    need(not bad and f'hall_serves{{book="day"}} {serves:d}' in gauges, f"Prometheus: {bad}")


def backups(place: Place) -> None:
    """Copies of a book whose hall runs, of none, without room, and of a book that was changed."""
    write_book(place.book, 300)
    service = Service(place, "", DOORS=1)
    service.wait_until_served()
    need(ask(place.port, "/acts", {"act": "day", "desk": 101, "request": 1,
                                   "day": "2025-03-04"})[0] == 200, "a desk's act")  # fmt: skip
    copied(place, 300)
    service.stop()
    copied(place, place.rows())
    tried = place.script_of("backup", "--try-restore", NAME)
    need(tried.returncode == 0 and "it can be put back" in tried.stdout, f"restore: {tried}")
    newest = sorted(os.listdir(f"{place.folder}/backups"))[-2]

    refused(place, "gone", 3, "there is no book")
    for setting, where in (("BACKUPS", "backups"), ("MEMORY", "memory")):
        small = f"{place.folder}/small-{where}"
        os.mkdir(small)
        subprocess.run(["mount", "-t", "tmpfs", "-o", "size=20k", "tmpfs", small], check=True)
        refused(place, NAME, 4, "", **{setting: small})
        need(os.listdir(small) == [], f"something is left in {small}")
        subprocess.run(["umount", small], check=True)
    with open(f"{place.folder}/backups/{newest}", "r+b") as copy:
        copy.seek(96 * 7 + 16)
        copy.write(b"\x01")
    tried = place.script_of("backup", "--try-restore", NAME)
    need(tried.returncode == 5, f"a changed copy is put back: {tried}")
    os.remove(place.book)
    write_book(place.book, 280)
    time.sleep(1)
    refused(place, NAME, 5, "doesn't begin with the")
    with open(place.book, "r+b") as book:
        book.seek(96 * 7 + 1)
        book.write(b"\x63")
    refused(place, NAME, 3, "damaged row 7")


def copied(place: Place, rows: int) -> None:
    """A copy is made; it has these rows, and no other file is left."""
    before = set(os.listdir(f"{place.folder}/backups"))
    time.sleep(1)
    ran = place.script_of("backup", NAME)
    need(ran.returncode == 0 and f" rows {rows}, sha256 " in ran.stdout, f"a backup: {ran}")
    more = sorted(set(os.listdir(f"{place.folder}/backups")) - before)
    need(len(more) == 2 and re.fullmatch(r"day\.\d{4}-\d\d-\d\d\.\d{6}\.book", more[0]) is not None
         and more[1] == more[0].replace(".book", ".txt"), f"copies {more}")  # fmt: skip
    said = place.hall("audit", "--book", f"{place.folder}/backups/{more[0]}").stdout
    need(said == read(f"{place.folder}/backups/{more[1]}") and f"rows {rows} whole" in said, said)


def refused(place: Place, name: str, status: int, reason: str, **settings: object) -> None:
    ran = place.script_of("backup", name, **settings)
    need(ran.returncode == status and reason in ran.stderr and ran.stderr.startswith("hall-backup"),
         f"a backup of {name} with {settings}: {ran}")  # fmt: skip


CASES: dict[str, Callable[[Place], None]] = {
    "wrong_plan": wrong_plan, "full_book": full_book, "full_disk": full_disk,
    "ports_taken": ports_taken, "unread_gate": unread_gate, "good_end": good_end,
    "backups": backups, "lost_acknowledgement": lost_acknowledgement,
    "changing_lanes": changing_lanes,
}  # fmt: skip


def main() -> None:
    program, folder, restarts, *chosen = sys.argv[1:]
    cases = CASES | {
        "restarts_over_pipes": lambda place: restarts_over_pipes(place, int(restarts)),
        "restarts_over_ports": lambda place: restarts_over_ports(place, int(restarts)),
    }
    port = free_ports()
    try:
        for at, (name, case) in enumerate(cases.items()):
            if not chosen or name in chosen:
                began = time.monotonic()
                case(Place(os.path.abspath(program), f"{folder}/{name}", port + 10 * (at % 4)))
                print(f"operation: {name}: held, {time.monotonic() - began:.0f} s", flush=True)
    finally:
        end_all()


if __name__ == "__main__":
    main()
