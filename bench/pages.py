"""The figures of bench/pages.sh: PROGRAM FOLDER ROWS PAGES."""

import os
import random
import re
import subprocess
import sys
import time
from collections.abc import Callable, Iterator

from clients import OPENING, Caller, Hall, end_all, free_ports, get, need, plan
from weighings import script

program, work = sys.argv[1:3]
ROWS, PAGES = map(int, sys.argv[3:5])
TRACE = f"{work}/trace"
CALL = "shared_book::pass::PassCaller::ask"
# The most of half of the pages, in seconds; and how many requests one connection has.
AIM, ASKED = 50e-6, 500
LINE = re.compile(r" ([0-9]+\.[0-9]{6}): pages_(in|out): ")


def write(path: str, text: str, flags: int = os.O_TRUNC) -> None:
    """Writes into a file of the system's, which can't be gone about in."""
    file = os.open(f"{TRACE}/{path}", os.O_WRONLY | flags)
    os.write(file, text.encode())
    os.close(file)


class Probes:
    """The probes at the call, and the times that they took."""

    def __init__(self) -> None:
        said = subprocess.run(["nm", "-C", program], capture_output=True, text=True, check=True)
        found = [line.split()[0] for line in said.stdout.splitlines() if f" {CALL}::<" in line]
        need(len(found) == 1, f"{program} has {len(found)} calls {CALL}")
        place = f"{program}:0x{self.offset(int(found[0], 16)):x}"
        write(
            "uprobe_events", f"p:pages/pages_in {place}\nr:pages/pages_out {place}\n", os.O_APPEND
        )
        write("trace_clock", "mono")
        write("buffer_size_kb", "8192")

    def offset(self, address: int) -> int:
        """Where an address lies in the program's file."""
        said = subprocess.run(["readelf", "-lW", program], capture_output=True, text=True)
        for words in map(str.split, said.stdout.splitlines()):
            if words[:1] == ["LOAD"]:
                offset, begin, size = (int(words[place], 16) for place in (1, 2, 4))
                if begin <= address < begin + size:
                    return address - begin + offset
        raise SystemExit(f"{CALL} lies in no part of {program}")

    def times(self, work: Callable[[], None]) -> list[float]:
        """How long each call took, in seconds, while something is done."""
        write("trace", "")
        write("events/pages/enable", "1")
        work()
        write("events/pages/enable", "0")
        with open(f"{TRACE}/trace", encoding="ascii", errors="replace") as trace:
            stamps = [(found[2], float(found[1])) for found in map(LINE.search, trace) if found]
        return [
            end - begin
            for (one, begin), (other, end) in zip(stamps, stamps[1:])
            if (one, other) == ("in", "out")
        ]

    def end(self) -> None:
        """Takes the probes away."""
        write("events/pages/enable", "0")
        write("uprobe_events", "-:pages/pages_in\n-:pages/pages_out\n", os.O_APPEND)


def make_book() -> str:
    """A book of so many rows, batches of 10 000 packs."""
    path = f"{work}/book"
    with open(f"{work}/script", "w", encoding="ascii") as text:
        text.writelines(script(ROWS))
    with open(f"{work}/script", "rb") as given:
        subprocess.run(
            [program, "run", "--book", path], stdin=given, stdout=subprocess.DEVNULL, check=True
        )
    return path


def ask_all(port: int, paths: Iterator[str]) -> list[int]:
    """Asks at a door, over few connections; gives how many lines each answer has."""
    asked = list(paths)
    lines = []
    for place in range(0, len(asked), ASKED):
        with Caller(port) as link:
            for path in asked[place : place + ASKED]:
                answer = link.ask(get(path))
                need(answer.status == 200, f"{path} is answered {answer.status}")
                lines.append(answer.body.count(b"\n"))
    return lines


def measure(probes: Probes, port: int, name: str, draw: Callable[[], str], size: int) -> float:
    """Tells how long a kind of question takes the lock; gives that of half of them."""
    began = time.monotonic()
    lines = ask_all(port, (draw() for _ in range(PAGES)))
    outside = (time.monotonic() - began) / PAGES
    need(set(lines) == {size}, f"{name}: the answers have {set(lines)} lines")
    times = sorted(probes.times(lambda: ask_all(port, (draw() for _ in range(PAGES))) and None))
    # a door makes a few calls besides, as for a connection
    need(PAGES <= len(times) <= 1.01 * PAGES + 10, f"{name}: {len(times)} calls")
    half, most = times[len(times) // 2], times[len(times) * 99 // 100]
    print(
        f"{name}: under the lock {half * 1e6:.0f} us at half of {PAGES}, {most * 1e6:.0f} us at the"
        f" 99th of 100, {sum(times) / len(times) * 1e6:.1f} us in the mean; from outside"
        f" {outside * 1e6:.0f} us",
        flush=True,
    )
    return half


def main() -> None:
    """Measures each kind of question."""
    book = make_book()
    os.mkdir(f"{work}/hall")
    port = free_ports()
    setup = plan("", [])
    hall = Hall(program, f"{work}/hall", setup, book=book, doors=1, port=port, connections=999_999)
    hall.wait_for_door(port)
    probes, draw = Probes(), random.Random(65)
    batches = (ROWS - 3) // 10_003
    batch = lambda: f"B{draw.randint(1, batches)}"  # noqa: E731
    try:
        measure(probes, port, "summary", lambda: "/summary", 7)
        measure(probes, port, "a pack", lambda: f"/packs/{6 + draw.randrange(9_000)}", 1)
        measure(probes, port, "a sheet", lambda: f"/batches/{batch()}", 9)
        acts = measure(
            probes, port, "a page of acts", lambda: f"/acts/{draw.randrange(ROWS - 200)}", 128
        )
        packs = measure(
            probes,
            port,
            "a page of packs",
            lambda: f"/batches/{batch()}/packs/{draw.randrange(9_800)}",
            128,
        )
    finally:
        probes.end()
        end_all()
    if max(acts, packs) > AIM:
        sys.exit(f"a page takes the lock for {max(acts, packs) * 1e6:.0f} us (aim 50)")


main()
