#!/usr/bin/env python3
"""What examples/scale_sender.py says to halls that go on, end, are killed and begun again.

usage: tests/sender.py      no program is needed: the hall does what docs/FORMATS.md says

Its numbers first: every order of lines, answers, good ends and kills up to a depth is gone through,
beside a hall that does what FORMATS says: where connections are cut and their answers lost, with
the book asked, the hall quick or slower than the sender waits; and where none is cut, the hall
slower, without the book. No weight stands twice, none is left out, and none is acknowledged that
isn't there. Then the whole sender, as a process: lines that are too long and weights that are too
great; a weight whose acknowledgement is lost at a good end, with the book asked and without; halls
that are slower than the sender waits, and end; lines that are slower than it waits, and are cut,
beside halls that go on; a lane that changes its batch, beside halls that end and connections that
are cut. Done in 5 minutes, at most 15; status 1 at any difference.
"""

import os
import subprocess
import sys
import time
from collections.abc import Callable
from concurrent.futures import ThreadPoolExecutor

HERE = os.path.dirname(os.path.abspath(__file__))
SENDER = os.path.join(os.path.dirname(HERE), "examples", "scale_sender.py")
sys.path.insert(0, os.path.join(os.path.dirname(HERE), "adapters"))
sys.dont_write_bytecode = True

from operation_room import Tunnel  # noqa: E402  pylint: disable=wrong-import-position
from sender_hall import LOOK, Hall  # noqa: E402  pylint: disable=wrong-import-position
from sender_line import SlowLine  # noqa: E402  pylint: disable=wrong-import-position
from sender_worlds import check_numbers, fail  # noqa: E402  pylint: disable=wrong-import-position

# How many halls end of those that are slower than the sender waits.
ENDS = 20
# How many batches are said to each of the halls of a lane that changes its batch.
CHANGES = 10
# How often a sender begins anew while the hall stays.
ANEW = 6
# How many slow lines are cut, so many at once, and how many weights come over each.
LINES, AT_ONCE, FEW = 48, 8, 3


def run_sender(port: int, words: list[str]) -> subprocess.Popen[str]:
    return subprocess.Popen(
        [sys.executable, SENDER, str(port), "--seconds=1", *words],
        stdin=subprocess.PIPE, stdout=subprocess.PIPE, stderr=subprocess.PIPE,
        encoding="latin-1", bufsize=1)  # fmt: skip


def check_lost(words: list[str], rows: list[str], complaints: int) -> None:
    """A hall ends well after its third weight, whose acknowledgement is lost; another begins."""
    hall = Hall()
    if "--book" in words:
        words = [*words, f"http://127.0.0.1:{hall.door.server_port}", "--lane", "3"]
    sender = run_sender(hall.port, words)
    assert sender.stdin and sender.stdout
    for weight in ("262.000", "263.000"):
        sender.stdin.write(f"{weight}\n")
        sender.stdout.readline()
    hall.is_deaf = True
    sender.stdin.write("263.000\n")
    hall.thread.join()
    hall.is_deaf = False
    time.sleep(0.3)
    hall.begin()
    told, said = sender.communicate("264.000\n263.000\n", timeout=60)
    if hall.rows != rows:
        fail(f"{words}: the book has {hall.rows} in place of {rows}; {told!r} {said!r}")
    if len(said.splitlines()) != complaints or sender.returncode != 0:
        fail(f"{words}: status {sender.returncode}, and it says {said!r}")


def check_slow(words: list[str], through: Callable[[int], int]) -> None:
    """Halls that take longer over a weight than the sender waits, and end in good order, one after
    the other: each weight stands once, in order."""
    hall = Hall()
    hall.delays = [0.0] * 8 + [0.7, 1.3, 2.1, 3.2]
    if "--book" in words:
        words = [*words, f"http://127.0.0.1:{hall.door.server_port}", "--lane", "3"]
    given = [f"{262_000 + at}" for at in range(ENDS * 6)]
    given = [f"{weight[:3]}.{weight[3:]}" for weight in given]
    sender = run_sender(through(hall.port), words)
    assert sender.stdin
    sender.stdin.write("".join(f"{weight}\n" for weight in given))
    sender.stdin.close()
    for _ in range(ENDS):
        time.sleep(hall.draw.uniform(0.2, 2.0))
        hall.end()
        hall.begin()
    if sender.wait(900) != 0:
        fail(f"{words}: status {sender.returncode}")
    if hall.rows != given:
        odd = [at for at, pair in enumerate(zip(hall.rows, given)) if pair[0] != pair[1]]
        fail(f"{words}: {len(hall.rows)} of {len(given)} weights, other ones from {odd[:1]} on")


def check_line(seed: int) -> None:
    """A line that holds lines back for longer than the sender waits, and is cut: a hall that goes
    on has each weight once, under its number."""
    hall = Hall()
    line = SlowLine(hall.port, seed)
    given = [f"{262 + at}.{seed:03}" for at in range(FEW)]
    sender = run_sender(line.port, ["--seconds=0.25"])
    told, said = sender.communicate("".join(f"{weight}\n" for weight in given), timeout=300)
    wanted = [f"{number} {weight}" for number, weight in enumerate([*given, "end"], 1)]
    # the hall may be gone from a line as the end is said
    if hall.rows != given or told.splitlines()[:FEW] != wanted[:FEW]:
        fail(f"a slow line, seed {seed}: {hall.rows} for {given}; {told!r} {said!r}")


def check_batches(through: Callable[[int], int], cuts: int) -> None:
    """A lane that changes its batch, whose halls end in good order, one after the other, while
    connections are cut: each weight stands once, in order, under the batch that was said last."""
    hall = Hall()
    hall.cuts = cuts
    hall.delays = [0.0, 0.005]
    given: list[tuple[str, str]] = []
    sender = run_sender(through(hall.port), [])
    assert sender.stdin
    for at in range(ENDS * CHANGES):
        sender.stdin.write(f"batch B{at}\n")
        lines = [f"{262_000 + at * 10 + one}" for one in range(hall.draw.randrange(8))]
        given += [(f"B{at}", f"{weight[:3]}.{weight[3:]}") for weight in lines]
        sender.stdin.write("".join(f"{weight[:3]}.{weight[3:]}\n" for weight in lines))
        if at % CHANGES == CHANGES - 1:
            wait_until_settled(hall)
            hall.begin()
    _, said = sender.communicate(timeout=900)
    found = list(zip(hall.batches, hall.rows))
    if sender.returncode != 0 or found != given:
        odd = [pair for pair in zip(found, given) if pair[0] != pair[1]]
        fail(f"batches: status {sender.returncode}, {len(found)} of {len(given)}: {odd[:3]} {said}")
    if hall.changes < ENDS * CHANGES:
        fail(f"batches: {hall.changes} were taken of {ENDS * CHANGES}")


def check_anew() -> None:
    """Senders that are killed while the hall stays, and begin anew with a batch: each weight that
    was acknowledged stands once, under its batch."""
    hall = Hall()
    wanted = []
    for at in range(ANEW):
        sender = run_sender(hall.port, [])
        assert sender.stdin and sender.stdout
        weights = [f"{262 + at}.{one:03}" for one in range(at % 3)]
        sender.stdin.write("".join(f"{line}\n" for line in (f"batch B{at}", *weights)))
        for _ in range(1 + len(weights)):
            sender.stdout.readline()
        sender.kill()
        sender.communicate()
        wanted += [(f"B{at}", weight) for weight in weights]
    if list(zip(hall.batches, hall.rows)) != wanted or hall.batch != f"B{ANEW - 1}":
        fail(f"anew: the book has {hall.rows} under {hall.batches} for {wanted}")


def wait_until_settled(hall: Hall) -> None:
    """Ends a hall that owes no answer, at a drawn moment."""
    time.sleep(hall.draw.uniform(0, 0.5))
    while True:
        while hall.is_owing:
            time.sleep(0.01)
        cuts, hall.cuts = hall.cuts, 0
        time.sleep(3 * LOOK)
        if not hall.is_owing:
            hall.end()
            hall.cuts = cuts
            return
        hall.cuts = cuts


def check_bad_lines() -> None:
    """20 MB without a line's end, lines too long, weights over 30 kg, and one that is just that."""
    hall = Hall()
    sender = run_sender(hall.port, [])
    began = time.monotonic()
    given = ["0" * 20_000_000, "262.000", "1" * 65, "30000.001", "30000", "262,0", "batch A B",
             "30000.000\r", "batch A\r"]  # fmt: skip
    _, said = sender.communicate("\n".join(given), timeout=100)
    took = time.monotonic() - began
    if hall.rows != ["262.000", "30000", "30000.000"] or hall.batch != "A" or took > 20:
        fail(f"bad lines: {hall.rows} within {took:.1f} s")
    wanted = [f"no weight: b'{'0' * 64}'", f"no weight: b'{'1' * 64}'", "over 30 kg: 30000.001",
              "no weight: b'262,0'", "no weight: b'batch A B'"]  # fmt: skip
    if said.splitlines() != [f"scale_sender: {line}" for line in wanted]:
        fail(f"bad lines: {said!r}")
    print(f"sender: 20 MB without a line's end and weights over 30 kg are left out, {took:.1f} s")


def main() -> None:
    check_numbers()
    check_bad_lines()
    check_lost([], ["262.000", "263.000", "263.000", "263.000", "264.000", "263.000"], 1)
    check_lost(["--book"], ["262.000", "263.000", "263.000", "264.000", "263.000"], 0)
    check_anew()
    check_batches(lambda port: port, 0)
    check_batches(lambda port: port, 5)
    check_batches(lambda port: Tunnel(port).port, 0)
    print(f"sender: {3 * ENDS * CHANGES} changes of a batch, beside {3 * ENDS} halls that end,"
          " connections that are cut and a tunnel: each weight once, under its batch")  # fmt: skip
    with ThreadPoolExecutor(AT_ONCE) as pool:
        list(pool.map(check_line, range(LINES)))
    print(f"sender: {LINES} lines slower than it waits, and cut, to halls that go on: each weight"
          " once")  # fmt: skip
    check_slow([], lambda port: port)
    check_slow(["--book"], lambda port: Tunnel(port).port)
    print(f"sender: {ENDS} ends of slow halls at their own port, and {ENDS} behind a tunnel with"
          " the book asked: each weight stands once")  # fmt: skip
    print("sender: a weight whose acknowledgement is lost at a good end stands twice and is"
          " reported; with the book asked it stands once")  # fmt: skip


if __name__ == "__main__":
    main()
