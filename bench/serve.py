"""The figures of bench/serve.sh: PROGRAM FOLDER WEIGHTS."""

import os
import random
import select
import shutil
import subprocess
import sys
import time

from clients import (FIRST_DESK, FIRST_DOOR, OPENING, Client, Desk, Hall, Link, free_ports, get,
                     good_gross, need, plan, spell_grams)

program, work = sys.argv[1:3]
DAY = {"act": "day", "day": "2025-03-03"}
# Weights of each lane in memory and acts of each door, and weights and acts of all in a file.
IN_MEMORY, ACTS_IN_MEMORY, IN_A_FILE = 60_000, 1000, int(sys.argv[3])
CASES = ((1, 0), (4, 0), (16, 0), (16, 16))
TURNS = 3


def median(times):
    return sorted(times)[len(times) // 2]


def late(times):
    return sorted(times)[len(times) * 99 // 100]


def new_folder():
    shutil.rmtree(f"{work}/hall", ignore_errors=True)
    os.mkdir(f"{work}/hall")
    return f"{work}/hall"


def weights(count):
    draw = random.Random(1)
    return [spell_grams(good_gross(draw)) for _ in range(count)]


def fill_cells(folder, lanes, each):
    text = "".join(weights(each))
    for lane in range(1, lanes + 1):
        with open(f"{folder}/cell-{lane}.txt", "w", encoding="ascii") as cell:
            cell.write(text)


def batches(lanes):
    return [f"L{lane}" for lane in range(1, lanes + 1)]


def openings(lanes):
    return OPENING + "".join(f"open {batch} P\n" for batch in batches(lanes))


def start(folder, lanes, doors=0, on_file=False, pipes=False, connections=1):
    return Hall(program, folder, plan(openings(lanes), batches(lanes)), lanes=lanes, doors=doors,
                book=f"{folder}/book" if on_file else None, port=free_ports(), pipes=pipes,
                connections=connections)


class Asker(Client):
    """Asks acts of a desk one by one, at most 1 000 on one connection: how many a second."""

    def __init__(self, hall, door, acts):
        super().__init__(hall)
        self.acts = acts
        self.port = hall.ports[door]
        self.desk = Desk(FIRST_DESK + door, FIRST_DOOR + door)
        self.rate = 0

    def work(self):
        link = self.connect()
        began = time.monotonic()
        for request in range(1, self.acts + 1):
            response = link.act(self.desk.spell(request, DAY))
            need(response.status == 200, f"an act is answered {response}")
        self.rate = self.acts / (time.monotonic() - began)
        link.socket.close()

    def connect(self):
        while True:
            try:
                return Link(self.port)
            except ConnectionRefusedError:
                need(not self.hall.ended(), "the hall has ended")
                time.sleep(0.001)


def serve(lanes, doors, on_file):
    """A hall's rows, the seconds of the whole process, and the replies a second of its doors."""
    folder = new_folder()
    fill_cells(folder, lanes, IN_A_FILE // lanes if on_file else IN_MEMORY)
    hall = start(folder, lanes, doors, on_file)
    acts = min(1000, IN_A_FILE // 16) if on_file else ACTS_IN_MEMORY
    askers = [Asker(hall, door, acts) for door in range(doors)]
    for asker in askers:
        asker.start()
    status = hall.process.wait()
    seconds = time.monotonic() - hall.began
    for asker in askers:
        asker.finish()
    need(status == 0, f"serve ends with {status}: {hall.said()}")
    rows = next(int(line.split()[1]) for line in hall.said() if line.startswith("rows "))
    return rows, seconds, sum(asker.rate for asker in askers)


def run(lanes):
    """The seconds of `run` in memory, which works the lanes one after another."""
    folder = new_folder()
    fill_cells(folder, lanes, IN_MEMORY)
    script = openings(lanes) + "".join(f"work {lane} L{lane}\n" for lane in range(1, lanes + 1))
    began = time.monotonic()
    ran = subprocess.run([program, "run", f"--lanes={lanes}", f"--cells={folder}"], text=True,
                         input=script, capture_output=True)
    seconds = time.monotonic() - began
    need(ran.returncode == 0 and f"readings {lanes * IN_MEMORY} " in ran.stdout,
         f"run ends with {ran.returncode}: {ran.stdout[-300:]}")
    return seconds


def lanes_at_once(on_file, aim):
    """Tells the rates of all cases, and gives the least time of 16 lanes."""
    best = {}
    for case in CASES * TURNS:
        rows, seconds, replies = serve(*case, on_file)
        if case not in best or rows / seconds > best[case][0] / best[case][1]:
            best[case] = (rows, seconds, replies)
    one = best[1, 0][0] / best[1, 0][1]
    for (lanes, doors), (rows, seconds, replies) in best.items():
        beside = f", {replies:.0f} replies a second of all doors" if doors else ""
        print(f"{'file' if on_file else 'memory'}, lanes {lanes} doors {doors}: {rows} rows in"
              f" {seconds:.3f} s, {rows / seconds:.0f} a second, {rows / seconds / one:.2f} of one"
              f" lane (aim {aim}){beside}")
    return best[16, 0][1]


def open_cell(hall, lane):
    """The pipe of a cell, as soon as the hall reads from it."""
    while True:
        try:
            return os.open(f"{hall.folder}/cell-{lane}.txt", os.O_WRONLY | os.O_NONBLOCK)
        except OSError:
            need(not hall.ended(), f"the hall has ended: {hall.said()}")
            time.sleep(0.001)


def to_the_gates(lanes, each):
    """Seconds from each weight to the line of its gate."""
    folder = new_folder()
    hall = start(folder, lanes, on_file=True, pipes=True)
    left, began, times = {}, {}, []
    poll = select.poll()
    for lane in range(1, lanes + 1):
        gate = os.open(f"{folder}/gate-{lane}.txt", os.O_RDWR)
        poll.register(gate, select.POLLIN)
        left[gate] = (open_cell(hall, lane), iter(weights(each)))
    for gate in list(left):
        began[gate] = send_next(gate, left)
    while left:
        for gate, _ in poll.poll(60_000):
            os.read(gate, 64)
            times.append(time.perf_counter() - began[gate])
            began[gate] = send_next(gate, left)
    need(hall.process.wait() == 0, f"serve over pipes ends with {hall.said()}")
    need(len(times) == lanes * each, f"{len(times)} lines of gates")
    return times


def send_next(gate, left):
    """Sends the lane of a gate its next weight, or ends it; says when."""
    cell, grosses = left[gate]
    began = time.perf_counter()
    gross = next(grosses, None)
    if gross:
        os.write(cell, gross.encode())
    else:
        os.close(cell)
        del left[gate]
    return began


def gates():
    best = {}
    for lanes, each in ((1, IN_A_FILE // 5), (16, IN_A_FILE // 32)) * TURNS:
        times = to_the_gates(lanes, each)
        if lanes not in best or median(times) < median(best[lanes]):
            best[lanes] = times
    for lanes, times in best.items():
        print(f"file, from a weight to its gate's line, lanes {lanes}: median"
              f" {1e6 * median(times):.0f} us, 99th of 100 {1e6 * late(times):.0f} us;"
              f" {median(times) / median(best[1]):.1f} of one lane's median (aim 20)")


def watched(on_file, pause):
    """The rows a second of a lane, by the summaries that are read beside it, and of these."""
    folder = new_folder()
    each = IN_A_FILE if on_file else 900_000
    fill_cells(folder, 1, each)
    hall = start(folder, 1, 1, on_file, connections=1000)
    hall.wait_for_door(hall.ports[0])
    seen = [(0.0, 0)]
    while seen[-1][1] < each:
        with Link(hall.ports[0]) as link:
            seen += read_some(link, each, pause)
    hall.kill()
    seen = [(when, rows) for when, rows in seen if rows > 0]
    need(len(seen) > 2, f"{len(seen)} summaries beside a lane tell no rate")
    seconds = seen[-1][0] - seen[0][0]
    return (seen[-1][1] - seen[0][1]) / seconds, len(seen) / seconds


def read_some(link, each, pause):
    """When a summary came and how many readings it had, up to all of them."""
    seen = []
    for _ in range(1000):
        response = link.ask(get("/summary"))
        readings = int(response.body.split(b"\n")[1].split()[1])
        seen.append((time.monotonic(), readings))
        if readings == each:
            break
        time.sleep(pause)
    return seen


def beside_a_reader(on_file):
    best = {}
    for pause in (0.02, 0) * TURNS:
        rates = watched(on_file, pause)
        best[pause] = max(best.get(pause, (0, 0)), rates)
    (alone, _), (beside, read) = best[0.02], best[0]
    print(f"{'file' if on_file else 'memory'}, one lane: {alone:.0f} rows a second; beside"
          f" {read:.0f} summaries a second {beside:.0f}, {beside / alone:.2f} of that")


in_serve = lanes_at_once(False, 0.7)
in_run = min(run(16) for _ in range(TURNS))
print(f"memory, {16 * IN_MEMORY} weights of 16 lanes: serve {in_serve:.3f} s, run {in_run:.3f} s,"
      f" ratio {in_serve / in_run:.2f} (aim 1.5)")
lanes_at_once(True, 0.95)
gates()
beside_a_reader(False)
beside_a_reader(True)
