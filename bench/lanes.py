"""The figures of bench/lanes.sh: PROGRAM FOLDER WEIGHTS SENT."""

import os, socket, subprocess, sys, time

program, work = sys.argv[1:3]
weights, sent = [int(word) for word in sys.argv[3:5]]
SLOT = 96
OPENING = "day 2025-03-03\nproduct P 250\ntare P 2025-03-03 10\n"
# the first row of a weighing: behind the opening, a batch and the start of its lane
FIRST = 6


# grosses of good packs of 250 g, the same in each run
def grosses(count):
    s = 1
    for _ in range(count):
        s = s * 16807 % 2147483647
        yield f"{256 + s % 10}.{s % 1000:03d}"


# one file of weights for each lane, the works of the lanes, and the same as lines of a script
def prepare(lanes):
    folder = f"{work}/lanes{lanes}"
    os.mkdir(folder)
    given = list(grosses(weights))
    each = weights // lanes
    with open(folder + "/works", "w") as works, open(folder + "/weighs", "w") as weighs:
        works.write(OPENING)
        weighs.write(OPENING)
        for lane in range(1, lanes + 1):
            own = given[each * (lane - 1) : each * lane]
            with open(f"{folder}/cell-{lane}.txt", "w") as cell:
                cell.writelines(gross + "\n" for gross in own)
            works.write(f"open B{lane} P\nwork {lane} B{lane}\n")
            weighs.write(f"open B{lane} P\nstart {lane} B{lane}\n")
            weighs.writelines(f"weigh {lane} {gross}\n" for gross in own)
            weighs.write(f"stop {lane}\n")
    return folder


# seconds, and the last seven lines, of a run of a script
def timed(words, script):
    with open(script) as source, open(work + "/said", "w") as said:
        began = time.perf_counter()
        status = subprocess.run([program, "run"] + words, stdin=source, stdout=said).returncode
        seconds = time.perf_counter() - began
    if status != 0:
        sys.exit(f"hall run {' '.join(words)} ended with the status {status}")
    with open(work + "/said") as said:
        return seconds, said.readlines()[-7:]


def by_lanes(folder, lanes):
    for lane in range(1, lanes + 1):
        if os.path.exists(f"{folder}/gate-{lane}.txt"):
            os.remove(f"{folder}/gate-{lane}.txt")
    return timed(["--lanes", str(lanes), "--cells", folder], folder + "/works")


def in_memory(lanes):
    folder = prepare(lanes)
    best = {"lanes": float("inf"), "script": float("inf")}
    for _ in range(5):
        seconds, summary = by_lanes(folder, lanes)
        best["lanes"] = min(best["lanes"], seconds)
        seconds, same = timed([], folder + "/weighs")
        best["script"] = min(best["script"], seconds)
        if summary != same:
            sys.exit(f"the lanes left {summary}, and the script {same}")
    print(f"{weights} weights, lanes {lanes}: {best['lanes']:.3f} s, by a script"
          f" {best['script']:.3f} s, ratio {best['lanes'] / best['script']:.2f}")


def median(times):
    return sorted(times)[len(times) // 2]


def late(times):
    return sorted(times)[len(times) * 99 // 100]


# a hall with a lane in a folder, and the gate of that lane
def open_lane(folder, more):
    os.mkdir(folder)
    os.mkfifo(folder + "/cell-1.txt")
    os.mkfifo(folder + "/gate-1.txt")
    with open(folder + "/script", "w") as script:
        script.write(OPENING + "open B P\nwork 1 B\n")
    words = ["--book", folder + "/book", "--lanes", "1", "--cells", folder] + more
    with open(folder + "/script") as source, open(folder + "/said", "w") as said:
        hall = subprocess.Popen([program, "run"] + words, stdin=source, stdout=said)
    # for writing too, so that this doesn't wait for the gate
    return hall, os.open(folder + "/gate-1.txt", os.O_RDWR)


def end_lane(folder, hall, gate):
    if hall.wait() != 0:
        sys.exit(f"hall in {folder} ended with the status {hall.returncode}")
    os.close(gate)
    with open(folder + "/said") as said:
        if f"lane 1 opened {sent} done\n" not in said.readlines():
            sys.exit(f"hall in {folder} told no end of the lane")


# seconds from a weight to the line of its gate
def pass_time(number, weight, send, gate):
    began = time.perf_counter()
    send(weight)
    line = os.read(gate, 64)
    seconds = time.perf_counter() - began
    if line != f"open {number}\n".encode():
        sys.exit(f"the gate wrote {line} for the pack {number}")
    return seconds


# the same from each weight on, over pipes
def by_pipes(turn):
    folder = f"{work}/pipes{turn}"
    hall, gate = open_lane(folder, [])
    cell = os.open(folder + "/cell-1.txt", os.O_WRONLY)
    times = [pass_time(number, f"{gross}\n".encode(), lambda weight: os.write(cell, weight), gate)
             for number, gross in enumerate(grosses(sent), FIRST)]
    os.close(cell)
    end_lane(folder, hall, gate)
    return times


# a port that nobody listens at
def free_port():
    with socket.create_server(("127.0.0.1", 0)) as door:
        return door.getsockname()[1]


# a connection to a port at which a hall will listen
def connect(port):
    while True:
        try:
            link = socket.create_connection(("127.0.0.1", port))
            link.setsockopt(socket.IPPROTO_TCP, socket.TCP_NODELAY, 1)
            return link
        except ConnectionRefusedError:
            time.sleep(0.01)


# the same over TCP
def by_tcp(turn):
    folder, port = f"{work}/tcp{turn}", free_port()
    hall, gate = open_lane(folder, ["--remote", str(port)])
    times = []
    with connect(port) as link, link.makefile("r") as heard:
        for item, gross in enumerate(grosses(sent), 1):
            line = f"{item} {gross}\n".encode()
            times.append(pass_time(FIRST + item - 1, line, link.sendall, gate))
            if heard.readline() != f"ack {item}\n":
                sys.exit(f"the weight {item} wasn't acknowledged")
        link.sendall(f"{sent + 1} end\n".encode())
        end_lane(folder, hall, gate)
    return times


# seconds for each row
def by_loop(turn):
    file = os.open(f"{work}/loop{turn}", os.O_RDWR | os.O_CREAT, 0o644)
    body = bytes(range(1, SLOT))
    times = []
    for row in range(1, sent + 1):
        began = time.perf_counter()
        os.pwrite(file, body, SLOT * row + 1)
        os.fdatasync(file)
        os.pwrite(file, b"\1", SLOT * row)
        os.fdatasync(file)
        times.append(time.perf_counter() - began)
    os.close(file)
    return times


def on_a_file():
    best = {}
    for turn in range(3):
        for name, way in (("lane", by_pipes), ("lane over TCP", by_tcp), ("loop", by_loop)):
            times = way(turn)
            if name not in best or median(times) < median(best[name]):
                best[name] = times
    for name, times in best.items():
        print(f"{name}: median {1e6 * median(times):.0f} us,"
              f" 99th of 100 {1e6 * late(times):.0f} us")
    print(f"medians of lane to loop {median(best['lane']) / median(best['loop']):.2f},"
          f" over TCP to over a pipe {median(best['lane over TCP']) / median(best['lane']):.2f}")


in_memory(1)
in_memory(10)
on_a_file()
