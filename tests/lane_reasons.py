"""What the program says on standard error of cells and gates, over ports too, beside the line with
which a lane ends and the status; and two halls on one folder. Rows of tests/reasons.py.
"""

import os
import socket
import subprocess
import tempfile

# a script that works lane 1 so often, and a plan that has it weigh
BEGIN = (b"@164 1 day 2025-03-03\n@164 2 product rice250 250\n@164 3 tare rice250 2025-03-03 10\n"
         b"@164 4 open A rice250\n")
WORK = b"work 1 A\n"
PLAN = b'setup = """\n' + BEGIN + b'"""\nreserve = 10\n[[lane]]\nnumber = 1\nbatch = "A"\n'

# what a cell or a gate is, where it is no file: not there, a folder, a full device
ABSENT, FOLDER, FULL = "absent", "folder", "full"

# texts that are no weight, a line each, how they are shown, and why they aren't
NO_WEIGHTS = [
    (b"250,5", "250,5", "a comma, where a point is wanted"),
    (b"-3", "-3", "a sign"),
    (b"262.0005\r", "262.0005\\x0d", "more than three decimals"),
    (b"262 g", "262 g", "a unit"),
    (b"262.5kg", "262.5kg", "a unit"),
    (b"262 ", "262 ", "a blank"),
    (b"", "", "an empty line"),
    (b"262.", "262.", "no digit behind the point"),
    (b".5", ".5", "no digit before the point"),
    (b"123456789", "123456789", "more than eight digits"),
    (b"error", "error", "a character that no weight has"),
    (b"\x1b[2J\xff", "\\x1b[2J\\xff", "a character that no weight has"),
    (b"\x02" + b"g" * 299, "\\x02" + "g" * 63, "more than 64 bytes"),
    (b"0" * 64 + b"1", "0" * 64, "more than 64 bytes"),
    (b"2 2\r", "2 2\\x0d", "a blank"),
]
SERVING = "serving, lanes 1, doors 0, rows 4, left 999996"
TWENTY = [f"CELL: bad line {line}, x: a character that no weight has" for line in range(1, 21)]

# what the cell has or is, what the gate is, how often a script works the lane, how each work ends,
# and what is said; CELL and GATE stand for their paths
WORKS = [
    (b"262\n261.5", None, 2, ["2 done", "0 done"], ["CELL has ended"]),
    (ABSENT, None, 2, ["0 cell", "0 cell"],
     ["can't open CELL: No such file or directory (os error 2)"]),
    (FOLDER, None, 2, ["0 cell", "0 cell"], ["can't read CELL: Is a directory (os error 21)"]),
    (b"262\n" * 3, FULL, 2, ["0 gate", "0 gate"],
     ["can't write GATE: No space left on device (os error 28)"]),
    (b"262\n" * 3, FOLDER, 2, ["0 gate", "0 gate"],
     ["can't open GATE: Is a directory (os error 21)"]),
    (b"".join(text + b"\n" for text, _, _ in NO_WEIGHTS), None, len(NO_WEIGHTS),
     [f"0 bad {line}" for line in range(1, len(NO_WEIGHTS) + 1)],
     [f"CELL: bad line {line}, {shown}: {why}"
      for line, (_, shown, why) in enumerate(NO_WEIGHTS, 1)]),
    (b"262\n" * 400 + b"262 g\n262\n262\r", None, 3, ["400 bad 401", "1 bad 403", "0 done"],
     ["CELL: bad line 401, 262 g: a unit", "CELL: bad line 403, 262\\x0d: a CR without its LF",
      "CELL has ended"]),
    (b"x\n" * 30, None, 31, [f"0 bad {line}" for line in range(1, 31)] + ["0 done"],
     TWENTY + ["CELL: more bad lines, which aren't told", "CELL has ended"]),
]


def lay(path, thing):
    """Makes a cell or a gate."""
    if thing is FOLDER:
        os.mkdir(path)
    elif thing is FULL:
        os.symlink("/dev/full", path)
    elif isinstance(thing, bytes):
        with open(path, "wb") as file:
            file.write(thing)


def said_of(folder, told):
    """What standard error says behind `hall: `, the paths of the first lane named."""
    lines = [line.removeprefix("hall: ") for line in told.decode().splitlines()]
    return [line.replace(f"{folder}/cell-1.txt", "CELL").replace(f"{folder}/gate-1.txt", "GATE")
            for line in lines if "there was no book" not in line]


def begin(program, words, folder):
    """Begins a hall of one lane over the files of a folder."""
    return subprocess.Popen([program, *words, "--lanes=1", f"--cells={folder}"],
                            stdin=subprocess.PIPE, stdout=subprocess.PIPE, stderr=subprocess.PIPE)


def end(hall, given, folder):
    """How the works of a hall ended, its status, and what it says."""
    told, errors = hall.communicate(given, timeout=60)
    ends = [line.removeprefix("lane 1 opened ") for line in told.decode().splitlines()
            if line.startswith("lane 1 opened ")]
    return ends, hall.returncode, said_of(folder, errors)


def work(program, folder, row):
    """A row of WORKS: what is found, and what is wanted."""
    cell, gate, times, ends, said = row
    lay(f"{folder}/cell-1.txt", cell)
    lay(f"{folder}/gate-1.txt", gate)
    hall = begin(program, ["run"], folder)
    is_early = any(not line.endswith("done") for line in ends)
    return end(hall, BEGIN + WORK * times, folder), (ends, 10 if is_early else 0, said)


def weigh_at_once(program, folder):
    """The hall at once tells the line with which a lane ends, and the path that isn't there."""
    lay(f"{folder}/cell-1.txt", b"262\n262 g\n")
    hall = begin(program, ["serve"], folder)
    return (end(hall, PLAN, folder),
            (["1 bad 2"], 10, [SERVING, "CELL: bad line 2, 262 g: a unit",
                               "lane 1, batch A: bad 2"]))


def miss_folder(program, folder):
    """A folder that isn't there: the lane's cell can't be opened, and nothing else is told."""
    missing = f"{folder}/missing"
    hall = begin(program, ["serve"], missing)
    return (end(hall, PLAN, missing),
            (["0 cell"], 10, [SERVING, "can't open CELL: No such file or directory (os error 2)",
                              "lane 1, batch A: cell"]))


def close_gate(program, folder):
    """Named pipes: whoever reads the gate goes away, and the scale speaks on."""
    os.mkfifo(f"{folder}/cell-1.txt")
    os.mkfifo(f"{folder}/gate-1.txt")
    hall = begin(program, ["run"], folder)
    hall.stdin.write(BEGIN + WORK)
    hall.stdin.flush()
    with open(f"{folder}/cell-1.txt", "wb", buffering=0) as scale:
        scale.write(b"262\n")
        with open(f"{folder}/gate-1.txt", "rb") as gate:
            gate.readline()
        scale.write(b"262\n")
        found = end(hall, b"", folder)
    return found, (["1 gate"], 10, ["can't write GATE: Broken pipe (os error 32)"])


def close_scale(program, folder):
    """Named pipes: the scale closes its own."""
    os.mkfifo(f"{folder}/cell-1.txt")
    hall = begin(program, ["run"], folder)
    hall.stdin.write(BEGIN + WORK)
    hall.stdin.flush()
    with open(f"{folder}/cell-1.txt", "wb", buffering=0) as scale:
        scale.write(b"262\n")
    return end(hall, b"", folder), (["1 done"], 0, ["CELL has ended"])


def speak(program, folder, said):
    """Has a scale say this at the port of a lane that is worked twice, and gives the hall's end."""
    with socket.socket() as free:
        free.bind(("127.0.0.1", 0))
        port = free.getsockname()[1]
    hall = begin(program, ["run", f"--remote={port}"], folder)
    hall.stdin.write(BEGIN + WORK)
    hall.stdin.flush()
    hall.stdout.readline()
    with socket.create_connection(("127.0.0.1", port)) as scale:
        scale.sendall(said)
        ends, status, told = end(hall, WORK, folder)
    return ends, status, [line.replace(f"port {port}", "PORT") for line in told]


def err_at_port(program, folder):
    """A scale at a port says a line that is none: its number is told, once."""
    return (speak(program, folder, b"1 262\n2 262 g\n"),
            (["1 bad 2", "0 bad 2"], 10, ["PORT: bad line 2"]))


def end_at_port(program, folder):
    """A scale at a port says its end."""
    return (speak(program, folder, b"1 262\n2 end\n"),
            (["1 done", "0 done"], 0, ["PORT has ended"]))


def share_folder(program, folder):
    """Two halls on one folder: the second reads no cell and makes no book, until the first ends."""
    lay(f"{folder}/cell-1.txt", b"262\n")
    first = begin(program, ["run"], folder)
    first.stdin.write(BEGIN)
    first.stdin.flush()
    first.stdout.readline()
    same = f"{folder}/../{os.path.basename(folder)}"
    second = begin(program, ["run", f"--book={folder}/book"], same)
    told, errors = second.communicate(BEGIN + WORK, timeout=60)
    made = os.path.exists(f"{folder}/book")
    without = subprocess.run([program, "run", f"--cells={folder}"], input=BEGIN, timeout=60,
                             capture_output=True, check=False)
    ends = end(first, WORK, folder)
    third = end(begin(program, ["run"], folder), BEGIN + WORK, folder)
    found = told, second.returncode, errors.decode(), made, without.returncode, ends, third
    refused = f"hall: can't open {same}: another hall has its cells and gates\n"
    done = ["CELL has ended"]
    return found, (b"disk fault\n", 6, refused, False, 0, (["1 done"], 0, done),
                   (["1 done"], 0, done))


SCENES = [weigh_at_once, miss_folder, close_gate, close_scale, err_at_port, end_at_port,
          share_folder]
COUNT = len(WORKS) + len(SCENES)


def told_otherwise(program):
    """What is said otherwise, a text for each row."""
    rows = [(row, lambda program, folder, row=row: work(program, folder, row)) for row in WORKS]
    for name, scene in rows + [(scene.__doc__, scene) for scene in SCENES]:
        with tempfile.TemporaryDirectory() as folder:
            found, wanted = scene(program, folder)
        if found != wanted:
            yield f"{name}:\n  found  {found}\n  wanted {wanted}"
