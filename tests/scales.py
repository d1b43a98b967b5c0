"""The static scales of adapters/devices and the scripts of examples/scales, over pseudo-terminals.
Run by tests/scales.sh.

The lines are written by hand after the makers' protocols: SICS of Mettler-Toledo, the standard
format of A&D, and the 16 and 22 signs of Sartorius SBI.
"""

import fcntl
import os
import pty
import subprocess
import sys
import termios
import time
import tty

from clients import Hall, free_ports, make_pipes, need, plan

TOP = os.path.dirname(os.path.dirname(os.path.abspath(__file__)))
SCALES = os.path.join(TOP, "examples", "scales")
ADAPTER = os.path.join(TOP, "adapters", "hall-adapter")
SETUP = "day 2025-03-03\nproduct P 250\ntare P 2025-03-03 10\nopen A P\n"

# For each table and unit: lines, each with the weight that it is, or nothing where it is none.
LINES = {
    ("sics", "g"): [
        (b"S S     251.000 g", b"251.000"), (b"S S    2510.00 g ", b"2510.000"),
        (b"S S       0.00 g", None), (b"S S      -1.000 g", None),
        (b"S D     251.000 g", None), (b"S I", None), (b"S +", None), (b"S -", None),
        (b"S S     0.2510 kg", None), (b"SI S     251.000 g", None), (b"ES", None), (b"", None),
        (b"S S     251.0005 g", None), (b"S S     251.0000 g", b"251.000"),
        (b"S S     251.000 gS S     252.000 g", None), (b"S S 30000 g", b"30000.000"),
        (b"S S 30000.01 g", None),
        (b"I4 A \"0123456789\"", None), (b"S S     251,000 g", None), (b"S S  251.000 \xb5g", None),
        (b"x" * 200, None), (b"S S     252.5 g", b"252.500"),
    ],
    ("and", "g"): [
        (b"ST,+00251.00  g", b"251.000"), (b"ST,+00251.005  g", b"251.005"),
        (b"US,+00251.00  g", None), (b"OL,+99999.99  g", None), (b"ST,-00001.00  g", None),
        (b"ST,+00251.00 kg", None), (b"QT,+00000012 PC", None), (b"ST,+00000.99  g", None),
        (b"ST,+000251.0", None), (b"ST,+00010.00  g", b"10.000"),
    ],
    ("sbi", "g"): [
        (b"+   251.00 g  ", b"251.000"), (b"N     +   251.000 g  ", b"251.000"),
        (b"N     +   251.00    ", None), (b"-     1.00 g  ", None), (b"      Low       ", None),
        (b"Stat        High    ", None), (b"G     +  0.2510 kg ", None),
        (b"    251.00 g  ", b"251.000"), (b"N           1.00 g  ", b"1.000"),
    ],
    ("sics", "kg"): [
        (b"S S      0.2510 kg", b"251.000"), (b"S S     251.000 g", None),
        (b"S S      0.25105 kg", b"251.050"), (b"S S    0.2510500 kg", b"251.050"),
        (b"S S    0.2510505 kg", None),
    ],
}


def open_scale():
    """A scale's end and a device, as a serial line that hands bytes on as they are."""
    scale, device = pty.openpty()
    tty.setraw(device)
    attributes = termios.tcgetattr(device)
    attributes[3] &= ~termios.ECHO
    termios.tcsetattr(device, termios.TCSANOW, attributes)
    return scale, device


def held(device):
    """How many bytes a device holds."""
    return int.from_bytes(fcntl.ioctl(device, termios.FIONREAD, bytes(4)), sys.byteorder)


def wait_until(there, seconds=60):
    """Waits until something holds; it has to in so many seconds."""
    until = time.monotonic() + seconds
    while not there():
        need(time.monotonic() < until, "a device isn't read")
        time.sleep(0.01)


def weigh(table, unit, lines, end, piece):
    """What `hall-adapter weights` makes of lines that come over a serial line in pieces."""
    scale, device = open_scale()
    os.write(scale, b"S S     111.000 g\r\n")
    wait_until(lambda: held(device))
    script = subprocess.Popen([ADAPTER, "weights", table, "--unit", unit], stdin=device,
                              stdout=subprocess.PIPE, stderr=subprocess.PIPE)
    wait_until(lambda: not held(device))
    said = b"".join(line + end for line, _ in lines)
    for place in range(0, len(said), piece):
        os.write(scale, said[place:place + piece])
        time.sleep(0.001)
    # what was written last may still be on its way to the device
    time.sleep(0.3)
    wait_until(lambda: not held(device))
    os.close(device)
    os.close(scale)
    told, counts = script.communicate(timeout=60)
    need(script.returncode == 0, f"{table}: status {script.returncode}, {counts}")
    return told, counts.decode().splitlines()[-1]


def check_tables():
    tried = 0
    for (table, unit), lines in LINES.items():
        weights = [weight for _, weight in lines if weight]
        counts = f"weights: {len(weights)} handed on, {len(lines) - len(weights)} left out"
        for end, piece in ((b"\r\n", 1000), (b"\n", 1000), (b"\r\n", 3)):
            told, said = weigh(table, unit, lines, end, piece)
            need(told == b"".join(weight + b"\n" for weight in weights), f"{table}: {told}")
            need(said == counts, f"{table}: {said} for {counts}")
            tried += len(lines)
    print(f"scales: {tried} lines over pseudo-terminals; what the device held before was dropped")


def check_gate(room):
    """A command for each line; one that fails stops nothing; another line is status 3."""
    for said, calls, status, complaint in (
            (b"open 8\nopen 10\n", "8\n10\n", 0, ""), (b"open 3\nopen 7\nopen 9\n", "3\n7\n9\n", 0,
                                                     "pack 7: the command failed with status 5"),
            (b"open 1\nshut 2\nopen 3\n", "1\n", 3, "shut 2"), (b"open \n", "", 3, "open"),
            (b"open x1\n", "", 3, "open x1"), (b"open 1 2\n", "", 3, "open 1 2"),
            (b"open 4\nopen 5", "4\n", 0, ""), (b"", "", 0, "")):
        notes = f"{room}/notes"
        open(notes, "w").close()
        command = f'echo "$PACK" >>{notes}; [ "$PACK" != 7 ] || exit 5'
        ran = subprocess.run([f"{SCALES}/gate.sh", "sh", "-c", command], input=said,
                             capture_output=True, timeout=60)
        with open(notes, encoding="ascii") as noted:
            need(noted.read() == calls, f"{said}: called otherwise than {calls!r}")
        need(ran.returncode == status, f"{said}: status {ran.returncode}")
        need(complaint in ran.stderr.decode(), f"{said}: {ran.stderr}")
    print("scales: `open N` calls its command, and nothing else does")


def read_words(path):
    """The words of a file."""
    with open(path, encoding="ascii") as source:
        return source.read().split()


def check_lane(program, room):
    """A scale that is pulled out and put in again feeds a lane of a running hall."""
    make_pipes(room, 1)
    hall = Hall(program, room, plan(SETUP, ["A"]), book=f"{room}/book", lanes=1, port=free_ports())
    notes = f"{room}/opened"
    gate = subprocess.Popen(f'{SCALES}/gate.sh sh -c \'echo "$PACK" >>{notes}\' <{room}/gate-1.txt',
                            shell=True, start_new_session=True)
    device = f"{room}/device"
    lane = subprocess.Popen([f"{SCALES}/lane.sh", device, "sics", f"{room}/cell-1.txt"],
                            start_new_session=True, stderr=subprocess.DEVNULL)
    try:
        for weights, opened in (((b"262.000", b"230.000"), 1), ((b"261.500",), 2)):
            scale, line = open_scale()
            # what it holds before it is read is dropped; once it holds nothing it is read
            os.write(scale, b"S S     111.000 g\r\n")
            wait_until(lambda: held(line))
            os.symlink(os.ttyname(line), device)
            wait_until(lambda: not held(line))
            for weight in weights:
                os.write(scale, b"S D     100.000 g\r\nS S     " + weight + b" g\r\n")
            wait_until(lambda: os.path.exists(notes) and len(read_words(notes)) == opened)
            wait_until(lambda: not held(line))
            os.remove(device)
            os.close(line)
            os.close(scale)
        need(not hall.ended(), f"the lane outlives its scale: {hall.said()}")
    finally:
        for process in (lane, gate):
            os.killpg(process.pid, 15)
            process.wait(60)
    need(hall.wait(60) == 0, "the hall ends behind its lane")
    need("lane 1 opened 2 done" in hall.said(), f"the lane said {hall.said()}")
    need(read_words(notes) == ["6", "8"], "the gate opened for packs 6 and 8")
    print("scales: a lane was fed by a scale that was away between two packs")


def main():
    program, room = sys.argv[1:]
    check_tables()
    check_gate(room)
    check_lane(os.path.abspath(program), room)


main()
