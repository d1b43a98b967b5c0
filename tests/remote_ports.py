"""What else may happen at the port of a scale, each case with a hall of its own, for
tests/remote.py."""

import os
import socket
import threading
import time

from clients import OPENING, Hall, need, plan

# How long the scale is silent that makes a pause, in seconds.
PAUSE = 65
# How long anything is waited for, in seconds: only a machine that is hardly served takes so long.
PATIENCE = 900


def end(link):
    try:
        link.shutdown(socket.SHUT_RDWR)
    except OSError:
        pass
    link.close()


def wait_for_port(hall, port):
    """Waits until the system says that somebody listens at a port, without a connection."""
    wanted = f"0100007F:{port:04X} 00000000:0000 0A"
    until = time.monotonic() + PATIENCE
    while time.monotonic() < until:
        with open("/proc/net/tcp", encoding="ascii") as table:
            if any(wanted in line for line in table):
                return
        need(not hall.ended(), f"the hall ended: {hall.said()}")
        time.sleep(0.005)
    need(False, f"nobody listens at {port}")


def one_lane(program, folder, name, port):
    """A hall with one lane, and a folder of its own."""
    own = f"{folder}/{name}"
    os.mkdir(own)
    hall = Hall(program, own, plan(OPENING + "open A P\n", ["A"]), f"{own}/book", lanes=1,
                pipes=False, remote=port)
    return hall


def ends_as(hall, stop, status):
    ended = hall.wait(PATIENCE)
    need(ended == status and hall.said()[0].endswith(stop),
         f"status {ended} and {hall.said()[:1]} in place of {status} and {stop}")


def link_to(hall, port):
    wait_for_port(hall, port)
    link = socket.create_connection(("127.0.0.1", port), timeout=PATIENCE)
    link.setsockopt(socket.IPPROTO_TCP, socket.TCP_NODELAY, 1)
    return link


def hear(link, wanted):
    """Waits for just these bytes, and says how long that took."""
    began, came = time.monotonic(), b""
    while len(came) < len(wanted):
        more = link.recv(4096)
        need(more, f"the link ended behind {came!r}")
        came += more
    need(came == wanted, f"{came!r} came in place of {wanted!r}")
    return time.monotonic() - began


def in_use(program, folder, port):
    """A port that another has: the hall ends before anything is done, and says why."""
    with socket.create_server(("127.0.0.1", port)):
        hall = one_lane(program, folder, "in_use", port)
        ends_as(hall, "disk fault", 6)
    with open(f"{folder}/in_use/errors", encoding="utf-8") as errors:
        need(f"can't listen at port {port}" in errors.read(), "the hall doesn't say why")


def silent(program, folder, port):
    """Who connects and says nothing keeps nobody out, nor does one who stops in mid-line."""
    hall = one_lane(program, folder, "silent", port)
    with link_to(hall, port), link_to(hall, port) as cut, link_to(hall, port) as scale:
        cut.sendall(b"1 26")
        time.sleep(0.2)
        scale.sendall(b"1 262\n2 263\n")
        took = hear(scale, b"ack 1\nack 2\n")
        scale.sendall(b"3 end\n")
        hear(scale, b"ack 3\n")
        ends_as(hall, "lane 1 opened 2 done", 0)
    return took


def pause(program, folder, port):
    """A scale that is silent for longer than the office would wait goes on over its connection."""
    hall = one_lane(program, folder, "pause", port)
    with link_to(hall, port) as scale:
        scale.sendall(b"1 262\n")
        hear(scale, b"ack 1\n")
        time.sleep(PAUSE)
        scale.sendall(b"2 263\n3 end\n")
        hear(scale, b"ack 2\nack 3\n")
        ends_as(hall, "lane 1 opened 2 done", 0)


def deaf(program, folder, port):
    """One that never reads its acknowledgements, while another waits: what the system doesn't hold
    of them the hall can't write, and leaves the first behind 10 s of that. Says how many lines it
    took, and for how long the other waited."""
    hall = one_lane(program, folder, "deaf", port)
    wait_for_port(hall, port)
    scale = socket.socket()
    scale.setsockopt(socket.SOL_SOCKET, socket.SO_RCVBUF, 1)
    scale.connect(("127.0.0.1", port))
    said = []
    speaker = threading.Thread(target=say_again, args=(scale, said), daemon=True)
    speaker.start()
    began = time.monotonic()
    with link_to(hall, port) as other:
        # behind the first line of the one that never reads
        time.sleep(1)
        other.sendall(b"2 263\n3 end\n")
        hear(other, b"ack 2\nack 3\n")
        waited = time.monotonic() - began
        ends_as(hall, "lane 1 opened 2 done", 0)
    end(scale)
    speaker.join(PATIENCE)
    return sum(said), waited


# Fewer than a cell looks at in one call.
MOST_AGAIN = 900_000


def say_again(scale, said):
    """Says a line again and again, and reads nothing. Takes down how often it could."""
    try:
        for _ in range(MOST_AGAIN // 1000):
            scale.sendall(b"1 262\n" * 1000)
            said.append(1000)
    except OSError:
        pass


def nonsense(program, folder, port):
    """A line that is none ends the lane, and what is said behind it is heard by nobody."""
    hall = one_lane(program, folder, "nonsense", port)
    with link_to(hall, port) as scale:
        scale.sendall(b"1 262\n7 270\n2 ERR\n2 263\n")
        ends_as(hall, "lane 1 opened 1 bad 3", 10)


def no_end(program, folder, port):
    """A thousand connections without an end: the line behind the last is bad."""
    hall = one_lane(program, folder, "no_end", port)
    for number in range(1, 1001):
        with link_to(hall, port) as scale:
            scale.sendall(b"%d 262\n" % number)
            hear(scale, b"ack %d\n" % number)
    ends_as(hall, "lane 1 opened 1000 bad 1001", 10)


def turns(program, folder, port):
    """A million lines that are ahead, over some connections, since one that isn't answered for 10 s
    is left: the lane gives up."""
    hall = one_lane(program, folder, "turns", port)
    wait_for_port(hall, port)
    began = time.monotonic()
    while not hall.ended() and time.monotonic() - began < PATIENCE:
        try:
            with socket.create_connection(("127.0.0.1", port), timeout=PATIENCE) as scale:
                scale.sendall(b"9 1\n" * 50_000)
                scale.shutdown(socket.SHUT_WR)
                scale.recv(1)
        except OSError:
            pass
    ends_as(hall, "lane 1 opened 0 turns", 12)
    return time.monotonic() - began
