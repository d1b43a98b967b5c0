"""Another batch for a lane by the front, for tests/front.py: who may say it, in which form, and
what comes to the lane's pipe. The adapter is the one that is shipped; this reads as a hall does."""

import json
import os
import shutil
import socket
import subprocess
import sys
from contextlib import contextmanager

from clients import need
from front_clients import Person, expect
from front_room import SHOWN, TOP, wait_until

LANE = 1
ROOM = "/run/lane"
CELL, SOCKET = f"{ROOM}/cell-1.txt", f"{SHOWN}/lane-1.socket"
LOG = "/var/log/nginx/hall-changes.log"
GOOD = b'{"batch":"MORNING"}'
# Bodies that name no batch as the book takes new names.
UNREADABLE = [
    b"", b"{}", b"[]", b'"A"', b'{"batch":""}', b'{"batch":"A B"}', b'{"batch":"A\\nB"}',
    b'{"batch":"-A"}', b'{"batch":"A\\u0042"}', b'{"batch":1}', b'{"batch":"A","batch":"B"}',
    b'{"batch":"A","lane":2}', b'{"name":"A"}', b'{"batch":"' + b"x" * 33 + b'"}', b"batch=A",
]


@contextmanager
def adapter():
    """The adapter of lane 1, whose scale is at a port that nobody reaches."""
    os.makedirs(f"{ROOM}/kept", exist_ok=True)
    if not os.path.exists(CELL):
        os.mkfifo(CELL)
    shutil.chown(SHOWN, group="www-data")
    os.chmod(SHOWN, 0o2750)
    with socket.create_server(("127.0.0.1", 0)) as free:
        port = free.getsockname()[1]
    with open(f"{ROOM}/settings.toml", "w", encoding="ascii") as text:
        text.write(f'lane = {LANE}\ncell = "{CELL}"\nfolder = "{ROOM}/kept"\nsocket = "{SOCKET}"\n'
                   f'device = "sics"\n[scale]\nlisten = "127.0.0.1:{port}"\n')
    process = subprocess.Popen([sys.executable, "-B", f"{TOP}/adapters/hall-adapter", "lane",
                                f"{ROOM}/settings.toml"], stderr=subprocess.DEVNULL)
    try:
        wait_until(lambda: os.path.exists(SOCKET) and os.stat(SOCKET).st_mode & 0o777 == 0o660,
                   "the adapter's socket")
        yield
    finally:
        process.terminate()
        need(process.wait(20) == 0, "the adapter ends with another status than 0")


def change(person, lane, body, more=""):
    return person.send("POST", f"/lane/{lane}/batch", body, more)


def check_rights(anna, ben, wall):
    for person, lane, status in ((anna, 2, 403), (ben, 1, 403), (wall, 1, 403), (anna, 101, 404),
                                 (anna, 0, 404), (anna, 17, 404), (anna, "01", 404), (ben, 2, 502)):
        name = {anna: "anna", ben: "ben", wall: "wall"}[person]
        expect(change(person, lane, GOOD), status, f"{name} at lane {lane}")
    for method, path, status in (("GET", "/lane/1/batch", 405), ("PUT", "/lane/1/batch", 405),
                                 ("POST", "/lane/1", 404), ("POST", "/lane/1/batch/", 404),
                                 ("POST", "/adapter/1", 404)):
        expect(anna.send(method, path, GOOD if method == "POST" else b""), status,
               f"{method} {path}")
    for more in ("Origin: https://elsewhere.example\r\n", "Sec-Fetch-Site: cross-site\r\n"):
        expect(change(anna, LANE, GOOD, more), 403, more.strip())
    for body in UNREADABLE:
        expect(change(anna, LANE, body), 400, body)
    expect(change(anna, LANE, GOOD.ljust(300)), 413, "a body of 300 bytes")
    # a lane's number is none of a desk
    expect(anna.act(1, act="end", batch="A"), 403, "anna as desk 1")


def changes_logged():
    """Who changed which lane, by the front's log."""
    with open(LOG, encoding="ascii") as file:
        lines = [json.loads(line) for line in file]
    return [(line["person"], line["lane"]) for line in lines if line["status"] == "200"]


def check_said(anna):
    """What is said comes to the pipe, and first to each hall that reads anew."""
    reply = change(anna, LANE, GOOD)
    expect(reply, 200, "a change")
    need(json.loads(reply.body) == {"batch": "MORNING", "heard": False}, f"told {reply.body}")
    for name in ("NOON", "EVENING"):
        hall = os.open(CELL, os.O_RDONLY | os.O_NONBLOCK)
        before = wait_until(lambda: heard(hall), "the batch comes first")
        reply = change(anna, LANE, b' { "batch" : "%s" } ' % name.encode())
        expect(reply, 200, name)
        need(json.loads(reply.body) == {"batch": name, "heard": True}, f"told {reply.body}")
        after = wait_until(lambda: heard(hall), "the change comes")
        need((before, after) == ({"NOON": b"batch MORNING\n", "EVENING": b"batch NOON\n"}[name],
                                 f"batch {name}\n".encode()), f"heard {before} and {after}")
        os.close(hall)
    with open(f"{ROOM}/kept/changes", encoding="ascii") as file:
        said = [line.split(" ", 1)[1].strip() for line in file]
    need(said == [f"batch {name} by page anna" for name in ("MORNING", "NOON", "EVENING")],
         f"the adapter took down {said}")
    # nginx writes its line after the answer
    wait_until(lambda: len(changes_logged()) >= 3, "the front's log")
    found = changes_logged()
    need(found == [("anna", "/lane/1/batch")] * 3, f"the front took down {found}")


def heard(hall):
    try:
        return os.read(hall, 4096)
    except BlockingIOError:
        return b""


def check_changes(front):
    """A batch by the front: rights, forms, and the lane's pipe; away, restarted, kept."""
    anna, ben, wall = (Person(front, name) for name in ("anna", "ben", "wall"))
    expect(change(anna, LANE, GOOD), 502, "a lane without an adapter")
    with adapter():
        check_rights(anna, ben, wall)
        check_said(anna)
    expect(change(anna, LANE, GOOD), 502, "a lane whose adapter ended")
    with adapter():
        hall = os.open(CELL, os.O_RDONLY | os.O_NONBLOCK)
        need(wait_until(lambda: heard(hall), "the batch that was kept") == b"batch EVENING\n",
             "another batch than the last")
        os.close(hall)
