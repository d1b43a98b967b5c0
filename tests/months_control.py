#!/usr/bin/python3 -B
"""A stand-in for systemctl in tests/months.py: which units are enabled and active stands in
files of a folder; hall@NAME is begun and ended by deploy/start and deploy/stop, hall-archive-
follow@NAME is the archive's follower. All else is only noted.

usage: months_control.py VERB [--now] [--quiet] [--no-reload] UNIT..     with ROOM, the folder, in
       the environment"""

import os
import signal
import subprocess
import sys
import time
from typing import Any

HERE = os.path.dirname(os.path.realpath(__file__))
TOP = os.path.dirname(HERE)
ROOM = os.environ["ROOM"]
PATIENCE = 600.0


def settings(name: str) -> dict[str, str]:
    with open(f"{ROOM}/etc/{name}.env", encoding="ascii") as file:
        pairs = [line.strip().partition("=") for line in file if "=" in line and line[0] != "#"]
    folders = {"RUN": f"{ROOM}/run/{name}", "SHOWN": f"{ROOM}/shown/{name}"}
    for folder in folders.values():
        os.makedirs(folder, exist_ok=True)
    return dict(os.environ) | folders | {key: value for key, _, value in pairs}


def spawn(unit: str, words: list[str], log: str, **more: Any) -> None:
    """Begins a process that tells its number itself, whole: who began it may be killed at once."""
    path = f"{ROOM}/units/{unit}.pid"
    if os.path.exists(path):
        os.remove(path)
    told = f"echo $$ >'{path}.new' && mv '{path}.new' '{path}' && exec \"$@\""
    with open(f"{ROOM}/{log}", "ab") as out:
        run = subprocess.Popen(
            ["sh", "-c", told, "sh", *words], stdout=out, stderr=out, start_new_session=True, **more
        )
    while not os.path.exists(path) and run.poll() is None:
        time.sleep(0.01)


def begin(name: str) -> None:
    """Begins a hall, and waits until it serves. One that a killed caller began is waited for."""
    known, unit = settings(name), f"hall@{name}"
    shown = f"{known['SHOWN']}/lanes.txt"
    if not is_active(unit):
        if os.path.exists(shown):
            os.remove(shown)
        with open(f"{ROOM}/etc/{name}.toml", "rb") as plan:
            spawn(unit, [f"{TOP}/deploy/start", name], "log", stdin=plan, env=known)
    end = time.monotonic() + PATIENCE
    while not os.path.exists(shown):
        if not is_active(unit) or time.monotonic() > end:
            with open(f"{ROOM}/log", encoding="utf-8", errors="replace") as log:
                sys.exit(f"{unit} doesn't serve: {log.read()[-400:]}")
        time.sleep(0.02)


def is_active(unit: str) -> bool:
    try:
        with open(f"{ROOM}/units/{unit.removesuffix('.service')}.pid", encoding="ascii") as file:
            pid = file.read().strip()
        return bool(pid) and not is_dead(int(pid))
    except (FileNotFoundError, ValueError):
        return False


def follow(unit: str, name: str) -> None:
    if not is_active(unit):
        words = [sys.executable, "-B", f"{TOP}/archive/hall-archive"]
        words += ["--settings", f"{ROOM}/etc/archive.toml", "follow", name]
        spawn(unit, words, "follow.log", stdin=subprocess.DEVNULL)


def end(unit: str) -> None:
    path = f"{ROOM}/units/{unit}.pid"
    if not is_active(unit):
        return
    with open(path, encoding="ascii") as file:
        pid = int(file.read())
    os.kill(pid, signal.SIGTERM)
    while os.path.exists(f"/proc/{pid}") and not is_dead(pid):
        time.sleep(0.05)
    os.remove(path)


def is_dead(pid: int) -> bool:
    """Whether it has ended, and nobody waited for it yet."""
    try:
        with open(f"/proc/{pid}/stat", encoding="ascii") as file:
            return file.read().rpartition(")")[2].split()[0] == "Z"
    except FileNotFoundError:
        return True


def start(unit: str) -> None:
    kind, _, name = unit.removesuffix(".service").partition("@")
    if kind == "hall":
        begin(name)
    elif kind == "hall-archive-follow":
        follow(unit, name)


def stop(unit: str) -> None:
    kind, _, name = unit.removesuffix(".service").partition("@")
    if kind == "hall":
        known = settings(name)
        while is_active(unit):
            done = subprocess.run([f"{TOP}/deploy/stop", name, "100"], env=known, check=False)
            if done.returncode:
                sys.exit(done.returncode)
            time.sleep(0.02)
    elif kind == "hall-archive-follow":
        end(unit)


def ask(verb: str, now: bool, unit: str) -> None:
    enabled = f"{ROOM}/units/{unit}.enabled"
    with open(f"{ROOM}/asked", "a", encoding="ascii") as file:
        file.write(f"{verb} {unit}\n")
    if verb == "is-enabled":
        sys.exit(not os.path.exists(enabled))
    if verb == "is-failed":
        sys.exit(1)
    if verb == "is-active":
        sys.exit(not is_active(unit))
    if verb == "enable":
        open(enabled, "w", encoding="ascii").close()
    if verb == "disable" and os.path.exists(enabled):
        os.remove(enabled)
    if verb == "start" or (verb == "enable" and now):
        start(unit)
    if verb == "stop" or (verb == "disable" and now):
        stop(unit)


def main() -> None:
    words = [word for word in sys.argv[1:] if word not in ("--quiet", "--no-reload", "--now")]
    os.makedirs(f"{ROOM}/units", exist_ok=True)
    for unit in words[1:]:
        ask(words[0], "--now" in sys.argv, unit)


main()
