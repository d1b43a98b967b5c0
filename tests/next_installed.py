"""The next book in a booted Debian, with systemd's own units: hall-next hands over to it the hall,
its front, a changing lane, the list, numbers, copies, the day's timer, the archive with its
witness, and a second machine by ssh; it refuses, is killed, and run again. Run by
archive_installed.py, where the first book is followed by the archive."""

import json
import random
import re
import subprocess
import time

from debian import Debian, need
from installed import ADDRESSES, Served

ADDRESS = ADDRESSES[0]
NEXT = ("2027-01", "2027-02")
COPIES = "/var/lib/second"
UNITS = (
    "hall@{}.service",
    "hall-backup@{}.timer",
    "hall-day@{}.timer",
    "hall-metrics@{}.service",
    "hall-standby@{}.service",
    "hall-archive-follow@{}.service",
    "hall-archive-stamp@{}.timer",
)
# What systemd finds exposed at most, and of which units this script says it.
AIM = 2.0
LEVEL = re.compile(r"exposure level for (\S+): ([0-9.]+) ")
SCALE, SCANNER, NUMBERS = 9700, 9701, 9470
PLAN = '[[lane]]\nnumber = 1\nbatch = "MORNING"\n[[lane]]\nnumber = 2\nchanges = true\n'
LANE = f"""lane = 2
cell = "/run/hall-NAME/cell-2.txt"
folder = "/var/lib/hall/lanes/NAME-2"
socket = "/run/hall/NAME/lane-2.socket"
device = "sics"
[scale]
listen = "127.0.0.1:{SCALE}"
[scanner]
listen = "127.0.0.1:{SCANNER}"
"""
METRICS = f"""book = "NAME"
listen = "127.0.0.1:{NUMBERS}"
url = "http://127.0.0.1:8472"
file = "/var/lib/hall/NAME.book"
lanes = 2
list = "/run/hall/NAME/list.txt"
[[copy]]
name = "standby"
said = "/run/hall/NAME/standby.txt"
"""
# Reads what the gates of a book are told, as one who stands there.
GATES = 'while :; do cat "$0" >/dev/null; sleep 0.1; done'
KILLED_WITHIN = 3.0
# Seconds from a device's connection to its first line.
JOINED = 2


def put(debian: Debian, path: str, text: str, name: str) -> None:
    with open(f"{debian.folder}{path}", "w", encoding="utf-8") as file:
        file.write(text.replace("NAME", name))


def say(debian: Debian, port: int, line: str) -> None:
    """A device says a line to the adapter, a moment after it was joined: what comes at once is
    taken for an old weight."""
    said = f"printf '{line}\\r\\n' >&3"
    debian.run(f'bash -c "exec 3>/dev/tcp/127.0.0.1/{port}; sleep {JOINED}; {said}; sleep 1"', 0)


# ---- what there is to hand over


def second_machine(debian: Debian, book: str) -> None:
    """A second machine by ssh, which is this one under another name; the user hall is let in."""
    debian.run("apt-get install -y --no-install-recommends openssh-server openssh-client", 0)
    debian.run(
        f"echo 127.0.0.1 second >> /etc/hosts; install -d -o hall {COPIES};"
        " usermod -s /bin/sh hall; systemctl start ssh;"
        " runuser -u hall -- sh -c 'mkdir -m 700 ~/.ssh;"
        ' ssh-keygen -q -t ed25519 -N "" -f ~/.ssh/id_ed25519; cp ~/.ssh/id_ed25519.pub'
        " ~/.ssh/authorized_keys; ssh-keyscan second > ~/.ssh/known_hosts 2>/dev/null'",
        0,
    )
    debian.run(
        f"printf 'COPIES={COPIES}\\nSTANDBY=\"ssh -o ServerAliveInterval=5 hall@second\"\\n'"
        f" >> /etc/hall/{book}.env",
        0,
    )


def prepare(debian: Debian, served: Served, book: str) -> None:
    """A hall of two lanes, one of which changes its batch, with all that goes with a book."""
    second_machine(debian, book)
    debian.run(f"sed -i 's/^LANES=.*/LANES=2/' /etc/hall/{book}.env", 0)
    put(debian, f"/etc/hall/{book}.toml", PLAN, book)
    put(debian, f"/etc/hall/{book}.metrics.toml", METRICS, book)
    put(debian, "/etc/hall/two.lane.toml", LANE, book)
    # its login to the database is nobody else's
    debian.run("chgrp hall-archive /etc/hall/archive.toml; chmod 640 /etc/hall/archive.toml", 0)
    debian.run(f"systemctl restart hall@{book}", 0)
    debian.run("systemctl enable --now hall-lane@two", 0)
    for unit in UNITS:
        debian.run(f"systemctl enable --now {unit.format(book)}", 0)
    weighs(debian, served, book, "EVENING")
    debian.wait("a copy on the second machine", lambda: copied(debian, book) > 4)
    numbers(debian, book)


def weighs(debian: Debian, served: Served, book: str, batch: str) -> None:
    """A pack at each lane: lane 2 hears a new batch; the cell of lane 1 ends behind its pack."""
    for lane in (1, 2):
        gate = f"/run/hall-{book}/gate-{lane}.txt"
        debian.run(f"systemd-run --quiet sh -c '{GATES}' {gate}", 0)
    served.act("anna", ADDRESS, act="open", batch=batch, product="rice250")
    say(debian, SCANNER, f"batch {batch}")
    served.waits_for("anna", ADDRESS, "/hall/lanes/2", f"batch {batch}")
    say(debian, SCALE, "S S 262.0 g")
    served.waits_for("anna", ADDRESS, f"/hall/batches/{batch}", "population 1")
    debian.run(f"printf '262\\n' > /run/hall-{book}/cell-1.txt", 0)
    served.waits_for("anna", ADDRESS, "/hall/batches/MORNING", "population 1")


def numbers(debian: Debian, book: str) -> None:
    """The numbers are of this book."""
    asked = f"curl -sS http://127.0.0.1:{NUMBERS}/metrics"
    debian.wait(f"numbers of {book}", lambda: f'book="{book}"' in debian.run(asked))
    said = debian.run(asked)
    need(set(re.findall(r'book="([^"]+)"', said)) == {book}, "numbers of another book")
    need("hall_standby_rows_behind" in debian.run(f"hall-status --prometheus {book}"), "no standby")


def copied(debian: Debian, book: str) -> int:
    """How many rows the second machine has."""
    said = debian.run(f"hall check --book {COPIES}/{book}.copy 2>/dev/null")
    found = re.match(r"rows (\d+) ", said)
    return int(found[1]) if found else 0


def close(served: Served, batch: str) -> None:
    """A batch gets its verdict at a desk."""
    served.act("anna", ADDRESS, act="end", batch=batch)
    served.act("anna", ADDRESS, act="draw", batch=batch, mode="keep", word=7)
    sample = served.text("anna", ADDRESS, f"/hall/batches/{batch}/sample").split()
    for pack in [word for word in sample[3:] if word.isdecimal()]:
        served.act("anna", ADDRESS, act="measure", pack=int(pack), gross=262_000)
    served.act("anna", ADDRESS, act="close", batch=batch)


def close_all(debian: Debian, served: Served, batch: str) -> None:
    say(debian, SCANNER, "batch NONE")
    served.waits_for("anna", ADDRESS, "/hall/lanes/2", "lane 2 idle")
    for one in (batch, "MORNING"):
        close(served, one)


# ---- what became of it


def state(debian: Debian, unit: str) -> tuple[str, str]:
    said = debian.run(f"systemctl is-enabled {unit}; systemctl is-active {unit}").split()
    return said[0], said[1]


def check_units(debian: Debian, old: str, new: str) -> None:
    for unit in UNITS:
        need(state(debian, unit.format(old))[0] == "disabled", f"{unit.format(old)} is enabled")
        found = state(debian, unit.format(old))
        need(found[1] == "inactive", f"{unit.format(old)} is {found}")
        found = state(debian, unit.format(new))
        need(found == ("enabled", "active"), f"{unit.format(new)} is {found}")
    for unit in (f"hall-list@{new}", "hall-lane@two", "hall-archive"):
        need(state(debian, unit)[1] == "active", f"{unit} isn't active")
    need(state(debian, f"hall-list@{old}")[1] == "inactive", "the old list goes on")
    failed = debian.run("systemctl --failed --plain --no-legend", 0)
    need("hall" not in failed, f"failed: {failed}")


def check_old(debian: Debian, old: str) -> None:
    """Its file is read-only and noted, a copy was made, and the second machine has all of it."""
    path = f"/var/lib/hall/{old}.book"
    audited = debian.run(f"runuser -u hall -- hall audit --book {path} 2>/dev/null", 0)
    need(debian.run(f"cat /var/lib/hall/{old}.audit", 0) == audited, "it was noted otherwise")
    mode = debian.run(f"stat -c '%a %U %G' {path}", 0)
    need(mode == "440 root hall\n", f"the old book is {mode}")
    said = debian.run(f"runuser -u hall -- sh -c 'echo >> {path}' 2>&1 && echo writes")
    need("writes" not in said, "the user hall writes the old book")
    rows = int(audited.split()[1])
    need(copied(debian, old) == rows, f"the second machine lacks rows of {rows}")
    copies = debian.run(f"ls /var/backups/hall/{old}.*.book", 0).split()
    newest = debian.run(f"hall audit --book {copies[-1]} 2>/dev/null", 0)
    need(newest.split("\n")[-2] == audited.split("\n")[-2], "the last copy is another")
    asked = "runuser -u hall-archive -- hall-archive"
    register = debian.run(f"{asked} register {old} | sha256sum", 0)
    export = debian.run(f"runuser -u hall -- hall export --book {path} 2>/dev/null | sha256sum", 0)
    need(register == export, f"the archive's register of {old} is another")
    witness = debian.run(f"{asked} verify {old} 2>&1", 0)
    need("fingerprints hold" in witness, witness)
    last = debian.run(f"tail -n 1 /var/lib/hall-archive/main.{old}.witness", 0).split()
    need(last[1] == str(rows) and last[-1] == audited.split()[-1], f"the last line is {last}")
    said = debian.run(f"journalctl -o cat -t hall-next -t hall-archive | grep -c '{last[2]}'")
    need(int(said) > 0, "the journal lacks the last line")
    need(debian.run(f"cat /etc/hall/{old}.next", 0).count('"archive"') == 1, "not noted")


def check_new(debian: Debian, served: Served, old: str, new: str) -> None:
    """The front shows the next book at the same address, and desks count from 1 again."""
    served.waits_for("anna", ADDRESS, "/list.txt", "product rice250 nominal 250.000 g tare 10")
    listing = served.text("anna", ADDRESS, "/list.txt")
    need("EVENING" not in listing and "batch MORNING" in listing, f"the list is {listing}")
    mode = debian.run("stat -c '%a %U %G' /etc/hall/archive.toml", 0)
    need(mode == "640 root hall-archive\n", f"the archive's settings are {mode}")
    weighs(debian, served, new, "EVENING")
    numbers(debian, new)
    books = served.text("anna", ADDRESS, "/archive/books")
    need(old in books and new in books, f"the archive has {books}")
    closings = json.loads(served.text("anna", ADDRESS, f"/archive/acts?book={old}&kind=close"))
    persons = {one["person"] for one in closings}
    need(len(closings) > 1 and persons == {"anna"}, f"closings are {closings}")
    debian.wait("the second machine has the next", lambda: copied(debian, new) > 4)
    page = "/etc/hall/two.lane.toml"
    need(f"/run/hall-{new}/" in debian.run(f"cat {page}", 0), "the lane leads to the old book")


def check_day(debian: Debian, served: Served, book: str) -> None:
    """The timer is due at midnight; its service has entered today, as desk 163."""
    due = debian.run(f"systemctl show -p NextElapseUSecRealtime hall-day@{book}.timer", 0)
    need(" 00:00:00 " in due, f"the timer is due {due}")
    today = debian.run("date +%F", 0).strip()
    if today >= "2026-12-01":
        served.waits_for("anna", ADDRESS, "/list.txt", f"day {today}")
        # of a running book the file gives all but the newest row
        acts = served.text("anna", ADDRESS, "/hall/acts/0")
        need(re.search(rf"@163 \d+ day {today}", acts), "not by desk 163")


def check_exposure(debian: Debian, book: str) -> str:
    units = [f"hall-{kind}@{book}.{end}" for kind in ("day", "backup") for end in
             ("service", "timer")] + [f"hall-standby@{book}.service"]  # fmt: skip
    said = debian.run(f"systemd-analyze verify --man=no {' '.join(units)} 2>&1", 0)
    need(said == "", f"systemd has a word on them: {said}")
    judged = debian.run(f"systemd-analyze --no-pager security hall-day@{book}.service | tail -n 2")
    found = LEVEL.search(judged)
    need(found and float(found[2]) <= AIM, f"hall-day is exposed: {judged}")
    assert found
    return found[2]


# ---- the hand-overs


def next_killed(debian: Debian, old: str, new: str, after: float) -> bool:
    """Begins hall-next and kills it; whether it was still at work."""
    begins = f"echo $$ > /run/next.pid; exec hall-next {old} {new} >/dev/null 2>&1"
    run = subprocess.Popen([*debian.enter(), "sh", "-c", begins])
    time.sleep(after)
    was = run.poll() is None
    if was:
        debian.run("kill -KILL $(cat /run/next.pid)")
    run.wait()
    return was


def one_more(debian: Debian, served: Served, old: str, new: str, kills: int) -> str:
    """A hand-over with so many kills; what hall-next says at last."""
    close_all(debian, served, "EVENING")
    chance = random.Random(new)
    killed = sum(next_killed(debian, old, new, chance.uniform(0.1, KILLED_WITHIN))
                 for _ in range(kills))  # fmt: skip
    said = debian.run(f"hall-next {old} {new} 2>&1", 0)
    need(f"{old} is followed by {new}" in said, said)
    steps = ", ".join(re.findall(r"hall-next: (\w+: [0-9.]+ s)", said))
    stood = re.findall(r"lanes stood for [0-9.]+ s", said)
    need(stood, said)
    print(f"archive_package: {new} by systemd, {stood[0]}; {steps}", flush=True)
    check_units(debian, old, new)
    check_new(debian, served, old, new)
    check_old(debian, old)
    need("already" in debian.run(f"hall-next {old} 2>&1", 0), "it is done twice")
    return f"{killed} kills; {said}"


def handed_over(debian: Debian, served: Served, book: str) -> str:
    """Two hand-overs; the name of the book that is served then."""
    prepare(debian, served, book)
    check_day(debian, served, book)
    said = debian.run(f"hall-next {book} 2>&1", 1)
    need("2 batches of" in said and served.rows("anna", ADDRESS), f"open batches: {said}")
    one_more(debian, served, book, NEXT[0], 0)
    said = one_more(debian, served, NEXT[0], NEXT[1], 2)
    exposed = check_exposure(debian, NEXT[1])
    print(f"archive_package: the next but one with {said.split(';')[0]}; day {exposed}", flush=True)
    return NEXT[1]
