"""Who is let in at the front: what hall-person and hall-site (deploy/person, deploy/site) take and
refuse, several of them at once, and what the front makes of names. Run by tests/front.py."""

import os
import subprocess
from typing import Any

from clients import need
from front_clients import Person, expect
from front_room import NAME, TOP, run

PERSON = f"{TOP}/deploy/person"
SITE = f"{TOP}/deploy/site"
# A folder of people that no hall at the front has.
FOLDER = "/etc/hall/tried"
LONGEST = "a" * 32
NAMES = ["a", "0", "anna", "a.b_c-d", "10", LONGEST, "defaults", "x.default"]
NO_NAMES = [
    "",
    "Anna",
    "annA",
    "default",
    "include",
    "hostnames",
    "volatile",
    LONGEST + "a",
    "a" * 50,
    "a b",
    "a:b",
    "a;b",
    "a\nb",
    'a"b',
    "-n",
    "--anna",
    ".a",
    "_a",
    "a/b",
    "a*",
    "~a",
    "a$b",
    "jürgen",
]
NO_DESKS = ["100", "165", "0", "1011", "101x", "-101", "", "101;"]
# How many rounds of how many at once.
ROUNDS, AT_ONCE = 12, 4
# In the place of awk: takes down the rights of the files that hall-person is writing.
SPY = """#!/bin/sh
stat -c '%a' {folder}/*.?????? >> {folder}/rights
exec /usr/bin/awk "$@"
"""


def tried(*words: str, **more: str) -> "subprocess.CompletedProcess[str]":
    """What a script says and ends with, beside FOLDER."""
    where = os.environ | {"FRONT": FOLDER} | more
    return subprocess.run(words, env=where, capture_output=True, text=True, timeout=60)


def content(folder: str = FOLDER) -> dict[str, bytes]:
    """The files of a folder, with what they hold."""
    found = {}
    for name in os.listdir(folder):
        with open(f"{folder}/{name}", "rb") as file:
            found[name] = file.read()
    return found


def names_in(file: str, end: str) -> list[str]:
    with open(f"{FOLDER}/{file}", encoding="ascii") as lines:
        return [line.split(end)[0] for line in lines]


def check_names() -> None:
    """What is no name or no desk is refused and named, and changes nothing; each name that is taken
    leaves a configuration that nginx takes."""
    os.makedirs(FOLDER)
    for name in NAMES:
        said = tried(PERSON, name, "101", "164")
        need(said.returncode == 0 and len(said.stdout) == 21, f"hall-person {name}: {said}")
    before = content()
    for name in NO_NAMES:
        refused(name, "101")
    for desk in NO_DESKS:
        refused("anna", "101", desk)
    refused()
    refused("--remove")
    refused("--remove", "nobody")
    refused("--remove", "anna", "101")
    need(content() == before, "a refused name changed a file")
    usage = tried(PERSON).stderr
    need("usage: hall-person NAME [DESK..]" in usage, f"without words: {usage}")
    need(names_in("people", ":") == NAMES and names_in("desks", " ") == NAMES, "names are in order")
    said = tried(PERSON, "--remove", "10")
    need(
        said.returncode == 0
        and names_in("people", ":") == [n for n in NAMES if n != "10"]
        and names_in("desks", " ") == names_in("people", ":"),
        f"removed: {said}",
    )
    tried(PERSON, "anna")
    need(
        "anna" not in names_in("desks", " ") and names_in("people", ":")[-1] == "anna",
        "who is named anew without a desk may only look",
    )


def refused(*words: str) -> None:
    said = tried(PERSON, *words)
    need(
        said.returncode == 2 and said.stdout == "" and len(said.stderr) > 20,
        f"hall-person {words}: {said}",
    )


def check_at_once() -> None:
    """Several at once lose no line, and nobody else may read what they write meanwhile."""
    spies = f"{FOLDER}.spies"
    os.makedirs(spies)
    with open(f"{spies}/awk", "w", encoding="ascii") as spy:
        spy.write(SPY.format(folder=FOLDER))
    os.chmod(f"{spies}/awk", 0o755)
    where = os.environ | {"FRONT": FOLDER, "PATH": f"{spies}:{os.environ['PATH']}"}
    known = set(names_in("people", ":"))
    for turn in range(ROUNDS):
        fresh = [f"p{turn}.{place}" for place in range(AT_ONCE)]
        begun = [
            subprocess.Popen([PERSON, name, "103"], env=where, stdout=subprocess.DEVNULL)
            for name in fresh
        ]
        need([one.wait(120) for one in begun] == [0] * AT_ONCE, "each is let in")
        known.update(fresh)
        people = names_in("people", ":")
        need(set(people) == known and len(people) == len(known), f"{known} are in, told {people}")
        need(set(fresh) <= set(names_in("desks", " ")), f"{fresh} have their desk")
    with open(f"{FOLDER}/rights", encoding="ascii") as rights:
        seen = rights.read().split()
    need(len(seen) >= 2 * ROUNDS * AT_ONCE and set(seen) == {"600"}, f"rights {set(seen)}")
    os.remove(f"{FOLDER}/rights")
    need(set(os.listdir(FOLDER)) == {"people", "desks"}, f"left is {os.listdir(FOLDER)}")
    shown = [
        run("stat", "-c", "%a %U %G", f"{FOLDER}/{name}").strip() for name in ("people", "desks")
    ]
    need(shown == ["640 root www-data"] * 2, f"the files are {shown}")


def check_sites() -> None:
    """What can't be a hall at the front is refused, and what nginx refuses is put back."""
    before = content("/etc/hall/front")
    for book, port, doors, address in (
        ("day", 8471, 2, "Hall.example"),
        ("day", 8471, 2, "-a.example"),
        ("day", 8471, 2, "a..b"),
        ("day", 8471, 2, "a/b"),
        ("day", 8471, 2, "a" * 101),
        ("nobook", 0, 0, "b.example"),
        ("../day", 0, 0, "b.example"),
        ("tried", 8470, 2, "b.example"),
        ("tried", 8486, 2, "b.example"),
        ("tried", 8475, 0, "b.example"),
        ("tried", 84750, 1, "b.example"),
        ("tried", 8472, 1, "b.example"),
        ("tried", 8470 + 1, 1, "b.example"),
    ):
        if book == "tried":
            settle(port, doors)
        said = tried(SITE, book, address, FRONT="/etc/hall/front")
        need(said.returncode == 2 and len(said.stderr) > 20, f"{book} at {address}: {said}")
    settle(8475, 2)
    for words in ("", "tried", "tried b.example c.example", "--remove b.example"):
        said = tried(SITE, *words.split(), FRONT="/etc/hall/front")
        need(said.returncode == 2 and bool(said.stderr), f"hall-site {words}: {said}")
    said = tried(SITE, "tried", "b.example", FRONT="/etc/hall/front")
    need(said.returncode == 1 and "b.example.crt" in said.stderr, f"without a certificate: {said}")
    os.rename(f"/etc/hall/front/{NAME}.crt", "/etc/hall/kept.crt")
    said = tried(SITE, "tried", NAME, FRONT="/etc/hall/front")
    need(said.returncode == 1, f"another hall without a certificate: {said}")
    os.rename("/etc/hall/kept.crt", f"/etc/hall/front/{NAME}.crt")
    need(content("/etc/hall/front") == before, "what was refused changed a file")
    os.remove("/etc/hall/tried.env")


def settle(port: int, doors: int) -> None:
    with open("/etc/hall/tried.env", "w", encoding="ascii") as settings:
        settings.write(f"LANES=1\nPORT={port}\nDOORS={doors}\n")


def check_capitals(front: Any) -> None:
    """A name that differs from a desk's in capitals alone, as an earlier hall-person took it, is
    none to act by. New desks and passwords count at once, and who is removed is out at once."""
    people = "/etc/hall/front/people"
    with open(people, encoding="ascii") as lines:
        [line] = [line for line in lines if line.startswith("anna:")]
    with open(people, "a", encoding="ascii") as lines:
        lines.write(line.replace("anna:", "Anna:"))
    front.passwords["Anna"] = front.passwords["anna"]
    other = Person(front, "Anna")
    expect(other.send("GET", "/hall/summary"), 200, "Anna looks")
    expect(other.act(101, act="end", batch="A"), 403, "Anna acts as anna's desk")
    expect(Person(front, "dora").act(104, act="end", batch="A"), 401, "dora isn't let in yet")
    where = os.environ | {"FRONT": "/etc/hall/front"}
    front.passwords["dora"] = run(PERSON, "dora", "104", env=where).strip()
    dora = Person(front, "dora")
    expect(dora.act(104, act="product", name="rice104", nominal=100000), 200, "dora acts")
    expect(dora.act(101, act="end", batch="A"), 403, "dora as 101")
    run(PERSON, "--remove", "dora", env=where)
    expect(dora.send("GET", "/hall/summary"), 401, "dora is out")
