"""The archive's package in a booted Debian, by the commands of docs/OPERATING.md. Run by
tests/archive_package.sh; the next book there is that of next_installed.py.

usage: archive_installed.py DEBIAN      a folder with a Debian, which has in /root hall_*.deb,
                                        hall-archive_*.deb, archive_stamps.py and clients.py"""

import json
import re
import sys

from debian import Debian, need
from installed import ADDRESSES, PAGE, Served, read_blocks
from next_installed import handed_over

BOOK, ADDRESS = "2026-12", ADDRESSES[0]
PAGES = "hall-archive.service"
# What systemd finds exposed at most.
AIM = 2.0
LEVEL = re.compile(r"exposure level for (\S+): ([0-9.]+) ")
# An authority for the stamps, as archive_stamps.py has it, until it is ended.
AUTHORITY = """
import os, sys, time
sys.path[:0] = ["/root", "/usr/lib/hall-archive"]
from archive_stamps import Authority
os.makedirs("/run/authority", exist_ok=True)
own = Authority("/run/authority", "own")
print(own.url, flush=True)
time.sleep(3600)
"""


def is_active(debian: Debian, *units: str) -> None:
    for unit in units:
        said = debian.run(f"systemctl is-active {unit} || true").strip()
        need(said == "active", f"{unit} is {said}: " + debian.run(f"journalctl -n 20 -u {unit}"))


def follow_of(book: str) -> str:
    return f"hall-archive-follow@{book}.service"


def stamp_of(book: str, kind: str = "service") -> str:
    return f"hall-archive-stamp@{book}.{kind}"


def rows(debian: Debian, book: str) -> int:
    """How many rows of a book the archive has."""
    said = debian.run(
        'runuser -u hall-archive -- /usr/bin/python3 -c "import sqlite3;'
        " print(sqlite3.connect('/var/lib/hall-archive/archive.db')"
        f".execute('SELECT upto FROM book WHERE name = ?', ('{book}',)).fetchone()[0])\""
    )
    return int(said) if said.strip().isdecimal() else 0


def follows(debian: Debian, served: Served, book: str = BOOK) -> None:
    """What is done at the hall comes into the archive, with its person."""
    before = rows(debian, book)
    row = served.act(
        "anna", ADDRESS, act="tare", product="rice250", day="2026-12-02", tare=10100 + before
    )
    debian.wait(f"row {row} is followed", lambda: rows(debian, book) >= row, 30)
    path = f"/archive/acts?book={book}&person=anna"

    def is_there() -> bool:
        status, said = served.ask("anna", ADDRESS, path)
        return status == 200 and row in [one["row"] for one in json.loads(said)]

    debian.wait(f"row {row} has its person", is_there, 30)


def installed(debian: Debian, served: Served, blocks: dict[str, list[str]]) -> None:
    debian.run(f"echo 127.0.0.1 {' '.join(ADDRESSES)} >> /etc/hosts", 0)
    package, _, front, certificate = blocks["Install"]
    for commands in (package, front, certificate):
        debian.step(commands)
    begin, site, _ = blocks["A first day"]
    debian.step(begin)
    served.let_in("anna", debian.step(site))
    served.waits_for("anna", ADDRESS, "/", "<title>hall</title>")
    need(served.ask("anna", ADDRESS, "/archive/books")[0] == 502, "without an archive")
    fetch, *setup = blocks["The archive"]
    debian.step(fetch.replace("tools/package-archive\n", ""))
    for commands in setup:
        debian.step(commands)
    served.waits_for("anna", ADDRESS, "/archive/books", '"rows"')
    is_active(debian, follow_of(BOOK), PAGES, "hall-archive-read.socket")
    follows(debian, served)
    print("archive_package: installed by the commands of OPERATING, and follows", flush=True)


def rights(debian: Debian, book: str = BOOK) -> None:
    """What the archive's user, and nobody, may not do."""
    for user, command in (
        ("hall-archive", f"cat /var/lib/hall/{book}.book"),
        ("hall-archive", f"sh -c 'echo 1 > /run/hall-{book}/cell-1.txt'"),
        ("hall-archive", "curl -sS -m 5 http://127.0.0.1:8471/summary"),
        ("nobody", "cat /var/lib/hall-archive/archive.db"),
        ("nobody", "curl -sS -m 5 http://127.0.0.1:8490/books"),
        ("root", "curl -sS -m 5 http://127.0.0.1:8490/books"),
        ("nobody", "curl -sS -m 5 http://127.0.0.1:8475/summary"),
    ):
        said = debian.run(f"runuser -u {user} -- {command} >/dev/null 2>&1 && echo does it")
        need("does it" not in said, f"{user} does this: {command}")
    groups = debian.run("id -nG hall-archive", 0).split()
    need(groups == ["hall-archive"], f"the user is in {groups}")


def faults(debian: Debian, served: Served) -> None:
    """A killed follower begins again; the hall goes on without the archive, and is followed up."""
    follow = follow_of(BOOK)
    debian.run(f"systemctl kill -s KILL {follow}", 0)
    debian.wait(
        "it is begun again", lambda: debian.run(f"systemctl is-active {follow}") == "active\n"
    )
    follows(debian, served)
    debian.run(f"systemctl stop {follow} hall-archive", 0)
    need(served.ask("anna", ADDRESS, "/archive/books")[0] == 502, "stopped pages answer")
    row = served.act("anna", ADDRESS, act="product", name="rye", nominal=500000)
    need(served.rows("anna", ADDRESS) == row, "the hall goes on")
    debian.run(f"systemctl start {follow} hall-archive", 0)
    served.waits_for("anna", ADDRESS, "/archive/books", '"rows"')
    follows(debian, served)
    print("archive_package: killed and stopped, the hall goes on, and is followed up", flush=True)


def texts(debian: Debian) -> None:
    """The register and the sheets of the book, and the witness, with the hall at rest."""
    debian.run(f"systemctl stop hall@{BOOK}", 0)
    as_hall = f"runuser -u hall -- hall export --book /var/lib/hall/{BOOK}.book"
    as_archive = "runuser -u hall-archive -- hall-archive"
    wanted = debian.run(as_hall, 0)
    debian.run(f"systemctl stop {follow_of(BOOK)}", 0)
    taken = debian.run(f"{as_archive} take {BOOK} 2>&1", 0)
    need("sheets are the book's" in taken, f"take says {taken}")
    need(debian.run(f"{as_archive} register {BOOK}", 0) == wanted, "the register is another")
    said = debian.run(f"{as_archive} verify {BOOK} 2>&1", 0)
    need(re.search(r"\d+ lines and [1-9]\d* fingerprints hold", said), f"verify says {said}")
    debian.run(f"systemctl start hall@{BOOK} {follow_of(BOOK)}", 0)
    print(f"archive_package: register and sheets are the book's; {said.strip()}", flush=True)


def stamped(debian: Debian) -> None:
    """The timer waits for the night; its service stamps the newest line, by an authority here."""
    with open(f"{debian.folder}/root/authority.py", "w", encoding="utf-8") as file:
        file.write(AUTHORITY)
    debian.run("systemd-run --unit=authority --quiet /usr/bin/python3 /root/authority.py", 0)
    found = debian.wait(
        "an authority",
        lambda: re.search(r"http://127\S+", debian.run("journalctl -o cat -u authority")),
        60,
    )
    url = re.search(r"http://127[0-9.:]+/", found)
    assert url
    settings = "/etc/hall/archive.toml"
    debian.run(
        "cp /run/authority/own.ca.crt /etc/hall/stamps.pem"
        f" && sed -i 's|^#stamps = .*|stamps = \"{url[0]}\"|; s|^#authority|authority|' {settings}",
        0,
    )
    timer = stamp_of(BOOK, "timer")
    debian.run(f"systemctl enable --now {timer}", 0)
    due = debian.run(f"systemctl show -p NextElapseUSecRealtime {timer}", 0)
    need(" 03:1" in due or " 03:2" in due, f"the timer is due {due}")
    debian.run(f"systemctl start {stamp_of(BOOK)}", 0)
    files = debian.run(f"ls /var/lib/hall-archive/main.{BOOK}.witness.*.tsr", 0)
    said = debian.run(f"runuser -u hall-archive -- hall-archive verify {BOOK} 2>&1", 0)
    need("1 stamps hold" in said, f"verify says {said}")
    print(
        f"archive_package: a stamp by the timer's service, {files.split('/')[-1].strip()}",
        flush=True,
    )


def judged(debian: Debian) -> None:
    """What systemd says of the units: nothing, and how exposed each is."""
    units = [follow_of(BOOK), PAGES, stamp_of(BOOK)]
    more = ["hall-archive-read.socket", stamp_of(BOOK, "timer")]
    said = debian.run(f"systemd-analyze verify --man=no {' '.join(units + more)}", 0)
    need(said == "", f"systemd has a word on them: {said}")
    debian.run(
        "cp /lib/systemd/system/hall-archive-read@.service /run/hall-archive-read@1.service", 0
    )
    levels = []
    for unit in (*units, "--offline=true /run/hall-archive-read@1.service"):
        found = LEVEL.search(debian.run(f"systemd-analyze --no-pager security {unit} | tail -n 2"))
        need(found and float(found[2]) <= AIM, f"{unit} is exposed: {found and found[2]}")
        assert found
        levels.append(f"{found[1]} {found[2]}")
    print(f"archive_package: exposed {', '.join(levels)}", flush=True)


def begun_again(debian: Debian, served: Served, book: str) -> None:
    """After a start of the machine the book that is served now is followed, and no other."""
    debian.end()
    debian.begin()
    served.waits_for("anna", ADDRESS, "/archive/books", '"rows"')
    units = (f"hall@{book}", follow_of(book), PAGES, stamp_of(book, "timer"), "nftables.service")
    is_active(debian, *units)
    for unit in (f"hall@{BOOK}", follow_of(BOOK), stamp_of(BOOK, "timer")):
        need(debian.run(f"systemctl is-active {unit} || true").strip() == "inactive", unit)
    follows(debian, served, book)
    rights(debian, book)
    print("archive_package: after a start of the machine all is there again", flush=True)


def updated_and_purged(debian: Debian, served: Served, book: str) -> None:
    """Installed again over itself it follows on; purged, what it kept stays."""
    follow = follow_of(book)
    before = debian.run(f"systemctl show -p MainPID {follow}", 0)
    debian.run("apt-get install -y --reinstall /root/hall-archive_*.deb", 0)
    need(debian.run(f"systemctl show -p MainPID {follow}", 0) != before, "the old one follows on")
    follows(debian, served, book)
    debian.run("apt-get purge -y hall-archive", 0)
    places = "/usr/bin/hall-archive /usr/lib/hall-archive /lib/systemd/system/hall-archive*"
    left = debian.run(f"ls -d {places} 2>/dev/null || true")
    need(left == "", f"after a purge there are {left}")
    debian.run("[ -s /var/lib/hall-archive/archive.db ]", 0)
    said = debian.run(f"systemctl is-active {follow} hall-archive hall-archive-read.socket || true")
    need("\nactive" not in f"\n{said}", f"purged, there is {said}")
    row = served.act("anna", ADDRESS, act="product", name="corn", nominal=500000)
    need(served.rows("anna", ADDRESS) == row, "the hall goes on")
    print("archive_package: updated; purged, what it kept stays, and the hall goes on", flush=True)


def main() -> None:
    folder = sys.argv[1]
    with open(PAGE, encoding="utf-8") as page:
        blocks = read_blocks(page.read())
    debian = Debian(folder, f"{folder}.log")
    served = Served(debian)
    try:
        installed(debian, served, blocks)
        rights(debian)
        faults(debian, served)
        texts(debian)
        stamped(debian)
        judged(debian)
        book = handed_over(debian, served, BOOK)
        follows(debian, served, book)
        begun_again(debian, served, book)
        updated_and_purged(debian, served, book)
        debian.end()
    except BaseException:
        print(debian.run("systemctl --failed; journalctl -n 60 --no-pager"), file=sys.stderr)
        raise
    finally:
        debian.kill()


main()
