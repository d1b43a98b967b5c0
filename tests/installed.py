"""The commands of docs/OPERATING.md, word for word, in a booted Debian: from the installation to
served days of three books at three addresses. Run by tests/package.sh.

usage: installed.py DEBIAN      a folder with a Debian, which has in /root hall_*.deb, a checkout,
                                and the programs `program` and, where it was built, `prove`
"""

import json
import re
import sys
from typing import Any

from debian import Debian, need

PAGE = "docs/OPERATING.md"
CURL = "curl -sS --cacert /etc/hall/authority.crt"
ADDRESSES = ("hall.example", "old.hall.example", "juice.hall.example")
# What an installed hall has, as a page names it or a person looks for it.
PLACES = """
    /usr/bin/hall /usr/sbin/hall-person /usr/sbin/hall-site /usr/sbin/hall-backup
    /usr/sbin/hall-status /usr/lib/hall/start /usr/lib/hall/planned /usr/lib/hall/watch
    /usr/lib/hall/stop
    /usr/lib/hall/list /usr/lib/hall/in_force.py /lib/systemd/system/hall@.service
    /lib/systemd/system/hall-list@.service /lib/systemd/system/hall-lane@.service
    /lib/systemd/system/hall-backup@.timer /usr/share/hall/nginx.conf /usr/share/hall/site.conf
    /usr/share/hall/desks.js /usr/share/hall/pages.js /usr/share/hall/hall.env
    /usr/share/hall/www/index.html
    /usr/share/hall/scales/lane.sh /usr/share/hall/scales/gate.sh /usr/bin/hall-adapter
    /usr/bin/hall-inspect /usr/bin/hall-count /usr/bin/hall-appendix
    /usr/share/hall/scales/scale_sender.py
    /usr/share/hall/standby.sh /usr/share/hall/shipments.py /etc/hall/hall.nft
    /usr/share/bash-completion/completions/hall /usr/share/doc/hall/examples/draw_again.sh
    /usr/share/doc/hall/examples/papers/released.txt /usr/share/doc/hall/docs/screen_board.png
    /usr/sbin/hall-next /usr/lib/hall/next_book.py /usr/lib/hall/next_move.py
    /usr/lib/hall/next_hand_over.py /usr/lib/hall/next_after.py /usr/lib/hall/next_place.py
    /usr/lib/hall/next_list.py
    /usr/lib/hall/day /usr/lib/hall/standby /lib/systemd/system/hall-day@.timer
    /lib/systemd/system/hall-day@.service /lib/systemd/system/hall-standby@.service
""".split()
LINK = re.compile(r"\]\(([^)#]+)(?:#[^)]*)?\)")
# A link elsewhere, or to what stands in the repository alone, or elsewhere in a package.
SOURCE = re.compile(r"https?:|(\.\./)*(crates|tests|bench|tools|prove|www|inspector|adapters)\b")


def read_blocks(page: str) -> dict[str, list[str]]:
    """The blocks of commands of a page, by chapter."""
    found: dict[str, list[str]] = {}
    chapter, block = "", None
    for line in page.splitlines():
        if line.startswith("## ") and block is None:
            chapter = line[3:]
        elif line == "```sh":
            block = ""
        elif line == "```" and block is not None:
            found.setdefault(chapter, []).append(block)
            block = None
        elif block is not None:
            block += line + "\n"
    return found


class Served:
    """What is asked through the front, by who was let in."""

    def __init__(self, debian: Debian):
        self.debian = debian
        self.passwords: dict[str, str] = {}

    def let_in(self, name: str, said: str) -> None:
        """Takes down the password that hall-person says last."""
        self.passwords[name] = said.split()[-1]
        need(re.fullmatch("[A-Za-z0-9_-]{20}", self.passwords[name]), f"no password: {said}")

    def curl(self, name: str, address: str, path: str, *more: str) -> str:
        return (
            f"{CURL} -u '{name}:{self.passwords[name]}' -w '\\n%{{http_code}}'"
            f" {' '.join(more)} 'https://{address}{path}'"
        )

    def ask(self, name: str, address: str, path: str, *more: str) -> tuple[int, str]:
        """The status and the body that somebody gets."""
        said = self.debian.run(self.curl(name, address, path, *more), 0)
        body, status = said.rsplit("\n", 1)
        return int(status), body

    def text(self, name: str, address: str, path: str) -> str:
        status, body = self.ask(name, address, path)
        need(status == 200, f"{path} of {address} is answered {status} for {name}: {body}")
        return body

    def waits_for(self, name: str, address: str, path: str, word: str) -> None:
        """Waits until a text has a word; a front that is reloaded may not know the address yet."""
        asked = self.curl(name, address, path)
        self.debian.wait(f"{word} in {path} of {address}", lambda: word in self.debian.run(asked))

    def rows(self, name: str, address: str) -> int:
        found = re.match(r"rows (\d+)$", self.text(name, address, "/hall/summary"), re.MULTILINE)
        assert found
        return int(found[1])

    def post(
        self, name: str, address: str, members: dict[str, object]
    ) -> tuple[int, dict[str, Any]]:
        """The status and the members of what an act of desk 101 is answered."""
        body = json.dumps({"desk": 101} | members)
        status, said = self.ask(name, address, "/hall/acts", "--data", f"'{body}'")
        need(status in (200, 409), f"{body} at {address} is answered {status}: {said}")
        return status, json.loads(said)

    def last(self, name: str, address: str) -> int:
        """The number of the desk's last act there, by the refusal of one under 0."""
        return int(
            self.post(name, address, {"request": 0, "act": "day", "day": "2026-12-01"})[1]["kept"]
        )

    def act(self, name: str, address: str, /, **members: object) -> int:
        """The row of an act of desk 101 under its next number."""
        number = {"request": self.last(name, address) + 1}
        status, said = self.post(name, address, number | members)
        need(status == 200, f"{members} at {address} is answered {said}")
        return int(said["row"])


def check_files(debian: Debian, how: str) -> None:
    """Everything is there, and a link of a page leads to a file there, or to the sources."""
    for place in PLACES:
        debian.run(f"[ -s {place} ]", 0)
    debian.run(
        "man -w hall hall-adapter hall-person hall-site >/dev/null 2>&1 || "
        "ls /usr/share/man/man1/hall.1* /usr/share/man/man1/hall-adapter.1*"
        " /usr/share/man/man8/hall-person.8*"
        " /usr/share/man/man8/hall-site.8*",
        0,
    )
    pages = debian.run("cd /usr/share/doc/hall && echo README.md docs/*.md docs/lines/*.md", 0).split()
    for page in pages:
        text = debian.run(f"cat /usr/share/doc/hall/{page}", 0)
        here = page.rpartition("/")[0]
        for link in set(LINK.findall(text)):
            if not SOURCE.match(link):
                debian.run(
                    f"[ -e '/usr/share/doc/hall/{here}/{link}' ]"
                    f" || {{ echo {page} names {link}; false; }}",
                    0,
                )
    print(f"package: {how}, everything is in its place", flush=True)


def first_day(debian: Debian, served: Served, blocks: list[str]) -> None:
    begin, site, lane = blocks
    said = debian.step(begin)
    need("rows 4" in said, f"the book begins with {said}")
    served.let_in("anna", debian.step(site))
    address = ADDRESSES[0]
    served.waits_for("anna", address, "/", "<title>hall</title>")
    need(debian.step(lane).split("\n")[:2] == ["open 6", "open 8"], "the gate opens for 6 and 8")
    said = debian.run("hall-status 2026-12 2>&1")
    need("lane 1" in said and "MORNING" in said, f"hall-status says {said}")
    # the hall of before has ended, and the new one serves
    served.waits_for("anna", address, "/hall/packs/6", "pass passed")
    need("reject inadequate rejected" in served.text("anna", address, "/hall/packs/7"), "pack 7")
    rows = served.rows("anna", address)
    for request, name in enumerate(("rye", "oats"), 1):
        row = served.act("anna", address, act="product", name=name, nominal=500000)
        need(row == rows + request, f"an act is row {row}, behind {rows}")
    # a running book is read without its newest row
    served.waits_for("anna", address, "/list.txt", "product rye nominal 500.000 g")
    check_rights(debian)
    print("package: a first day is served, as its commands say", flush=True)


def check_rights(debian: Debian) -> None:
    """The list and the book are nobody else's, nor are the doors."""
    shown = debian.run("stat -c '%a %U %G' /run/hall/2026-12 /run/hall/2026-12/list.txt", 0)
    need(shown == "2750 hall www-data\n640 hall www-data\n", f"what is shown is {shown}")
    as_nobody = "setpriv --reuid=nobody --regid=nogroup --clear-groups"
    for command in (
        "cat /run/hall/2026-12/list.txt",
        "cat /var/lib/hall/2026-12.book",
        "cat /etc/hall/front/people",
        "cat /etc/hall/authority.key",
        "curl -sS -m 5 http://127.0.0.1:8471/summary",
    ):
        said = debian.run(f"{as_nobody} {command} >/dev/null && echo reads it")
        need("reads it" not in said, f"nobody does this: {command}")


def next_book(debian: Debian, served: Served, blocks: list[str]) -> None:
    said = debian.step("".join(blocks))
    need(
        "product rice250 nominal 250.000 g tare 10.000" in said and "batch MORNING" in said,
        f"the old book's list: {said}",
    )
    served.waits_for("anna", ADDRESSES[0], "/hall/lanes/1", "batch FIRST")
    served.waits_for("anna", ADDRESSES[0], "/list.txt", "batch FIRST")
    need("MORNING" not in served.text("anna", ADDRESSES[0], "/list.txt"), "the new book's list")
    rows = served.rows("anna", ADDRESSES[0])
    need(served.last("anna", ADDRESSES[0]) == 0, "the desk counts from 1 again")
    need(
        served.act("anna", ADDRESSES[0], act="product", name="oats", nominal=500000) == rows + 1,
        "an act is the next row of the new book",
    )
    print("package: the next book is served at the same address", flush=True)


def two_halls(debian: Debian, served: Served, blocks: list[str]) -> None:
    new, old, juice = ADDRESSES
    one_front, a_front_each = blocks
    debian.step(one_front)
    served.waits_for("anna", old, "/hall/batches/MORNING", "state running")
    served.let_in("carl", debian.step(a_front_each))
    served.waits_for("carl", juice, "/hall/lanes/1", "batch MORNING")
    for address, name, batch in (
        (new, "anna", "FIRST"),
        (old, "anna", "MORNING product rice250"),
        (juice, "carl", "MORNING product juice500"),
    ):
        served.waits_for(name, address, "/list.txt", f"batch {batch}")
        before = served.rows(name, address)
        need(
            served.act(name, address, act="product", name="salt", nominal=500000) == before + 1,
            f"{name} acts at {address}",
        )
    for name, address in (("anna", juice), ("carl", new), ("carl", old)):
        need(served.ask(name, address, "/")[0] == 401, f"{name} isn't let in at {address}")
    debian.run("systemctl stop hall@2027-01", 0)
    need(served.ask("anna", new, "/hall/summary")[0] == 502, "a hall that was stopped")
    need(served.rows("anna", old) and served.rows("carl", juice), "the others go on")
    debian.run("systemctl start hall@2027-01", 0)
    taken = debian.run(
        "cp /etc/hall/juice.env /etc/hall/third.env; cd /etc/hall/juice;"
        " for end in crt key; do cp juice.hall.example.$end third.example.$end; done;"
        " FRONT=/etc/hall/juice hall-site third third.example",
        2,
    )
    need("port 8481 is a door in /etc/hall/juice/juice.hall.example.conf" in taken, taken)
    debian.run("rm /etc/hall/third.env /etc/hall/juice/third.example.*", 0)
    print("package: two halls with one front, and a third with its own people", flush=True)


def people(debian: Debian, served: Served, blocks: list[str]) -> None:
    said = debian.step("".join(blocks)).split()
    served.let_in("wall", said[0])
    served.let_in("ben", said[1])
    need(served.ask("wall", ADDRESSES[0], "/hall/summary")[0] == 200, "the wall looks")
    need(served.ask("ben", ADDRESSES[0], "/hall/summary")[0] == 401, "ben is out again")


def start_again(debian: Debian, served: Served) -> None:
    """At the next start of the machine everything is there, but for the old book."""
    debian.end()
    debian.begin()
    served.waits_for("anna", ADDRESSES[0], "/hall/lanes/1", "batch FIRST")
    served.waits_for("carl", ADDRESSES[2], "/hall/lanes/1", "batch MORNING")
    need(served.ask("anna", ADDRESSES[1], "/hall/summary")[0] == 502, "the old book isn't served")
    need("skuid" in debian.run("nft list table inet hall", 0), "the walls are there")
    print("package: after a start of the machine all is served again", flush=True)


def by_hand(debian: Debian, served: Served, command: str) -> None:
    """Purged, and installed from a checkout in place of the package: the same is in its place."""
    # halls that end in good order end their lanes, and keep a snapshot
    debian.run("systemctl stop 'hall@*' nginx", 0)
    sums = debian.run("cd /var/lib/hall && sha256sum *.book", 0)
    files = "find /usr /lib/systemd /etc/hall -xdev -path '*hall*' -type f | sort"
    before = debian.run(f"{files} | grep -v '/doc/hall/c\\|dpkg'", 0)
    debian.run("apt-get purge -y hall", 0)
    left = debian.run(
        "ls -d /usr/bin/hall* /usr/share/hall /etc/hall/*/people /lib/systemd/system/"
        "hall* 2>/dev/null || true"
    )
    need(left == "", f"after a purge there are {left}")
    debian.step(
        "cd /root/checkout\nexport HALL=/root/program\n"
        "if [ -e /root/prove ]; then export PROVE=/root/prove; fi\n"
    )
    debian.step(command)
    after = debian.run(f"{files} | sed 's/\\(man.*[0-9]\\)$/\\1.gz/' | sort", 0)
    lost = sorted(set(before.split()) - set(after.split()))
    need(
        all(re.match(r"/etc/hall/\w+/(people|desks|.*\.conf)$", path) for path in lost),
        f"by hand there isn't {lost}",
    )
    need(debian.run("cd /var/lib/hall && sha256sum *.book", 0) == sums, "the books stay")
    check_files(debian, "by hand")
    debian.run("hall-site 2027-01 hall.example && systemctl restart nginx hall@2027-01", 0)
    served.let_in("anna", debian.run("hall-person anna 101", 0))
    served.waits_for("anna", ADDRESSES[0], "/hall/lanes/1", "batch FIRST")


def work(debian: Debian) -> None:
    with open(PAGE, encoding="utf-8") as page:
        blocks = read_blocks(page.read())
    served = Served(debian)
    debian.run(f"echo 127.0.0.1 {' '.join(ADDRESSES)} >> /etc/hosts", 0)
    package, checkout, front, certificate = blocks["Install"]
    debian.step(package)
    check_files(debian, "by the package")
    debian.step(front)
    debian.step(certificate)
    first_day(debian, served, blocks["A first day"])
    debian.step(blocks["Backup"][0])
    debian.run("hall check --book /var/backups/hall/2026-12.*.book", 0)
    next_book(debian, served, blocks["A book's life"])
    two_halls(debian, served, blocks["Two halls on one machine"])
    people(debian, served, blocks["People and desks"])
    start_again(debian, served)
    by_hand(debian, served, checkout)


def main() -> None:
    folder = sys.argv[1]
    debian = Debian(folder, f"{folder}.log")
    try:
        work(debian)
        debian.end()
    except BaseException:
        print(debian.run("systemctl --failed; journalctl -n 40 --no-pager"), file=sys.stderr)
        raise
    finally:
        debian.kill()


if __name__ == "__main__":
    main()
