"""What the front lets through, and what it keeps from the doors. Run by tests/front.sh."""

import json
import ssl
import statistics
import sys
import threading
import time

from clients import need
from front_clients import Person, Reply, connect, expect
from front_people import check_at_once, check_capitals, check_names, check_sites
from front_room import (BOOK, FIRST_PORT, NAME, SHOWN, Front, add_hall_user, make_hall, mount_room,
                        run, run_as_hall, wait_until)
from front_changes import check_changes
from front_walls import check_two_halls, check_transport, check_walls
from rows import rows_behind

# How many rows, or packs, an answer of the office has at most.
PAGE = 128
# A batch of more packs than an answer has, whose lines are the longest but for their numbers.
LONG = "WEIHNACHTSMISCHUNG-2026-12-01-AB"
SETUP = ("day 2025-03-03\nproduct rice250 250\ntare rice250 2025-03-03 10\nopen A rice250\n"
         f"open {LONG} rice250\nstart 16 {LONG}\n" + "weigh 16 241.999\n" * (PAGE + 1)
         + "stop 16\n")
# A number up to 16 is a lane.
PEOPLE = {"anna": [101, 102, 1], "ben": [103, 2], "wall": []}
# Seconds within which the others are mostly answered, whatever the rest does, and always, on a busy
# machine too: a door that a slow request held would be held until the front leaves it, for 10 s.
PROMPT, HELD = 2.0, 8.0
# Seconds for which the front waits for a free door before it says 502.
PATIENCE = 10.0
# How many connections a crowd has, and how often each asks; seconds in which it is done, however
# busy the machine, since the front says 502 behind its patience; and how many questions are
# answered.
CONNECTIONS, QUESTIONS = 200, 10
CROWD = QUESTIONS * (PATIENCE + 2)
SERVED = CONNECTIONS * QUESTIONS // 2


def compare_book(front, book, setup):
    """The rows behind the setup are the acts that were told, those sent bare among them."""
    for row in rows_behind(book, setup):
        desk, request, members = front.told.pop(row.number)
        need((row.desk, row.request) == (desk, request) and members.items() <= row.act.items(),
             f"{row} for {members} of {desk}")
    need(not front.told, f"told and not in the book: {front.told}")


def check_passwords(front):
    for name in ("", "anne"):
        stranger = Person(front, name)
        for path in ("/", "/main.js", "/hall/summary", "/list.txt", "/settings.json"):
            expect(stranger.send("GET", path), 401, f"{name or 'nobody'} at {path}")
        expect(stranger.act(101, act="end", batch="A"), 401, "an act without a password")
    wall = Person(front, "wall")
    page = wall.send("GET", "/")
    expect(page, 200, "the page")
    policy = page.fields["content-security-policy"]
    need("default-src 'none'" in policy and "unsafe" not in policy, f"policy {policy}")
    expect(wall.send("GET", "/hall/summary"), 200, "the wall asks")
    for page, text in (("list.txt", "rows 4 left 6\n"), ("lanes.txt", "lane 1 weighing\n")):
        expect(wall.send("GET", f"/{page}"), 404, f"a {page} that nobody writes")
        with open(f"{SHOWN}/{page}", "w", encoding="ascii") as file:
            file.write(text)
        reply = wall.send("GET", f"/{page}")
        need((reply.status, reply.body.decode()) == (200, text), f"{page} is {reply.body}")
    expect(wall.act(101, act="end", batch="A"), 403, "the wall acts")
    try:
        connect(name="other.example").close()
        need(False, "another name was answered")
    except ssl.SSLError:
        pass


def check_origins(front):
    anna = Person(front, "anna")
    for more, status in (
            ("Origin: https://elsewhere.example\r\n", 403), ("Origin: null\r\n", 403),
            (f"Origin: http://{NAME}\r\n", 403), (f"Origin: https://{NAME}\r\n", 200),
            ("Sec-Fetch-Site: cross-site\r\n", 403), ("Sec-Fetch-Site: same-site\r\n", 403),
            ("Sec-Fetch-Site: same-origin\r\n", 200), ("Sec-Fetch-Site: none\r\n", 200),
            (f"Origin: https://{NAME}\r\nSec-Fetch-Site: cross-site\r\n", 403)):
        expect(anna.send("GET", "/hall/summary", more=more), status, more.strip())
    body = b'{"act":"day","desk":101,"request":1,"day":"2025-03-04"}'
    foreign = anna.send("POST", "/hall/acts", body, "Origin: https://elsewhere.example\r\n")
    expect(foreign, 403, "an act from a page elsewhere")


def check_paths(front):
    anna = Person(front, "anna")
    for method, path, status in (
            ("GET", "/hall/acts", 405), ("POST", "/hall/summary", 405), ("PUT", "/hall/acts", 405),
            ("GET", "/hall/nothing", 404), ("GET", "/door/summary", 404), ("GET", "/hall/", 404),
            ("GET", "/hall/packs/x", 404), ("GET", "/hall/batches/A/sample/x", 404),
            ("GET", "/hall/lanes/1", 200), ("GET", "/hall/batches/A", 200),
            ("GET", "/hall/batches/A/sample", 409), ("GET", "/hall/packs/1", 409),
            ("GET", "/hall/acts/0", 200), ("POST", "/hall/acts/0", 405),
            ("GET", "/hall/acts/x", 404), ("GET", "/hall/acts/0/1", 404),
            ("GET", "/hall/batches/A/packs/0", 200), ("GET", "/hall/batches/B/packs/0", 409),
            ("GET", "/hall/batches/A/packs/x", 404), ("POST", "/hall/batches/A/packs/0", 405),
            ("GET", "/hall/batches/A/packs", 404), ("GET", "/hall/batches/A/packs/0/0", 404),
            ("GET", "/hall/batches/A/packs/4294967295", 200),
            ("GET", "/hall/batches/A/packs/4294967296", 404),
            # shipments are for a standby's own door
            ("GET", "/hall/rows/0", 404), ("POST", "/hall/rows/0", 404),
            ("GET", "/hall/%2e%2e/etc/passwd", 404), ("POST", "/index.html", 403)):
        expect(anna.send(method, path), status, f"{method} {path}")


def anna_again(front):
    """Anna, who goes on behind what her desk asked in the checks before."""
    anna = Person(front, "anna")
    anna.requests[101] = max((request for desk, request, _ in front.told.values() if desk == 101),
                             default=0)
    return anna


def check_pages(front, program, book):
    """A page of 128 packs, and one of 128 rows, with names of 32 bytes come through whole."""
    anna = anna_again(front)
    packs = [f"pack {number} batch {LONG} lane 16 gross 241.999 net 231.999 inadequate reject"
             " inadequate rejected\n" for number in range(7, 7 + PAGE + 1)]
    for above, page in ((0, packs[:PAGE]), (7, packs[1:]), (6 + PAGE, packs[PAGE:]),
                        (7 + PAGE, [])):
        reply = anna.send("GET", f"/hall/batches/{LONG}/packs/{above}")
        expect(reply, 200, f"packs above {above}")
        need(reply.body.decode("ascii") == "".join(page) and len(page) in (0, 1, PAGE),
             f"packs above {above}: {len(reply.body)} bytes for {len(''.join(page))}")
        need("content-type" in reply.fields and reply.fields["content-type"] == "text/plain",
             f"packs are {reply.fields.get('content-type')}")
    juice = "j" * 32
    expect(anna.act(101, act="product_ml", name=juice, nominal=1000000), 200, "juice")
    rows = int(anna.send("GET", "/hall/summary").fields["book-row"])
    for number in range(PAGE + 1):
        reply = anna.act(101, act="open_at", batch=f"{number:032}", product=juice, density=1040500)
        expect(reply, 200, f"batch {number}")
    # of a running book all but the newest row are read
    text = run(program, "acts", "--book", book, "--after", str(rows))
    reply = anna.send("GET", f"/hall/acts/{rows}")
    expect(reply, 200, "a page")
    need(reply.body.decode("ascii") == text and text.count("\n") == PAGE and len(text) > 12_000,
         f"a page of {len(reply.body)} bytes for {len(text)}")
    reply = anna.send("GET", f"/hall/acts/{rows + PAGE + 1}")
    need((reply.status, reply.body) == (200, b""), f"behind the last row: {reply.body}")


UNREADABLE = [
    b'', b'{}', b'[]', b'{"desk":101', b'{"act":"end","batch":"A","request":1}',
    b'{"act":"end","desk":103,"request":1,"batch":"A"}',
    b'{"act":"end","desk":101,"desk":103,"request":1,"batch":"A"}',
    b'{"act":"end","desk":103,"desk":101,"request":1,"batch":"A"}',
    b'{"act":"end","desk":101,"\\u0064esk":103,"request":1,"batch":"A"}',
    b'{"act":"end","\\u0064esk":101,"request":1,"batch":"A"}',
    b'{"act":"end","desk":"101","request":1,"batch":"A"}',
    b'{"act":"end","desk":101.0,"request":1,"batch":"A"}',
    b'{"act":"end","desk":0101,"request":1,"batch":"A"}',
    b'{"act":"end","desk":[101],"request":1,"batch":"A"}',
    b'{"act":"end","batch":"\\"desk\\":101","desk":103,"request":1}',
    b'{"act":"end","desk":103,"request":1,"batch":"A","reason":"\\",\\"desk\\":101,"}',
    b'{"act":"end","desk":103,"request":1,"batch":"A","reason":",","desk":101}',
    b'{"act":"end","desk":101,"request":1,"batch":"A","reason":"\\x"}',
    b'{"act":"end","desk":101,"request":1,"batch":"A","reason":"\\u12"}',
    b'{"act":"end","desk":101,"request":1,"batch":"A","reason":"\\"}',
    b'{"act":"end","desk":101,"request":1,"batch":"A"}{"desk":103}',
]


REASONS = [
    "torn", "", "it's \"twice\"", "C:\\rice\\", "two\nlines\tand a tab",
    "Beutel gerissen: äöüß €", "🍚",
    '","desk":103,"x":"', '{"act":"end"}', "\\u0064esk", "\x00\x1f\x7f", "a" * 3500,
]


def read_log():
    """The front's lines of acts, as far as they are whole."""
    with open("/var/log/nginx/hall-acts.log", encoding="utf-8") as log:
        text = log.read()
    return text[: text.rfind("\n") + 1]


def behind_reasons(text):
    """The status of each line behind the last one with a reason."""
    behind = text.rpartition('\\"reason\\"')[2].splitlines()[1:]
    return [json.loads(line)["status"] for line in behind]


def check_reasons(front):
    """Each text that a person may type goes through, and stands in the line of the act with its
    person and row; a refused act has a line too. No line has a password."""
    anna = anna_again(front)
    acts = []
    for place, reason in enumerate(REASONS):
        members = {"act": "product", "name": f"r{place}", "nominal": 100000}
        body = json.dumps({"desk": 101, "request": anna.requests.get(101, 0) + 1} | members
                          | {"reason": reason}, ensure_ascii=bool(place % 2))
        reply = anna.send("POST", "/hall/acts", body.encode())
        expect(reply, 200, f"reason {reason!r}")
        row = json.loads(reply.body)["row"]
        anna.requests[101] = anna.requests.get(101, 0) + 1
        front.told[row] = (101, anna.requests[101], members)
        acts.append((str(row), reason))
    expect(anna.act(101, act="product", name="r0", nominal=100000), 409, "a product that is there")
    expect(Person(front, "anne").act(101, act="end", batch="A"), 401, "nobody acts")
    # a line is written behind its answer
    wait_until(lambda: {"409", "401"} <= set(behind_reasons(read_log())), read_log)
    text = read_log()
    lines = [json.loads(line) for line in text.splitlines()]
    need(not any(word in text for word in front.passwords.values()), "a password is in the log")
    told = [(line["row"], json.loads(line["body"])["reason"]) for line in lines
            if line["status"] == "200" and "reason" in line["body"]]
    need(told == acts, f"the log says {told} of {acts}")
    need(all(line["person"] == "anna" and line["book"] == BOOK and float(line["time"]) > 0
             and float(line["took"]) >= 0 for line in lines if '"reason"' in line["body"]),
         "person, book and times")


def check_desks(front):
    """Each speaks as their own desks alone, and what can't be read reaches no door."""
    anna, ben = Person(front, "anna"), Person(front, "ben")
    rows = anna.send("GET", "/hall/summary").fields["book-row"]
    for body in UNREADABLE:
        expect(anna.send("POST", "/hall/acts", body), 403, body)
    expect(ben.act(101, act="end", batch="A"), 403, "ben as 101")
    need(anna.send("GET", "/hall/summary").fields["book-row"] == rows, "a refused body acted")
    for person, desk, name in ((anna, 101, "rice100"), (anna, 102, "rice101"),
                               (ben, 103, "rice103")):
        reply = person.act(desk, act="product", name=name, nominal=100000)
        expect(reply, 200, f"desk {desk}")
        row = str(json.loads(reply.body)["row"])
        need(reply.fields["book-row"] == row, "Book-Row is handed on")
        need(reply.fields["book-name"] == BOOK, "an answer names its book")


def check_bodies(front):
    ben = Person(front, "ben")
    ben.requests[103] = 1
    good = b'{"act":"product","desk":103,"request":2,"name":"chunked","nominal":100000}'
    members = {"act": "product", "nominal": 100000}
    long = good[:-1] + b' ' * 5000 + b'}'
    expect(ben.send("POST", "/hall/acts", long), 413, "a body of 5 000 bytes")
    expect(ben.chunked(long), 413, "a chunked body of 5 000 bytes")
    reply = ben.chunked(good)
    expect(reply, 200, "a chunked act")
    front.told[json.loads(reply.body)["row"]] = (103, 2, members | {"name": "chunked"})
    full = b'{"act":"product","desk":103,"request":3,"name":"full","nominal":100000'
    reply = ben.send("POST", "/hall/acts", full.ljust(4095) + b"}")
    expect(reply, 200, "a body of 4 096 bytes")
    front.told[json.loads(reply.body)["row"]] = (103, 3, members | {"name": "full"})


def asked_meanwhile(front, seconds):
    """What anna waits for answers of the doors, who asks for so many seconds, and beside each for a
    page, which reaches no door."""
    anna = Person(front, "anna")
    end = time.monotonic() + seconds
    doors, pages = [], []
    while time.monotonic() < end:
        doors.append(waited(anna, "/hall/summary", (200, 502)))
        pages.append(waited(anna, "/icon.svg", (200,)))
        time.sleep(0.02)
    return doors, pages


def waited(person, path, statuses):
    """Seconds until a question is answered. That no door was free is said behind PATIENCE."""
    began = time.monotonic()
    reply = person.send("GET", path)
    need(reply.status in statuses, f"{path} meanwhile: {reply.status}, {reply.body[:200]}")
    return time.monotonic() - began


def need_prompt(doors, pages):
    """That no door is held."""
    said = spell(doors, pages)
    need(statistics.median(doors) < PROMPT and max(doors) < HELD, f"anna was kept waiting: {said}")
    return said


def spell(doors, pages):
    return (f"{len(doors)} questions, the median {statistics.median(doors):.3f} s, the longest"
            f" {max(doors):.3f} s for a page's {max(pages):.3f} s")


def check_slow(front):
    """Bodies and heads that don't come to their end hold no door, and are left."""
    ben = Person(front, "ben", "127.0.0.3")
    links = [connect(ben.source) for _ in range(40)]
    for place, link in enumerate(links):
        head = ben.head("POST", "/hall/acts", "Content-Length: 60\r\n")
        link.sendall(head + b'{"act":' if place % 2 else head[:20])
    said = need_prompt(*asked_meanwhile(front, 12))
    left = sum(1 for link in links if is_left(link))
    need(left == len(links), f"{left} of {len(links)} slow connections are left behind 12 s")
    print(f"front: 40 slow requests held no door: {said}")


def is_left(link):
    """Whether the front left a connection, with an answer or without."""
    link.settimeout(0.5)
    try:
        while link.recv(65536):
            pass
        return True
    except TimeoutError:
        return False
    except OSError:
        return True


def links_to_doors():
    """How many connections are held to the doors."""
    said = run("ss", "-Htn", "state", "established", f"dport >= {FIRST_PORT}", "and",
               f"dport < {FIRST_PORT + 2}")
    return len(said.splitlines())


def check_many(front):
    """A crowd at once; the doors go on serving anna. On a busy machine some are told that no door
    was free, not before the front's patience is over."""
    answers, unserved, held = [], [], []
    ready = threading.Barrier(CONNECTIONS + 1)

    def ask_all(number):
        ben = Person(front, "ben", f"127.0.0.{10 + number % 4}")
        with connect(ben.source) as link:
            ready.wait()
            for _ in range(QUESTIONS):
                began = time.monotonic()
                link.sendall(ben.head("GET", "/hall/summary"))
                status = Reply(link).status
                answers.append(status)
                if status == 502:
                    unserved.append(time.monotonic() - began)

    askers = [threading.Thread(target=ask_all, args=(number,), daemon=True)
              for number in range(CONNECTIONS)]
    for asker in askers:
        asker.start()
    ready.wait()
    ready_at = time.monotonic()
    counter = threading.Timer(0.5, lambda: held.append(links_to_doors()))
    counter.start()
    waits = asked_meanwhile(front, 3)
    for asker in askers:
        asker.join(max(0, ready_at + CROWD - time.monotonic()))
    took = time.monotonic() - ready_at
    told = {status: answers.count(status) for status in set(answers)}
    need(len(answers) == CONNECTIONS * QUESTIONS and set(told) <= {200, 429, 502}
         and told.get(200, 0) > SERVED, f"a crowd was told {told} in {took:.1f} s")
    need(min(unserved, default=PATIENCE) > 0.9 * PATIENCE,
         f"no door was free for {min(unserved, default=0):.2f} s, and 502 was said")
    need(held[0] <= 2, f"{held[0]} connections are held to two doors")
    # where the machine serves so many too slowly for the front, anna is one of the crowd
    said = spell(*waits)
    need(unserved or max(waits[0]) < HELD, f"anna was kept waiting in a crowd: {said}")
    need_prompt(*asked_meanwhile(front, 2))
    print(f"front: {CONNECTIONS} connections were told {told} in {took:.1f} s; meanwhile {said}; "
          f"{held[0]} connections to the doors")


def check_stopped_hall(front, hall):
    """Without its hall the front says so, soon, and goes on when the hall is there again."""
    hall.kill()
    began = time.monotonic()
    expect(Person(front, "anna").send("GET", "/hall/summary"), 502, "no hall")
    need(time.monotonic() - began < 10, "the front waits too long for a hall that isn't there")


def main():
    program, folder = sys.argv[1:]
    mount_room()
    add_hall_user()
    program = run_as_hall(program, folder)
    book = f"{folder}/front.book"
    hall = make_hall(program, f"{folder}/hall", SETUP, [], book)
    front = Front(PEOPLE)
    # by row: the desk, the request and the act that was told it
    front.told = {}
    check_names()
    check_at_once()
    check_sites()
    front.start()
    for check in (check_passwords, check_transport, check_capitals, check_origins, check_paths,
                  check_desks, check_changes, check_bodies, check_slow, check_many,
                  check_reasons):
        check(front)
        print(f"front: {check.__name__} holds", flush=True)
    check_pages(front, program, book)
    check_two_halls(front, program, folder)
    check_walls(front, hall, lambda: make_hall(program, f"{folder}/hall", "", [], book))
    again = make_hall(program, f"{folder}/hall", "", [], book)
    rows = Person(front, "wall").send("GET", "/hall/summary").fields["book-row"]
    check_stopped_hall(front, again)
    again = make_hall(program, f"{folder}/hall", "", [], book)
    wait_until(lambda: Person(front, "wall").send("GET", "/hall/summary").status == 200, "again")
    front.stop()
    again.kill()
    said = run(program, "check", "--book", book)
    need(said == f"rows {rows} whole\n", f"the book has {said} for {rows} rows")
    compare_book(front, book, len(SETUP.splitlines()))
    print(f"front: as docs/OPERATING.md says; the book has {rows} rows, those that were answered")


main()
