"""The storm of tests/storm.sh, which says what it does: PROGRAM FOLDER SECONDS REQUESTS SEED."""

import random
import sys
import time
from collections import Counter

from book import Book
from clients import (FIRST_DESK, FIRST_DOOR, OPENING, Client, Desk, Hall, Lane, Link, drawn_act,
                     drawn_gross, free_ports, get, need, plan, post)
from rows import Piles

program, folder = sys.argv[1:3]
seconds, requests, seed = [int(word) for word in sys.argv[3:]]
LANES, DOORS, VISITORS = 4, 4, 6
# Connections of each door, and how many of them a client makes at most.
CONNECTIONS = requests // 6 + 100
MOST_LINKS = CONNECTIONS // 2 - 10
# The most packs of a lane: all are within one batch.
MOST_PACKS = 9000

BODIES = (
    b"", b"{", b"[]", b'"act"', b"\xff\xfe", b'{"act":"day","desk":101,"request":1}',
    b'{"act":"day","desk":101,"request":1,"day":"2025-02-30"}',
    b'{"act":"day","desk":101,"request":1.0,"day":"2025-03-03"}',
    b'{"act":"day","desk":0,"request":1,"day":"2025-03-03"}',
    b'{"act":"day","desk":65536,"request":1,"day":"2025-03-03"}',
    b'{"act":"day","desk":101,"request":4294967296,"day":"2025-03-03"}',
    b'{"act":"weigh","desk":101,"request":1,"lane":1,"gross":262000}',
    b'{"act":"end","desk":101,"request":1,"batch":"' + b"n" * 33 + b'"}',
    b'{"act":"void","desk":101,"request":1,"pack":-1}',
)


def with_body(body):
    return f"POST /acts HTTP/1.1\r\nContent-Length: {len(body)}\r\n\r\n".encode() + body


# Requests at fault: the bytes, the status and the word that they are answered, what is allowed
# instead, and whether the connection ends.
FAULTS = [
    (b"GET /sum mary HTTP/1.1\r\n\r\n", 400, "head", "", True),
    (b"\x00\x01\x02\r\n\r\n", 400, "head", "", True),
    (b"GET /summary HTTP/1.1\r\n" + b"A: b\r\n" * 65 + b"\r\n", 400, "head", "", True),
    (b"GET /" + b"a" * 8300, 400, "head", "", True),
    (get("/summary", "Transfer-Encoding: chunked\r\n"), 411, "coding", "", True),
    (get("/summary", "Content-Length: 1x\r\n"), 400, "length", "", True),
    (get("/summary", "Content-Length: 1\r\ncontent-length: 2\r\n"), 400, "length", "", True),
    (get("/summary", "Content-Length: 4097\r\n"), 413, "large", "", True),
    (get("/"), 404, "path", "", False),
    (get("/packs/4294967296"), 404, "path", "", False),
    (get("/lanes/256"), 404, "path", "", False),
    (get("/batches/L1/packs/4294967296"), 404, "path", "", False),
    (get("/batches/L1/packs"), 404, "path", "", False),
    (get("/batches/L1/packs/0/0"), 404, "path", "", False),
    (b"POST /batches/L1/packs/0 HTTP/1.1\r\n\r\n", 405, "method", "GET", False),
    (get("/batches/" + "n" * 33), 404, "path", "", False),
    (get("/acts"), 405, "method", "POST", False),
    (b"DELETE /summary HTTP/1.1\r\n\r\n", 405, "method", "GET", False),
    (b"POST /acts HTTP/1.1\r\n\r\n", 411, "nolength", "", False),
] + [(with_body(body), 400, "body", "", False) for body in BODIES]


class Visitor(Client):
    """A client of a door: acts of its own desk, and whatever else may come."""

    def __init__(self, hall, port, desk, draw, packs):
        super().__init__(hall)
        self.port, self.desk, self.draw, self.packs = port, desk, draw, packs
        # whether its desk heard what became of all that it sent
        self.heard = True
        self.sent = Counter()
        self.moves = (self.act, self.act, self.act, self.drawn_headers, self.together, self.again,
                      self.refused, self.question, self.question, self.bad_form, self.cut,
                      self.lost, self.noise)

    def work(self):
        began, share = time.monotonic(), requests / VISITORS
        self.hall.wait_for_door(self.port)
        for _ in range(MOST_LINKS):
            done = self.sent.total()
            if done >= share or self.ending.is_set():
                return
            time.sleep(max(0, began + seconds * done / share - time.monotonic()))
            with Link(self.port) as link:
                self.use(link)

    def use(self, link):
        """Makes some moves on a connection, until one ends it."""
        for _ in range(self.draw.randint(1, 16)):
            if not self.heard:
                self.desk.catch_up(link)
                self.heard = True
            move = self.draw.choice(self.moves)
            if not move(link):
                return

    # Each move says whether the connection goes on.

    def next(self):
        return self.desk.last + 1, drawn_act(self.draw, self.desk.number, self.packs())

    def act(self, link, more=""):
        request, act = self.next()
        self.sent["acts"] += 1
        self.heard = False
        response = link.ask(post(self.desk.note(request, act), more))
        self.desk.hear(request, act, response)
        self.heard = True
        return not response.last

    def drawn_headers(self, link):
        more = "".join(f"X-{self.draw.randrange(99)}: {'v' * self.draw.randrange(90)}\r\n"
                       for _ in range(self.draw.randrange(60)))
        if self.draw.random() < 0.2:
            need(not self.act(link, more + "connection: Close\r\n"), "a last request, and no end")
            return self.end(link)
        return self.act(link, more)

    def together(self, link):
        """Acts under numbers as if each before were accepted, and a question behind, at once."""
        first = self.desk.last + 1
        asked = [(request, self.next()[1])
                 for request in range(first, first + self.draw.randint(2, 6))]
        self.sent["acts at once"] += len(asked)
        self.heard = False
        sent = [post(self.desk.note(request, act)) for request, act in asked]
        link.send(b"".join(sent) + get("/lanes/1"))
        for request, act in asked:
            self.desk.hear(request, act, link.response())
        need(link.response().status == 200, "a question behind acts isn't answered")
        self.heard = True
        return True

    def again(self, link):
        """The last act once more, which is told its row again."""
        if self.desk.last in self.desk.told:
            self.sent["repeats"] += 1
            request, (_, act) = self.desk.last, self.desk.told[self.desk.last]
            response = link.act(self.desk.spell(request, act))
            need(response.status == 200, f"request {request}, {act} is told again {response}")
            self.desk.hear(request, act, response, again=True)
        return True

    def refused(self, link):
        """A number that was used before or leaves a gap."""
        last = self.desk.last
        if last < 2 or last not in self.desk.told:
            return True
        self.sent["refused numbers"] += 1
        other = {"act": "product", "name": "another", "nominal": 5000}
        request, number, kept = self.draw.choice((
            (last, 3, self.desk.told[last][0]), (self.draw.randrange(last), 2, last),
            (last + self.draw.randint(2, 9), 4, last)))
        response = link.act(self.desk.spell(request, other))
        told = response.json()
        need(response.status == 409 and (told["refused"], told["kept"]) == (number, str(kept))
             and told["at"] == response.row, f"request {request} behind {last} is told {response}")
        return True

    def question(self, link):
        draw, batch = self.draw, f"B{self.desk.number}-{self.draw.randrange(400)}"
        lane, line = draw.randint(1, LANES), draw.randint(1, 16)
        pack, after = draw.choice(self.packs() or [0]), draw.randrange(9999)
        path, said = draw.choice((
            ("/summary?now", b"rows "), (f"/lanes/{line}", b"lane "), (f"/packs/{pack}", b"pack "),
            (f"/batches/L{lane}", b"batch "), (f"/batches/{batch}", b"batch "),
            (f"/batches/{batch}/sample", b"sample "), (f"/rows/{after}", b"AQHSHIP2"),
            # (nothing where no row comes after, or no pack is above)
            (f"/acts/{after}", b""), (f"/batches/L{lane}/packs/{after}", b"")))
        self.sent["questions"] += 1
        version = draw.choice((b"HTTP/1.1", b"HTTP/1.1", b"HTTP/1.1", b"HTTP/1.0"))
        response = link.ask(get(path).replace(b"HTTP/1.1", version))
        need(response.status == 409 and response.json()["at"] == response.row
             or response.status == 200 and response.body.startswith(said),
             f"{path} is answered {response}")
        need(response.last == (version == b"HTTP/1.0"), f"{version}: {response}")
        return not response.last or self.end(link)

    def bad_form(self, link):
        request, status, bad, allow, ends = self.draw.choice(FAULTS)
        self.sent["faults of form"] += 1
        response = link.ask(request)
        need((response.status, response.json(), response.allow, response.last)
             == (status, {"bad": bad}, allow, ends), f"{request[:99]} is answered {response}")
        return not ends or self.end(link)

    def cut(self, link):
        """A part of an act, which must never act; it is heard out or left."""
        request, act = self.next()
        whole = post(self.desk.spell(request, act))
        part = whole[: self.draw.randrange(len(whole))]
        self.sent["cut"] += 1
        link.send(part)
        if self.draw.random() < 0.5:
            return False
        link.hush()
        if not part:
            return self.end(link)
        response = link.response()
        fault = {"bad": "short" if b"\r\n\r\n" in part else "head"}
        need(response.json() == fault and response.last, f"{part} is answered {response}")
        return self.end(link)

    def lost(self, link):
        """Acts that go out whole, whose answers nobody hears."""
        request, act = self.next()
        self.sent["lost"] += 1
        self.heard = False
        link.send(post(self.desk.note(request, act)))
        return False

    def noise(self, link):
        """Drawn bytes, which are no head."""
        self.sent["noise"] += 1
        first = self.draw.choice((b"\0", b" ", b"a", b"G", b"\xff"))
        link.send(first + self.draw.randbytes(self.draw.randrange(9000)) + b"\r\n\r\n")
        response = link.response()
        need(response.status == 400 and response.last, f"noise is answered {response}")
        return False

    def end(self, link):
        need(link.ends(), "there are bytes behind the last response")
        return False


class Reader(Client):
    """Reads the summary: its piles add up, and its rows are those of its Book-Row."""

    def __init__(self, hall, port):
        super().__init__(hall)
        self.port = port
        self.rows = 0
        self.seen = []

    def work(self):
        self.hall.wait_for_door(self.port)
        for _ in range(MOST_LINKS):
            with Link(self.port) as link:
                self.read_some(link)
            if self.ending.is_set():
                return

    def read_some(self, link):
        for _ in range(900):
            if self.ending.is_set():
                return
            self.read(link.ask(get("/summary")))
            time.sleep(0.002)

    def read(self, response):
        lines = [line.split() for line in response.body.decode().splitlines()]
        rows = int(lines[0][1])
        need(response.status == 200 and response.row == rows >= self.rows,
             f"behind {self.rows} rows a summary says {response}")
        readings, *piles = [(int(line[1]), int(line[3].replace(".", ""))) for line in lines[1:6]]
        need(readings == tuple(map(sum, zip(*piles))), f"the piles don't add up in {response}")
        self.rows = rows
        self.seen.append((rows, tuple(piles)))


class Watch(Client):
    """Notes what the hall holds, each second."""

    def __init__(self, hall, reader):
        super().__init__(hall)
        self.reader = reader
        self.held = []

    def work(self):
        while not self.ending.wait(1):
            self.held.append((self.reader.rows, *self.hall.memory()))


def bursts(draw, last=b""):
    """Weights in bursts over the time, and then what ends the cell at a drawn moment."""
    until = time.monotonic() + seconds * (draw.uniform(0.3, 0.9) if last else 1)
    left = MOST_PACKS
    while left > 0 and time.monotonic() < until:
        piece = [drawn_gross(draw) for _ in range(min(left, draw.randint(1, 80)))]
        left -= len(piece)
        yield piece
        time.sleep(seconds * len(piece) / MOST_PACKS)
    if last:
        yield last


def compare_piles(rows, seen):
    """Each summary is that of the rows up to its Book-Row."""
    piles, at = Piles(), 0
    for number, told in seen:
        for row in rows[at:number]:
            piles.add(row)
        at = number
        need(piles.told() == told, f"at row {number} the summary says {told}, not {piles.told()}")


def compare_lines(said, lanes, desks):
    """The lines of lanes and doors: two lanes had their cells' end, two a bad line."""
    for lane in lanes:
        stop = "done" if lane.number <= 2 else f"bad {len(lane.sent) + 1}"
        need(f"lane {lane.number} opened {len(lane.opened)} {stop}" in said, f"lanes said {said}")
    doors = [line.split() for line in said if line.startswith("door ")]
    need([line[1] for line in doors] == [str(door) for door in range(1, DOORS + 1)]
         and all(line[-1] == "done" for line in doors), f"doors said {said}")
    for line in doors:
        print(" ".join(line))


def start():
    setup = OPENING + "".join(f"open L{lane} P\n" for lane in range(1, LANES + 1))
    return Hall(program, folder, plan(setup, [f"L{lane}" for lane in range(1, LANES + 1)]),
                book=f"{folder}/book", lanes=LANES, doors=DOORS, port=free_ports(),
                connections=CONNECTIONS)


def main():
    draw = random.Random(seed)
    hall = start()
    ends = (b"", b"", b"261.5 g\n", b"261.")
    lanes = [Lane(hall, lane, bursts(random.Random(draw.random()), last))
             for lane, last in enumerate(ends, 1)]
    desks = [Desk(FIRST_DESK + at, FIRST_DOOR + at % 3) for at in range(VISITORS)]
    visitors = [Visitor(hall, hall.ports[at % 3], desk, random.Random(draw.random()),
                        lambda: [pack for lane in lanes for pack in lane.opened[-50:]])
                for at, desk in enumerate(desks)]
    reader = Reader(hall, hall.ports[3])
    watch = Watch(hall, reader)
    for client in [*lanes, *visitors, reader, watch]:
        client.start()
    began = time.monotonic()
    for visitor in visitors:
        visitor.join(max(0, began + 2 * seconds - time.monotonic()))
    took = time.monotonic() - began
    for client in [*visitors, *lanes[:2], reader, watch]:
        client.ending.set()
    for visitor in visitors:
        visitor.finish()
    reader.finish()
    watch.finish()
    status = hall.drain(120)
    for lane in lanes:
        lane.finish()
    need(status == 10, f"the status is {status} where two lanes ended early: {hall.said()}")
    compare_lines(hall.said(), lanes, desks)
    book = Book(program, f"{folder}/book", desks)
    rows = book.compare(lanes, killed=False)
    need(f"rows {len(rows)}" in hall.said(), f"{len(rows)} rows, and the hall said {hall.said()}")
    compare_piles(rows, reader.seen)
    book.compare_register()
    tell(book, visitors, reader, watch, took)


def tell(book, visitors, reader, watch, took):
    sent = sum((visitor.sent for visitor in visitors), Counter())
    print(f"seed {seed}: {sent.total()} requests in {took:.0f} s:",
          ", ".join(f"{count} {kind}" for kind, count in sent.most_common()))
    print(f"{book.rows} rows, {book.gates} packs let out, {len(book.acts)} acts of desks,"
          f" {len(reader.seen)} summaries that add up")
    held = watch.held
    for rows, now, _ in held[:: max(1, len(held) // 4)] + held[-1:]:
        print(f"memory at {rows} rows: {now} KiB")
    (rows0, now0, _), (rows1, now1, most) = held[0], held[-1]
    print(f"memory held at most: {most} KiB; growth"
          f" {1024 * (now1 - now0) / max(1, rows1 - rows0):.0f} bytes a row")


main()
