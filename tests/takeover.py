"""A hall that is taken over from its copy on another host, for tests/takeover.sh: PROGRAM FOLDER
TIMES SEED."""

import ctypes
import os
import random
import signal
import subprocess
import sys
import time

import rows
from clients import (Client, Desk, FIRST_DESK, FIRST_DOOR, Gone, Hall, Lane, Link, OPENING,
                     PATIENCE, drawn_act, free_ports, good_gross, need, plan)
from there import Helper

HERE = os.path.dirname(os.path.abspath(__file__))
STANDBY = os.path.join(os.path.dirname(HERE), "examples", "standby.sh")
LANES, DESKS = 2, 2
# How long the first hall is left to itself, in seconds, and how long there is between shipments.
SHORTEST, LONGEST = 0.5, 5.0
EVERY = 0.2
CLONE_NEWNET = 0x40000000


class Host:
    """A network namespace with an address."""

    def __init__(self, name, address):
        self.name, self.address = name, address
        run("ip", "netns", "add", name)
        run("ip", "-n", name, "link", "set", "lo", "up")

    def words(self, *words):
        return ["ip", "netns", "exec", self.name, *words]

    def enter(self):
        """Brings this thread there."""
        with open(f"/run/netns/{self.name}", "rb") as there:
            need(ctypes.CDLL(None).setns(there.fileno(), CLONE_NEWNET) == 0, "setns fails")

    def program(self, folder, hall):
        """A program that is the hall's, there."""
        path = f"{folder}/hall-{self.name}"
        with open(path, "w", encoding="ascii") as script:
            script.write(f'#!/bin/sh\nexec ip netns exec {self.name} {hall} "$@"\n')
        os.chmod(path, 0o755)
        return path

    def close(self):
        subprocess.run(["ip", "netns", "del", self.name], check=False)


def run(*words):
    subprocess.run(words, check=True)


def pair():
    """Two hosts that a cable joins."""
    mark = os.getpid() % 30000
    first, second = Host(f"hall-a{mark}", "10.77.0.1"), Host(f"hall-b{mark}", "10.77.0.2")
    run("ip", "link", "add", f"ha{mark}", "netns", first.name, "type", "veth", "peer", "name",
        f"hb{mark}", "netns", second.name)
    for host, end in ((first, f"ha{mark}"), (second, f"hb{mark}")):
        run("ip", "-n", host.name, "addr", "add", f"{host.address}/24", "dev", end)
        run("ip", "-n", host.name, "link", "set", end, "up")
        host.end = end
    return first, second


class Worker(Client):
    """A desk that asks one act after another until the hall is gone."""

    def __init__(self, hall, host, port, desk, draw, lanes):
        super().__init__(hall)
        self.host, self.port, self.desk, self.draw, self.lanes = host, port, desk, draw, lanes

    def hall_is_gone(self):
        return self.ending.is_set() or super().hall_is_gone()

    def work(self):
        self.host.enter()
        while not self.ending.is_set():
            try:
                with Link(self.port) as link:
                    self.ask_many(link)
            except ConnectionRefusedError:
                time.sleep(0.01)

    def ask_many(self, link):
        for _ in range(link.ACTS):
            if self.ending.is_set():
                return
            request = self.desk.last + 1
            packs = [pack for lane in self.lanes for pack in lane.opened[-20:]]
            act = drawn_act(self.draw, self.desk.number, packs)
            link.send(self.request(request, act))
            self.desk.hear(request, act, link.response())

    def request(self, request, act):
        from clients import post
        return post(self.desk.note(request, act))


def shipment(program, book, after=0):
    ran = subprocess.run([program, "ship", "--book", book, "--after", str(after)],
                         capture_output=True, check=False)
    need(ran.returncode == 0, f"ship of {book} ends {ran.returncode}: {ran.stderr}")
    return ran.stdout


def rows_of(program, book):
    """The rows of a book, as they are shipped."""
    sent = shipment(program, book)
    need(sent[:8] == b"AQHSHIP2" and (len(sent) - 16) % rows.SLOT == 0, f"{book} isn't shipped")
    return [sent[at:at + rows.SLOT] for at in range(16, len(sent), rows.SLOT)]


def request_of(row):
    return int.from_bytes(row[8:10], "little"), int.from_bytes(row[10:14], "little")


class Round:
    """Two hosts, the first of which is cut off at some moment."""

    def __init__(self, program, folder, seed, port):
        self.program, self.folder, self.port = program, folder, port
        self.draw = random.Random(seed)
        self.first, self.second = pair()
        self.book, self.copy = f"{folder}/first.book", f"{folder}/second.book"
        self.desks = [Desk(FIRST_DESK + at, FIRST_DOOR + at) for at in range(DESKS)]

    def close(self):
        for host in (self.first, self.second):
            host.close()

    def hall(self, host, book, batches):
        """A hall at a host, with its lanes and its desks at work, and a door for the standby."""
        folder = f"{self.folder}/{host.name}"
        os.mkdir(folder)
        setup = OPENING if batches == 1 else ""
        setup += "".join(f"open L{lane}-{batches} P\n" for lane in range(1, LANES + 1))
        names = [f"L{lane}-{batches}" for lane in range(1, LANES + 1)]
        hall = Hall(host.program(folder, self.program), folder, plan(setup, names), book=book,
                    lanes=LANES, doors=DESKS + 1, port=self.port, connections=999_999)
        pieces = [[good_gross(self.draw) for _ in range(4)] for _ in range(20_000)]
        lanes = [Lane(hall, lane, pieces[lane::LANES]) for lane in range(1, LANES + 1)]
        return hall, lanes

    def ship_on(self):
        """Ships each moment what is new, from the first host to the second."""
        address = (self.second.address, self.port)
        made = []

        def make():
            self.second.enter()
            made.append(Helper(address, self.second.words()))

        work = Client(None)
        work.work = make
        work.start()
        work.finish()
        words = self.first.words("sh", STANDBY, self.book, self.copy, "python3", "-B",
                                 f"{HERE}/there.py", address[0], str(address[1]))
        with open(f"{self.folder}/standby", "wb") as said:
            process = subprocess.Popen(words, stdout=said, stderr=said, start_new_session=True,
                                       env=os.environ | {"HALL": self.program, "EVERY": str(EVERY),
                                                         "DOOR": str(self.port + DESKS)})
        return process, made[0]

    def run(self):
        hall, lanes = self.hall(self.first, self.book, 1)
        standby, helper = self.ship_on()
        desks = [Worker(hall, self.first, self.port + at, desk, self.draw, lanes)
                 for at, desk in enumerate(self.desks)]
        for client in lanes + desks:
            client.start()
        self.wait_for_copy()
        time.sleep(self.draw.uniform(SHORTEST, LONGEST))
        # the machine burns: its cable is cut, and all that ran there ends
        run("ip", "-n", self.first.name, "link", "set", self.first.end, "down")
        for desk in desks:
            desk.ending.set()
        hall.kill()
        os.killpg(standby.pid, signal.SIGKILL)
        standby.wait()
        helper.end()
        for client in lanes + desks:
            client.finish()
        return self.take_over(lanes)

    def wait_for_copy(self):
        """Waits until the copy is begun, on a machine however busy."""
        until = time.monotonic() + PATIENCE
        while not os.path.exists(self.copy):
            need(time.monotonic() < until, "no copy is begun")
            time.sleep(0.05)

    def take_over(self, lanes):
        burnt, copied = rows_of(self.program, self.book), rows_of(self.program, self.copy)
        need(copied == burnt[:len(copied)], "the copy isn't the beginning of the book")
        told = {row for desk in self.desks for row, _ in desk.told.values()}
        told |= {pack for lane in lanes for pack in lane.opened}
        lost = sum(row > len(copied) for row in told)
        hall, _ = self.hall(self.second, self.copy, 2)
        asked = self.ask_again(hall, len(copied))
        hall.kill()
        after = rows_of(self.program, self.copy)
        need(after[:len(copied)] == copied, "the copy was changed by its hall")
        named = [request_of(row) for row in after if request_of(row)[0] > 0]
        need(len(named) == len(set(named)), "a request acted twice")
        return len(burnt), len(copied), len(told), lost, asked

    def ask_again(self, hall, held):
        """Each desk asks again all that it asked since the last that the copy has."""
        counts = []

        def again():
            self.second.enter()
            for at, desk in enumerate(self.desks):
                hall.wait_for_door(self.port + at)
                with Link(self.port + at) as link:
                    counts.append(ask_from(desk, link, held))

        work = Client(hall)
        work.work = again
        work.start()
        work.finish()
        return sum(counts)


def ask_from(desk, link, held):
    """Asks the last request again that the copy has, and all behind it. Says how many these are."""
    answer = link.act(desk.spell(0, {"act": "day", "day": "2025-03-03"}))
    need(answer.status == 409 and answer.json()["name"] == "RequestOld", f"0 is answered {answer}")
    kept = int(answer.json()["kept"])
    asked = [request for request in sorted(desk.sent) if request >= max(kept, 1)]
    for request in asked:
        row, act = desk.told.get(request, (None, desk.sent[request][-1]))
        answer = link.act(desk.spell(request, act))
        if request == kept and row is not None:
            need(answer.status == 200 and answer.json()["row"] == row <= held,
                 f"request {request} was told {row}, and now {answer}")
        elif answer.status == 409:
            return len(asked)
    return len(asked)


def main():
    program, folder, times, seed = sys.argv[1:]
    print(f"seed {seed}", flush=True)
    behind, worst = 0, 0
    for turn in range(int(times)):
        place = f"{folder}/{turn}"
        os.mkdir(place)
        this = Round(program, place, f"{seed}-{turn}", free_ports())
        try:
            burnt, copied, told, lost, asked = this.run()
        finally:
            this.close()
        behind, worst = behind + lost, max(worst, lost)
        print(f"first {burnt} rows, copy {copied}: of {told} that were acknowledged {lost} weren't"
              f" shipped; desks asked {asked} again", flush=True)
    print(f"{times} take-overs: each copy is a beginning, nothing acted twice;"
          f" {behind} rows were acknowledged and lost, {worst} at most at once")


if __name__ == "__main__":
    main()
