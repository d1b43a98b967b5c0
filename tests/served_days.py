"""Worked days of `hall serve` with a call for memory refused, and what they left. For
tests/memory.sh.
"""

import contextlib
import os
import re
import shutil
import socket

from clients import FIRST_DOOR, Hall, Wrong, free_ports, get, need, plan, post
from meeting import Meeting
from refusals import ASKED_AGAIN, LONGEST, NO_MEMORY, PROGRAM, THREAD, UNOPENED, Place
from rows import Piles
from worked_days import OPENING, SHEET, days, desk_row, many_packs, summary

# What standard error says of a setup whose acts have no desk.
WITHOUT_DESK = "hall: line 1 of the setup has no desk, and acts at each start (@164 1 ..)\n"

# What it says of a cell behind its folder: it has ended, or was told that it waits in vain.
ENDED = re.compile(
    r"cell-\d\.txt( has ended|: bad line \d, in vain: a character that no weight has)\n")

# What it says as the jobs begin, and as a lane or the door ends: the reason is left out where there
# is no memory for it.
BEGUN = re.compile(
    r"hall: (serving, lanes \d, doors 1 at port \d+, rows \d+, left \d+"
    r"|lane \d, batch A: (done|memory|bad \d|)|door 1: (done|memory|))\n")

DONE = "done (status 0)"
LATE = "a job began behind another, and they waited in vain (status 10)"

# What the door is asked in the day of a desk, and what it answers, as (status, Book-Row, body).
DESK_ASKED = [(101, 1, "a"), (101, 1, "a"), (101, 1, "b"), (101, 2, "b"), (101, 1, "a"),
              (101, 4, "c"), (100, 1, "c")]
DESK_ANSWERED = [
    (200, 2, {"row": 2}), (200, 2, {"row": 2}),
    (409, 2, {"at": 2, "kept": "2", "name": "RequestReused", "refused": 3}), (200, 3, {"row": 3}),
    (409, 3, {"at": 3, "kept": "2", "name": "RequestOld", "refused": 2}),
    (409, 3, {"at": 3, "kept": "2", "name": "RequestGap", "refused": 4}),
    (409, 3, {"at": 3, "kept": "", "name": "DeskNumber", "refused": 1})]


def product(name):
    return {"act": "product", "name": name, "nominal": 250_000}


class ServedDay:
    """Two lanes that weigh for one batch, and a desk at a door; each waits for the others."""

    name = "lanes and a door"
    # the lines of the setup
    opening = OPENING
    # of each lane the grosses of its packs, in mg
    grosses = {1: [260_000, 260_000], 2: [260_000, 260_000]}
    # the desk, the request and the act of each request at the door
    asked = [(101, 1, product("a")), (101, 2, product("b"))]
    desk_lines = ["@101 1 product a 250", "@101 2 product b 250"]
    summary = summary(14, readings=(4, 1040), passed=(4, 1040))
    # a book that is there before
    book = None

    def __init__(self, program, shim, folder):
        self.program, self.shim, self.folder = program, shim, folder
        self.port = free_ports()
        # how many threads begin
        self.threads = 0

    def requests(self):
        return [post({"desk": desk, "request": request} | act) for desk, request, act in self.asked]

    def answer_is_right(self, at, answer):
        return answer.status == 200 and answer.json() == {"row": answer.row}

    def lane_acts(self, lane):
        """The acts of a lane whose gate opens for each pack."""
        priors = ["none"] + ["opened"] * len(self.grosses[lane])
        weighings = [{"act": "weigh", "lane": lane, "gross": gross, "prior": prior}
                     for gross, prior in zip(self.grosses[lane], priors)]
        return [{"act": "start", "lane": lane, "batch": "A"}, *weighings,
                {"act": "stop", "lane": lane, "prior": priors[-1]}]

    def lane_lines(self, lane, own):
        """What a lane that has these rows still has to do, as a script. One that has stopped starts
        again, where it lacks a weighing."""
        weighed = sum(row.signal != "" for row in own)
        stopped = own != [] and own[-1].act["act"] == "stop"
        left = [f"weigh {lane} {gross // 1000}" for gross in self.grosses[lane][weighed:]]
        if stopped and not left:
            return []
        start = [] if own and not stopped else [f"start {lane} A"]
        return [*start, *left, f"stop {lane}"]

    def count(self):
        """A run with ample memory, which has to come out as worked out; tells of its calls."""
        way, told = self.attempt("whole", PROGRAM, 0)
        need(way == DONE, f"{self.name}: with ample memory {way}")
        self.threads = told.calls[THREAD]
        return told

    def refuse(self, kind, number):
        """A run in which this call is refused; tells how it ended, where that is right. Where the
        program then asks for the same in another way, that is refused too in a second run, unless
        the next call may be that of another thread; and in a third the call behind that, since it
        goes on without the lines that standard error would show."""
        way, told = self.attempt(f"{kind}-{number}", kind, number)
        if not told.refused:
            need(way == DONE, f"the call didn't come in this run, and {way}")
            return "whole, since the call didn't come"
        need(way != LATE or kind != PROGRAM or told.calls[THREAD] < self.threads,
             "nobody lacked memory, each thread began, and yet some waited in vain")
        if way != DONE:
            return way
        if not self.grosses:
            need(any(self.fails_behind(kind, number, count) for count in (2, 3)),
                 "the day is whole also where three are refused")
        return ASKED_AGAIN

    def fails_behind(self, kind, number, count):
        """Whether so many refused calls, from this one on, are missed, or more than come: what is
        asked for last is for standard error."""
        way, told = self.attempt(f"{kind}-{number}-{count}", kind, number, count)
        return way != DONE or told.refused < count

    def free_port(self, number):
        """A port of this process's own where no hall listens: one may wait in vain for a minute."""
        for place in (number, number + 20):
            port = self.port + place % 40
            with socket.socket() as probe, contextlib.suppress(OSError):
                probe.setsockopt(socket.SOL_SOCKET, socket.SO_REUSEADDR, 1)
                probe.bind(("127.0.0.1", port))
                return port
        raise Wrong("halls wait at the ports of this run and of the twentieth behind it")

    def attempt(self, name, kind, number, count=1):
        place = Place(self.program, self.shim, f"{self.folder}/{name}")
        if self.book:
            shutil.copyfile(self.book, place.book)
        setup = "".join(f"{line}\n" for line, _ in self.opening)
        hall = Hall(self.program, place.folder, plan(setup, ["A"] * len(self.grosses)),
                    book=place.book, lanes=len(self.grosses), doors=1, port=self.free_port(number),
                    env=place.refusing(kind, number, count))
        meeting = Meeting(hall, self.grosses.items(), self.requests())
        try:
            met = meeting.hold()
            status = hall.wait(LONGEST)
        finally:
            hall.kill()
            meeting.close()
        with open(f"{place.folder}/errors", encoding="utf-8") as errors:
            place.errors = errors.read()
        way, told = self.compare(place, meeting, met, status), place.told()
        place.remove()
        return way, told

    def compare(self, place, meeting, met, status):
        """Compares what a hall said, answered and left; tells how it ended, where that is right."""
        said = "".join(f"{line}\n" for line in meeting.hall.said())
        unbegun = self.unbegun(place, status, said)
        need(unbegun == UNOPENED or self.may_say(place), f"standard error says {place.errors}")
        for at, answer in enumerate(meeting.answers):
            need(self.answer_is_right(at, answer), f"request {at + 1} is answered {answer}")
        rows = self.rows_of(place)
        self.compare_rows(rows, meeting)
        self.go_on(place, rows)
        if unbegun:
            need(not meeting.answers and all(row.by == 0 for row in rows),
                 f"{said}, and answers or rows: {meeting.answers}, {rows}")
            return unbegun
        return self.compare_end(status, said, rows, meeting, met)

    def may_say(self, place):
        """Whether standard error says only what it may of this day, each at most once."""
        said = place.errors.replace(f"hall: {place.folder}/", "").splitlines(keepends=True)
        return len(said) == len(set(said)) and all(
            line == WITHOUT_DESK or ENDED.fullmatch(line) or BEGUN.fullmatch(line)
            for line in said)

    def unbegun(self, place, status, said):
        """How a hall ended of whose jobs none ran; none of others."""
        if place.is_unopened(status, said):
            return UNOPENED
        return "no memory before the jobs (status 7)" if (status, said) == (7, NO_MEMORY) else None

    def rows_of(self, place):
        return place.rows()

    def compare_rows(self, rows, meeting):
        """Each row is of the setup, of a lane whose gate opened for what passed, or answered."""
        setup = [row.act["act"] for row in rows if row.by == 0]
        need(setup == [line.split()[0] for line, _ in self.opening][: len(setup)],
             f"the setup has left {setup}")
        for lane in meeting.lanes:
            own = [row for row in rows if row.by == lane.number]
            *weighed, last = [row.act for row in own] or [None]
            acts = self.lane_acts(lane.number)
            need(weighed == acts[: len(weighed)] and last in (None, acts[len(weighed)], acts[-1]),
                 f"lane {lane.number} has left {own}")
            passed = [row.number for row in own if row.signal == "pass"]
            need(lane.opened == passed, f"gate {lane.number} got {lane.opened}, passed {passed}")
        found = [(row.number, row.desk, row.request, row.act) for row in rows if row.desk]
        told = [(answer.json()["row"], *asked) for answer, asked in zip(meeting.answers, self.asked)
                if answer.status == 200]
        told = [act for at, act in enumerate(told) if act not in told[:at]]
        need(found == told, f"the desk was told {told}, the book has {found}")
        known = [0, FIRST_DOOR, *self.grosses]
        need(all(row.by in known for row in rows), f"rows of others: {rows}")

    def compare_end(self, status, said, rows, meeting, met):
        """The lines of lanes and of the door, the summary and the status are true of the rows."""
        lines = said.splitlines()[: len(meeting.lanes) + 1]
        begins = [f"lane {lane.number} opened {len(lane.opened)} " for lane in meeting.lanes]
        begins.append(f"door 1 served {len(meeting.answers) + meeting.lacks} links 0 ")
        need(len(lines) == len(begins) and all(map(str.startswith, lines, begins)),
             f"gates and answers: {begins}, said: {said}")
        stops = [line[len(begin) :].split()[0] for line, begin in zip(lines, begins)]
        lacks, lacking = "memory" in stops, said.endswith(NO_MEMORY)
        early = any(stop in ("bad", "cell", "gate", "refused") for stop in stops)
        need(status == (10 if early else 11 if stops[-1] == "door" else 7 if lacking else 0),
             f"status {status}: {said}")
        need(lacking or early or not lacks, f"a job lacked memory, without the last line: {said}")
        need(said.removesuffix(NO_MEMORY) == "".join(f"{line}\n" for line in lines)
             + self.summary_of(rows), f"that isn't the summary of {len(rows)} rows: {said}")
        whole = met and not lacks
        need(not whole or self.summary in said and set(stops) == {"done"}, f"all met, and: {said}")
        return way_of(status, meeting.lacks, lacks, lacking, met)

    def summary_of(self, rows):
        """The summary of rows that open one batch and end none."""
        piles = Piles()
        for row in rows:
            piles.add(row)
        held = {pile: (packs, grosses // 1000)
                for pile, (packs, grosses) in zip(Piles.NAMES, piles.told())}
        batches = sum(row.act["act"] == "open" for row in rows)
        return summary(len(rows), f"running {batches} ended 0 drawn 0 closed 0",
                       readings=tuple(map(sum, zip(*held.values()))), **held)

    def go_on(self, place, rows):
        """What is missing, as a script, and all that the desk asked: ends as the whole day, but for
        two rows more of each lane that had stopped and starts again."""
        lines = [line for line, _ in self.opening[sum(row.by == 0 for row in rows) :]]
        again = 0
        for lane in self.grosses:
            own = [row for row in rows if row.by == lane]
            left = self.lane_lines(lane, own)
            again += own != [] and left[:1] == [f"start {lane} A"]
            lines += left
        lines += self.desk_lines
        status, said = place.run("run", script="".join(f"{line}\n" for line in lines))
        end = said.rpartition("rows ")[2]
        count, piles = self.summary.split("\n", 1)
        whole = f"{int(count.split()[1]) + 2 * again}\n{piles}"
        need((status, end) == (0, whole), f"the rest ends with {status}: {said}")


class ServedLater(ServedDay):
    """The same behind so many rows more, so that other asks have to make room."""

    def __init__(self, program, shim, folder, before):
        super().__init__(program, shim, f"{folder} {before}")
        self.name = f"lanes and a door behind {before + len(OPENING)} rows"
        self.opening = days(before) + OPENING
        self.summary = summary(14 + before, readings=(4, 1040), passed=(4, 1040))


class ServedDesk(ServedDay):
    """The repeats of a desk, at a door."""

    name = "desk at a door"
    opening = desk_row().told[:1]
    grosses = {}
    asked = [(desk, request, product(name)) for desk, request, name in DESK_ASKED]
    desk_lines = [line for line, _ in desk_row().told[1:]]
    summary = desk_row().summary

    def answer_is_right(self, at, answer):
        return (answer.status, answer.row, answer.json()) == DESK_ANSWERED[at]


class ServedSheet(ServedDay):
    """A door at which the sheet of the day of 600 packs is asked for, over the book of that day."""

    name = "sheet at a door"
    opening = []
    grosses = {}
    asked = []
    desk_lines = []
    summary = many_packs().summary

    def count(self):
        """The day itself comes first."""
        day = Place(self.program, self.shim, f"{self.folder}/day")
        status, _ = day.run("run", script=many_packs().lines())
        need(status == 0, f"{self.name}: the day ends with {status}")
        self.book = day.book
        with open(day.book, "rb") as stood:
            self.stood = stood.read()
        return super().count()

    def requests(self):
        return [get("/batches/A", "User-Agent: curl/8.5.0\r\nAccept: */*\r\n")]

    def answer_is_right(self, at, answer):
        return (answer.status, answer.row, answer.body.decode()) == (200, 664, f"{SHEET}\n")

    def rows_of(self, place):
        """No row is added, and no byte of the book has changed."""
        place.rows()
        with open(place.book, "rb") as book:
            need(book.read() == self.stood, "the book has changed")
        return []

    def summary_of(self, rows):
        return self.summary


def way_of(status, answers, lacks, lacking, met):
    """How a hall ended whose jobs ran."""
    if answers:
        return f"a 503, and on (status {status})"
    if lacks:
        return f"a lane or the door lacked memory (status {status})"
    if lacking:
        return f"the snapshot lacked memory (status {status})"
    return DONE if met else LATE
