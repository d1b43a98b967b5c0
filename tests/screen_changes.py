"""The screen where lanes change their batch: a part of tests/screen.py. The hall runs by
deploy/start, as its service runs it; the lanes by their adapters."""

# mypy: allow-untyped-calls, allow-untyped-defs

import os
import shutil
import subprocess
import threading
import time

from selenium.webdriver.common.keys import Keys

from browser import Browser
from changing_lane import ChangingLane
from clients import make_pipes, need
from front_room import FIRST_PORT, SHOWN, Front, wait_until
from operation_room import DEPLOY, NAME, Place, Service, end_all
from rows import rows_behind

PEOPLE = {"anna": [101, 1, 2], "ben": [102], "wall": []}
LANES, DOORS = 2, 2
OPENED = ("MORNING", "NOON", "EVENING", "NIGHT")
DEVICES = 9100
# Seconds within which a change stands on the board, and on a machine that is hardly served.
PROMISED, SLOW = 1.0, 10.0
EVERY = 0.2


def opening() -> str:
    lines = ["day 2025-03-03", "product rice250 250", "tare rice250 2025-03-03 10"]
    lines += [f"open {batch} rice250" for batch in (*OPENED, "OLD")]
    return "".join(f"{line}\n" for line in (*lines, "end OLD"))


class ChangingRoom:
    """The front, a hall with two changing lanes, who weighs there, and browsers."""

    def __init__(self, program, folder, pictures):
        self.folder, self.pictures = folder, pictures
        self.front = Front(PEOPLE)
        shutil.chown(SHOWN, group="www-data")
        os.chmod(SHOWN, 0o2755)
        self.front.start()
        self.place = Place(program, f"{folder}/hall", FIRST_PORT)
        self.place.script(opening())
        make_pipes(self.place.run, LANES)
        plan = "".join(f"[[lane]]\nnumber = {lane}\nchanges = true\n" for lane in (1, 2))
        settings = {"LANES": LANES, "DOORS": DOORS, "OWN_DOORS": 1, "SHOWN": SHOWN}
        self.service = Service(self.place, plan, **settings)
        self.list = subprocess.Popen([f"{DEPLOY}/list", NAME], env=self.place.environment(settings))
        self.lanes = [ChangingLane(self.place.run, lane, DEVICES, shown=SHOWN) for lane in (1, 2)]
        # gates that let everything out
        self.gates = [os.open(f"{self.place.run}/gate-{lane}.txt", os.O_RDWR) for lane in (1, 2)]
        self.ending = threading.Event()
        self.scale = threading.Thread(target=self.weigh, daemon=True)
        self.browsers = []

    def weigh(self):
        gross = 262_000
        while not self.ending.wait(EVERY):
            gross += 1
            self.lanes[0].weigh(gross)

    def browser(self, person, **options):
        browser = Browser(self.folder, person, self.front.passwords[person], **options)
        self.browsers.append(browser)
        return browser

    def end(self):
        self.ending.set()
        for browser in self.browsers:
            browser.close()
        for lane in self.lanes:
            lane.process.kill()
        self.list.kill()
        self.service.stop()
        end_all()
        self.front.stop()


def shown_on(board, lane, batch):
    """Whether a board has a lane below a batch."""
    return board.run(
        """return [...document.querySelectorAll(".strip")].some((strip) =>
        strip.querySelector(".b-name")?.textContent === arguments[1]
        && [...strip.querySelectorAll(".w-no")].some((one) => one.textContent === arguments[0]))""",
        str(lane), batch)  # fmt: skip


def time_on(board, lane, batch, enter):
    """How long after it was entered a change stands on the board."""
    began = time.monotonic()
    enter()
    wait_until(lambda: shown_on(board, lane, batch), f"lane {lane} with {batch} on the board", SLOW)
    return time.monotonic() - began


def check_page(room, wall, anna):
    """By the page: a lane without a batch, the open batches, one of them chosen."""
    anna.view(1024, 768)
    anna.open("lane/1")
    anna.wait_text("#lane .st-signal", "waits for a batch")
    anna.picture(f"{room.pictures}/change_waits.png")
    anna.find(".st-change").send_keys(Keys.ENTER)
    anna.find("#lane dialog .picks input")
    offered = anna.run("return [...document.querySelectorAll('#lane dialog .picks input')]"
                       ".map(({ value }) => value)")  # fmt: skip
    need(offered == list(OPENED), f"offered are {offered}")
    anna.find(f"#lane dialog .picks input[value={OPENED[0]}]").send_keys(Keys.SPACE)
    anna.picture(f"{room.pictures}/change_dialog.png")
    go = anna.find("#lane dialog .ends button:not(.second)")
    took = time_on(wall, 1, OPENED[0], lambda: go.send_keys(Keys.ENTER))
    anna.wait_text("#lane dialog .said", "Lane 1 weighs MORNING now")
    anna.find("#lane dialog .ends .second").send_keys(Keys.ENTER)
    anna.wait_text("#lane .st-signal", "PASS")
    return took


def check_scan(wall, anna):
    """By a scanner that types at the lane's page, also while a button has the focus."""
    anna.find(".st-void:enabled").send_keys("")
    body = anna.find("body")
    took = time_on(wall, 1, OPENED[1], lambda: body.send_keys(f"batch {OPENED[1]}", Keys.ENTER))
    anna.wait_text("#lane dialog .said", "Lane 1 weighs NOON now")
    # a scan into the dialog's field
    field = anna.find("#change-name")
    again = time_on(wall, 1, OPENED[2], lambda: field.send_keys(f"batch {OPENED[2]}", Keys.ENTER))
    anna.wait_text("#lane dialog .said", "Lane 1 weighs EVENING now")
    anna.find("#lane dialog .ends .second").send_keys(Keys.ENTER)
    return max(took, again)


def check_refused(room, wall, anna):
    """Unknown and ended batches: the page says why, and so do the board and standard error."""
    anna.find("body").send_keys("batch NOBODY", Keys.ENTER)
    said = anna.wait_text("#lane dialog .said", "NOBODY was refused")
    need("No batch has this name" in said and "14 BatchUnknown" in said, f"the page says {said!r}")
    room.service.wait_for_error("hall: lane 1 waits, batch NOBODY: refused 14 BatchUnknown at ")
    anna.picture(f"{room.pictures}/change_refused.png")
    anna.fill("#change-name", "OLD")
    anna.find("#change-name").send_keys(Keys.ENTER)
    said = anna.wait_text("#lane dialog .said", "OLD was refused")
    need("The batch is ended" in said and "15 BatchState" in said, f"the page says {said!r}")
    anna.find("#lane dialog .ends .second").send_keys(Keys.ENTER)
    anna.wait_text("#lane .st-signal", "OLD was refused")
    wall.wait_text("#board .alarms", "no batch, OLD was refused (15 BatchState)")
    wait_until(lambda: "no batch" in wall.text("#board .w-signal"), "the lane waits on the board")
    wall.picture(f"{room.pictures}/change_board.png")


def check_right(ben):
    """A person who hasn't the lane."""
    ben.open("lane/1")
    ben.find(".st-change").send_keys(Keys.ENTER)
    ben.fill("#change-name", OPENED[3])
    ben.find("#change-name").send_keys(Keys.ENTER)
    ben.wait_text("#lane dialog .said", "Sie dürfen diese Linie nicht ändern")


def check_desk(room, wall, anna):
    """At the desk: lane 2."""
    anna.view(1400, 1000)
    anna.open("desk")
    anna.wait_text("#desk .changing", "Lane 2 No batch")
    button = anna.driver.find_elements("css selector", "#desk .changing button")[1]
    button.send_keys(Keys.ENTER)
    anna.find(f"#desk dialog .picks input[value={OPENED[3]}]").send_keys(Keys.SPACE)
    anna.picture(f"{room.pictures}/change_desk.png")
    go = anna.find("#desk dialog .ends button:not(.second)")
    room.lanes[1].weigh(262_000)
    took = time_on(wall, 2, OPENED[3], lambda: go.send_keys(Keys.ENTER))
    anna.wait_text("#desk dialog .said", "Lane 2 weighs NIGHT now")
    return took


def compare(room):
    """The book has the changes in their order, and each pack under the batch before it."""
    rows = [row.act for row in rows_behind(room.place.book, 0) if row.act.get("lane") == 1]
    starts = [act["batch"] for act in rows if act["act"] == "start"]
    need(starts == list(OPENED[:3]), f"lane 1 was started for {starts}")
    priors = {act["prior"] for act in rows if act["act"] == "stop"}
    need(priors <= {"opened", "none"}, f"lane 1 was stopped by {priors}")


def run_changes(program, folder, pictures):
    room = ChangingRoom(program, folder, pictures)
    try:
        room.service.wait_until_served()
        room.scale.start()
        wall = room.browser("wall", size="1920,1080")
        wall.view(1920, 1080)
        anna = room.browser("anna")
        took = [check_page(room, wall, anna), check_scan(wall, anna)]
        check_refused(room, wall, anna)
        check_right(room.browser("ben", language="de-DE"))
        took.append(check_desk(room, wall, anna))
        compare(room)
        for browser in room.browsers:
            complaints = browser.complaints()
            need(not complaints, f"the browser complains: {complaints}")
        print(f"screen: a lane changed its batch by the page, a typed scan and the desk; on the"
              f" board after {', '.join(f'{one:.2f}' for one in took)} s", flush=True)  # fmt: skip
        need(max(took) < PROMISED, f"a change stood on the board after {max(took):.2f} s")
    finally:
        room.end()
