"""Halls for the screen: a book that is filled by a script, the front, browsers. Used by the parts
of tests/screen.py, inside the room that tests/screen.sh makes."""

import os
import random
import subprocess
import time

from browser import Browser
from clients import Lane
from front_room import Front, make_hall, run
from rows import rows_behind

PEOPLE = {"anna": [101], "ben": [102], "carl": [103], "wall": []}
DAY = "2025-03-03"
SEED = 70
NOMINAL, TARE = 250_000, 10_000


class Room:
    """The front, a hall that changes, and the browsers that look at it."""

    def __init__(self, program, folder, pictures, settings=None):
        self.program, self.folder, self.pictures = program, folder, pictures
        self.disk = f"{folder}/disk"
        os.mkdir(self.disk)
        run("mount", "-t", "tmpfs", "-o", "size=64m", "tmpfs", self.disk)
        self.draw = random.Random(SEED)
        self.front = Front(PEOPLE)
        self.settle(settings)
        self.front.start()
        self.browsers = []
        self.hall = None
        self.book = f"{self.disk}/first.book"
        self.count = 0
        self.lanes = []

    def settle(self, text):
        """The settings file of the hall; without a text there is none."""
        path = "/etc/hall/front/settings.json"
        if os.path.exists(path):
            os.remove(path)
        if text is not None:
            with open(path, "w", encoding="utf-8") as file:
                file.write(text)

    def browser(self, person, **options):
        browser = Browser(self.folder, person, self.front.passwords[person], **options)
        self.browsers.append(browser)
        return browser

    def fill(self, script):
        """A new book, filled by this script. Gives back what the program printed."""
        if self.hall:
            self.hall.kill()
        self.count += 1
        self.book = f"{self.disk}/book_{self.count}.book"
        return subprocess.run([self.program, "run", "--book", self.book], input=script, text=True,
                              capture_output=True, check=True).stdout

    def weigh(self, batches, pieces):
        """A hall over the book, whose lanes weigh for these batches what these pieces say."""
        if self.hall:
            self.hall.kill()
        folder = f"{self.folder}/hall_{self.count}"
        self.hall = make_hall(self.program, folder, "", batches, self.book)
        self.lanes = [Lane(self.hall, number, piece) for number, piece in enumerate(pieces, 1)]
        for lane in self.lanes:
            lane.start()

    def rows(self):
        return rows_behind(self.book, 0)

    def end(self):
        for browser in self.browsers:
            browser.close()
        if self.hall:
            self.hall.kill()
        self.front.stop()


def slowly(grosses, at_once, until=None, pause=0.05):
    """So many pieces at each pause. Before the last pack the lane waits for an event."""
    for place in range(0, len(grosses) - 1, at_once):
        yield grosses[place:min(place + at_once, len(grosses) - 1)]
        time.sleep(pause)
    if until:
        until.wait(300)
    yield grosses[-1:]


def grams(milligrams):
    return f"{milligrams // 1000}.{milligrams % 1000:03}"


def opening(products):
    """The lines that set the day and give each product its tare of 10 g; all of 250 g."""
    lines = [f"day {DAY}"]
    for product in products:
        lines += [f"product {product} 250", f"tare {product} {DAY} 10"]
    return lines


def weighing(lane, batch, grosses):
    """The lines of a lane that weighs, and stops."""
    return ([f"start {lane} {batch}"] + [f"weigh {lane} {grams(gross)}" for gross in grosses]
            + [f"stop {lane}"])


def good(draw, count, mean=262_000, spread=2_000):
    """Packs well over the nominal quantity, none of them below T1."""
    return [max(round(draw.gauss(mean, spread)), 252_000) for _ in range(count)]
