"""The pictures of README and OPERATING: a board on which one batch goes well beside one whose
forecast warns, and each page once, small. A part of tests/screen.py, made when it is asked for:
tests/screen.sh docs pictures"""

import os
import subprocess
import time

from front_room import SHOWN, run
from screen_pages import open_page
from screen_room import Room, good, grams, opening, weighing

SETTINGS = '{"hall": "North hall", "prices": {"rice250": 1.89, "salt250": 0.55}}'
WIDE, COLOURS = 960, "48"
# What is taken of each page: its name, what stands on it, the picture, its size.
PAGES = [("lane/1", "#lane .st-signal", "lane", (1024, 768)),
         ("batch/RICE-1201-A", "#batch svg.figure", "batch", (1280, 960)),
         ("sheet/RICE-1130-E", "#sheet .paper", "sheet", (900, 1180))]


def fill_two(room):
    """A batch that goes well and one that is short; one to draw, one to measure, one closed."""
    draw = room.draw
    lines = opening(["rice250", "salt250"])
    for name in ("RICE-1201-A", "RICE-1130-C", "RICE-1130-D", "RICE-1130-E"):
        lines.append(f"open {name} rice250")
    lines.append("open SALT-1201-B salt250")
    for name in ("RICE-1130-C", "RICE-1130-D", "RICE-1130-E"):
        packs = good(draw, 240)
        packs[40], packs[90] = 250_300, 240_000
        lines += weighing(4, name, packs) + [f"end {name}"]
    lines += ["draw RICE-1130-D keep 9", "draw RICE-1130-E keep 77", "sample RICE-1130-E"]
    lines += weighing(1, "RICE-1201-A", good(draw, 1_240))
    short = [gross - 2_700 for gross in good(draw, 430)]
    short[400], short[410] = 240_400, 240_900
    return lines + weighing(2, "SALT-1201-B", short)


def close_one(room, said):
    picks = next(line for line in said.splitlines() if line.startswith("sample ")).split()[3:]
    lines = [f"measure {pack} {grams(good(room.draw, 1)[0])}" for pack in picks]
    run(room.program, "run", "--book", room.book, input="\n".join([*lines, "close RICE-1130-E\n"]))
    os.makedirs(f"{SHOWN}/papers", exist_ok=True)
    for name, words in (("papers/RICE-1130-E.txt", ["paper", "--batch", "RICE-1130-E"]),
                        ("list.txt", ["list"])):
        with open(f"{SHOWN}/{name}", "w", encoding="ascii") as text:
            text.write(run(room.program, words[0], "--book", room.book, *words[1:]))


def weighed(draw, fall):
    while True:
        yield [gross - fall for gross in good(draw, 1)]
        time.sleep(1.4)


def take(browser, pictures, name):
    """A picture, smaller and of few colours."""
    path = f"{pictures}/screen_{name}.png"
    browser.picture(path)
    subprocess.run(["convert", path, "-resize", f"{WIDE}x", "-strip", "-dither", "None",
                    "-colors", COLOURS, f"PNG8:{path}"], check=True)


def take_measuring(browser, pictures):
    browser.view(1280, 800)
    browser.open("desk")
    browser.find("#my-desk").send_keys("101")
    browser.open("measure/RICE-1130-D")
    for text in ("261.4", "262.93"):
        browser.find("#m-gross").send_keys(f"{text}\n")
        time.sleep(2)
    browser.find("#m-gross").send_keys("261.07")
    take(browser, pictures, "desk")


def run_pictures(program, folder, pictures):
    room = Room(program, folder, pictures, SETTINGS)
    close_one(room, room.fill("\n".join(fill_two(room)) + "\n"))
    room.weigh(["RICE-1201-A", "SALT-1201-B"],
               [weighed(room.draw, 0), weighed(room.draw, 2_700)])
    browser = room.browser("anna", size="1280,800")
    browser.view(1440, 810)
    open_page(browser, "board", "#board .strip")
    # a rate is told after 10 s
    time.sleep(20)
    take(browser, pictures, "board")
    for page, selector, name, size in PAGES:
        browser.view(*size)
        open_page(browser, page, selector)
        time.sleep(1)
        take(browser, pictures, name)
    take_measuring(browser, pictures)
    room.end()
    print("screen: pictures of the board, a lane, a batch, a sheet and measuring", flush=True)
