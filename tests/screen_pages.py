"""Each page at five sizes, light and dark, in both languages, with 1, 4 and 16 lanes and long
names: what tests/screen_checks.js looks for. Parts of tests/screen.py."""

import os
import time

from clients import need
from front_room import SHOWN, run, wait_until
from screen_room import Room, good, grams, opening, weighing

SIZES = [(1920, 1080), (1280, 800), (1024, 768), (768, 1024), (390, 844)]
LANGUAGES = ["en", "de"]
SCHEMES = ["light", "dark"]
# Of which sizes a picture is taken in which scheme, to be looked at: over both languages each size
# stands in light and dark, and each language in each size and each scheme.
PICTURED = {
    "en": {"light": [0, 2, 4], "dark": [1, 3]},
    "de": {"light": [1, 3], "dark": [0, 2, 4]},
}
# Names of 32 letters, the widest that are usual.
LONG = "WEIHNACHTSMISCHUNG-2026-12-01-AB"
LONG_PRODUCT = "MUESLI-MIT-NUESSEN-UND-OBST-0250"
SETTINGS = """{"hall": "Halle Nord", "lanes": {"1": "Abfüllung links", "2": "Abfüllung rechts"},
"prices": {"rice250": 1.89}, "country": {"share": 2, "name": "FPackV"}}"""
CHECKS = os.path.join(os.path.dirname(os.path.abspath(__file__)), "screen_checks.js")


class Faults:
    """What was found, each once, with the place where it was found first."""

    def __init__(self):
        self.found = {}
        self.checked = 0

    def add(self, where, faults):
        self.checked += 1
        for fault in faults:
            self.found.setdefault(fault, where)

    def tell(self):
        for fault, where in self.found.items():
            print(f"screen: {where}: {fault}", flush=True)
        need(not self.found, f"{len(self.found)} faults in {self.checked} checks")
        return self.checked


def look(browser, name, language, faults, pictures):
    """The page that is shown, in each size and scheme; pictures of half of them."""
    with open(CHECKS, encoding="utf-8") as source:
        browser.run(source.read())
    for scheme in SCHEMES:
        browser.driver.execute_cdp_cmd("Emulation.setEmulatedMedia", {
            "features": [{"name": "prefers-color-scheme", "value": scheme}]})
        for at, (width, height) in enumerate(SIZES):
            browser.view(width, height)
            # two frames, so that what is drawn by its size is drawn
            browser.driver.execute_async_script(
                "requestAnimationFrame(() => requestAnimationFrame(arguments[0]))")
            time.sleep(0.15)
            where = f"{name} {language} {width} x {height} {scheme}"
            faults.add(where, browser.run("return hallChecks.all()"))
            if at in PICTURED[language][scheme]:
                picture = f"{name.replace(' ', '_')}_{language}_{width}_{scheme}"
                browser.picture(f"{pictures}/{picture}.png")
    browser.view(1280, 800)


def set_language(browser, language):
    """Another language, in a browser that keeps no lane: `#lane` then is the choice of one."""
    browser.run(f"localStorage['hall.lang'] = '{language}'; localStorage.removeItem('hall.lane')")
    browser.reload()


# ---- the books


def fill_four(room):
    """Four lanes: a batch that goes well on two of them, one whose average is short, one of long
    names that is held; and one that ended, one that is measured, one that is closed."""
    draw = room.draw
    lines = opening(["rice250", "salt250", LONG_PRODUCT])
    for name, product in (("RICE-1201-A", "rice250"), ("SALT-1201-B", "salt250"),
                          (LONG, LONG_PRODUCT), ("RICE-1130-C", "rice250"),
                          ("RICE-1130-D", "rice250"), ("RICE-1130-E", "rice250")):
        lines.append(f"open {name} {product}")
    lines += weighing(1, "RICE-1201-A", good(draw, 140))
    lines += weighing(2, "SALT-1201-B", [gross - 2_600 for gross in good(draw, 120)])
    held = good(draw, 110)
    held[90] = 243_500
    lines += weighing(3, LONG, held)
    lines += weighing(4, "RICE-1130-C", good(draw, 102)) + ["end RICE-1130-C"]
    lines += weighing(4, "RICE-1130-D", good(draw, 102)) + ["end RICE-1130-D",
                                                           "draw RICE-1130-D keep 9"]
    packs = good(draw, 160)
    packs[40], packs[60], packs[140] = 250_300, 240_000, 250_100
    lines += weighing(4, "RICE-1130-E", packs) + ["end RICE-1130-E", "draw RICE-1130-E keep 77",
                                                 "sample RICE-1130-E"]
    return lines


def close_last(room, said):
    """Measures the sample of the last batch, with three defective packs so that it fails."""
    picks = next(line for line in said.splitlines() if line.startswith("sample ")).split()[3:]
    lines = [f"measure {pack} {grams(250_200 if at < 3 else 262_000 + at)}"
             for at, pack in enumerate(picks)]
    # the tare of the held batch's product is corrected, so that a pack that counts is inadequate
    lines += ["close RICE-1130-E", f"tare {LONG_PRODUCT} 2025-03-03 13"]
    run(room.program, "run", "--book", room.book, input="\n".join(lines) + "\n")
    os.makedirs(f"{SHOWN}/papers", exist_ok=True)
    for name, words in (("papers/RICE-1130-E.txt", ["paper", "--batch", "RICE-1130-E"]),
                        ("list.txt", ["list"])):
        with open(f"{SHOWN}/{name}", "w", encoding="ascii") as text:
            text.write(run(room.program, words[0], "--book", room.book, *words[1:]))


def endless(draw, pause=0.4):
    while True:
        yield good(draw, 1)
        time.sleep(pause)


# ---- the pages


def open_page(browser, page, selector):
    browser.open(page)
    there = "return Boolean(document.querySelector(arguments[0]))"
    wait_until(lambda: browser.run(there, selector), f"{selector} on {page}", 240)
    time.sleep(0.5)


PAGES = [
    ("board", "#board .strip", "board of 4 lanes"), ("lane", "#lane .lanes", "choice of lane"),
    ("lane/1", "#lane .st-signal", "lane"), ("lane/3", "#lane .st-signal", "lane held"),
    ("batch/RICE-1201-A", "#batch svg.figure", "batch"),
    (f"batch/{LONG}", "#batch svg.figure", "batch long"),
    ("desk", "#desk .task", "desk"), ("desk/RICE-1130-C", "#desk .step.draw", "desk draw"),
    ("desk/RICE-1130-D", "#desk .step.measure", "desk measure"),
    ("picks/RICE-1130-D", "#picks table", "picks"),
    (f"desk/{LONG}", "#desk .step.held", "desk held"),
    ("sheet/RICE-1130-E", "#sheet .paper", "sheet"),
    (f"sheet/{LONG}", "#sheet .paper", "sheet open"),
    ("reports", "#reports .notice", "reports"), ("evidence", "#evidence .notice", "evidence"),
    ("search", "#search .notice", "search"),
]


def look_at_pages(room, faults):
    browser = room.browser("anna", size="1280,800")
    for language in LANGUAGES:
        set_language(browser, language)
        for page, selector, name in PAGES:
            open_page(browser, page, selector)
            look(browser, name, language, faults, room.pictures)
        look_at_modes(room, browser, language, faults)
        print(f"screen: pages looked at in {language}", flush=True)
    return browser


def look_at_modes(room, browser, language, faults):
    """Measuring, the form of an act with a fault, the void of a pack."""
    browser.open("desk")
    browser.find("#my-desk").send_keys("101")
    browser.open("measure/RICE-1130-D")
    browser.find("#m-gross").send_keys("26,2\n")
    wait_until(lambda: browser.text(".m-far"), "a far weight is asked twice", 60)
    look(browser, "measuring", language, faults, room.pictures)
    browser.find(".m-leave").click()
    browser.find("#open-product").click()
    browser.find("#act-product [name=nominal]").send_keys("4.9\n")
    look(browser, "act", language, faults, room.pictures)
    browser.open("lane/1")
    wait_until(lambda: not browser.find(".st-void").get_attribute("disabled"), "a pack to void", 60)
    browser.find(".st-void").click()
    browser.find("dialog .picks input").click()
    look(browser, "void", language, faults, room.pictures)
    browser.find("dialog .ends .second").click()


def look_at_boards(room, faults):
    """The board with 1 and 16 lanes, all names of 32 letters, and with 6 and 10 of usual names:
    these have forms of their own."""
    for lanes, stem in ((1, LONG[:-2]), (6, "RICE-1201-"), (10, "SALT-1201-"), (16, LONG[:-2])):
        names = [f"{stem}{number:02}" for number in range(lanes)]
        lines = opening([LONG_PRODUCT])
        for lane, name in enumerate(names, 1):
            lines += [f"open {name} {LONG_PRODUCT}"]
            fall = 3_000 if lane % 5 == 2 else 0
            lines += weighing(lane, name, [gross - fall for gross in good(room.draw, 30 * lane)])
        room.fill("\n".join(lines) + "\n")
        room.weigh(names, [endless(room.draw, 1.5) for _ in names])
        browser = room.browser("wall", size="1920,1080")
        for language in LANGUAGES:
            set_language(browser, language)
            open_page(browser, "board", "#board .strip")
            wait_until(lambda: browser.run(
                "return document.querySelectorAll('#board .w-lane').length") == lanes,
                f"{lanes} lanes", 60)
            look(browser, f"board of {lanes} lanes", language, faults, room.pictures)
        browser.close()
        room.browsers.remove(browser)
        print(f"screen: a board of {lanes} lanes looked at", flush=True)


def make_room(program, folder, pictures):
    """Four lanes that weigh on, and batches at each step."""
    room = Room(program, folder, pictures, SETTINGS)
    close_last(room, room.fill("\n".join(fill_four(room)) + "\n"))
    room.weigh(["RICE-1201-A", "SALT-1201-B", LONG, "RICE-1201-A"],
               [endless(room.draw) for _ in range(4)])
    return room


def run_pages(program, folder, pictures):
    room, faults = make_room(program, folder, pictures), Faults()
    browser = look_at_pages(room, faults)
    complaints = browser.complaints()
    room.end()
    print(f"screen: {faults.tell()} views of the pages, no fault", flush=True)
    need(not complaints, f"the browser complains: {complaints}")


def run_boards(program, folder, pictures):
    room, faults = Room(program, folder, pictures, SETTINGS), Faults()
    look_at_boards(room, faults)
    room.end()
    print(f"screen: {faults.tell()} views of the boards, no fault", flush=True)
