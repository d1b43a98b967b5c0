"""How soon a batch of 10 000 packs is on the screen, from the click to the figure, through the
front and the doors of a running hall; and that a chart which grows asks for what is new alone. A
part of tests/screen.py."""

import os
import re
import statistics
import threading
import time

from clients import need
from front_room import wait_until
from screen_load import run_async
from screen_room import Room, good, grams, opening

# Milliseconds from a click to the figure: how often it is measured, and what the best may take.
TRIES, PROMPT = 5, 1_000
PAGE, MOST_PACKS = 128, 10_000
# The lanes of the large batch and of another one, whose packs come in between.
BIG, OTHER, GROWS = "BIG", "OTHER", "GROWS"
PAGES = f"batches/{BIG}/packs"
EVERY_OTHER = 3
BEFORE, BEHIND = 1_000, 300
# So many of the packs that were read may be read again, since their piles may have changed.
AGAIN = 32
LOG = "/var/log/nginx/access.log"
# Clicks a link, and says how many milliseconds later the figure of a batch stands.
CLICK = """
    const [link, figure] = arguments;
    const painted = () => new Promise((go) => requestAnimationFrame(go));
    const stands = new Promise((go) => new MutationObserver((_, watch) => {
        if (!document.querySelector(figure)) return;
        watch.disconnect();
        go();
    }).observe(document.body, { childList: true, subtree: true }));
    const began = performance.now();
    document.querySelector(link).click();
    await stands;
    await painted();
    await painted();
    return performance.now() - began"""


def fill(room):
    """A batch of 10 000 packs, between which those of another one lie; and one that grows."""
    grosses = iter(good(room.draw, 2 * MOST_PACKS + BEFORE))

    def weigh(lane):
        return f"weigh {lane} {grams(next(grosses))}"

    lines = opening(["rice250"]) + [f"open {name} rice250" for name in (GROWS, BIG, OTHER)]
    lines += [f"start 1 {GROWS}", *(weigh(1) for _ in range(BEFORE)), "stop 1"]
    lines += [f"start 2 {BIG}", f"start 3 {OTHER}"]
    for place in range(MOST_PACKS):
        lines.append(weigh(2))
        if place % EVERY_OTHER == 0:
            lines.append(weigh(3))
    room.fill("\n".join(lines) + "\n")


def asked(path):
    """The numbers behind which a path was asked for, as the front's log has them."""
    with open(LOG, encoding="utf-8") as log:
        return [int(number) for number in re.findall(rf"GET /hall/{path}/(\d+) ", log.read())]


def clicked(browser, page, figure):
    """Milliseconds from a click on a link of the board to a page of the large batch."""
    browser.open("board")
    browser.reload()
    link = f"#board a[href='#batch/{BIG}']"
    browser.find(link)
    # the link of the board, or one to the sheet in its place
    browser.run("document.querySelector(arguments[0]).href = arguments[1]", link, f"#{page}/{BIG}")
    return run_async(browser, CLICK, f"#board a[href='#{page}/{BIG}']", figure)


def measure(browser, page, figure):
    before = len(asked(PAGES)), len(asked("packs"))
    times = [clicked(browser, page, figure) for _ in range(TRIES)]
    pages, alone = [(len(asked(path)) - were) / TRIES
                    for path, were in zip((PAGES, "packs"), before)]
    browser.picture(f"{browser.pictures}/chart_{page}_10000.png")
    load = os.getloadavg()[0]
    print(f"screen: {page} of {MOST_PACKS} packs: {min(times):.0f} ms from the click to the figure,"
          f" the median {statistics.median(times):.0f}, the longest {max(times):.0f};"
          f" {pages:.0f} pages each time, load {load:.1f}", flush=True)
    # (the board asks a pack for the tare of its day)
    need(pages <= MOST_PACKS // PAGE + 8 and alone <= 8, f"{pages} pages, {alone} packs are asked")
    need(min(times) <= PROMPT, f"{page}: {min(times):.0f} ms from the click to the figure")


def measure_growth(room, browser, grow):
    """A chart whose batch grows asks behind the last packs that it has."""
    browser.open(f"batch/{GROWS}")
    browser.find("#batch svg.figure")
    browser.wait_text("#batch .facts", f"{BEFORE // 1000}\u202f{BEFORE % 1000:03}")
    before = len(asked(f"batches/{GROWS}/packs"))
    numbers = [row.number for row in room.rows() if row.by == 0 and row.act["act"] == "weigh"
               and row.act["lane"] == 1]
    grow.set()
    browser.wait_text("#batch .facts", f"{(BEFORE + BEHIND) // 1000}\u202f{BEHIND}")
    pages = asked(f"batches/{GROWS}/packs")[before:]
    need(min(pages) >= numbers[-AGAIN - 1], f"a chart that grew asks again above {min(pages)}")
    browser.picture(f"{browser.pictures}/chart_grown.png")
    print(f"screen: a chart that grew by {BEHIND} packs asked {len(pages)} times, above"
          f" {min(pages)} at the least", flush=True)


def run_chart(program, folder, pictures):
    room = Room(program, folder, pictures)
    fill(room)
    grow = threading.Event()

    def grown():
        grow.wait(600)
        for _ in range(BEHIND // 20):
            yield good(room.draw, 20)
            time.sleep(0.1)

    room.weigh([GROWS], [grown()])
    browser = room.browser("wall", size="1920,1080")
    browser.pictures = pictures
    browser.view(1920, 1080)
    browser.driver.set_script_timeout(60)
    wait_until(lambda: browser.run("return document.querySelectorAll('#board .w-lane').length"),
               "lanes on the board", 60)
    measure(browser, "batch", "#batch svg.figure")
    measure(browser, "sheet", "#sheet svg.figure")
    measure_growth(room, browser, grow)
    complaints = browser.complaints()
    room.end()
    need(not complaints, f"the browser complains: {complaints}")
