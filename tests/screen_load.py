"""What the pages cost: the board with 16 lanes at 20 packs a second each, an accelerated hour of
it, and a batch of 10 000 packs. A part of tests/screen.py."""

import os
import time

from clients import need
from front_room import TOP, wait_until
from screen_room import Room, good, opening

LANES = 16
A_SECOND = 20
# What a browser may take of a processor while the board stands, and for how long that is measured.
MOST_SHARE, SECONDS = 0.10, 40
# Milliseconds in which 10 000 packs have to be drawn, of a processor: a busy machine takes longer.
PROMPT = 1_000
# What may be left of the heap's growth from the second quarter of an hour to the last, in bytes:
# a heap is never quite the same twice.
SLACK = 1_000_000
QUARTER = 900
TICK = os.sysconf("SC_CLK_TCK")


def endless(draw):
    """Packs at an even pace, also where one of them comes late."""
    began, sent = time.monotonic(), 0
    while True:
        wanted = int((time.monotonic() - began) * A_SECOND)
        if wanted > sent:
            yield good(draw, min(wanted - sent, 40))
            sent = wanted
        time.sleep(1 / A_SECOND)


def processes_of(process):
    """A process and all that it began."""
    children = {}
    for name in filter(str.isdigit, os.listdir("/proc")):
        try:
            with open(f"/proc/{name}/stat", encoding="utf-8", errors="replace") as stat:
                parent = stat.read().rpartition(")")[2].split()[1]
        except OSError:
            continue
        children.setdefault(int(parent), []).append(int(name))
    found = [process]
    for one in found:
        found += children.get(one, [])
    return found


def times_of(numbers):
    """The seconds that processes have had of a processor, by their kind."""
    spent = {}
    for number in numbers:
        try:
            with open(f"/proc/{number}/cmdline", encoding="utf-8") as words:
                kind = next((word.removeprefix("--type=") for word in words.read().split("\0")
                             if word.startswith("--type=")), "browser")
            with open(f"/proc/{number}/stat", encoding="utf-8", errors="replace") as stat:
                parts = stat.read().rpartition(")")[2].split()
        except OSError:
            continue
        spent[kind] = spent.get(kind, 0) + (int(parts[11]) + int(parts[12])) / TICK
    return spent


def open_board(browser, lanes):
    browser.open("board")
    wait_until(lambda: browser.run("return document.querySelectorAll('#board .w-lane').length")
               == lanes, f"{lanes} lanes", 90)


def measure_board(room):
    """What a browser takes of a processor while 16 lanes weigh."""
    names = [f"LOAD-{lane:02}" for lane in range(1, LANES + 1)]
    lines = opening(["rice250"]) + [f"open {name} rice250" for name in names]
    room.fill("\n".join(lines) + "\n")
    room.weigh(names, [endless(room.draw) for _ in names])
    browser = room.browser("wall", size="1920,1080")
    browser.view(1920, 1080)
    open_board(browser, LANES)
    time.sleep(10)
    chromium = processes_of(browser.driver.service.process.pid)[1:]
    rows, before, began = len(room.rows()), times_of(chromium), time.monotonic()
    time.sleep(SECONDS)
    after, gone = times_of(chromium), time.monotonic() - began
    packs = (len(room.rows()) - rows) / gone
    spent = {kind: (after.get(kind, 0) - before.get(kind, 0)) / gone for kind in after}
    share = sum(spent.values())
    parts = ", ".join(f"{kind} {part:.3f}" for kind, part in sorted(spent.items()))
    browser.picture(f"{room.pictures}/load_16.png")
    print(f"screen: 16 lanes, {packs:.0f} packs a second: the browser takes {share:.3f} of a"
          f" processor ({parts})", flush=True)
    complaints = browser.complaints()
    browser.close()
    room.browsers.remove(browser)
    room.hall.kill()
    need(packs >= 0.9 * LANES * A_SECOND, f"the lanes weigh {packs:.0f} packs a second")
    need(share <= MOST_SHARE, f"the browser takes {share:.3f} of a processor")
    need(not complaints, f"the browser complains: {complaints}")


def stand_in(browser):
    """Has the browser reckon the office by itself."""
    with open(f"{TOP}/tests/screen_office.js", encoding="utf-8") as source:
        browser.driver.execute_cdp_cmd("Page.addScriptToEvaluateOnNewDocument",
                                       {"source": source.read()})
    browser.driver.set_script_timeout(600)
    browser.reload()


def run_async(browser, script, *words):
    """Runs a script that awaits, and gives back what it says."""
    said = browser.driver.execute_async_script(
        "const tell = arguments[arguments.length - 1];"
        f"(async () => {{ {script} }})().then(tell, (fault) => tell(`fault: ${{fault}}`))", *words)
    need(not str(said).startswith("fault:"), said)
    return said


def memory_of(browser):
    """What the page holds: bytes of its heap, nodes and listeners."""
    for _ in range(3):
        browser.driver.execute_cdp_cmd("HeapProfiler.collectGarbage", {})
    heap = browser.driver.execute_cdp_cmd("Runtime.getHeapUsage", {})["usedSize"]
    counts = browser.driver.execute_cdp_cmd("Memory.getDOMCounters", {})
    return heap, counts["nodes"], counts["jsEventListeners"]


def measure_hour(browser):
    """An hour of the board, reckoned in the page: what it holds doesn't grow."""
    browser.run("hallClock.state.seconds = 60")
    open_board(browser, LANES)
    held, began = [], time.monotonic()
    for _ in range(4):
        run_async(browser, "await hallClock.goOn(arguments[0])", QUARTER)
        held.append(memory_of(browser))
    asked = browser.run("return hallClock.state.asked")
    rows = browser.run("return hallClock.rows()")
    print(f"screen: an hour of 16 lanes at 20 packs a second ({rows} rows, {asked} questions) in"
          f" {time.monotonic() - began:.0f} s; heap, nodes and listeners at each quarter: {held}",
          flush=True)
    browser.picture(f"{browser.pictures}/load_hour.png")
    (heap, nodes, listeners), (last_heap, last_nodes, last_listeners) = held[1], held[3]
    need(last_heap <= heap + SLACK, f"the heap grew from {heap} to {last_heap} bytes")
    need(last_nodes <= nodes + 50 and last_listeners <= listeners, f"the page grew: {held}")


def spent_by(browser):
    """Milliseconds that the page's main thread has had of a processor."""
    found = browser.driver.execute_cdp_cmd("Performance.getMetrics", {})["metrics"]
    return next(one["value"] for one in found if one["name"] == "TaskDuration") * 1000


def measure_drawing(browser):
    """A batch of 10 000 packs: from the last answer to the figure, and drawn anew."""
    browser.driver.execute_cdp_cmd("Performance.enable", {"timeDomain": "threadTicks"})
    browser.open("batch/BIG")
    first = run_async(browser, "return hallClock.whenDrawn('#batch svg.figure')")
    made = float(browser.run("return document.querySelector('#batch .chart-place').dataset.took"))
    before = spent_by(browser)
    again = run_async(browser, """
        const all = document.querySelector("#batch .choice button");
        const began = performance.now();
        all.click();
        await hallClock.drawn();
        return performance.now() - began""")
    spent = spent_by(browser) - before
    browser.picture(f"{browser.pictures}/load_10000.png")
    shown = browser.text("#batch .facts")
    need("10\u202f000" in shown, f"the batch has {shown}")
    print(f"screen: 10 000 packs stand {first:.0f} ms after the last answer (chart made in"
          f" {made:.0f} ms); drawn anew in {again:.0f} ms, {spent:.0f} of a processor", flush=True)
    need(spent <= PROMPT, f"10 000 packs are drawn in {spent:.0f} ms of a processor")


def run_load(program, folder, pictures):
    room = Room(program, folder, pictures)
    measure_board(room)
    browser = room.browser("anna", size="1920,1080")
    browser.pictures = pictures
    browser.view(1920, 1080)
    stand_in(browser)
    measure_drawing(browser)
    measure_hour(browser)
    complaints = browser.complaints()
    room.end()
    need(not complaints, f"the browser complains: {complaints}")
