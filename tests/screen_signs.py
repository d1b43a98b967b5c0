"""What the pages say, beside what is so: forecasts, alarms and their sound, rejects, lanes that
stand, a full book, the settings of the hall, and stores that hold what isn't theirs. A part of
tests/screen.py."""

import os
import threading
import time

from clients import need
from front_room import SHOWN, wait_until
from screen_room import Room, good, opening, slowly, weighing

SETTINGS = """{"hall": "Nordhalle", "lanes": {"1": "Links", "7": "Reserve"},
"alarms": {"silence": 8, "rows": 999900, "full": 15, "allowance": 90},
"prices": {"rice250": 2}, "country": {"share": 2, "name": "FPackV"}}"""
# What a page of before, another program or a person may have left in the browser's store.
SPOILED = {
    "hall.names": '["constructor"]', "hall.acts.101": '{"0": 1}', "hall.told.101": "[null, 7, {}]",
    "hall.last.101": '"x"', "hall.measured": '{"__proto__": [1], "A": 5}', "hall.lane": "99",
    "hall.theme": "purple", "hall.sound": "{", "hall.lang": "xx",
}


def wait_board(wall, part, selector="#board"):
    return wall.wait_text(selector, part, 90)


def check_average(room, wall):
    """One mg short is reported, with what the next 100 packs have to weigh; so is its end."""
    # 120 packs of 249.999 g and one that brings the sum to 1 mg less than 121 nominal quantities
    packs = [259_999] * 120 + [260_119]
    room.fill("\n".join(opening(["rice250"]) + ["open EDGE rice250"]
                        + weighing(1, "EDGE", packs)) + "\n")
    go_on = threading.Event()
    # a pack of 250.000 g, and then one of 250.001 g by which the sum is exact
    room.weigh(["EDGE"], [slowly([260_000, 260_001], 1, go_on)])
    wall.open("board")
    wait_board(wall, "EDGE: average 0.001 g short. Next 100 packs: 250.001 g each",
               "#board .alarms")
    wait_board(wall, "would fail: average", "#board .b-says.fail")
    go_on.set()
    wait_board(wall, "would pass", "#board .b-says.ok")
    print("screen: at 1 mg the forecast turns with the sum of the nets", flush=True)


def check_short(room, wall):
    """What is short, and what would mend it, as worked out by hand."""
    # 150 packs of 249.000 g: 150 g short; the next 100 have to weigh 251.5 g each
    room.fill("\n".join(opening(["rice250"]) + ["open SHORT rice250"]
                        + weighing(1, "SHORT", [259_000] * 150)) + "\n")
    room.weigh(["SHORT"], [silent()])
    wall.open("board")
    said = wait_board(wall, "SHORT: average 150 g short. Next 100 packs: 251.500 g each",
                      "#board .alarms")
    wait_board(wall, "would fail: average", "#board .b-says.fail")
    need("0 of 3" in wall.text("#board .b-meters"), "150 packs have an allowance of 3")
    need("FPackV" in wall.text("#board .b-meters"), "the country's rule has a line of its own")
    print(f"screen: {said.strip()}", flush=True)


def check_other_book(room, wall):
    """A book of more rows in the place of the one that the board follows, as a browser finds it
    that slept meanwhile: nothing of the former one stays."""
    for name, packs in (("BEFORE", 40), ("SINCE", 130)):
        room.fill("\n".join(opening(["rice250"]) + [f"open {name} rice250"]
                            + weighing(1, name, good(room.draw, packs))) + "\n")
        room.weigh([name], [silent()])
        wall.wait_text("#board .strips", name, 90)
    wait_until(lambda: "BEFORE" not in wall.text("#board .strips"), "the former book is gone", 30)
    last = len(room.rows()) - 2
    shown = wall.driver.execute_async_script("""
        const others = (packs) => [...packs.values()].filter((one) => one?.batch !== "SINCE");
        import("./packs.js").then(({ packs }) =>
            arguments[0](`${others(packs).length} ${Math.max(...packs.keys())}`))""")
    need(shown == f"0 {last}", f"packs of others, and the newest: {shown}, for {last}")
    print("screen: another book of more rows is seen by the rows that were read last", flush=True)


def check_rejects(room, wall):
    """The last signal is large; that packs before it were rejected, and why, stays to be seen."""
    packs = good(room.draw, 120)
    # 230.5 g net lie below T2, 232 g
    packs[100] = packs[110] = 240_500
    room.fill("\n".join(opening(["rice250"]) + ["open REJECTS rice250"]
                        + weighing(1, "REJECTS", packs)) + "\n")
    room.weigh(["REJECTS"], [silent()])
    wall.open("board")
    wait_board(wall, "2 of the last 60 rejected, the newest: inadequate", "#board .w-lane .unseen")
    need(wall.text("#board .w-out") == "2inadequate", f"it shows {wall.text('#board .w-out')}")
    shown = wall.run("return document.querySelector('#board .w-out > span').checkVisibility()")
    need(shown, "the cause of the last reject isn't shown")
    print("screen: rejects of the last 60 packs stay on the board with their cause", flush=True)


def check_lost(room, anna):
    """Acts that this browser kept and can't read are told, until a person has looked."""
    anna.open("desk")
    anna.find("#my-desk")
    for kept in ('{"0": 1}', '[{"mark": 5}]', "spoiled"):
        anna.run("localStorage['hall.acts.101'] = arguments[0]", kept)
        anna.reload()
        anna.choose_desk(101)
        anna.wait_text("#desk .unread", kept)
        need("isn't known" in anna.text("#desk .unread"), "it isn't said that nobody knows")
        # they stay until somebody has looked
        anna.reload()
        anna.wait_text("#desk .unread", kept)
        anna.find("#desk .unread button").click()
        wait_until(lambda: anna.text("#desk .unread") == "", "looked at", 30)
    need(anna.run("return localStorage['hall.acts.101']") == "[]", "the store holds them still")
    print("screen: kept acts that can't be read are told", flush=True)


def silent():
    """A scale that sends nothing."""
    while True:
        time.sleep(0.2)
        yield b""


def check_held(room, wall):
    """A held batch: the word, the pack, one sound; nothing sounds again while it stays."""
    draw = room.draw
    packs = good(draw, 130)
    packs[120] = 250_900
    room.fill("\n".join(opening(["rice250"]) + ["open HELD rice250"]
                        + weighing(1, "HELD", packs) + ["tare rice250 2025-03-03 20"]) + "\n")
    room.weigh(["HELD"], [silent()])
    count = "return window.soundsMade ?? 0"
    wall.driver.execute_cdp_cmd("Page.addScriptToEvaluateOnNewDocument", {"source": """
        const { prototype } = OscillatorNode;
        const { start } = prototype;
        prototype.start = function (...when) {
            window.soundsMade = (window.soundsMade ?? 0) + 1;
            return start.apply(this, when);
        };
        window.spoken = [];
        addEventListener("DOMContentLoaded", () => new MutationObserver(() => {
            const text = document.querySelector("#board [role=alert]")?.textContent;
            if (text && text !== spoken.at(-1)) spoken.push(text);
        }).observe(document.body, { subtree: true, childList: true, characterData: true }));"""})
    wall.open("search")
    wall.reload()
    # where the page was touched sound is allowed
    wall.find("#theme").click()
    wall.open("board")
    # gross 250.900 less 20 g is 230.900 g, below T2 (232 g): pack 126 of rows 6 to 135
    wait_board(wall, "HELD is held: void pack 126", "#board .alarms")
    wait_board(wall, "HELD", "#board .b-says.held")
    wait_until(lambda: wall.run(count) == 1, lambda: f"{wall.run(count)} sounds", 30)
    time.sleep(6)
    need(wall.run(count) == 1, f"an alarm sounded {wall.run(count)} times")
    spoken = wall.run("return window.spoken")
    need(sum("HELD is held" in text for text in spoken) == 1, f"spoken is {spoken}")
    wall.find("#theme").click()
    print("screen: a held batch is named with its pack, spoken, and sounds once", flush=True)


def check_lanes(room, wall):
    """A lane of the plan that stands says why; a silent one for how long; few rows, a full book."""
    draw = room.draw
    lines = opening(["rice250"])
    for lane, name in enumerate(("ONE", "TWO"), 1):
        lines += [f"open {name} rice250"] + weighing(lane, name, good(draw, 110))
    room.fill("\n".join(lines) + "\n")
    room.weigh(["ONE", "TWO"], [silent(), silent()])
    write_lanes("lane 1 batch ONE weighing\nlane 2 batch TWO bad 17\nbook rows 232 left 999768\n")
    wall.open("board")
    wait_board(wall, "Lane 2 (TWO): its scale sent no weight (17)", "#board .alarms")
    wait_board(wall, "Lane 1 Links: no pack for", "#board .alarms")
    wait_board(wall, "999 768 rows left".replace(" ", "\u202f", 1), "#board .foot")
    wait_board(wall, "rows left in the book: prepare the next one", "#board .alarms")
    write_lanes("lane 1 batch ONE weighing\nlane 2 batch TWO bad 17\nbook full\n")
    wait_board(wall, "The book is full", "#board .alarms")
    os.remove(f"{SHOWN}/lanes.txt")
    print("screen: lanes that stand say why, and a full book is an alarm", flush=True)


def write_lanes(text):
    with open(f"{SHOWN}/lanes.new", "w", encoding="ascii") as said:
        said.write(text)
    os.rename(f"{SHOWN}/lanes.new", f"{SHOWN}/lanes.txt")


def check_settings(room, wall):
    """Names, prices and the country's rule are those of the file; a spoiled file is as none."""
    need("Nordhalle" in wall.text("#where"), "the hall has its name")
    wall.open("lane")
    wall.open("lane/none")
    wall.wait_text("#lane .lanes", "Lane 7 Reserve")
    wall.open("batch/ONE")
    wall.wait_text("#batch .facts", "at 2.00 € a kg", 120)
    for text in ("[]", "{", '{"lanes": 5, "alarms": null, "prices": [1], "country": "x"}', "null"):
        room.settle(text)
        wall.reload()
        wall.wait_text("#batch .facts", "no price is set for rice250", 120)
    room.settle(SETTINGS)
    print("screen: the settings file is read, and a spoiled one is as none", flush=True)


def check_stores(room, wall):
    """Pages work on where the store holds anything, and where the address names no page of
    theirs."""
    for name, value in SPOILED.items():
        wall.run("localStorage[arguments[0]] = arguments[1]", name, value)
    for page in ("board", "constructor", "__proto__", "toString/x", "lane", "desk", "sheet/ONE",
                 "batch/constructor", "desk/constructor", "%F0"):
        wall.driver.get("about:blank")
        wall.open(page)
        wait_until(lambda: wall.run("return Boolean(document.querySelector('main > section'))"),
                   f"a page at #{page}", 60)
        wall.wait_text("#age", "As of", 60)
    for name in SPOILED:
        wall.run("localStorage.removeItem(arguments[0])", name)
    print("screen: spoiled stores and odd addresses leave every page working", flush=True)


def check_lane(room, wall, anna):
    """A tablet: the signal has more than half of the screen; the last pack is voided with a
    reason."""
    draw = room.draw
    room.fill("\n".join(opening(["rice250"]) + ["open LINE rice250"]
                        + weighing(1, "LINE", good(draw, 120))) + "\n")
    go_on = threading.Event()
    room.weigh(["LINE"], [slowly([261_000, 262_000, 240_500, 262_000], 1, go_on, 1)])
    anna.view(1024, 768)
    anna.open("lane/1")
    anna.wait_text("#lane .st-signal", "REJECT", 90)
    said = anna.text("#lane .st-signal")
    # 240.5 g less 10 g lies below T2, 232 g
    need("Far too light" in said and "230.500 g is below T2, 232.000 g" in said, f"it says {said}")
    share = anna.run("""const { width, height } = document.querySelector(".st-signal")
        .getBoundingClientRect(); return width * height / innerWidth / innerHeight""")
    need(share > 0.5, f"the signal has {share:.2f} of the screen")
    need(anna.run("return document.querySelectorAll('#lane .st-last tbody tr').length") == 10,
         "the last ten packs")
    void_last(room, anna)
    # the last pack, and the lane's cell has ended
    go_on.set()
    anna.wait_text("#lane .st-signal", "No batch", 90)
    anna.view(1400, 1000)
    print(f"screen: the signal has {share:.2f} of a tablet; a pack was voided there", flush=True)


def void_last(room, anna):
    """By keys: the button, a reason, the desk, and the row of the book."""
    from selenium.webdriver.common.keys import Keys
    before = len(room.rows())
    anna.find(".st-void").send_keys(Keys.ENTER)
    anna.find("dialog .picks input").send_keys(Keys.SPACE)
    anna.find("#void-desk").send_keys("101")
    button = anna.find("dialog .ends button:not(.second)")
    wait_until(lambda: button.is_enabled(), "the void can be sent", 30)
    button.send_keys(Keys.ENTER)
    anna.wait_text("dialog .said", "Done: row", 60)
    last = room.rows()[-1]
    need(len(room.rows()) == before + 1 and last.act["act"] == "void" and last.desk == 101,
         f"the last row is {last}")
    anna.find("dialog .ends .second").send_keys(Keys.ENTER)
    anna.wait_text("#lane .st-last", "voided", 60)


def run_signs(program, folder, pictures):
    room = Room(program, folder, pictures, SETTINGS)
    wall, anna = room.browser("wall", size="1920,1080"), room.browser("anna")
    wall.view(1920, 1080)
    check_short(room, wall)
    check_average(room, wall)
    check_held(room, wall)
    check_other_book(room, wall)
    check_rejects(room, wall)
    check_lanes(room, wall)
    check_settings(room, wall)
    check_stores(room, wall)
    check_lane(room, wall, anna)
    check_lost(room, anna)
    for browser in room.browsers:
        complaints = browser.complaints()
        need(not complaints, f"the browser complains: {complaints}")
    room.end()
