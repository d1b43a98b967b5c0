"""The day of tests/screen_day.py from weighing to a verdict: a held batch, a void, a sample that
two desks measure together, the verdict, the charts and the sheet, and what the book then says."""

import json
import os
import subprocess
import threading
import time

from selenium.common.exceptions import ElementNotInteractableException
from selenium.webdriver.common.keys import Keys

from clients import need
from front_room import SHOWN, run, wait_until
from screen_load import run_async
from screen_room import DAY, slowly

# Milliseconds in which a chart of a thousand packs has to be drawn.
PROMPT_CHART = 200


def grosses(draw, count):
    """Packs of 250 g in bags of 10 g. Three lack something, the second of them too soon behind the
    first for the allowance; one is inadequate."""
    packs = [max(round(draw.gauss(262_000, 1_700)), 256_000) for _ in range(count)]
    packs[10] = packs[15] = packs[70] = 250_400
    packs[20] = 241_900
    return packs


def weigh(day, anna, wall):
    """Two lanes weigh; a batch is held and freed by its tare."""
    last = threading.Event()
    morning = grosses(day.draw, 110)
    noon = [round(day.draw.gauss(261_500, 2_500)) for _ in range(1_000)]
    day.weigh(["MORNING", "NOON"], [slowly(morning, 1, last), slowly(noon, 10)])
    wall.view(1920, 1080)
    wall.open("board")
    wait_until(lambda: weighed(day.rows(), 1) == 109 and weighed(day.rows(), 2) == 1_000,
               "109 and 1 000 packs", 240)
    form = anna.act("end", batch="MORNING", twice=True)
    anna.told(form, "Lane 1 still weighs this batch")
    anna.told(anna.act("draw", batch="MORNING", mode="are kept"), "The batch is running")
    need("HELD" not in wall.text("#board"), "held, and no pack is inadequate")
    anna.told(anna.act("tare", product="rice250", day=DAY, tare="19"), "Done")
    wall.wait_text("#board .b-says.held", "HELD", 60)
    wall.wait_text("#board .alarms", "is held", 60)
    wall.picture(f"{day.pictures}/held.png")
    anna.told(anna.act("tare", product="rice250", day=DAY, tare="10"), "Done")
    wait_until(lambda: "HELD" not in wall.text("#board"), "held no more", 60)
    last.set()
    wait_until(lambda: weighed(day.rows(), 1) == 110, "the last pack", 60)
    day.curl.act(act="end", batch="BARLEY")
    day.curl.act(act="close", batch="BARLEY")
    wall.picture(f"{day.pictures}/board.png")
    print("screen: the board shows a held batch and that it is free again", flush=True)


def weighed(rows, lane):
    return sum(1 for row in rows if row.act["act"] == "weigh" and row.act["lane"] == lane)


def void_a_pack(day, anna):
    """A pack is shown before it is voided; a rejected one and none are refused."""
    packs = [row for row in day.rows() if row.act["act"] == "weigh" and row.act["lane"] == 1]
    form = anna.act("void", pack=str(packs[5].number))
    anna.wait_text(f"{form} output", "gross")
    anna.find(f"{form} [name=pack]").send_keys(Keys.ENTER)
    anna.told(form, "Done")
    rejected = next(row for row in packs if row.signal != "pass")
    anna.told(anna.act("void", pack=str(rejected.number), twice=True), "The pack is rejected")
    anna.told(anna.act("void", pack="1"), "No pack has this number")


def end_and_draw(anna):
    anna.told(anna.act("end", batch="MORNING", twice=True), "Done")
    anna.told(anna.act("close", batch="MORNING", twice=True), "No sample of this batch was drawn")
    anna.told(anna.act("draw", batch="MORNING", mode="are kept"), "Done")


def begin_measuring(browser):
    browser.open("desk")
    browser.open("desk/MORNING")
    browser.find(".go-measure").send_keys(Keys.ENTER)
    browser.wait_text(".m-at", "of 30")
    need(browser.run("return location.hash") == "#measure/MORNING", "measuring has an address")


def shown_pack(browser):
    """The pack that is to be measured, or 0 where none is left."""
    digits = "".join(filter(str.isdigit, browser.text(".m-no")))
    return int(digits or 0)


def is_far_off(browser):
    return "was typed" in browser.text(".m-far")


def is_measured(browser):
    return "are measured" in browser.text(".m-at")


def measure_on(browser, light):
    """Measures by the keyboard alone until no pack is left, also by another desk; says how many
    were asked."""
    asked = 0
    while not is_measured(browser):
        pack = shown_pack(browser)
        field = browser.driver.switch_to.active_element
        if field.get_attribute("id") != "m-gross":
            need(is_measured(browser), f"at pack {pack} the field has no focus")
            break
        try:
            measure_one(browser, field, pack, "250.5" if pack in light else "262.12 g")
        except ElementNotInteractableException:
            need(is_measured(browser), f"at pack {pack} nothing can be typed")
        asked += 1
    return asked


def measure_one(browser, field, pack, weight):
    field.send_keys(weight, Keys.ENTER)
    wait_until(lambda: shown_pack(browser) != pack or is_far_off(browser), f"{pack}", 60)
    if shown_pack(browser) == pack and is_far_off(browser):
        field.send_keys(Keys.ENTER)
    wait_until(lambda: shown_pack(browser) != pack, f"behind {pack} comes another", 60)


def drawn(program, book, batch):
    """The packs of the newest sample of a batch, told by the program over a copy of the book."""
    with open(book, "rb") as source, open(f"{book}.copy", "wb") as copy:
        copy.write(source.read())
    said = subprocess.run([program, "run", "--book", f"{book}.copy"], input=f"sample {batch}\n",
                          capture_output=True, text=True, check=True).stdout.splitlines()[0]
    words = said.split()[3:]
    cut = words.index("second") if "second" in words else -1
    return [int(word) for word in words[cut + 1:]]


def pick(day, anna):
    """The pick list has each drawn pack once, by lane and by its place there; its labels are
    ZPL."""
    first = drawn(day.program, day.book, "MORNING")
    weighed_at = [row.number for row in day.rows() if row.act["act"] == "weigh"
                  and row.act["lane"] == 1]
    anna.open("desk/MORNING")
    anna.find("#desk .step.measure a.second").send_keys(Keys.ENTER)
    anna.find("#picks table")
    listed = anna.run("""return [...document.querySelectorAll("#picks tbody tr")]
        .map((row) => [...row.children].map((one) => one.textContent))""")
    expected = [[str(pack), "1", str(weighed_at.index(pack) + 1), str(first.index(pack) + 1)]
                for pack in sorted(first)]
    found = [[plain(cells[at]) for at in (0, 1, 2, 4)] for cells in listed]
    need(found == expected, f"the pick list has {found} for {expected}")
    labels = run_async(anna, """
        const { zplOf } = await import("./picks.js");
        return zplOf("MORNING", [{ number: 7, lane: 1 }, { number: 10123, lane: 2 }])""")
    need(labels.count("^XA") == labels.count("^XZ") == 2 and "^FD10123^FS" in labels
         and "^FD2/2  L2^FS" in labels, f"the labels are {labels}")
    anna.picture(f"{day.pictures}/picks.png")
    pages = anna.paper(f"{day.pictures}/picks_paper")
    need(pages == 1, f"a pick list of 30 is printed on {pages} pages")
    print("screen: the pick list has each drawn pack by its place on its lane", flush=True)


def measure_together(day, anna, ben):
    """Two desks measure one sample at once, and each pack is measured once."""
    first = drawn(day.program, day.book, "MORNING")
    light = set(first[3:5])
    begin_measuring(anna)
    anna.find("#m-gross").send_keys("26.2", Keys.ENTER)
    anna.wait_text(".m-far", "26.200 g was typed")
    anna.fill("#m-gross", "")
    anna.picture(f"{day.pictures}/measuring.png")
    begin_measuring(ben)
    helper = threading.Thread(target=measure_on, args=(ben, light), daemon=True)
    helper.start()
    measure_on(anna, light)
    helper.join(120)
    measures = [row for row in day.rows() if row.act["act"] == "measure"]
    need(sorted(row.act["pack"] for row in measures) == sorted(first), "each pack once")
    desks = {desk: sum(1 for row in measures if row.desk == desk) for desk in (101, 102)}
    print(f"screen: two desks measured a sample together, {desks}", flush=True)


def second_and_verdict(day, anna):
    """A close that is refused; the second sample, measured; the verdict; a tare that is frozen."""
    anna.find(".m-leave").send_keys(Keys.ESCAPE)
    anna.told(anna.act("close", batch="MORNING", twice=True), "Draw the second sample")
    anna.told(anna.act("second", batch="MORNING"), "Done")
    begin_measuring(anna)
    measure_on(anna, set())
    anna.find(".m-leave").send_keys(Keys.ESCAPE)
    anna.find("#step-close button").send_keys(Keys.ENTER)
    anna.wait_text("#desk .work", "released", 60)
    anna.picture(f"{day.pictures}/verdict.png")
    anna.told(anna.act("tare", product="rice250", day=DAY, tare="11"), "Closed batch MORNING")


def look_at_charts(day, anna, ben):
    """The chart of a batch, that of one that isn't there, and how fast a larger one is made."""
    anna.open("batch/MORNING")
    anna.wait_text("#batch svg.figure title", "MORNING", 120)
    anna.open("chart/NOBATCH")
    anna.wait_text("#batch .read-so-far", "No batch has this name")
    anna.open("batch/MORNING")
    anna.wait_text("#batch svg.figure title", "MORNING", 120)
    anna.picture(f"{day.pictures}/batch.png")
    shapes = anna.run("return [...document.querySelectorAll('#batch svg.figure path')]"
                      ".map((one) => one.getAttribute('class'))")
    for shape in ("l-nominal", "l-t1", "l-t2", "l-mean", "l-limit", "bars", "m-reject", "m-void",
                  "m-pass"):
        need(shape in shapes, f"the chart has no {shape}")
    began = time.monotonic()
    ben.open("batch/NOON")
    ben.wait_text("#batch svg.figure title", "NOON", 240)
    loaded = time.monotonic() - began
    # the best of a few: others may use the machine
    again = "document.querySelector('#batch .choice button').click();"
    took = min(float(ben.run(again + "return document.querySelector('#batch .chart-place')"
                                     ".dataset.took")) for _ in range(5))
    need(took <= PROMPT_CHART, f"a chart of 1 000 packs took {took} ms")
    ben.picture(f"{day.pictures}/batch_1000.png")
    print(f"screen: a chart of 1 000 packs is read in {loaded:.1f} s and made in {took} ms",
          flush=True)


def serve_paper(day, batch):
    """What the front serves of a closed batch, as the program says it over a copy of the book."""
    os.makedirs(f"{SHOWN}/papers", exist_ok=True)
    with open(f"{SHOWN}/papers/{batch}.txt", "w", encoding="ascii") as text:
        text.write(run(day.program, "paper", "--book", day.book, "--batch", batch))


def look_at_sheet(day, anna):
    """Without its paper the sheet says so; with it the reference test stands whole, on two
    pages."""
    anna.open("sheet/MORNING")
    anna.wait_text("#sheet .sh-checks", "Contents", 120)
    need(anna.run("return document.querySelector('#sheet-paper')"), "the paper can't be chosen")
    serve_paper(day, "MORNING")
    anna.reload()
    anna.wait_text("#sheet", "Second sample", 120)
    pages = anna.paper(f"{day.pictures}/sheet")
    need(pages == 2, f"the sheet of MORNING is printed on {pages} pages")
    anna.picture(f"{day.pictures}/sheet_screen.png")


def plain(text):
    """A number of the page without narrow blanks, with the minus of a program."""
    return text.replace("\u202f", "").replace("−", "-").strip()


def numbers_of_page(browser, batch):
    """What the sheet says of a batch, by the words beside it."""
    browser.open(f"sheet/{batch}")
    browser.wait_text("#sheet .paper h2", batch, 240)
    found = browser.run("""
        const text = (one) => one.textContent.trim();
        const facts = [...document.querySelectorAll("#sheet .lines > div")]
            .map((one) => [text(one.querySelector("dt")), text(one.querySelector("dd"))]);
        const checks = [...document.querySelectorAll("#sheet .sh-checks tbody tr")].map((one) =>
            [one.firstChild.firstChild.textContent, [...one.children].slice(1).map(text)]);
        const verdict = text(document.querySelector("#sheet .big-verdict"));
        return [...facts, ...checks, ["verdict", verdict]]""")
    return {name: value if isinstance(value, list) else plain(value) for name, value in found}


def report_of(program, book, batch):
    said = run(program, "report", "--book", book, "--batch", batch)
    return {line.split()[0]: line.split() for line in said.splitlines()}


def compare_report(day, shown, batch):
    """The book's report and the page's numbers are the same."""
    told = report_of(day.program, day.book, batch)
    names = {"readings": "weighed", "passed": "passed", "rejected": "rejected",
             "sampled": "sampled", "voided": "voided"}
    for pile, name in names.items():
        need(shown[name] == told[pile][1], f"{batch}: {pile} {shown[name]} for {told[pile]}")
    population, net = int(told["population"][1]), round(float(told["population"][3]) * 1000)
    need(shown["all packs that count"] == str(population), f"{batch}: {shown} for {population}")
    expected = {
        "Average": f"≈ {grams(net / population)} g of {population} packs",
        "Inadequate": f"{told['population'][7]} below T2",
    }
    for name, value in expected.items():
        need(plain(shown[name][0]) == value, f"{batch}: {name} is {shown[name]} for {value}")
    light, allowed = told["population"][5], population // 40
    need(plain(shown["Allowance"][0]).startswith(f"{light} below T1")
         and f" {allowed}," in shown["Allowance"][1], f"{batch}: {shown['Allowance']} for {light}")
    verdict = told.get("verdict", ["", "no verdict yet"])[1]
    need(verdict in shown["verdict"], f"{batch}: {shown['verdict']} for {verdict}")


def grams(milligrams):
    """As JavaScript rounds to three places."""
    return f"{milligrams / 1000:.3f}"


def compare_book(day, browsers):
    """Each act that a page was told is the row that it was told, and no row of a desk is more."""
    rows = {row.number: row for row in day.rows()}
    told = 0
    for browser in browsers:
        for desk in (101, 102):
            for entry in browser.kept(desk):
                if "done" not in entry["found"]:
                    continue
                row = rows[entry["found"]["done"]["row"]]
                members = json.loads("{" + entry["members"] + "}")
                need((row.desk, row.request) == (desk, entry["request"]), f"{row} for {entry}")
                need(members.items() <= row.act.items(), f"{row} for {entry}")
                told += 1
    for number, (request, members) in day.curl.told.items():
        row = rows[number]
        need((row.desk, row.request) == (day.curl.DESK, request)
             and members.items() <= row.act.items(),
             f"{row} for {members}")
    for desk in (101, 102, day.curl.DESK):
        numbers = [row.request for row in rows.values() if row.desk == desk]
        need(numbers == list(range(1, len(numbers) + 1)), f"desk {desk} has {numbers}")
    need(len(day.curl.told) == len(numbers), f"curl was told {len(day.curl.told)} of {numbers}")
    print(f"screen: {told} acts that pages were told and {len(numbers)} by curl are rows of the"
          " book", flush=True)


def end_day(day, anna):
    """The hall ends; its book is whole, and says what the pages say."""
    shown = {batch: numbers_of_page(anna, batch) for batch in ("MORNING", "NOON")}
    day.hall.kill()
    said = run(day.program, "check", "--book", day.book)
    need(said == f"rows {len(day.rows())} whole\n", said)
    for batch, numbers in shown.items():
        compare_report(day, numbers, batch)
    compare_book(day, day.browsers)
    for browser in day.browsers:
        complaints = browser.complaints()
        need(not complaints, f"the browser complains: {complaints}")
        browser.close()
    day.front.stop()
    print(f"screen: the report and the pages say the same; {said.strip()}", flush=True)
