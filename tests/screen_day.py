"""A day of a hall by clicks and keys: each act that a page was told is a row of the book. Here are
the desks with their links and disks; screen_verdict.py goes on from weighing to the verdict. A part
of tests/screen.py."""

import json
import os
import random
import re
import sys

from selenium.webdriver.common.keys import Keys

from browser import Browser, cut_between
from clients import Lane, need
from front_room import NAME, SHOWN, TOP, Front, make_hall, run, wait_until
from rows import rows_behind
from screen_room import DAY, PEOPLE
from screen_verdict import (
    end_and_draw, end_day, look_at_charts, look_at_sheet, measure_together, pick,
    second_and_verdict, void_a_pack, weigh,
)

SEED = 45


class Day:
    """What the parts of the day share: the front, the hall, the browsers and the pictures."""

    def __init__(self, program, room, pictures):
        self.program, self.room, self.pictures = program, room, pictures
        self.disk = f"{room}/disk"
        os.mkdir(self.disk)
        run("mount", "-t", "tmpfs", "-o", "size=4m", "tmpfs", self.disk)
        self.book = f"{self.disk}/day.book"
        self.draw = random.Random(SEED)
        self.front = Front(PEOPLE)
        self.front.start()
        self.lanes = []
        self.browsers = []
        self.curl = Curl(self.front.passwords["carl"])
        self.hall = make_hall(program, f"{room}/hall", "", [], self.book)

    def browser(self, person, **options):
        browser = Browser(self.room, person, self.front.passwords[person], **options)
        self.browsers.append(browser)
        return browser

    def rows(self):
        return rows_behind(self.book, 0)

    def weigh(self, batches, pieces):
        """A new hall, whose lanes weigh for these batches what these pieces say."""
        self.hall.kill()
        self.hall = make_hall(self.program, f"{self.room}/hall", "", batches, self.book)
        self.lanes = [Lane(self.hall, number, piece) for number, piece in enumerate(pieces, 1)]
        for lane in self.lanes:
            lane.start()


# Acts by curl at once, and how many rows a book may have room for without its disk.
AT_ONCE = 50
MOST_AHEAD = 2_000


class Curl:
    """What acts for a desk without a page, by curl through the front, and asks each act twice."""

    DESK = 103

    def __init__(self, password):
        self.words = ["curl", "-sS", "--cacert", f"/etc/hall/front/{NAME}.crt", "--resolve",
                      f"{NAME}:443:127.0.0.1", "-u", f"carl:{password}"]
        self.request = 1
        self.told = {}

    def ask(self, members):
        body = json.dumps({"desk": self.DESK, "request": self.request} | members)
        return json.loads(run(*self.words, "--data", body, f"https://{NAME}/hall/acts"))

    def act(self, **members):
        said, again = self.ask(members), self.ask(members)
        need(said == again and "row" in said, f"curl is told {said} and then {again}")
        self.told[said["row"]] = (self.request, members)
        self.request += 1

    def act_until_full(self, many):
        """Products, so many at once, until one isn't answered: the disk is full. Gives back how
        many are rows."""
        acts = [{"act": "product", "name": f"bran{self.request + at}", "nominal": 500_000}
                for at in range(many)]
        words = []
        for at, members in enumerate(acts):
            body = json.dumps({"desk": self.DESK, "request": self.request + at} | members)
            words += [*self.words[1:], "-w", "\\n", "--data", body,
                      f"https://{NAME}/hall/acts", "--next"]
        said = run("curl", *words[:-1]).splitlines()
        for line, members in zip(said, acts):
            if '"row"' not in line:
                break
            self.told[json.loads(line)["row"]] = (self.request, members)
            self.request += 1
        return sum(members in acts for _, members in self.told.values())


def check_refusals(browser, language):
    """Each refusal of the rules has its sentence, with its number and its name."""
    with open(f"{TOP}/docs/RULES.md", encoding="utf-8") as rules:
        names = dict(re.findall(r"^\| (\d+) \| `(\w+)` \|", rules.read(), re.MULTILINE))
    said = browser.driver.execute_async_script("""
        const tell = arguments[0];
        import("./refusals.js").then(({ refusal }) => tell(
            Array.from({ length: 35 }, (_, at) => refusal(at + 1, "KEPT"))))""")
    need(len(names) == 35 and len(set(said)) == 35,
         f"{len(names)} refusals, {len(set(said))} texts")
    for number, sentence in enumerate(said, 1):
        need(sentence.endswith(f" ({number} {names[str(number)]})") and len(sentence) > 40
             and "{" not in sentence and "undefined" not in sentence, f"{language}: {sentence}")


def two_tabs(day, anna):
    """One tab of a browser has a desk. What it left when it was closed another sends, once."""
    before = len(day.rows())
    anna.open_form("open")
    day.front.stop()
    anna.relay.cut()
    first = anna.driver.current_window_handle
    anna.driver.switch_to.new_window("tab")
    second = anna.driver.current_window_handle
    anna.driver.switch_to.window(first)
    anna.act("open", batch="TABS", product="rice250")
    anna.wait_text("#desk .pending", "asked again")
    day.front.start()
    anna.driver.switch_to.window(second)
    anna.open("desk")
    anna.wait_text("#desk", "Another page of this browser has this desk")
    anna.act("open", batch="TWICE", product="rice250")
    anna.wait_text("#act-open output", "Another page")
    anna.driver.switch_to.window(first)
    anna.told("#act-open", "Done")
    anna.driver.close()
    anna.driver.switch_to.window(second)
    anna.wait_text("#desk .told", "TABS, rice250. Done")
    wait_until(lambda: "Another page" not in anna.text("#desk .desk-choice"), "the desk is free")
    need(len(day.rows()) == before + 1, "an act of two tabs acted once")
    anna.told(anna.act("open", batch="SECOND", product="rice250"), "Done")


def prepare(anna):
    """The day, a product, its tare and two batches by the keyboard."""
    anna.open("desk")
    form = anna.act("day", day=DAY)
    anna.wait_text(f"{form} output", "Choose your desk")
    anna.choose_desk(101)
    form = anna.act("open", batch="MORNING", product="rice250")
    anna.told(form, "(6 DayUnset)")
    # a day that is years away is asked twice
    form = anna.act("day", day=DAY)
    anna.wait_text(f"{form} output", "Enter again")
    anna.find(f"{form} [name=day]").send_keys(Keys.ENTER)
    anna.told(form, "Done: row 1")
    anna.told(anna.act("product", name="rice250", nominal="250"), "row 2")
    anna.told(anna.act("product", name="rice250", nominal="250"), "(8 ProductKnown)")
    form = anna.act("product", name="ri ce", nominal="4.9")
    anna.wait_text("#act-product-name-bad", "A-Z")
    anna.wait_text("#act-product-nominal-bad", "from 5 to 10\u202f000")
    anna.told(anna.act("tare", product="rice250", day=DAY, tare="10,0 g"), "row 3")
    anna.told(anna.act("open", batch="MORNING", product="rice250"), "row 4")


def by_volume(day, anna):
    """Goods by volume have forms of their own, in millilitres and in grams a litre."""
    before = len(day.rows())
    anna.told(anna.act("product_ml", name="juice", nominal="1000 ml"), "Done")
    anna.act("open_at", batch="JUICE", product="juice", density="1040 ml")
    anna.wait_text("#act-open_at-density-bad", "from 500 to 2\u202f000 g/l")
    anna.told(anna.act("open_at", batch="JUICE", product="juice", density="1040,5"), "Done")
    anna.wait_text("#desk .told", "juice, 1\u202f000.000 ml. Done")
    anna.wait_text("#desk .told", "JUICE, juice, 1\u202f040.500 g/l. Done")
    wanted = [{"act": "product_ml", "name": "juice", "nominal": 1_000_000},
              {"act": "open_at", "batch": "JUICE", "product": "juice", "density": 1_040_500}]
    need([row.act for row in day.rows()[before:]] == wanted, "goods by volume have other rows")
    print("screen: goods by volume are entered in ml and g/l", flush=True)


def lose_an_answer(day, anna):
    """The link is cut between an act and its answer; the act is asked again, and acts once."""
    before = len(day.rows())
    form = []
    cut_between(anna, day.book, lambda: form.append(
        anna.act("open", batch="NOON", product="rice250")))
    [lost] = json.loads(anna.run("return localStorage['hall.acts.101']"))
    need(lost["tries"] == 1, f"the answer came before the link was cut: {lost}")
    said = anna.told(form[0], "Done")
    rows = day.rows()
    need(len(rows) == before + 1 and f"row {before + 1}." in said,
         f"{len(rows) - before} rows of an act whose answer was lost: {said}")
    tries = anna.run("return localStorage['hall.acts.101']")
    need(json.loads(tries) == [], f"still pending: {tries}")
    print("screen: an act whose answer was lost acted once", flush=True)


def lose_a_request(day, anna):
    """Without a front an act waits in the browser, over a page that is loaded anew."""
    before = len(day.rows())
    day.front.stop()
    anna.relay.cut()
    anna.act("open", batch="EVENING", product="rice250")
    anna.wait_text("#desk .pending", "asked again")
    anna.wait_text("#age", "No answer for")
    anna.picture(f"{day.pictures}/no_answer.png")
    anna.driver.get("about:blank")
    day.front.start()
    anna.open("desk")
    wait_until(lambda: anna.kept(101)[-1]["members"].find("EVENING") > 0, "EVENING is told")
    need(len(day.rows()) == before + 1, "an act that waited acted once")
    print("screen: an act without a front was done when it was there again", flush=True)


def stay_in_doubt(day, anna, other):
    """Where another machine went on as the same desk before a lost answer was asked for again, the
    page says that it can't know, and asks nothing again."""
    before = len(day.rows())
    other.choose_desk(101)
    cut_between(anna, day.book, lambda: anna.act("open", batch="DOUBT", product="rice250"),
                down=True)
    other.told(other.act("open", batch="MEANWHILE", product="rice250"), "Getan")
    anna.relay.down = False
    anna.told("#act-open", "Whether this act was done isn't known")
    need(len(day.rows()) == before + 2, "an act in doubt was asked again")
    anna.told(anna.act("open", batch="AFTER", product="rice250"), f"row {before + 3}.")
    print("screen: an act that can't be known is told so, and not done twice", flush=True)


def fill(path):
    """A file that takes what is left of its disk."""
    with open(path, "wb", buffering=0) as file:
        try:
            while file.write(bytes(512)):
                pass
        except OSError:
            pass


def is_done(anna, form):
    """Waits for an outcome of an act, or until the page says that the disk failed; says which."""
    return wait_until(lambda: anna.run("""
        if (document.querySelector(".pending.diskFailed")) return "failed";
        const said = document.querySelector(arguments[0]);
        return said.textContent && /done|refused/.exec(said.className)?.[0]""",
        f"{form} output"), f"an outcome of {form} on a full disk") == "done"


def full_disk(day, anna):
    """While the book's disk is full the page says so; with room again the act is done, once."""
    before = len(day.rows())
    filler = f"{day.disk}/filler"
    fill(filler)
    # the book has room for some hundred rows ahead
    taken, more = 0, AT_ONCE
    while more == AT_ONCE:
        more = day.curl.act_until_full(AT_ONCE)
        taken += more
        need(taken < MOST_AHEAD, "the disk isn't full")
    tried = 0
    form = anna.act("product", name="rye500", nominal="500")
    while is_done(anna, form):
        # the last page of the file may have room for some rows
        tried += 1
        need(tried < 100, "the disk isn't full")
        form = anna.act("product", name=f"rye{tried}", nominal="500")
    anna.wait_text("#desk .pending", "disk failed")
    anna.picture(f"{day.pictures}/disk_failed.png")
    os.remove(filler)
    anna.told(form, "Done")
    need(len(day.rows()) == before + taken + tried + 1, "an act on a full disk acted once")
    print("screen: a full disk is told, and its act was done with room again", flush=True)


def another_machine(day):
    """A page on another machine learns the last number from the refusal, and acts once."""
    before = len(day.rows())
    other = day.browser("anna", language="de")
    other.choose_desk(101)
    other.told(other.act("product", name="beans500", nominal="500"), "Getan: Zeile")
    rows = day.rows()
    need(len(rows) == before + 1 and rows[-1].request == rows[-2].request + 1,
         "a page on another machine took the next number")
    other.told(other.act("open", batch="NOON", product="rice250"), "Eine Charge heißt schon so")
    other.told(other.act("open", batch="X", product="none"), "Keine Ware heißt so")
    other.picture(f"{day.pictures}/desk_de.png")
    check_refusals(other, "de")
    check_list(other)
    other.driver.set_window_size(500, 900)
    other.picture(f"{day.pictures}/desk_narrow.png")
    other.open("board")
    other.wait_text("#board", "Zeilen")
    other.picture(f"{day.pictures}/board_narrow.png")
    other.driver.set_window_size(1400, 1000)
    return other


def check_list(browser):
    """Where the front serves a list, the desk shows it and its fields propose its names."""
    with open(f"{SHOWN}/list.txt", "w", encoding="ascii") as said:
        said.write(f"day {DAY}\nproduct lentils500 nominal 500.000 g tare none\n"
                   "batch LATE product lentils500 state running population 0\nrows 3 left 999997\n")
    browser.reload()
    browser.wait_text("#desk pre", "product lentils500")
    proposed = browser.run("return [...document.querySelectorAll('datalist option')]"
                           ".map((one) => one.value)")
    need({"lentils500", "LATE", "beans500"} <= set(proposed), f"proposed are {proposed}")
    os.remove(f"{SHOWN}/list.txt")


def act_by_curl(day):
    """A program at a desk of its own goes on beside the pages."""
    day.curl.act(act="product", name="barley500", nominal=500_000)
    day.curl.act(act="tare", product="barley500", day=DAY, tare=12_000)
    day.curl.act(act="open", batch="BARLEY", product="barley500")
    said = day.curl.ask({"act": "open", "batch": "BARLEY", "product": "barley500"})
    need(said.get("refused") == 13, f"a batch that is known is told {said}")


def not_theirs(day, ben):
    """A person speaks only as their own desks."""
    ben.choose_desk(101)
    before = len(day.rows())
    ben.told(ben.act("product", name="stolen", nominal="100"), "isn't yours")
    need(len(day.rows()) == before, "ben acted as desk 101")
    ben.choose_desk(102)
    ben.told(ben.act("product", name="oats", nominal="500"), "Done")


def show_fault(day):
    """What the browsers show and say where something isn't as it has to be."""
    print(f"{len(day.rows())} rows; the hall said {day.hall.said()}", file=sys.stderr)
    for place, browser in enumerate(day.browsers):
        browser.picture(f"{day.pictures}/fault_{place}.png")
        print(f"browser {place}: {browser.text('#age')}; {browser.complaints()}", file=sys.stderr)


def run_day(program, room, pictures):
    day = Day(program, room, pictures)
    try:
        work(day)
    except Exception:
        show_fault(day)
        raise


def work(day):
    anna = day.browser("anna")
    check_refusals(anna, "en")
    prepare(anna)
    by_volume(day, anna)
    lose_an_answer(day, anna)
    lose_a_request(day, anna)
    two_tabs(day, anna)
    other = another_machine(day)
    stay_in_doubt(day, anna, other)
    act_by_curl(day)
    full_disk(day, anna)
    ben, wall = day.browser("ben"), day.browser("wall", size="1920,1080")
    not_theirs(day, ben)
    anna.choose_desk(101)
    weigh(day, anna, wall)
    void_a_pack(day, anna)
    end_and_draw(anna)
    pick(day, anna)
    measure_together(day, anna, ben)
    second_and_verdict(day, anna)
    look_at_charts(day, anna, ben)
    look_at_sheet(day, anna)
    end_day(day, anna)

