"""The pages of reports and of the search over an archive that has books of several days, and a
batch of an old book: each in both languages, light and dark, at five sizes. A part of
tests/screen.py."""

# mypy: allow-untyped-calls, allow-untyped-defs

import json
import os
import sys
from datetime import datetime

HERE = os.path.dirname(os.path.realpath(__file__))
sys.path[:0] = [f"{HERE}/../archive", f"{HERE}/../bench"]

import archive_books
from archive_room import Process, wait
from clients import need
from front_room import run, wait_until
from screen_pages import (LANGUAGES, LONG, LONG_PRODUCT, SETTINGS, Faults, look, open_page,
                          set_language)
from screen_room import Room, good, grams, weighing
from screen_sizes import check_small

from hall_archive import store
from hall_archive.__main__ import main as archive
from hall_archive.store import Store

DOOR = 8490
PRODUCTS = ("rice250", "salt250", LONG_PRODUCT)
# Days of 2025-03, a book each; of each batch so many packs.
DAYS = (3, 4, 5, 6, 7, 10, 11)
PACKS = 160
REPORTS = ("shift", "day", "week", "product", "lane", "book")
ARCHIVE = """
database = "sqlite:///FOLDER/archive.db"
folder = "FOLDER"
program = "PROGRAM"
books = "FOLDER"
front = "FOLDER/acts.log"
[reports]
zone = "Europe/Berlin"
aim = 0.8
[reports.prices]
rice250 = 1.89
salt250 = 0.42
"""


def day_script(draw, day):
    """A day of two lanes: a batch of each of the goods, one of them with a long name."""
    lines = [f"day 2025-03-{day:02}"]
    for product in PRODUCTS:
        lines += [f"product {product} 250", f"tare {product} 2025-03-{day:02} 10"]
    for place, product in enumerate(PRODUCTS):
        name = f"RICE-03{day:02}-{place}" if place < 2 else f"{LONG[:-2]}{day:02}"
        fall = 1_500 * (place == 1 and day % 3 == 0)
        packs = [gross - fall for gross in good(draw, PACKS + 10 * day)]
        packs[20:26] = [251_000, 240_000, 250_200, 243_000, 250_300, 250_100]
        half = len(packs) // 2
        lines += [f"@101 {2 * place + 1} open {name} {product}"]
        lines += weighing(1, name, packs[:half]) + weighing(2, name, packs[half:])
        lines += [f"@101 {2 * place + 2} end {name}", f"@102 {place + 1} draw {name} keep {day}",
                  f"sample {name}"]
    return lines


def closings(said, bad):
    """What is measured of each sample, and its closing; `bad` is a batch that fails."""
    lines = []
    for line in said.splitlines():
        if line.startswith("sample "):
            _, batch, _, *picks = line.split()
            light = 3 if batch == bad else 0
            for at, pack in enumerate(picks):
                gross = 250_200 if at < light else 262_000 + at
                lines.append(f"measure {pack} {grams(gross)}")
            lines.append(f"close {batch}")
    return lines


def make_books(program, folder, draw):
    """A book a day, each batch with its verdict; their names."""
    names = []
    for day in DAYS:
        names.append(f"2025-03-{day:02}")
        path = f"{folder}/{names[-1]}.book"
        said = run(program, "run", "--book", path, input="\n".join(day_script(draw, day)) + "\n")
        need("refused" not in said, f"a day that is refused: {said[-500:]}")
        run(program, "run", "--book", path,
            input="\n".join(closings(said, f"RICE-03{day:02}-0" if day == 6 else "")) + "\n")
    return names


def begin_of(name):
    """When the first row of a day came, in ms of UTC: in the early shift, and on some days so late
    that a later one begins."""
    day = datetime.fromisoformat(f"{name}T12:50:00+00:00" if name.endswith("1") else
                                 f"{name}T08:00:00+00:00")  # fmt: skip
    return int(day.timestamp()) * 1000


def refuse(path, names):
    """What the front says of refused acts, some on each day."""
    with open(path, "w", encoding="utf-8") as file:
        for place, name in enumerate(names):
            body = {"act": ("close", "draw", "void")[place % 3], "desk": 101, "request": 9}
            said = {"time": f"{begin_of(name) / 1000:.3f}", "took": "0.010", "book": name,
                    "person": ("anna", "ben")[place % 2], "status": "409", "row": "9",
                    "body": json.dumps(body)}  # fmt: skip
            file.write(json.dumps(said) + "\n")


def make_archive(program, folder, names):
    """The archive of these books, with hours and persons that they would have, and of the book that
    the front shows."""
    refuse(f"{folder}/acts.log", names)
    settings = f"{folder}/archive.toml"
    books = "".join(f'[[book]]\nhall = "main"\nname = "{name}"\n' for name in ["day", *names])
    with open(settings, "w", encoding="utf-8") as file:
        text = ARCHIVE.replace("FOLDER", folder).replace("PROGRAM", program)
        file.write(f"{text}{books}")
    ask = lambda *words: archive(["--settings", settings, *words])  # noqa: E731
    need(ask("migrate") == 0, "the tables are made")
    for name in names:
        need(ask("take", name) == 0, f"{name} is taken in")
        kept = Store(store.open_engine(f"sqlite:///{folder}/archive.db", True), "main", name)
        archive_books.RATE, archive_books.BEGIN = 1, begin_of(name)
        archive_books.put_hours(kept, kept.cursor().upto)
        need(ask("sum", name) == 0, f"{name} is summed")
    return Process([sys.executable, "-B", f"{HERE}/../archive/hall-archive", "--settings", settings,
                    "serve"], f"{folder}/serve.log")  # fmt: skip


def put_days(browser):
    """The days that a report is of, as one types them."""
    for field, day in (("first", DAYS[0]), ("last", DAYS[-1])):
        browser.run("const [id, day] = arguments; const one = document.getElementById(id);"
                    "one.value = day; one.dispatchEvent(new Event('change'))",
                    f"r-{field}", f"2025-03-{day:02}")  # fmt: skip


def look_at_reports(browser, language, faults, pictures):
    open_page(browser, "reports", "#reports .choice")
    look(browser, "reports empty", language, faults, pictures)
    put_days(browser)
    for by in REPORTS:
        place = ("shift", "day", "week", "month", "product", "lane", "hall", "book").index(by)
        browser.run("document.querySelectorAll('#reports .choice button')[arguments[0]].click()",
                    place)
        there = "return document.querySelectorAll('#reports .choice button')[arguments[0]]" \
            ".getAttribute('aria-pressed') === 'true' && document.querySelectorAll(" \
            "'#reports .panel').length > 4"
        wait_until(lambda place=place, there=there: browser.run(there, place), f"by {by}", 60)
        look(browser, f"reports by {by}", language, faults, pictures)


def look_at_search(browser, language, faults, pictures):
    open_page(browser, "search", "#search .s-found table")
    look(browser, "search all", language, faults, pictures)
    for field, text, name in (("text", "20", "search pack"), ("text", "NOWHERE", "search nothing"),
                              ("person", "anna", "search person")):
        browser.run("document.querySelector('#search form').reset()")
        browser.find(f"#s-{field}").send_keys(f"{text}\n")
        wanted = ".notice" if text == "NOWHERE" else "table"
        wait_until(lambda wanted=wanted: browser.run(
            "return Boolean(document.querySelector('#search .s-found ' + arguments[0]))", wanted),
            name, 60)
        look(browser, name, language, faults, pictures)


def look_at_old(browser, language, faults, pictures):
    """A batch of an old book: its sheet and its page, as they were."""
    for page, selector, name in (
        ("sheet/RICE-0306-0/2025-03-06", "#sheet .paper", "old sheet"),
        ("batch/RICE-0306-0/2025-03-06", "#batch svg.figure", "old batch"),
        (f"sheet/{LONG[:-2]}03/2025-03-03", "#sheet .paper", "old sheet long"),
    ):
        open_page(browser, page, selector)
        look(browser, name, language, faults, pictures)


def run_reports(program, folder, pictures):
    room, faults = Room(program, folder, pictures, SETTINGS), Faults()
    room.fill("day 2025-03-12\nproduct rice250 250\ntare rice250 2025-03-12 10\nopen NOW rice250\n")
    room.weigh([], [])
    names = make_books(program, folder, room.draw)
    pages = make_archive(program, folder, names)
    pages.begin()
    wait(lambda: f":{DOOR} " in run("ss", "-ltn"), "the archive's pages answer", 60)
    try:
        browser = room.browser("anna", size="1280,800")
        for language in LANGUAGES:
            set_language(browser, language)
            for part in (look_at_reports, look_at_search, look_at_old):
                part(browser, language, faults, pictures)
            check_small(browser, "reports", "#reports .choice")
            check_small(browser, "search", "#search .s-found table")
            print(f"screen: reports, search and old books looked at in {language}", flush=True)
        complaints = browser.complaints()
    finally:
        pages.kill()
        room.end()
    print(f"screen: {faults.tell()} views of reports and search, no fault", flush=True)
    need(not complaints, f"the browser complains: {complaints}")
