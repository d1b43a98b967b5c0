"""Evidence on the screen: a part of tests/screen.py. A hall at work, the archive that follows it,
and a browser: a tare and a check of a scale are entered, the act is offered, the newest stands on a
batch's sheet, with the fingerprint at its closing, and what is overdue, or differs from the book,
is an alarm of the board. What the archive adds to pages is looked at in each size, scheme and
language."""

# mypy: allow-untyped-calls, allow-untyped-defs

import os
import sys
import time

HERE = os.path.dirname(os.path.realpath(__file__))
sys.path.insert(0, f"{HERE}/../archive")

from selenium.webdriver.support.ui import Select

from archive_hall import ARCHIVE_PORT, PEOPLE, Work, now
from archive_room import Room, wait
from browser import Browser
from clients import need
from front_room import Front, run
from screen_pages import LANGUAGES, Faults, look, set_language
from screen_sizes import check_small

from hall_archive import evidence, store
from hall_archive.acts import Acts
from hall_archive.records import Records
from hall_archive.store import Store

LOG = "/var/log/nginx/hall-acts.log"
EMPTIES = [10_000 + 7 * at for at in range(10)]
DAY = 86_400_000


class Pages:
    """A hall, its archive, and a browser of anna."""

    def __init__(self, program, folder):
        self.front = Front(PEOPLE)
        self.front.start()
        self.work = Work(program, folder, self.front, "evidence")
        self.url = f"sqlite:///{folder}/archive.db"
        self.room = Room(
            folder, self.url, front=LOG, program=program, books=folder, door=ARCHIVE_PORT
        )
        self.room.ask("migrate")
        self.work.begin()
        self.room.follower.begin()
        self.room.pages.begin()
        engine = store.open_engine(self.url, True)
        self.kept, self.records = Store(engine, "main", "day"), Records(engine)
        wait(lambda: self.kept.cursor().upto > 20, "rows are taken", 60)
        self.anna = Browser(folder, "anna", self.front.passwords["anna"])

    def end(self):
        self.anna.close()
        for one in (self.room.pages, self.room.follower):
            if one.is_running():
                one.kill()
        self.work.hall.kill()
        self.front.stop()

    def enter(self, kind, subject, **texts):
        """Fills a kind's form, and keeps it; what the page says."""
        Select(self.anna.find("#e-kind")).select_by_value(kind)
        for name, text in ({"": subject} | texts).items():
            field = self.anna.find(f"#e-{kind}-{name}" if name else f"#e-{kind}")
            field.clear()
            field.send_keys(text)
        form = self.anna.find(f"#e-{kind}").find_element("xpath", "ancestor::form")
        form.find_element("css selector", "p.acts button").click()
        return form


def entered(place):
    """A check and a tare by the forms; of the tare the act is offered, and becomes a row."""
    place.anna.open("evidence")
    Select(place.anna.find("#e-desk")).select_by_value("101")
    form = place.enter("scale", "1", pairs="1000 1000.1\n500 500", limit="0.5")
    wait(lambda: "in order" in form.text, "the scale is in order", 30)
    form = place.enter("tare", "P", nominal="250", empties="\n".join(map(spelled, EMPTIES)))
    wait(lambda: "in order" in form.text, "the tare is in order", 30)
    typed = place.anna.text("#e-tare-empties ~ .hint")
    # the values are 7 mg apart: s is 7 times the root of 82.5 / 9
    need(typed.startswith("10 so far: mean 10.03") and "s 0.021 g" in typed, f"typed: {typed}")
    newest = place.anna.text("#evidence table")
    need("Check of a scale" in newest and "anna" in newest, f"the newest: {newest}")
    form.find_element("css selector", "button[type=button]").click()
    acts = Acts(store.open_engine(place.url))
    asked = lambda: acts.acts("main", "day", {"kind": "tare", "person": "anna"})  # noqa: E731
    wait(asked, "the act is a row, with its person", 60)
    digest = place.records.newest("main")[-1].digest
    need(asked()[0]["reason"] == f"evidence {digest[:16]}", f"its reason: {asked()}")


def spelled(milligrams):
    return f"{milligrams // 1000}.{milligrams % 1000:03}"


def on_a_sheet(place):
    """The newest of the batch's goods and of the scales, and nothing of other goods."""
    body = evidence.evaluate("tare", {"nominal": 250_000, "empties": EMPTIES})
    place.records.add("main", "tare", "other", now(), "ben", body)
    place.anna.open("sheet/R1")
    said = place.anna.wait_text(".sh-evidence", "Tare of a product, P")
    need("Check of a scale, 1" in said and "other" not in said, f"the sheet: {said}")
    need("Who and when" in said and "opened" in said, f"the sheet: {said}")
    # the tare of before, and the one that was entered
    need("Tares of the product as they were set" in said and "on: 10.000 g" in said
         and ", anna: evidence" in said, f"the sheet: {said}")


def closed(place):
    """The sheet of a closed batch has the fingerprint of the book at its closing, as the program
    says it; who measured and closed it, and when."""
    place.work.end()
    place.work.begin()
    # the other desk is the page's
    place.work.desks[1].test("R1")
    fingerprints = place.room.fingerprints()
    wait(lambda: place.room.fingerprints() > fingerprints, "a fingerprint of the closing", 120)
    place.anna.open("sheet/R1")
    place.anna.reload()
    said = place.anna.wait_text(".sh-print", "Fingerprint of rows 1 to", 120)
    rows = said.split("--rows ")[1].split(" ")[0]
    audit = run(place.work.program, "audit", "--book", place.work.path, "--rows", rows)
    shown = place.anna.text(".sh-print .mono").replace(" ", "")
    need(len(shown) == 64 and f"sha256 {shown}" in audit, f"the sheet has {shown} for {audit}")
    said = place.anna.text(".sh-evidence")
    need("packs measured" in said and "ben: asked for" in said, f"the sheet: {said}")


def look_at_all(place, pictures):
    """Each page that the archive adds to, with what it adds."""
    faults = Faults()
    for language in LANGUAGES:
        set_language(place.anna, language)
        for page, selector, name in (
            ("board", "ol.alarms .warn", "archive board"),
            ("lane/1", ".st-help.calls", "archive lane calls"),
            ("lane/2", ".st-help:not([hidden])", "archive lane"),
            ("sheet/R1", ".sh-print", "archive sheet"),
            ("evidence", "#evidence table", "archive evidence"),
        ):
            check_small(place.anna, page, selector)
            look(place.anna, name, language, faults, pictures)
    set_language(place.anna, "en")
    print(f"evidence: {faults.tell()} views of what an archive adds, no fault", flush=True)


def call_for_help(place):
    """A lane calls; the board shows it, until somebody has come."""
    place.anna.open("lane/1")
    button = place.anna.find(".st-help")
    need("Call for help" in button.text, f"the button says {button.text}")
    button.click()
    place.anna.wait_text(".st-told", "Help is called", 60)
    place.anna.open("board")
    place.anna.wait_text("ol.alarms .alarm", "Lane 1 calls for help", 60)
    place.anna.open("lane/1")
    place.anna.wait_text(".st-help", "Help has come", 60)
    place.anna.find(".st-help").click()
    place.anna.wait_text(".st-help", "Call for help", 60)
    place.anna.open("board")
    wait(lambda: "calls for help" not in place.anna.text("ol.alarms"), "the call is over", 60)
    calls = [one for one in place.records.all("main") if one.kind == "call"]
    need([one.result for one in calls] == ["bad", "good"] and calls[0].person == "anna",
         f"kept are {calls}")


def overdue(place):
    """An old check and a difference are alarms of the board, and stand on the page."""
    checked = {"weights": [1_000_000], "shown": [1_000_000], "limit": 500}
    body = evidence.evaluate("scale", checked)
    place.records.add("main", "scale", "2", now() - 3 * DAY, "ben", body)
    place.anna.open("board")
    place.anna.reload()
    began = time.monotonic()
    place.anna.wait_text("ol.alarms", "Check of a scale, 2: overdue (limit 1 d)", 90)
    took = time.monotonic() - began
    place.kept.alarm(now(), "batch R1: the archive says 'a', the book 'b'")
    place.anna.wait_text("ol.alarms", "day: archive and book differ. batch R1", 90)
    place.anna.open("evidence")
    place.anna.wait_text("#evidence [role=status]", "overdue (limit 1 d)")
    return took


def without(place):
    """Where no archive answers the sheet says nothing of evidence, and the page that it isn't
    there, until it is there again."""
    place.room.pages.kill()
    place.anna.open("sheet/R1")
    place.anna.reload()
    place.anna.wait_text("#sheet", "R1")
    time.sleep(2)
    need(not place.anna.text(".sh-evidence"), "a sheet has evidence of no archive")
    place.anna.open("evidence")
    place.anna.reload()
    place.anna.wait_text("#evidence .notice", "needs the archive")
    place.room.pages.begin()
    place.anna.find("#e-desk")


def run_evidence(program, folder, pictures):
    place = Pages(program, folder)
    try:
        entered(place)
        place.anna.run("scrollTo(0, 0)")
        place.anna.picture(f"{pictures}/evidence_entered.png")
        on_a_sheet(place)
        place.anna.picture(f"{pictures}/evidence_sheet.png")
        call_for_help(place)
        took = overdue(place)
        place.anna.picture(f"{pictures}/evidence_board.png")
        closed(place)
        place.anna.open("lane/1")
        place.anna.find(".st-help").click()
        place.anna.wait_text(".st-help", "Help has come", 60)
        look_at_all(place, pictures)
        without(place)
    except BaseException:
        place.anna.picture(f"{pictures}/evidence_fault.png")
        raise
    finally:
        place.end()
    print(f"evidence: entered, on a sheet, and an alarm of the board after {took:.1f} s")
