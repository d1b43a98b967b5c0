"""Checks of tools/lists that are more than a list beside its copies: which acts and questions meet
a refusal, by RULES; at which a lane waits that changes its batch; which numbers count the kinds of
answers; what the front hands on; and that the columns which people count keep their places."""

import re
from typing import Iterable, NamedTuple

from list_book import QUESTION
from list_parts import wanted_of
from list_patterns import chapter, function
from list_program import ROUTES

RULES = "docs/RULES.md"
COURSE = "crates/lane_changes/src/course.rt"
MET = "crates/plain_book_tests/src/met.rt"
PLANS = "crates/plain_book_tests/src/plans.rt"
REGISTER = "crates/pack_register/specs/Register.antt"
REFUSAL = "crates/book_words/src/refusal.rt"

# A row of the table of refusals, and a test that the rules of an act call.
REFUSAL_ROW = r"^\| (\d+) \| `(\w+)` \|[^|]*\|[^|]*\| ([^|]*) \| ([^|]*) \|$"
CALL = r"(?:checks::|samples::|\.or\()(\w+)\("

# Acts as RULES calls them, where the code has another word; what each act is tested for before its
# own rules.
ACT_WORDS = {"day": "new day", "second": "second draw"}
OF_EACH_ACT = {"desk_number", "request_old", "request_reused", "request_gap", "book_full"}

# The refusals of a start that end a lane which changes its batch: no start of its own meets them.
END_A_LANE = {"LaneNumber", "LaneBusy"}

# The first columns of the register, which awk, spreadsheets and INSPECTOR.md count.
COUNTED_COLUMNS = "pack,batch,product,lane,day,gross,net,class,signal,pile"

# What the front hands on by a test of its own; and shipments, which it doesn't hand on.
BEYOND_QUESTIONS = {"/acts", "/rows/number"}


class Row(NamedTuple):
    """A row of the table of refusals."""

    number: int
    name: str
    acts: str
    questions: list[str]
    definitions: list[str]


def read(top: str, path: str) -> str:
    """A file of a checkout."""
    with open(f"{top}/{path}", encoding="utf-8") as file:
        return file.read()


def part_of(top: str, path: str, part: str) -> str:
    """The parts of a file that a pattern finds."""
    return "".join(re.findall(part, read(top, path), re.M | re.S))


def bodies(top: str, path: str, beginning: str) -> dict[str, str]:
    """The functions of some code whose names begin so, each by the rest of its name."""
    return dict(re.findall(rf"fn {beginning}(\w+)\((.*?)^\}}", read(top, path), re.M | re.S))


# ---- which acts and questions meet a refusal


def refusal_rows(top: str) -> list[Row]:
    """The table of refusals."""
    rows = []
    table = part_of(top, RULES, chapter("Refusals"))
    for number, name, met, definitions in re.findall(REFUSAL_ROW, table, re.M):
        acts, _, questions = met.partition(";")
        words = re.findall(r"\w+", questions), re.findall(r"\w+", definitions)
        rows.append(Row(int(number), name, acts, *words))
    return rows


def tests_of_acts(top: str) -> dict[str, list[str]]:
    """By act, as RULES calls it, the tests of its own rules."""
    code = bodies(top, "crates/book_rules/src/rules.rt", "refuse_")
    tests = {ACT_WORDS.get(act, act): re.findall(CALL, body) for act, body in code.items()}
    return {act: called for act, called in tests.items() if called}


def acts_said(text: str, every: set[str]) -> set[str]:
    """The acts that a row names."""
    if text.startswith("all but a "):
        return every - {text.removeprefix("all but a ")}
    return every if text.startswith("all") else {*filter(None, text.split(", "))}


def acts_meeting(row: Row, tests: dict[str, list[str]]) -> set[str]:
    """The acts that meet a refusal, by the code."""
    if OF_EACH_ACT & {*row.definitions}:
        return {*tests}
    return {act for act, called in tests.items() if {*called} & {*row.definitions}}


def questions_meeting(row: Row, code: dict[str, str]) -> set[str]:
    """The questions that meet a refusal, by the code."""
    marks = [f"Refusal::{row.name})", *(f"{it}(" for it in row.definitions)]
    return {it for it, body in code.items() if any(mark in body for mark in marks)}


def wrongly_met(top: str) -> Iterable[str]:
    """Where RULES has a refusal for other acts or questions than the code."""
    rows, tests = refusal_rows(top), tests_of_acts(top)
    questions = bodies(top, "crates/book_views/src/questions.rt", "tell_")
    for row in rows:
        said = acts_said(row.acts, {*tests}) | {*row.questions}
        due = acts_meeting(row, tests) | questions_meeting(row, questions)
        where = f"{RULES}, Refusals: {row.number} {row.name}"
        yield from (f"{where} lacks: {it}" for it in sorted(due - said))
        yield from (f"{where} isn't met by: {it}" for it in sorted(said - due))
    tested = {it for called in tests.values() for it in called}
    unknown = tested - {it for row in rows for it in row.definitions}
    yield from (f"{RULES}, Refusals: no row has the definition {it}" for it in sorted(unknown))


# ---- at which refusals of a start a lane waits


def numbers_in(top: str, path: str, part: str) -> set[int]:
    """The numbers in that part of a page."""
    return {int(it) for it in re.findall(r"\d+", part_of(top, path, part))}


def kept_by(top: str, name: str) -> str:
    """What a refusal keeps, by the name of its field; nothing where it keeps nothing."""
    return part_of(top, REFUSAL, rf"^    {name} \{{ (\w+):")


def starts_refused(top: str) -> dict[str, int]:
    """The refusals of a start by its own rules, each with its number."""
    tests = {*tests_of_acts(top).get("start", [])}
    return {it.name: it.number for it in refusal_rows(top) if tests & {*it.definitions}}


def wrong_waits(top: str) -> Iterable[str]:
    """Where it isn't said of a refusal of a start whether a lane waits then."""
    of_start = starts_refused(top)
    waits = {*re.findall(r"Refusal::(\w+)", part_of(top, COURSE, function("start_refused")))}
    for name in sorted(of_start.keys() ^ (waits | END_A_LANE)):
        yield f"{COURSE}: start_refused, and END_A_LANE of tools/list_checks.py: {name}"
    waiting = {name: number for name, number in of_start.items() if name in waits}
    yield from wrong_numbers(top, {*waiting.values()})
    kept = {number: kept_by(top, name) for name, number in waiting.items()}
    yield from wrongly_kept(top, {number: field for number, field in kept.items() if field})


def wrong_numbers(top: str, due: set[int]) -> Iterable[str]:
    """The pages that have other numbers of refusals at which a lane waits."""
    for path, part in (
        ("docs/FORMATS.md", r"refuses\s+that\s+by([\d,\sor]+?)the\s+lane\s+waits"),
        ("docs/DECISIONS.md", r"refusal's\s+kind\*\*\s+\(([\d,\s]+)\)"),
    ):
        if numbers_in(top, path, part) != due:
            yield f"{path}: a lane waits at the refusals {sorted(due)}"


def wrongly_kept(top: str, due: dict[int, str]) -> Iterable[str]:
    """What the page of a lane's change doesn't know of what such a refusal keeps."""
    table = part_of(top, "www/change.js", r"^const KEPT = \{(.*?)\};")
    if {int(number): field for number, field in re.findall(r'(\d+): "(\w+)"', table)} != due:
        yield f"www/change.js: KEPT isn't {due}"


# ---- which numbers count the kinds of answers


def starts_of(top: str) -> dict[str, int]:
    """Where each kind of answers is counted, by the constants of `met.rt`: a refusal at its number,
    and each kind after the one before."""
    questions = len(wanted_of(top, QUESTION))
    refusals = max((it.number for it in refusal_rows(top)), default=0)
    sizes = {"SIGNALS": 4, "VERDICTS": 3, "FAILS": 5, "VIEWS": questions, "REPEATS": 2, "DRAWS": 3}
    starts, at = {}, refusals + 1
    for name, size in sizes.items():
        starts[name] = at
        at += size
    return starts | {"NOWHERE": at}


def wrong_starts(code: str, starts: dict[str, int]) -> Iterable[str]:
    """The constants of `met.rt` that have another value."""
    for name, at in starts.items():
        if not re.search(rf"const {name}: usize = {at};", code):
            yield f"{MET}: {name} isn't {at}"


def wrong_places(code: str, starts: dict[str, int]) -> Iterable[str]:
    """The numbers of `met.rt` that are missing, too much, or stand for two kinds. The parts of a
    verdict that fail are counted by a sum."""
    first, last = starts["SIGNALS"], starts["NOWHERE"]
    said = [int(it) for it in re.findall(r"(?<![A-Za-z_\d])\d+", code) if int(it) >= first]
    by_sum = {*range(starts["FAILS"] + 1, starts["VIEWS"])}
    wrong = {*said} ^ ({*range(first, last + 1)} - by_sum)
    twice = {it for it in said if it < last and said.count(it) > 1}
    yield from (f"{MET}: there is a place too much or too few: {it}" for it in sorted(wrong))
    yield from (f"{MET}: {it} stands for two kinds" for it in sorted(twice))


def wrong_plans(top: str, starts: dict[str, int]) -> Iterable[str]:
    """What `plans.rt` has otherwise."""
    second = next((it.number for it in refusal_rows(top) if it.name == "SecondNeeded"), 0)
    for text in (f"VERDICTS..{starts['FAILS']}]", f"SECOND_NEEDED: usize = {second};"):
        if text not in read(top, PLANS):
            yield f"{PLANS}: {text} isn't there"


def wrongly_counted(top: str) -> Iterable[str]:
    """What is wrong with the places of `met.rt` and `plans.rt`."""
    code, starts = re.sub("//.*", "", read(top, MET)), starts_of(top)
    yield from wrong_starts(code, starts)
    yield from wrong_places(code, starts)
    yield from wrong_plans(top, starts)


# ---- what the front hands on, and columns


def stopped_by_the_front(top: str) -> Iterable[str]:
    """The routes of questions that the front doesn't hand on."""
    pattern = part_of(top, "deploy/desks.js", r"QUESTION = new RegExp\((.*?)\);")
    front = "".join(re.findall(r"'(.*?)'", pattern)) or "nothing"
    for route in wanted_of(top, ROUTES):
        path = "/hall" + route.replace("name", "A").replace("number", "1")
        if route not in BEYOND_QUESTIONS and not re.search(front, path):
            yield f"deploy/desks.js: QUESTION refuses {path}, the route {route}"


def moved_columns(top: str) -> Iterable[str]:
    """Whether a column that is counted has moved."""
    if not re.search(rf'header_text = codes "{COUNTED_COLUMNS}\b', read(top, REGISTER)):
        yield f"{REGISTER}: a column moved that is counted: a new one comes last"


CHECKS = (wrongly_met, wrong_waits, wrongly_counted, stopped_by_the_front, moved_columns)
