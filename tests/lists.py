#!/usr/bin/env python3
"""Whether tools/lists sees what it is for, on copies of the files that it reads: each item of each
place is taken out in turn, each list of the code gets one more item, which then has to be missed at
each of its places, neighbours change places where the order counts, and what the further checks
read is changed in one word.

usage: tests/lists.py          needs: Python 3.11. Done in a minute.
"""

import glob
import os
import re
import shutil
import sys
import tempfile
from importlib.machinery import SourceFileLoader
from importlib.util import module_from_spec, spec_from_loader
from types import ModuleType
from typing import Any

TOP = os.path.dirname(os.path.dirname(os.path.realpath(__file__)))
WORD, NUMBER = "z" * 5, "99"


def loaded() -> ModuleType:
    """tools/lists, as a module."""
    sys.dont_write_bytecode = True
    sys.path.insert(0, f"{TOP}/tools")
    loader = SourceFileLoader("lists", f"{TOP}/tools/lists")
    spec = spec_from_loader("lists", loader)
    assert spec is not None
    module = module_from_spec(spec)
    sys.modules["lists"] = module
    loader.exec_module(module)
    return module


lists: Any = loaded()
parts: Any = sys.modules["list_parts"]
checks: Any = sys.modules["list_checks"]

# Changes of one word, each with the beginning of what has to be said then: the file, the text, what
# it becomes.
RULES, RULES_CODE = checks.RULES, "crates/book_rules/src/rules.rt"
COURSE, MET, PLANS = checks.COURSE, checks.MET, checks.PLANS
REFUSED = f"{RULES}, Refusals: "
CHANGES = (
    (
        RULES,
        "end, draw, second draw, closing; s",
        "end, second draw, closing; s",
        f"{REFUSED}14 BatchUnknown lacks: draw",
    ),
    (
        RULES,
        "; sheet, sample, packs |",
        "; sheet, sample |",
        f"{REFUSED}14 BatchUnknown lacks: packs",
    ),
    (RULES, "| all but a new day |", "| all |", f"{REFUSED}6 DayUnset isn't met by: new day"),
    (
        RULES,
        "| weighing, measurement |",
        "| weighing, stop, measurement |",
        f"{REFUSED}20 GrossRange isn't met by: stop",
    ),
    (RULES, "| `no_tare` |", "| `has_tare` |", f"{REFUSED}no row has the definition no_tare"),
    (
        RULES_CODE,
        ".or(checks::gross_range(gross))",
        "",
        f"{REFUSED}20 GrossRange isn't met by: weighing",
    ),
    (
        RULES_CODE,
        ".or(checks::no_tare(state, batch))",
        ".or(checks::no_tare(state, batch)).or(checks::name_shape(batch))",
        f"{REFUSED}10 NameShape lacks: start",
    ),
    (
        RULES_CODE,
        ".or(checks::no_tare(state, batch))",
        ".or(checks::no_tare(state, batch)).or(checks::name_shape(batch))",
        f"{COURSE}: start_refused",
    ),
    (
        "crates/book_views/src/questions.rt",
        "Err(Refusal::PackUnknown)",
        "Err(Refusal::NotDrawn)",
        f"{REFUSED}24 PackUnknown isn't met by: pack",
    ),
    (COURSE, "Refusal::NoTare { product: _ }", "Refusal::LaneIdle", f"{COURSE}: start_refused"),
    (
        checks.REFUSAL,
        "NoTare { product: Name }",
        "NoTare { name: Name }",
        "www/change.js: KEPT isn't",
    ),
    ("www/change.js", '19: "product"', '19: "batch"', "www/change.js: KEPT isn't"),
    (
        "docs/FORMATS.md",
        "6, 14, 15 or 19 the lane",
        "6, 14 or 15 the lane",
        "docs/FORMATS.md: a lane waits",
    ),
    ("docs/DECISIONS.md", "(6, 14, 15, 19)", "(6, 14, 15)", "docs/DECISIONS.md: a lane waits"),
    (MET, "VIEWS: usize = 48", "VIEWS: usize = 49", f"{MET}: VIEWS isn't 48"),
    (MET, "RowsAre(_) => 53", "RowsAre(_) => 52", f"{MET}: 52 stands for two kinds"),
    (MET, "place < 61", "place < 60", f"{MET}: 60 stands for two kinds"),
    (MET, "1..61usize", "1..62usize", f"{MET}: there is a place too much or too few: 62"),
    (PLANS, "VERDICTS..43]", "VERDICTS..44]", f"{PLANS}: VERDICTS..43] isn't there"),
    (PLANS, "SECOND_NEEDED: usize = 33", "SECOND_NEEDED: usize = 34", f"{PLANS}: SECOND_NEEDED"),
    ("deploy/desks.js", "lanes/", "lane/", "deploy/desks.js: QUESTION refuses /hall/lanes/1"),
    (checks.REGISTER, "day,gross,net", "day,scale,gross,net", f"{checks.REGISTER}: a column moved"),
)


def read(path: str) -> str:
    with open(path, encoding="utf-8") as file:
        return file.read()


def write(path: str, text: str) -> None:
    with open(path, "w", encoding="utf-8") as file:
        file.write(text)


def copy_to(room: str) -> None:
    """Copies what tools/lists reads."""
    wanted = [place for each in lists.LISTS for place in (*each.source, *each.places)]
    for path in {*(change[0] for change in CHANGES), *(place.path for place in wanted)}:
        for name in filter(os.path.isfile, glob.glob(path, root_dir=TOP)):
            os.makedirs(os.path.dirname(f"{room}/{name}"), exist_ok=True)
            shutil.copyfile(f"{TOP}/{name}", f"{room}/{name}")


def without(place: Any, item: str, text: str) -> str:
    """A text in whose part of a place nothing has an item any more."""

    def cut(match: re.Match[str]) -> str:
        if "ITEM" in place.found:
            return WORD
        if item in map(parts.same, parts.items_of(place, match)):
            spelled = "[ _]?".join(map(re.escape, item.split()[-1]))
            return re.sub(spelled, WORD, match[0], flags=re.I)
        return match[0]

    found = place.found.replace("ITEM", parts.searched(item))
    return re.sub(found, cut, text, flags=re.M | (re.I if "ITEM" in place.found else 0))


def with_part(place: Any, text: str, change: Any) -> str:
    """A text whose part of a place, or all of it, is changed."""
    if not place.part:
        return str(change(text))
    return re.sub(
        place.part,
        lambda match: match[0].replace(match[1], change(match[1])),
        text,
        flags=re.M | re.S,
    )


def changed(room: str, place: Any, change: Any) -> dict[str, str]:
    """Changes the files of a place, and gives their texts of before."""
    held = {}
    for name in filter(os.path.isfile, glob.glob(f"{room}/{place.path}")):
        before = read(name)
        after = with_part(place, before, change)
        if after != before:
            held[name] = before
            write(name, after)
    return held


def is_missed(room: str, each: Any, place: Any, item: str) -> bool:
    """Whether the loss of an item at a place is seen."""
    wanted = parts.wanted_of(TOP, each)
    held = changed(room, place, lambda text: without(place, item, text))
    said = [*parts.differences(room, each.what, place, wanted)]
    for name, before in held.items():
        write(name, before)
    return f"{parts.where(place)}: no {each.what} {item}" in said


def one_more(place: Any, text: str) -> str:
    """A text of the code with one item more, made of its last one."""
    matches = [*re.finditer(place.found, text, re.M)]
    if not matches:
        return text
    new = str(matches[-1][0])
    if place.inner:
        rest = matches[-1]["rest"]
        first = re.search(place.inner, rest)
        assert first is not None
        old = first[first.lastindex or 0]
        new = new.replace(rest, rest.replace(old, NUMBER if old.isdigit() else WORD, 1))
    else:
        for name, value in matches[-1].groupdict().items():
            new = new.replace(value, NUMBER if name == "number" else WORD)
    return text.replace(matches[-1][0], f"{new}\n{matches[-1][0]}", 1)


def blind_places(room: str, each: Any) -> list[str]:
    """The places at which one item more of the code isn't missed."""
    held = changed(room, each.source[0], lambda text: one_more(each.source[0], text))
    wanted = parts.wanted_of(room, each)
    blind = [
        place.path
        for place in each.places
        if not [*parts.differences(room, each.what, place, wanted)]
    ]
    for name, before in held.items():
        write(name, before)
    return blind


def swapped(place: Any, text: str) -> str:
    """A text in whose part of a place the first two items have changed places."""
    first, second = [*re.finditer(place.found, text, re.M)][:2]
    between = text[first.end() : second.start()]
    return text[: first.start()] + second[0] + between + first[0] + text[second.end() :]


def disorders(room: str, each: Any) -> list[str]:
    """The places whose order isn't looked at."""
    wanted, blind = parts.wanted_of(TOP, each), []
    for place in filter(lambda it: it.ordered, each.places):
        held = changed(room, place, lambda text: swapped(place, text))
        said = [*parts.differences(room, each.what, place, wanted)]
        if not any("isn't at its place" in it for it in said):
            blind.append(place.path)
        for name, before in held.items():
            write(name, before)
    return blind


def is_seen(room: str, change: tuple[str, str, str, str]) -> bool:
    """Whether a change of one word is seen, and nothing is said before."""
    path, old, new, due = change
    before = read(f"{room}/{path}")
    assert old in before, f"{path} has no {old}"
    write(f"{room}/{path}", before.replace(old, new, 1))
    said = [it for check in checks.CHECKS for it in check(room)]
    write(f"{room}/{path}", before)
    return any(it.startswith(due) for it in said)


def faults_of_list(room: str, each: Any) -> list[str]:
    """What tools/lists doesn't see of a list, and of the items of its places."""
    wrong = [f"one {each.what} more isn't missed in {it}" for it in blind_places(room, each)]
    wrong += [f"the order of each {each.what} isn't seen in {it}" for it in disorders(room, each)]
    for place in taken_from(each):
        items = sorted({*parts.wanted_of(TOP, each)} - {*place.without})
        lost = [it for it in items if not is_missed(room, each, place, it)]
        wrong += [f"{each.what} {it} isn't missed in {place.path}" for it in lost]
    return wrong


def taken_from(each: Any) -> list[Any]:
    """The places of a list that have its items, and not their number alone."""
    return [place for place in each.places if "(?P<count>" not in place.found]


def main() -> int:
    wrong, count = [], 0
    with tempfile.TemporaryDirectory() as room:
        copy_to(room)
        if lists.compare(room):
            wrong.append("a copy of the checkout isn't right as it is")
        for each in lists.LISTS:
            wrong += faults_of_list(room, each)
            count += sum(
                len({*parts.wanted_of(TOP, each)} - {*place.without}) for place in taken_from(each)
            )
        wrong += [
            f"unseen: {old} -> {new}"
            for _, old, new, _ in filter(lambda change: not is_seen(room, change), CHANGES)
        ]
    for line in wrong:
        print(f"lists: {line}", file=sys.stderr)
    print(
        f"lists: {count} items taken out one by one, {len(CHANGES)} words changed,"
        f" {len(wrong)} faults"
    )
    return 1 if wrong else 0


if __name__ == "__main__":
    sys.exit(main())
