"""For tests/archive.py and tests/archive_rest.py: questions that are drawn at random, answered page
by page, beside the register and the hours of every row, which are looked through one by one."""

import csv
import random
from collections import Counter
from collections.abc import Callable, Iterator
from contextlib import contextmanager
from typing import Any
from unittest import mock

from clients import need

from hall_archive.clock import fits
from hall_archive.packs import Wanted
from hall_archive.rows import milligrams
from hall_archive.search import Search
from hall_archive.spans import EVER, Behind, Time

MODULES = ("keeping", "packs", "search", "acts", "resuming")
DRAWS = 12


@contextmanager
def small(block: int, page: int) -> Iterator[None]:
    """Blocks of so many rows, and pages of so many records."""
    sizes = {"BLOCK": block, "PAGE": page}
    names = [f"{name}.{word}" for name in MODULES for word in sizes]
    patches = [
        mock.patch(f"hall_archive.{name}", sizes[name.split(".")[1]])
        for name in names
        if name not in ("keeping.PAGE", "acts.BLOCK", "resuming.PAGE")
    ]
    for patch in patches:
        patch.start()
    try:
        yield
    finally:
        for patch in patches:
            patch.stop()


def paged(ask: Callable[[Behind], list[dict[str, Any]]]) -> list[dict[str, Any]]:
    """All records, page by page."""
    found = page = ask(Behind())
    while page:
        page = ask(Behind(page[-1]["book"], page[-1]["row"]))
        found = found + page
    return found


def compare(search: Search, hall: str, book: str, register: str, chance: random.Random) -> int:
    """Drawn questions about a book by itself; how many."""
    packs = list(csv.DictReader(register.splitlines()))
    for _ in range(DRAWS):
        wanted = drawn(packs, chance)
        found = paged(lambda behind, wanted=wanted: search.packs(hall, book, wanted, EVER, behind))
        due = [int(pack["pack"]) for pack in packs if is_so(pack, wanted)]
        need([one["row"] for one in found] == due, f"{wanted}: {len(found)} packs of {len(due)}")
    totals = search.totals(hall, book)
    found_sums = {tuple(list(one.values())[:4]): list(one.values())[4:] for one in totals}
    need(found_sums == sums(packs), f"the sums of {book} are others")
    if packs:
        compare_story(search, hall, book, packs, chance.randrange(len(packs)))
    return DRAWS + 1


def drawn(packs: list[dict[str, str]], chance: random.Random) -> Wanted:
    """A question, mostly of what is there."""
    one = chance.choice(packs or [{}])
    values = {
        "batch": one.get("batch", "B"),
        "product": one.get("product", "P"),
        "lane": int(one.get("lane", 1)),
        "signal": chance.choice((one.get("signal", "pass"), "reject", "reject held")),
        "pile": chance.choice((one.get("pile", "passed"), "voided", "sampled", "rejected")),
    }
    return Wanted(**{name: value for name, value in values.items() if chance.random() < 0.4})


def is_so(pack: dict[str, str], wanted: Wanted) -> bool:
    is_signal = wanted.signal in ("", pack["signal"]) or (
        wanted.signal == "reject" and pack["signal"] != "pass"
    )
    return is_signal and all(
        (
            wanted.batch in ("", pack["batch"]),
            wanted.product in ("", pack["product"]),
            wanted.lane in (0, int(pack["lane"])),
            wanted.pile in ("", pack["pile"]),
        )
    )


def sums(packs: list[dict[str, str]]) -> dict[tuple[Any, ...], list[int]]:
    found: dict[tuple[Any, ...], list[int]] = {}
    for pack in packs:
        held = found.setdefault(
            (pack["batch"], pack["product"], int(pack["lane"]), pack["signal"]), [0, 0, 0]
        )
        more = (1, milligrams(pack["gross"]), milligrams(pack["net"]))
        held[:] = [have + one for have, one in zip(held, more, strict=True)]
    return found


def compare_story(
    search: Search, hall: str, book: str, packs: list[dict[str, str]], place: int
) -> None:
    """The place of a pack among those of its lane and batch."""
    of = [(pack["batch"], pack["lane"]) for pack in packs]
    due = Counter(of[: place + 1])[of[place]]
    found = search.story(hall, book, int(packs[place]["pack"]))["place"]
    need(found == due, f"pack {packs[place]['pack']} is {found} of its lane, and was {due}")


def compare_spans(search: Search, hall: str, book: str, chance: random.Random) -> int:
    """Packs and acts of drawn spans of time are those whose hours meet them."""
    number = search.one_book(hall, book)
    packs = [row for (row,) in search.ask("SELECT row FROM pack WHERE book = :b", b=number)]
    hours = {row: search.hour(number, row) for row in packs}
    acts = paged(lambda behind: search.acts(hall, book, {}, EVER, behind))
    ends = sorted(hour.high for hour in hours.values() if hour)
    for _ in range(DRAWS):
        low, high = sorted(chance.choice(ends) + chance.randint(-200, 200) for _ in range(2))
        time = Time(low, high + 1)
        found = paged(lambda behind, time=time: search.packs(hall, book, Wanted(), time, behind))
        due = {row for row, at in hours.items() if at and fits(at.low, at.high, *time)}
        rows = {one["row"] for one in found}
        need(due <= rows, f"{time}: packs {sorted(due - rows)[:9]} are missing")
        by_acts = paged(lambda behind, time=time: search.acts(hall, book, {}, time, behind))
        due_acts = [one for one in acts if fits(one["low"], one["high"], *time)]
        need(by_acts == due_acts, f"{time}: {len(by_acts)} acts of {len(due_acts)}")
    return 2 * DRAWS
