"""For bench/archive.py: the questions, each asked twice, the first time and again."""

import os
import time
from collections.abc import Callable, Iterator
from typing import Any, NamedTuple

from archive_books import BEGIN, DAY
from archive_plans import Plans

from hall_archive import nets
from hall_archive.packs import Wanted
from hall_archive.search import Search
from hall_archive.spans import EVER, Behind, Time

HALL, BOOK = "main", "day"
HOUR = 3_600_000
# The most that an answer may take, in seconds.
AIM = 0.5
Question = tuple[str, Callable[[], Any]]


def of_packs(search: Search, rows: int) -> Iterator[Question]:
    """Packs over all books, by each word and some together."""
    hour = Time(BEGIN + 2 * DAY + HOUR // 2, BEGIN + 2 * DAY + HOUR)
    for wanted in (
        Wanted(),
        Wanted(batch="B3"),
        Wanted(product="oats250"),
        Wanted(product="none"),
        Wanted(lane=3),
        Wanted(lane=9),
        Wanted(signal="reject"),
        Wanted(signal="reject inadequate"),
        Wanted(signal="reject full"),
        Wanted(pile="voided"),
        Wanted(pile="sampled"),
        Wanted(pile="rejected"),
        Wanted(pile="passed", signal="pass"),
        Wanted(batch="B3", lane=2, signal="reject inadequate"),
        Wanted(product="oats250", pile="voided"),
    ):
        words = ", ".join(f"{name} {value}" for name, value in wanted._asdict().items() if value)
        yield f"packs {words}", lambda wanted=wanted: search.packs(HALL, "", wanted)
        yield f"packs {words} in half an hour", lambda wanted=wanted: search.packs(
            HALL, "", wanted, hour
        )
    behind = Behind("day02", rows // 2)
    yield "packs behind a page", lambda: search.packs(HALL, "", Wanted(lane=2), EVER, behind)
    yield "a pack's story", lambda: search.story(HALL, "day02", rows * 3 // 4)


def of_acts(search: Search, _: int) -> Iterator[Question]:
    hour = Time(BEGIN + 2 * DAY + HOUR // 2, BEGIN + 2 * DAY + HOUR)
    for given in (
        {},
        {"batch": "B3"},
        {"product": "oats250"},
        {"kind": "void"},
        {"kind": "second"},
        {"person": "carla"},
        {"person": "nobody"},
        {"kind": "tare", "person": "anna"},
    ):
        words = ", ".join(f"{name} {value}" for name, value in given.items())
        yield f"acts {words}", lambda given=given: search.acts(HALL, "", given)
        yield f"acts {words} in half an hour", lambda given=given: search.acts(
            HALL, "", given, hour
        )


def of_batches(search: Search, rows: int) -> Iterator[Question]:
    number = search.one_book(HALL, "day01")
    hour = Time(BEGIN + DAY + HOUR // 2, BEGIN + DAY + HOUR)
    yield "books", lambda: search.books(HALL)
    yield "batches", lambda: search.batches(HALL)
    yield "batches by name", lambda: search.batches(HALL, "", {"name": "B3"})
    yield "batches refused", lambda: search.batches(HALL, "", {"verdict": "refused"})
    yield "batches in half an hour", lambda: search.batches(HALL, "", {}, hour)
    yield "a batch's sheet", lambda: nets.sheet(search.batch(number, "B3"))
    yield "sums of a book", lambda: search.totals(HALL, "day01")
    yield "sums of half an hour", lambda: search.totals(HALL, "day01", hour)
    yield "the hour of a row", lambda: search.hour(number, rows // 2)


class Took(NamedTuple):
    """What an answer took the first time and again, in seconds of the clock and of a processor."""

    clock: float
    processor: float
    clock_again: float
    processor_again: float
    said: str

    def __str__(self) -> str:
        return (
            f"{self.said}: {self.clock:.3f} s, {self.processor:.3f} of a processor; again"
            f" {self.clock_again:.3f}, {self.processor_again:.3f}"
        )


def ask_all(kind: str, search: Search, rows: int, used: Callable[[], float]) -> None:
    """Asks each question twice; the longest ones are said, and how many took longer than the aim.
    `used` are the seconds of a processor that this process and the server took so far."""
    took: list[Took] = []
    plans = Plans(search.engine)
    for questions in (of_packs, of_acts, of_batches):
        for said, ask in questions(search, rows):
            took.append(Took(*seconds(ask, used), *seconds(ask, used), said))
    over = sum(one.clock > AIM for one in took)
    needs = sum(one.processor > AIM for one in took)
    print(
        f"archive: {kind}, {len(took)} questions: {over} over {AIM} s at first, {needs} by their"
        f" processor; load {os.getloadavg()[0]:.1f}"
    )
    for one in sorted(took, key=lambda one: -one.processor)[:15]:
        print(f"archive: {kind}, {one}", flush=True)
    whole = plans.whole()
    all_rows = f"{len(whole)} plans read all rows of a table or a book"
    print(f"archive: {kind}, {len(plans.asked)} statements, {all_rows}", flush=True)
    for said in whole:
        print(f"archive: {kind}, {said}", flush=True)


def seconds(ask: Callable[[], Any], used: Callable[[], float]) -> tuple[float, float]:
    began, before = time.monotonic(), used()
    ask()
    return time.monotonic() - began, used() - before
