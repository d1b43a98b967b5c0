"""Draws books, lets the program judge them, and compares with what the pages' modules say: the
forecast of the ended batch with the packers' part of its verdict, at 1 mg and at 1 pack; the
figures of the reference test with those of tests/forecast_model.py. Run by tests/forecast.sh."""

import json
import os
import random
import subprocess
import sys
from collections.abc import Callable
from concurrent.futures import ThreadPoolExecutor
from dataclasses import dataclass
from typing import Any

from forecast_model import Batch, Goods, Plan, drawn, error_of, figures_of, plan_of

DAY = "2025-03-03"
# So many batches are drawn for a book.
A_BOOK = 20
AT_ONCE = 2
PARTS = ("average", "allowance", "inadequate")
# How the lines of a sheet begin.
PILES = ("readings", "passed", "rejected", "sampled", "voided")
SHEET = ("batch ", "state", *PILES, "population", "held", "test", "second", "verdict")
Answer = dict[str, Any]


class Wrong(Exception):
    """The pages, the program and the model don't say the same."""


class Book:
    """The script of a drawn book, and how many rows it comes to."""

    def __init__(self) -> None:
        self.script = [f"day {DAY}"]
        self.rows = 1
        self.names: list[str] = []

    def add(self, *lines: str) -> int:
        """Adds lines, each a row but for questions. Gives back the number of the last row."""
        self.script += lines
        self.rows += sum(not line.startswith("sheet ") for line in lines)
        return self.rows


@dataclass
class Case:
    """A drawn batch: its name, and the batch as it is when it has ended."""

    name: str
    batch: Batch
    word: int
    mode: str

    def numbers(self) -> list[int]:
        return sorted(self.batch.packs)

    def plan(self) -> Plan:
        return plan_of(len(self.batch.packs), self.mode)


def spell(milligrams: int) -> str:
    return f"{milligrams // 1000}.{milligrams % 1000:03}"


def draw_goods(draw: random.Random, name: str) -> tuple[Goods, list[str]]:
    """The goods, and the lines that enter them and open their batch."""
    quantity = draw.choice([25_000, 75_500, 150_000, 250_000, 333_300, 750_000, 1_500_000])
    if draw.random() < 0.6:
        product = f"product P{name} {spell(quantity)}"
        return Goods(quantity), [product, f"open {name} P{name}"]
    density = draw.randrange(500_000, 2_000_001)
    product = f"product P{name} {spell(quantity)} ml"
    return Goods(quantity, density), [product, f"open {name} P{name} {spell(density)}"]


def draw_nets(draw: random.Random, goods: Goods, count: int) -> list[int]:
    """Nets about the nominal quantity; some light ones, about as many as are allowed."""
    error = error_of(goods.quantity) * goods.density // 1_000_000
    nominal = goods.mass()
    light = max(0, count // 40 + draw.choice((-1, 0, 0, 1, 1, 2)))
    far = draw.choice((0, 0, 0, 1, 2))
    kinds = ["light"] * light + ["far"] * far
    kinds = (kinds + ["good"] * count)[:count]
    draw.shuffle(kinds)
    spans: dict[str, Callable[[], int]] = {
        # at the limits themselves as often as not
        "light": lambda: nominal - error - draw.choice((1, 2, error // 3)),
        "far": lambda: nominal - 2 * error - draw.choice((1, 2, error // 3)),
        "good": lambda: nominal - draw.choice((error - 2, 0, 0, -1, -error // 4)),
    }
    return [spans[kind]() for kind in kinds]


def last_net(draw: random.Random, batch: Batch) -> int:
    """A last pack that puts the sum of the nets at the nominal quantities, or next to them."""
    count = len(batch.packs) + 1
    wanted = -(-count * batch.goods.density * batch.goods.quantity // 1_000_000)
    net = wanted - sum(batch.nets()) + draw.choice((-2, -1, 0, 0, 1, 2, 5_000))
    return net if batch.goods.kind(net) == "standard" else batch.goods.mass()


def draw_case(draw: random.Random, most: int, book: Book, mode: str = "keep") -> Case:
    """A batch of a book, up to its end. Where the tare was corrected at the end all packs
    passed."""
    name = f"B{len(book.names)}"
    book.names.append(name)
    goods, (product, opening) = draw_goods(draw, name)
    error = error_of(goods.quantity) * goods.density // 1_000_000
    tare = draw.randrange(0, 20_000)
    shift = 3 * error + draw.randrange(0, 1000) if draw.random() < 0.5 else 0
    batch = Batch(goods, tare)
    book.add(product, f"tare P{name} {DAY} {spell(tare)}", opening, f"start 1 {name}")
    count = draw.choice((draw.randrange(1, 100), draw.randrange(99, most), 40, 80, 120))
    for net in draw_nets(draw, goods, count - 1):
        gross = net + tare + shift
        batch.weigh(book.add(f"weigh 1 {spell(gross)}"), gross)
    after = Batch(goods, tare + shift, dict(batch.packs))
    gross = max(0, last_net(draw, after) + tare + shift)
    batch.weigh(book.add(f"weigh 1 {spell(gross)}"), gross)
    book.add("stop 1")
    batch.tare += shift
    if shift:
        book.add(f"tare P{name} {DAY} {spell(batch.tare)}")
    if batch.packs and draw.random() < 0.2:
        gone = draw.choice(sorted(batch.packs))
        del batch.packs[gone]
        book.add(f"void {gone}")
    book.add(f"end {name}", f"sheet {name}")
    return Case(name, batch, draw.randrange(2**64), mode)


def run(program: str, script: list[str], *words: str) -> list[str]:
    ran = subprocess.run(
        [program, "run", *words],
        input="\n".join(script) + "\n",
        capture_output=True,
        text=True,
        check=True,
    )
    return ran.stdout.splitlines()


def sheets_of(said: list[str]) -> list[str]:
    """The sheets that were printed, each up to the line before the next answer."""
    starts = [at for at, line in enumerate(said) if line.startswith("batch B")]
    sheets = []
    for start in starts:
        end = start
        while end < len(said) and said[end].startswith(SHEET):
            end += 1
        sheets.append("\n".join(said[start:end]) + "\n")
    return sheets


def verdicts_of(said: list[str]) -> list[list[str]]:
    """The words of the verdicts that the closings were told, behind their rows."""
    told = [line.split() for line in said if line[:1].isdigit()]
    return [words[1:] for words in told if words[1] in ("released", "withheld", "empty")]


def need(holds: bool, said: str) -> None:
    if not holds:
        raise Wrong(said)


# ---- the forecast


@dataclass
class Judged:
    """A batch with its sheet when it had ended, and its verdict."""

    case: Case
    sheet: str
    verdict: list[str]


def judge(program: str, seed: int, batches: int) -> list[Judged]:
    """A book of so many batches, each closed by a sample that is above reproach."""
    draw, book, cases = random.Random(seed), Book(), []
    for _ in range(batches):
        case = draw_case(draw, 200, book)
        cases.append(case)
        if case.batch.packs:
            book.add(f"draw {case.name} keep {case.word}")
            gross = case.batch.goods.mass() + case.batch.tare + 1000
            for pack in drawn(case.word, case.numbers(), case.plan().first):
                book.add(f"measure {pack} {spell(gross)}")
        book.add(f"close {case.name}")
    said = run(program, book.script)
    need(not any(line.startswith("refused") for line in said), f"refused with seed {seed}")
    together = zip(cases, sheets_of(said), verdicts_of(said), strict=True)
    return [Judged(case, sheet, verdict) for case, sheet, verdict in together]


def least_each(batch: Batch, count: int) -> int:
    """The least mass with which so many more packs mend the average, found by trying."""
    wanted = (len(batch.packs) + count) * batch.goods.density * batch.goods.quantity
    total = sum(batch.nets())
    guess = (wanted - 1_000_000 * total) // (1_000_000 * count) - 2
    while 1_000_000 * (total + count * guess) < wanted:
        guess += 1
    return guess


def compare_forecast(case: Case, verdict: list[str], told: Answer) -> None:
    expected = [word for word in verdict[1:] if word in PARTS]
    batch = case.batch
    need(batch.fails() == expected, f"the model says {batch.fails()} of {verdict}")
    need(told["fails"] == expected, f"the page says {told} of {verdict}: {batch}")
    count, light, _ = batch.counts()
    need(told["short"] == max(0, -(-batch.lack() // 1_000_000)), f"{told} short {batch.lack()}")
    need(told["left"] == 10_000 - count and told["allowed"] == count // 40, f"{told} of {count}")
    mend = next(more for more in range(0, 40 * light + 1) if 40 * light <= count + more)
    need(told["mend"] == mend, f"{told} mends with {mend}")
    need(told["each"] == least_each(batch, told["next"]), f"{told} for {batch}")


# ---- the reference test


def draw_weights(draw: random.Random, case: Case, picks: list[int]) -> dict[int, tuple[int, int]]:
    """The gross and the empty pack of each measured pack; some are light."""
    goods, error = case.batch.goods, error_of(case.batch.goods.quantity)
    share = draw.choice((0.01, 0.05, 0.08, 0.15))
    low = draw.choice((0, 0, error // 8, error // 4))
    weights = {}
    for pack in picks:
        contents = goods.mass() - low + round(draw.gauss(0, error / 3))
        if draw.random() < share:
            contents = goods.mass() - error * goods.density // 1_000_000 - draw.choice((0, 1, 900))
        empty = draw.randrange(0, 3_000) if case.mode == "destroy" else 0
        weights[pack] = (contents + (empty if case.mode == "destroy" else case.batch.tare), empty)
    return weights


def contents_in(case: Case, weights: dict[int, tuple[int, int]], picks: list[int]) -> list[int]:
    tare = case.batch.tare
    return [weights[p][0] - (weights[p][1] if case.mode == "destroy" else tare) for p in picks]


def defects(case: Case, contents: list[int]) -> int:
    goods = case.batch.goods
    limit = goods.quantity - error_of(goods.quantity)
    return sum(goods.is_below(mass, limit) for mass in contents)


def measured(weights: dict[int, tuple[int, int]], picks: list[int]) -> list[str]:
    return [f"measure {p} {spell(weights[p][0])} {spell(weights[p][1])}" for p in picks]


@dataclass
class Paper:
    """A closed batch: its paper, its sheet, and what has to be said of them."""

    text: str
    sheet: str
    verdict: list[str]
    case: Case
    contents: tuple[list[int], list[int]]


def add_sample(draw: random.Random, book: Book, case: Case) -> tuple[list[int], list[int]]:
    """Draws, measures and closes a batch. Gives back the contents of both samples."""
    plan, numbers = case.plan(), case.numbers()
    first = drawn(case.word, numbers, plan.first)
    weights = draw_weights(draw, case, first)
    book.add(f"draw {case.name} {case.mode} {case.word}", *measured(weights, first))
    d1 = defects(case, contents_in(case, weights, first))
    second: list[int] = []
    if plan.c1 < d1 < plan.r1:
        second = drawn(case.word // 2, [n for n in numbers if n not in first], plan.second)
        weights |= draw_weights(draw, case, second)
        book.add(f"second {case.name} {case.word // 2}", *measured(weights, second))
    book.add(f"close {case.name}", f"sheet {case.name}")
    return contents_in(case, weights, first), contents_in(case, weights, second)


def judge_papers(program: str, folder: str, seed: int, batches: int) -> list[Paper]:
    """The papers of a book of so many batches."""
    draw, book = random.Random(seed), Book()
    cases: list[Case] = []
    contents: list[tuple[list[int], list[int]]] = []
    while len(cases) < batches:
        mode = draw.choice(("keep", "keep", "keep", "destroy"))
        case = draw_case(draw, 700, book, mode)
        least = 100 if mode == "destroy" else 2
        if len(case.batch.packs) >= least:
            cases.append(case)
            contents.append(add_sample(draw, book, case))
    path = f"{folder}/{seed}.book"
    said = run(program, book.script, "--book", path)
    need(not any(line.startswith("refused") for line in said), f"refused with seed {seed}")
    sheets = [sheet for sheet in sheets_of(said) if "\nverdict " in sheet]
    papers = []
    together = zip(cases, contents, sheets, verdicts_of(said), strict=True)
    for case, both, sheet, verdict in together:
        words = [program, "paper", "--book", path, "--batch", case.name]
        text = subprocess.run(words, capture_output=True, text=True, check=True).stdout
        papers.append(Paper(text, sheet, verdict, case, both))
    os.remove(path)
    return papers


def compare_paper(paper: Paper, told: Answer) -> None:
    first, second = paper.contents
    case, plan = paper.case, paper.case.plan()
    d1, d2 = defects(case, first), defects(case, second)
    need(told["first"] == first and told["second"] == second, f"contents {told}, not {first}")
    need((told["d1"], told["d2"]) == (d1, d2), f"{told} for d1 {d1}, d2 {d2}")
    need(told["told"] == [d1, d2 if second else None], f"the sheet says {told} for {d1}, {d2}")
    figures = figures_of(first[: plan.means], case.batch.goods, plan.k)
    need(told["mean"] == vars(figures), f"{told['mean']} for {figures}")
    need(figures.accepts == ("mean" not in paper.verdict), f"{figures} of {paper.verdict}")
    check = "rejects" if "contents" in paper.verdict else "accepts"
    need(told["check"] == check, f"{told['check']} of {paper.verdict}")


def reckon(room: str, sheets: list[str], papers: list[Paper]) -> dict[str, list[Answer]]:
    """What the pages' modules say."""
    cases = {"sheets": sheets, "papers": [[paper.text, paper.sheet] for paper in papers]}
    ran = subprocess.run(
        ["node", f"{room}/forecast.mjs"],
        input=json.dumps(cases),
        capture_output=True,
        text=True,
        check=True,
    )
    said: dict[str, list[Answer]] = json.loads(ran.stdout)
    return said


def count_kinds(verdicts: list[list[str]]) -> str:
    names = ("released",) + PARTS
    return ", ".join(f"{name} {sum(name in verdict for verdict in verdicts)}" for name in names)


def books_of(draw: random.Random, batches: int) -> tuple[list[int], list[int]]:
    """The seeds of books for so many batches, and how many each has."""
    counts = [min(A_BOOK, batches - at) for at in range(0, batches, A_BOOK)]
    return [draw.randrange(2**32) for _ in counts], counts


def main() -> None:
    program, room = sys.argv[1:3]
    many, papers_wanted, seed = (int(word) for word in sys.argv[3:6])
    draw = random.Random(seed)
    with ThreadPoolExecutor(AT_ONCE) as pool:
        books = pool.map(lambda *one: judge(program, *one), *books_of(draw, many))
        judged = [one for book in books for one in book]
        halls = pool.map(
            lambda *one: judge_papers(program, room, *one), *books_of(draw, papers_wanted)
        )
        papers = [paper for book in halls for paper in book]
    said = reckon(room, [one.sheet for one in judged], papers)
    for one, told in zip(judged, said["sheets"], strict=True):
        compare_forecast(one.case, one.verdict, told)
    for paper, told in zip(papers, said["papers"], strict=True):
        compare_paper(paper, told)
    at_bound = sum(abs(one.case.batch.lack()) <= 2_000_000 for one in judged)
    print(f"forecast: seed {seed}: {many} forecasts are the packers' part of the verdict")
    kinds = count_kinds([one.verdict for one in judged])
    print(f"forecast: {kinds}; {at_bound} within 2 mg of the average")
    open_ones = sum(bool(paper.contents[1]) for paper in papers)
    print(f"forecast: {papers_wanted} papers, {open_ones} with a second sample: figures the same")


if __name__ == "__main__":
    main()
