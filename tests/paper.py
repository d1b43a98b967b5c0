#!/usr/bin/env python3
"""Holds programs that check papers against tests/paper_page.py: on those of examples/papers, on
papers drawn by a number, on each with one byte turned, on every beginning of a small one, and on
each of its bytes turned.

usage: tests/paper.py [--drawn N] PROGRAM..
       a program is its words in one argument, as './hall prove'
"""

import os
import random
import shlex
import subprocess
import sys

import paper_page as page

SMALL = b"""paper 1
batch T1 product trial nominal 250.000 unit g density 1000.000 row 17
tare 2025-03-03 10.000
pack 8 2025-03-03 261.014
pack 9 2025-03-03 260.587
mode keep word 0
first 9 gross 260.587 empty 0.000
first 8 gross 261.014 empty 0.000
verdict released
"""
DAYS = [f"2025-03-{day:02}" for day in range(3, 31)]


def grams(mass):
    return f"{mass // 1000}.{mass % 1000:03}"


def sample(draws, word, picks, kept, gross):
    """The lines of a sample; now and then a pack is light."""
    for pick in picks:
        light = draws.choice((0, 0, 0, 0, 0, 12_000))
        empty = 0 if kept else draws.randint(9_000, 11_000)
        yield f"{word} {pick} gross {grams(gross - light)} empty {grams(empty)}"


def drawn_paper(seed):
    """A paper whose verdict is right, by a number."""
    draws = random.Random(seed)
    count = draws.choice((0, 1, 2, 40, 99, 100, 101, 501, 3_201))
    kept = count < 100 or draws.random() < 0.7
    unit, density = draws.choice((("g", 10**6), ("ml", draws.randint(500_000, 2_000_000))))
    days = sorted(draws.sample(DAYS, draws.randint(1, 4)))[:count]
    packs = sorted(draws.sample(range(8, 20_000), count))
    on = {pack: days[at % len(days)] for at, pack in enumerate(packs)}
    wanted = 250_000 * density // 10**6
    lines = ["paper 1", f"batch B{seed} product p nominal 250.000 unit {unit} "
             f"density {grams(density)} row 20000"]
    lines += [f"tare {day} {grams(draws.randint(9_000, 11_000))}" for day in days]
    lines += [f"pack {pack} {on[pack]} {grams(wanted + draws.randint(4_000, 17_000))}"
              for pack in packs]
    said = page.plan(count, "keep" if kept else "destroy") if count else None
    if said:
        word = draws.getrandbits(64)
        first = page.draw(word, packs, said[0])
        lines.append(f"mode {'keep' if kept else 'destroy'} word {word}")
        lines += sample(draws, "first", first, kept, wanted + 11_500)
        if said[3] and draws.random() < 0.6:
            word = draws.getrandbits(64)
            left = [pack for pack in packs if pack not in first]
            lines.append(f"word {word}")
            lines += sample(draws, "second", page.draw(word, left, said[3]), kept, wanted + 11_500)
    text = "\n".join([*lines, ""]).encode()
    paper = page.read(text + b"verdict empty\n")
    return text + b"verdict %s\n" % page.judge(paper, said).encode()


def spoiled(seed, text):
    """The text with one byte turned."""
    draws = random.Random(-seed)
    at = draws.randrange(len(text))
    return text[:at] + bytes([draws.choice(b"0123456789 .\nabz-\r")]) + text[at + 1:]


def examples():
    """The papers of examples/papers, of which `answers` says what is told."""
    folder = os.path.join(os.path.dirname(os.path.realpath(__file__)), "..", "examples", "papers")
    with open(f"{folder}/answers", encoding="ascii") as lines:
        for line in lines:
            name, _, wanted = line.rstrip("\n").partition(" ")
            with open(f"{folder}/{name}", "rb") as file:
                text = file.read()
            assert page.answer(text) == wanted, name
            yield name, text


def cases(count):
    yield from examples()
    for seed in range(1, count + 1):
        text = drawn_paper(seed)
        yield f"paper {seed}", text
        yield f"paper {seed} spoiled", spoiled(seed, text)
    for size in range(len(SMALL) + 1):
        yield f"the first {size} bytes", SMALL[:size]
    for at in range(len(SMALL)):
        yield f"byte {at} turned", SMALL[:at] + bytes([SMALL[at] ^ 1]) + SMALL[at + 1:]


def main():
    words = sys.argv[1:]
    count = 200
    if words[:1] == ["--drawn"]:
        count, words = int(words[1]), words[2:]
    if not words:
        sys.exit(__doc__)
    asked, differ, told = 0, 0, {}
    for name, text in cases(count):
        wanted = page.answer(text)
        told[wanted.split()[0]] = told.get(wanted.split()[0], 0) + 1
        for program in words:
            ran = subprocess.run(shlex.split(program), input=text, capture_output=True, check=False)
            status = 0 if wanted.startswith("true") else 3
            if (ran.stdout.decode(), ran.returncode) != (wanted + "\n", status):
                differ += 1
                print(f"{name}: {program} says {ran.stdout.decode()!r}, {ran.returncode}; "
                      f"the page says {wanted!r}", file=sys.stderr)
            asked += 1
    print(f"{asked} answers, {told.get('true', 0)} papers true, {told.get('bad', 0)} bad, "
          f"{differ} answers differ")
    return 1 if differ else 0


if __name__ == "__main__":
    sys.exit(main())
