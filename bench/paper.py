"""The papers of bench/paper.sh: FOLDER."""

import datetime
import sys

import paper_page as page

HEAD = "paper 1\nbatch B product p nominal 250 unit g density 1000 row 20000\n"


def write(name, text):
    with open(f"{sys.argv[1]}/{name}", "w", encoding="ascii") as file:
        file.write(text)


def large():
    packs = range(1, 10_001)
    picks = page.draw(7, packs, 80)
    lines = [f"pack {pack} 2025-03-03 261.000" for pack in packs] + ["mode keep word 7"]
    lines += [f"first {pick} gross 261.000 empty 0.000" for pick in picks]
    return "\n".join([HEAD + "tare 2025-03-03 10.000", *lines, "verdict released", ""])


def slow():
    first = datetime.date(1970, 1, 1)
    tares = "".join(f"tare {first + datetime.timedelta(at)} 1\n" for at in range(500_000))
    rest = "pack 1 1970-01-01 9\nmode keep word 7\n", "verdict released\n"
    line = "first 1 gross 9 empty 0\n"
    room = 16_777_216 - len(HEAD + tares + "".join(rest))
    return HEAD + tares + rest[0] + line * (room // len(line)) + rest[1]


def drawn():
    days = [datetime.date(2000, 1, 1) + datetime.timedelta(at) for at in range(10_000)]
    packs = range(1, 10_001)
    lines = [f"tare {day} 1" for day in days]
    lines += [f"pack {pack} {day} 251" for pack, day in zip(packs, days)] + ["mode keep word 7"]
    first = page.draw(7, packs, 80)
    lines += [f"first {pick} gross 251 empty 0" for pick in first] + ["word 8"]
    second = page.draw(8, [pack for pack in packs if pack not in set(first)], 80)
    lines += [f"second {pick} unmeasured" for pick in second]
    text, last, line = HEAD + "\n".join(lines) + "\n", "verdict released\n", "second 1 unmeasured\n"
    return text + line * ((16_777_216 - len(text + last)) // len(line)) + last


write("large", large())
write("slow", slow())
write("drawn", drawn())
