"""Worked days of a hall: what is asked and what it is answered, for tests/memory.sh.

The answers follow from docs/RULES.md and docs/FORMATS.md by hand; none comes from the program.
Packs are of 250 g, in packages of 10 g: the limits are 241 g and 232 g.
"""

from typing import NamedTuple

OPENING = [("day 2025-03-03", "1 ok"), ("product rice250 250", "2 ok"),
           ("tare rice250 2025-03-03 10", "3 ok"), ("open A rice250", "4 ok")]

# The sheet of the batch of the day of 600 packs, at its end.
SHEET = """\
batch A product rice250 nominal 250.000 tne 9.000
state closed
readings 600 gross 157200.000
passed 550 gross 144100.000
rejected 0 gross 0.000
sampled 50 gross 13100.000
voided 0 gross 0.000
population 600 net 150600.000 nonstandard 0 inadequate 0
held no
test keep first 50 measured 50 defective 0
verdict released"""


class Day(NamedTuple):
    """A day as a script: its lines, each with its answer, and the summary at the end."""

    name: str
    told: list
    summary: str

    def lines(self, begin=0):
        return "".join(f"{line}\n" for line, _ in self.told[begin:])

    def answers(self, begin=0, end=None):
        return "".join(f"{answer}\n" for _, answer in self.told[begin:end])

    def answered(self, said):
        """How many lines were answered where just this was said; none where it is no such text."""
        texts = [self.answers(0, count) for count in range(len(self.told) + 1)]
        return texts.index(said) if said in texts else None

    def rows(self, count):
        """How many rows stand behind the answers to the first lines."""
        firsts = [answer.split()[0] for _, answer in self.told[:count]]
        return max([int(word) for word in firsts if word.isdigit()], default=0)


def summary(rows, batches="running 1 ended 0 drawn 0 closed 0", **piles):
    """The text of a summary; of the piles that hold anything their packs and grosses in g."""
    names = ("readings", "passed", "rejected", "sampled", "voided")
    held = [(name, *piles.get(name, (0, 0))) for name in names]
    lines = [f"rows {rows}"] + [f"{name} {packs} gross {grams}.000" for name, packs, grams in held]
    return "".join(f"{line}\n" for line in [*lines, f"batches {batches}"])


def drawn(word, packs, count):
    """So many of these packs, in the order in which a word draws them."""
    left, taken = sorted(packs), []
    for _ in range(count):
        word = (word * 6364136223846793005 + 1442695040888963407) % 2**64
        taken.append(left.pop((word >> 33) % len(left)))
    return taken


def numbered(lines, first, answer="ok"):
    """Acts that are accepted one after another, from this row on."""
    return [(line, f"{row} {answer}") for row, line in enumerate(lines, first)]


def days(count):
    """So many lines that set the day, at the beginning of a book."""
    return [("day 2025-03-03", f"{row} ok") for row in range(1, count + 1)]


def corrected_tare(before=0):
    """A corrected tare makes a passed pack inadequate, and its batch is held until the pack is
    voided. So many rows come before."""
    lines = [line for line, _ in OPENING]
    told = days(before) + numbered([*lines, "start 1 A"], before + 1)
    told += [("weigh 1 243.000", f"{before + 6} pass"),
             ("tare rice250 2025-03-03 12", f"{before + 7} ok"),
             ("weigh 1 260.000", f"{before + 8} reject held"),
             (f"void {before + 6}", f"{before + 9} ok"),
             ("weigh 1 260.000", f"{before + 10} pass")]
    name = f"corrected tare behind {before} rows" if before else "corrected tare"
    return Day(name, told, summary(before + 10, readings=(3, 763), passed=(1, 260),
                                   rejected=(1, 260), voided=(1, 243)))


def measures(packs):
    """Two of the packs that were drawn lack more than the tolerable error."""
    return [f"measure {pack} {250 if place < 2 else 260}.000" for place, pack in enumerate(packs)]


def second_sample():
    """Two of thirty leave it open; with two of the second thirty the batch is released."""
    first = drawn(0, range(6, 106), 30)
    second = drawn(1, set(range(6, 106)) - set(first), 30)
    said = f"sample A first {' '.join(map(str, first))}"
    told = OPENING + [("start 1 A", "5 ok")] + numbered(["weigh 1 260.000"] * 100, 6, "pass")
    told += numbered(["stop 1", "end A", "draw A keep 0"], 106) + [("sample A", said)]
    told += numbered(measures(first), 109)
    told += [("close A", "refused 33 SecondNeeded 2 at 138"), ("second A 1", "139 ok"),
             ("sample A", f"{said} second {' '.join(map(str, second))}")]
    told += numbered(measures(second), 140) + [("close A", "170 released")]
    return Day("second sample", told, summary(170, "running 0 ended 0 drawn 0 closed 1",
                                              readings=(100, 26000), passed=(40, 10400),
                                              sampled=(60, 15600)))


def desk_row():
    """A desk repeats a request, uses its number again, falls behind it and leaves a gap."""
    told = [
        ("day 2025-03-03", "1 ok"), ("@101 1 product a 250", "2 ok"),
        ("@101 1 product a 250", "2 ok"),
        ("@101 1 product b 250", "refused 3 RequestReused 2 at 2"),
        ("@101 2 product b 250", "3 ok"),
        ("@101 1 product a 250", "refused 2 RequestOld 2 at 3"),
        ("@101 4 product c 250", "refused 4 RequestGap 2 at 3"),
        ("@100 1 product c 250", "refused 1 DeskNumber at 3")]
    return Day("desk", told, summary(3, "running 0 ended 0 drawn 0 closed 0"))


def desk_row_again():
    """What the desk is answered that asks all of it again, where all of it was done."""
    told = desk_row().told[1:]
    old = (told[0][0], "refused 2 RequestOld 2 at 3")
    reused = (told[2][0], "refused 2 RequestOld 2 at 3")
    return desk_row()._replace(told=[old, old, reused, *told[3:]])


def many_packs():
    """A day of 600 packs on three lanes, to its verdict."""
    lanes = [1, 2, 3]
    told = OPENING + numbered([f"start {lane} A" for lane in lanes], 5)
    told += numbered([f"weigh {lane} 262.000" for lane in lanes] * 200, 8, "pass")
    told += numbered(["tare rice250 2025-03-03 11", *[f"stop {lane}" for lane in lanes], "end A",
                      "draw A keep 7"], 608)
    told += numbered([f"measure {pack} 262.000" for pack in drawn(7, range(8, 608), 50)], 614)
    told += [("close A", "664 released"), ("sheet A", SHEET)]
    return Day("600 packs", told, summary(664, "running 0 ended 0 drawn 0 closed 1",
                                          readings=(600, 157200), passed=(550, 144100),
                                          sampled=(50, 13100)))
