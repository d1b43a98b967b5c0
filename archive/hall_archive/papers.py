"""The paper of a closed batch, as `hall paper` writes it (docs/FORMATS.md), and the packs of a
draw in drawing order: pure. Masses in mg."""

from typing import NamedTuple

from hall_archive import rules
from hall_archive.nets import Batch
from hall_archive.rows import day_text, grams

UNIT_DENSITY = 1_000_000


class Drawn(NamedTuple):
    """A draw: its row and its word."""

    row: int
    word: int


class NotDrawn(Exception):
    """The packs of a draw aren't those that its word draws."""


def in_order(batch: Batch, moved: dict[int, int], draws: list[Drawn]) -> list[list[int]]:
    """The samples of a batch in drawing order. `moved` has the rows that moved packs: a pack was in
    the population up to that row."""
    samples: list[list[int]] = []
    for draw, ascending in zip(draws, batch.samples, strict=True):
        there = [
            row
            for row, pack in sorted(batch.packs.items())
            if pack.signal == "pass" and moved.get(row, draw.row) >= draw.row
        ]
        picks = rules.draw(there, len(ascending), draw.word)
        if sorted(picks) != ascending:
            raise NotDrawn(f"batch {batch.name}: row {draw.row} draws other packs")
        samples.append(picks)
    return samples


def measured(batch: Batch, word: str, pack: int) -> str:
    if pack not in batch.measured:
        return f"{word} {pack} unmeasured"
    gross, empty = batch.measured[pack]
    return f"{word} {pack} gross {grams(gross)} empty {grams(empty)}"


def paper(batch: Batch, row: int) -> str:
    """The paper of a batch that row `row` closed; its samples are in drawing order."""
    goods, unit = batch.goods, "ml" if batch.goods.is_volume else "g"
    density = grams(batch.density if goods.is_volume else UNIT_DENSITY)
    lines = [
        "paper 1",
        f"batch {batch.name} product {goods.name} nominal {grams(goods.nominal)} unit {unit}"
        f" density {density} row {row}",
    ]
    packs = batch.population()
    days = sorted({pack.day for pack in packs})
    lines += [f"tare {day_text(day)} {grams(goods.tare(day))}" for day in days]
    lines += [f"pack {one.row} {day_text(one.day)} {grams(one.gross)}" for one in packs]
    if packs:
        lines.append(f"mode {batch.mode} word {batch.words[0]}")
        lines += [measured(batch, "first", pack) for pack in batch.samples[0]]
    if len(batch.samples) > 1:
        lines.append(f"word {batch.words[1]}")
        lines += [measured(batch, "second", pack) for pack in batch.samples[1]]
    lines.append(f"verdict {batch.verdict}")
    return "".join(f"{line}\n" for line in lines)
