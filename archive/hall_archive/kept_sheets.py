"""The sheets of a book's batches on paper: a page of HTML with one for each batch, of what the
archive has. Pure. Masses in mg."""

from html import escape
from typing import Any

from hall_archive import nets
from hall_archive.nets import Batch, Pack
from hall_archive.rows import day_text, grams
from hall_archive.witness import utc_text

STYLE = """
@page { size: A4; margin: 14mm; @bottom-right { content: counter(page) " / " counter(pages);
  font: 8pt sans-serif; } @bottom-left { content: string(head); font: 8pt sans-serif; } }
body { font: 9pt/1.35 "DejaVu Sans", sans-serif; margin: 0; }
section { break-after: page; }
section:last-child { break-after: auto; }
h1 { font-size: 14pt; margin: 0 0 1mm; string-set: head content(); bookmark-level: 1; }
h2 { font-size: 10pt; margin: 4mm 0 1mm; bookmark-level: none; }
p { margin: 0 0 1.5mm; }
pre { font: 8.5pt/1.4 "DejaVu Sans Mono", monospace; margin: 0; white-space: pre-wrap; }
.list { font: 7.5pt/1.5 "DejaVu Sans Mono", monospace; }
"""


def page(book: str, sheets: list[str]) -> str:
    return (
        f'<!doctype html><html lang="en"><head><meta charset="utf-8"><title>{escape(book)}</title>'
        f"<style>{STYLE}</style></head><body>{''.join(sheets)}</body></html>"
    )


def sheet(book: str, batch: Batch, acts: list[dict[str, Any]], evidence: list[str]) -> str:
    """The sheet of a batch: what the book says of it, limits, tares, the test with its weights,
    packs that don't count, and who did what."""
    limits = batch.limits
    parts = [
        f"<section><h1>{escape(batch.name)} \u00b7 {escape(book)}</h1>",
        f"<pre>{escape(nets.sheet(batch))}</pre>",
        f"<h2>Limits and tares</h2><p>T1 {grams(limits.t1)} g, T2 {grams(limits.t2)} g</p>",
        f"<p>{escape(tares(batch))}</p>",
    ]
    for word, picks in zip(("First", "Second"), batch.samples, strict=False):
        weights = ", ".join(weight(batch, pack) for pack in picks)
        parts.append(f'<h2>{word} sample</h2><p class="list">{escape(weights)}</p>')
    out = [one for one in batch.packs.values() if one.pile not in nets.POPULATION]
    if out:
        said = ", ".join(map(left_out, out))
        parts.append(f'<h2>Rejected and voided packs</h2><p class="list">{escape(said)}</p>')
    parts.append(f"<h2>Who did what</h2><pre>{escape(chr(10).join(map(act_line, acts)))}</pre>")
    if evidence:
        parts.append(f"<h2>Evidence</h2><pre>{escape(chr(10).join(evidence))}</pre>")
    return "".join(parts) + "</section>"


def tares(batch: Batch) -> str:
    days = sorted({pack.day for pack in batch.packs.values()})
    return ", ".join(f"{day_text(day)} {grams(batch.goods.tare(day))} g" for day in days)


def weight(batch: Batch, pack: int) -> str:
    if pack not in batch.measured:
        return f"{pack} \u2013"
    return f"{pack} {grams(batch.contents(pack))} g"


def left_out(pack: Pack) -> str:
    return f"{pack.row} {grams(pack.net)} g {pack.signal.removeprefix('reject ')} {pack.pile}"


def act_line(act: dict[str, Any]) -> str:
    _, by, asked = act["line"].split("\t")
    when = utc_text(act["high"]) if act["high"] else ""
    reason = f" ({act['reason']})" if act["reason"] else ""
    return f"{act['row']}  {when}  {act['person'] or by}  {asked}{reason}"
