"""A report on paper: a page of HTML, and the PDF that Debian's weasyprint makes of it. Nothing is
fetched for it."""

from html import escape
from typing import Any

from hall_archive.report_words import line_name, said, sources, spelled

FACTS = ("readings", "net", "over", "money", "nonstandard", "rejected", "refused")
LINE: tuple[str, ...] = (
    "readings",
    "rejected",
    "voided",
    "population",
    "mean",
    "deviation",
    "each",
    "share",
)
LINE += ("money", "nonstandard", "rate", "stops", "stopped", "released", "withheld", "refused")
CAUSES = ("told_allowance", "told_inadequate", "told_held", "told_full", "stayed")
# Where the long words of narrow heads may break.
BREAKS: tuple[str, ...] = ("aus|ge|schleust", "Packun|gen", "ver|schenkt", "Still|stän|de")
BREAKS += ("frei|ge|ge|ben", "zurück|ge|hal|ten", "ab|ge|lehn|te", "ge|stri|chen", "zäh|len|de")
BREAKS += ("Vor|gän|ge", "Un|ter|maß", "re|jected", "with|held", "re|leased", "re|fused")
SOFT_HYPHEN = "\u00ad"
STYLE = """
@page { size: A4 landscape; margin: 11mm 10mm 14mm;
  @bottom-right { content: counter(page) " / " counter(pages); font: 8pt sans-serif; }
  @bottom-left { content: string(head); font: 8pt sans-serif; } }
* { box-sizing: border-box; }
body { font: 8.5pt/1.3 "DejaVu Sans", sans-serif; color: #16201f; margin: 0; }
h1 { font-size: 16pt; margin: 0; string-set: head content(); }
h2 { font-size: 10.5pt; margin: 5mm 0 1.5mm; }
.under { color: #55605f; margin: 0 0 3mm; }
.facts { display: flex; gap: 4mm; border: 1px solid #b9c0c0; border-radius: 3px;
  padding: 2mm 3mm; }
.facts div { flex: 1 1 auto; }
.facts dt { color: #55605f; font-size: 7.5pt; }
.facts dd { margin: 0; font-size: 12pt; font-weight: bold; }
table { border-collapse: collapse; width: 100%; }
th, td { text-align: right; padding: .7mm 1.2mm; border-bottom: .2mm solid #d4d9d9; }
th { font-size: 7pt; font-weight: bold; vertical-align: bottom; border-bottom: .4mm solid #6b7675; }
th:first-child, td:first-child, .text { text-align: left; }
table.batches :is(th, td):not(:nth-child(5), :nth-child(6)) { text-align: left; }
table.batches :is(th, td):last-child { width: 30%; padding-left: 6mm; }
small { display: block; font-size: 6pt; font-weight: normal; color: #55605f; }
table.wide { table-layout: fixed; font-size: 7.5pt; }
table.wide th { font-size: 6pt; overflow-wrap: anywhere; }
table.wide :is(th, td):first-child { width: 14%; }
table.wide :is(th, td):is(:nth-child(2), :nth-child(5)) { width: 7%; }
table.wide :is(th, td):nth-child(3) { width: 5.8%; }
table.wide :is(th, td):nth-child(10) { width: 7.6%; }
table.wide td:not(:first-child) { white-space: nowrap; }
thead { display: table-header-group; }
tr { break-inside: avoid; }
tr.sum td { border-top: .4mm solid #6b7675; font-weight: bold; }
.over { font-weight: bold; }
.bad { font-weight: bold; color: #a4161a; }
.halves { display: flex; break-inside: avoid; }
.halves > * { flex: 1; }
.halves > :first-child { padding-right: 10mm; }
.note { color: #8a5a00; }
svg { width: 100%; }
"""
# The chart of the days: its size, and where its bars begin and end.
WIDE, HIGH, LEFT, RIGHT, BOTTOM = 420, 130, 34, 408, 108


def pdf(html: str) -> bytes:
    from weasyprint import HTML

    def refuse(url: str, *_: Any, **__: Any) -> dict[str, Any]:
        raise ValueError(f"nothing is fetched: {url}")

    made: bytes = HTML(string=html, url_fetcher=refuse).write_pdf()
    return made


def page(report: dict[str, Any], language: str) -> str:
    """The whole page."""
    words = Words(report, language)
    parts = [words.head()]
    if report["total"]["readings"]:
        parts += [words.facts(), words.matrix(), words.halves(), words.lines()]
    else:
        parts.append(f"<p>{escape(said('none', language))}</p>")
    parts += [words.batches(), words.refused()]
    body = "".join(parts)
    title = escape(words.title())
    return (
        f'<!doctype html><html lang="{language}"><head><meta charset="utf-8"><title>{title}</title>'
        f"<style>{STYLE}</style></head><body>{body}</body></html>"
    )


class Words:
    """The parts of the page."""

    def __init__(self, report: dict[str, Any], language: str) -> None:
        self.report, self.language = report, language
        self.halls = len(report["halls"])

    def say(self, key: str, **values: Any) -> str:
        return escape(said(key, self.language, **values))

    def spell(self, name: str, value: Any) -> str:
        return escape(spelled(name, value, self.language, self.report["currency"]))

    def title(self) -> str:
        first, last = self.report["first"], self.report["last"]
        days = first if first == last else f"{first} \u2013 {last}"
        return f"{said('title', self.language)} {days}"

    def head(self) -> str:
        report = self.report
        by = self.say("by", by=said(report["by"], self.language))
        asked = [", ".join(report["halls"]), report["product"]]
        asked += [f"{said('lane', self.language)} {report['lane']}" if report["lane"] else ""]
        words = [by, *(escape(one) for one in asked if one)]
        rows = escape(sources(report["total"]["rows"], self.halls))
        notes = "".join(
            f'<p class="note">{self.say("behind", **one)}</p>' for one in report["behind"]
        )
        what = " \u00b7 ".join(words)
        under = f'<p class="under">{what}<br>{self.say("rows")} {rows}</p>'
        return f"<h1>{escape(self.title())}</h1>{under}{notes}"

    def facts(self) -> str:
        total = self.report["total"]
        parts = [
            f"<div><dt>{self.say(name)}</dt><dd>{self.spell(name, total[name])}</dd></div>"
            for name in FACTS
        ]
        return f'<dl class="facts">{"".join(parts)}</dl>'

    # ---- products by lanes

    def matrix(self) -> str:
        cells = {(one["product"], one["lane"]): one for one in self.report["matrix"]}
        lanes = sorted({lane for _, lane in cells if lane})
        products = sorted({product for product, _ in cells if product})
        heads = [f"{self.say('lane')} {lane}" for lane in lanes]
        head = self.row("th", [self.say("product"), *heads, self.say("all")])
        body = [self.matrix_row(escape(one), one, lanes, cells, "") for one in products]
        body.append(self.matrix_row(self.say("all"), "", lanes, cells, "sum"))
        return f"<h2>{self.say('matrix')}</h2>{self.table(head, body)}"

    def matrix_row(
        self, name: str, product: str, lanes: list[int], cells: dict[Any, Any], kind: str
    ) -> str:
        total = self.report["total"] if not product else cells.get((product, 0))
        found = [cells.get((product, lane)) for lane in lanes] + [total]
        return self.row("td", [name, *map(self.cell, found)], kind)

    def cell(self, line: dict[str, Any] | None) -> str:
        if line is None or line["share"] is None:
            return "\u2013"
        aim = self.report["aim"]
        is_over = bool(aim) and line["share"] > aim
        text = f"{self.spell('each', line['each'])} g  {self.spell('share', line['share'])} %"
        return f'<span class="over">{text} \u25b2</span>' if is_over else text

    # ---- causes and days

    def halves(self) -> str:
        total = self.report["total"]
        causes = [(self.say(name), total[name]) for name in CAUSES]
        body = [self.row("td", [name, self.spell("count", count)]) for name, count in causes]
        left = f"<div><h2>{self.say('causes')}</h2>{self.table('', body)}</div>"
        return (
            f'<div class="halves">{left}<div><h2>{self.say("trend")}</h2>{self.chart()}</div></div>'
        )

    def chart(self) -> str:
        """A bar for each day."""
        days = [one for one in self.report["days"] if one["share"] is not None]
        if not days:
            return ""
        top = max(max(one["share"] for one in days), self.report["aim"], 0.1)
        low = min(min(one["share"] for one in days), 0.0)
        scale = (BOTTOM - 10) / (top - low)
        step = (RIGHT - LEFT) / len(days)
        zero = BOTTOM + low * scale
        bars = "".join(self.bar(one, at, step, zero, scale) for at, one in enumerate(days))
        every = -(-len(days) // 10)
        labels = "".join(
            f'<text x="{LEFT + (at + .5) * step:.1f}" y="{HIGH - 6}" text-anchor="middle">'
            f"{one['day'][5:]}</text>"
            for at, one in enumerate(days)
            if at % every == 0
        )
        marks = "".join(self.mark(value, zero, scale) for value in {top, 0.0, low})
        return (
            f'<svg viewBox="0 0 {WIDE} {HIGH}" font-size="8" font-family="DejaVu Sans">'
            f"{bars}{marks}{labels}{self.aim(zero, scale)}</svg>"
        )

    def bar(self, one: dict[str, Any], at: int, step: float, zero: float, scale: float) -> str:
        high = abs(one["share"]) * scale
        begin = zero - high if one["share"] > 0 else zero
        left = LEFT + at * step + step * 0.15
        return (
            f'<rect x="{left:.1f}" y="{begin:.1f}" width="{step * .7:.1f}"'
            f' height="{high:.1f}" fill="#9fb4c7"/>'
        )

    def mark(self, value: float, zero: float, scale: float) -> str:
        height = zero - value * scale
        text = self.spell("share", value)
        return (
            f'<path d="M{LEFT} {height:.1f}H{RIGHT}" stroke="#6b7675" stroke-width=".4"/>'
            f'<text x="{LEFT - 4}" y="{height + 3:.1f}" text-anchor="end">{text}</text>'
        )

    def aim(self, zero: float, scale: float) -> str:
        aim = self.report["aim"]
        if not aim:
            return ""
        height = zero - aim * scale
        return (
            f'<path d="M{LEFT} {height:.1f}H{RIGHT}" stroke="#16201f" stroke-dasharray="4 3"'
            ' stroke-width=".7"/>'
        )

    # ---- tables

    def lines(self) -> str:
        heads = [f"{self.say(self.report['by'])} <small>{self.say('rows')}</small>"]
        heads += [breaking(self.say(name)) for name in LINE]
        found = self.report["lines"]
        names = [line_name(self.report["by"], one["name"], self.language) for one in found]
        body = [self.line(name, one) for name, one in zip(names, found, strict=True)]
        body.append(self.line(said("total", self.language), self.report["total"], "sum"))
        head = self.row("th", heads)
        return f"<h2>{self.say('lines')}</h2>{self.table(head, body, 'wide')}"

    def line(self, name: str, one: dict[str, Any], kind: str = "") -> str:
        rows = escape(sources(one["rows"], self.halls)) if kind != "sum" else ""
        first = f"{escape(name)} <small>{rows}</small>"
        return self.row("td", [first, *(self.spell(key, one[key]) for key in LINE)], kind)

    def batches(self) -> str:
        found, closed = self.report["batches"], self.report["closed"]
        if not found:
            return ""
        heads = ("batch", "product", "day", "book", "packs", "mean_over", "verdict")
        head = self.row("th", [self.say(name) for name in heads])
        body = [self.batch(one) for one in found]
        some = self.say("some", count=len(found)) if len(found) < closed else ""
        note = f'<p class="under">{some}</p>' if some else ""
        title = self.say("batches", closed=closed)
        return f"<h2>{title}</h2>{note}{self.table(head, body, 'batches')}"

    def batch(self, one: dict[str, Any]) -> str:
        word, *why = one["verdict"].split(" ")
        parts = ", ".join(self.say(f"part {one}") for one in why)
        verdict = self.say(word) + (f": {parts}" if parts else "")
        book = f"{one['hall']} {one['book']}" if self.halls > 1 else one["book"]
        cells = [escape(one["batch"]), escape(one["product"]), one["day"], escape(book)]
        cells += [self.spell("packs", one["packs"]), self.spell("mean_over", one["over"])]
        kind = "bad" if word == "withheld" else "text"
        return self.row("td", cells, "", f'<td class="{kind}">{verdict}</td>')

    def refused(self) -> str:
        if not self.report["refused"]:
            return ""
        head = self.row("th", [self.say(name) for name in ("act", "person", "count")])
        body = [
            self.row("td", [escape(one["act"]), escape(one["person"]), str(one["count"])])
            for one in self.report["refused"]
        ]
        return f"<h2>{self.say('acts')}</h2>{self.table(head, body)}"

    def row(self, kind: str, cells: list[str], name: str = "", more: str = "") -> str:
        inner = "".join(f"<{kind}>{cell}</{kind}>" for cell in cells)
        return f'<tr class="{name}">{inner}{more}</tr>'

    def table(self, head: str, body: list[str], kind: str = "") -> str:
        top = f"<thead>{head}</thead>" if head else ""
        return f'<table class="{kind}">{top}<tbody>{"".join(body)}</tbody></table>'


def breaking(head: str) -> str:
    """A head whose long words may break."""
    for word in BREAKS:
        head = head.replace(word.replace("|", ""), word.replace("|", SOFT_HYPHEN))
    return head
