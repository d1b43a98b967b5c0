"""The words and figures of reports on paper, in English and German. A report is what `Report.shown`
makes; masses in it are in mg, times in ms."""

from collections.abc import Callable
from typing import Any

LANGUAGES = ("en", "de")
WORDS = {
    "title": ("Report", "Bericht"),
    "by": ("by {by}", "nach {by}"),
    "shift": ("shift", "Schicht"),
    "day": ("day", "Tag"),
    "week": ("week", "Woche"),
    "month": ("month", "Monat"),
    "product": ("product", "Ware"),
    "lane": ("lane", "Linie"),
    "hall": ("hall", "Halle"),
    "book": ("book", "Buch"),
    "total": ("total", "gesamt"),
    "all": ("all", "alle"),
    "name": ("of", "von"),
    "readings": ("weighed", "gewogen"),
    "passed": ("passed", "gut"),
    "rejected": ("rejected", "ausgeschleust"),
    "sampled": ("sampled", "Stichprobe"),
    "voided": ("voided", "gestrichen"),
    "told_held": ("its batch was held", "ihre Charge war gesperrt"),
    "told_full": ("its batch was full", "ihre Charge war voll"),
    "told_inadequate": ("inadequate, below T2", "unzulässig, unter T2"),
    "told_allowance": ("light, and one in forty used up", "zu leicht, 1 von 40 verbraucht"),
    "stayed": ("passed, but the gate stayed shut", "gut, aber das Tor blieb zu"),
    "population": ("packs that count", "zählende Packungen"),
    "net": ("net, kg", "netto, kg"),
    "declared": ("declared, kg", "angegeben, kg"),
    "over": ("given away, kg", "verschenkt, kg"),
    "each": ("a pack, g", "je Packung, g"),
    "share": ("given away, %", "verschenkt, %"),
    "mean": ("mean, g", "Mittel, g"),
    "deviation": ("s, g", "s, g"),
    "nonstandard": ("non-standard", "Untermaß"),
    "inadequate": ("inadequate", "unzulässig"),
    "money": ("money", "Geld"),
    "rate": ("packs a minute of a lane", "Packungen je Minute und Linie"),
    "running": ("ran, h", "lief, h"),
    "stops": ("stops", "Stillstände"),
    "stopped": ("stood, min", "stand, min"),
    "refused": ("refused acts", "abgelehnte Vorgänge"),
    "released": ("released", "freigegeben"),
    "withheld": ("withheld", "zurückgehalten"),
    "empty": ("empty", "leer"),
    "rows": ("of rows", "aus Zeilen"),
    "lines": ("Figures", "Zahlen"),
    "matrix": (
        "Given away by product and lane: g a pack, % of what is declared",
        "Verschenkt nach Ware und Linie: g je Packung, % des Angegebenen",
    ),
    "causes": ("Why packs were rejected", "Warum Packungen ausgeschleust wurden"),
    "trend": ("Given away by day, %", "Verschenkt je Tag, %"),
    "batches": ("Verdicts of {closed} batches", "Urteile über {closed} Chargen"),
    "some": ("{count} of them are listed", "{count} davon stehen hier"),
    "batch": ("batch", "Charge"),
    "verdict": ("verdict", "Urteil"),
    "packs": ("packs", "Packungen"),
    "mean_over": ("average over nominal, g", "Mittel über Nennmenge, g"),
    "acts": ("Refused acts", "Abgelehnte Vorgänge"),
    "act": ("act", "Vorgang"),
    "person": ("person", "Person"),
    "count": ("how many", "wie viele"),
    "none": ("Nothing was weighed in these days.", "In diesen Tagen wurde nichts gewogen."),
    "behind": (
        "{book}: rows {summed} of {rows} are in the sums",
        "{book}: Zeilen {summed} von {rows} sind in den Summen",
    ),
    "page": ("page", "Seite"),
    "hour unknown": ("hour unknown", "Stunde unbekannt"),
    # the parts of a verdict that fail
    "part contents": ("contents", "Einzelinhalt"),
    "part mean": ("mean", "Mittelwert"),
    "part average": ("average", "Durchschnitt"),
    "part allowance": ("allowance", "1 von 40"),
    "part inadequate": ("inadequate", "unzulässig"),
    # shifts of a hall that names none
    "early": ("early", "früh"),
    "late": ("late", "spät"),
    "night": ("night", "Nacht"),
}


def said(key: str, language: str, **values: Any) -> str:
    """A word, with what stands in it; a key without a word is itself."""
    found = WORDS.get(key)
    return found[language == "de"].format(**values) if found else key


def line_name(by: str, name: str, language: str) -> str:
    """The name of a line: a shift's has the day before a word."""
    day, _, word = name.rpartition(" ")
    if by != "shift" or not day[:1].isdecimal():
        return said(name, language)
    return f"{day} {said(word, language)}"


def decimal(value: float, places: int, language: str) -> str:
    """A number with a comma in German, and blanks between thousands."""
    text = f"{abs(value):,.{places}f}".replace(",", "\u202f")
    sign = "\u2212" if value < 0 and float(f"{value:.{places}f}") else ""
    return sign + (text.replace(".", ",") if language == "de" else text)


def mass(unit: float, places: int) -> Callable[[float, str], str]:
    return lambda value, language: decimal(value / unit, places, language)


# How a figure is spelled on paper; each other one is a count.
SPELLED: dict[str, Callable[[float, str], str]] = {
    "net": mass(1e6, 3),
    "declared": mass(1e6, 3),
    "over": mass(1e6, 3),
    "each": mass(1e3, 2),
    "mean": mass(1e3, 3),
    "deviation": mass(1e3, 3),
    "mean_over": mass(1e3, 2),
    "share": mass(1, 2),
    "rate": mass(1, 1),
    "running": mass(3.6e6, 1),
    "stopped": mass(6e4, 0),
}


def spelled(name: str, value: Any, language: str, currency: str = "") -> str:
    if value is None:
        return "\u2013"
    if name == "money":
        return f"{decimal(float(value), 2, language)} {currency}".strip()
    if name in SPELLED:
        return SPELLED[name](float(value), language)
    return decimal(value, 0, language)


def sources(rows: list[dict[str, Any]], halls: int) -> str:
    """From which rows a figure is: `2026-12 11 to 228 340`."""
    parts = [
        f"{one['hall'] + ' ' if halls > 1 else ''}{one['book']} {one['first']}\u2013{one['last']}"
        for one in rows
    ]
    return ", ".join(parts)
