"""Whether a paper is true, by docs/RULES.md and docs/FORMATS.md alone."""

import datetime
import re

NAME = rb"[A-Za-z0-9][A-Za-z0-9._-]{0,31}"
NUMBER, GRAMS = rb"[0-9]{1,20}", rb"[0-9]{1,8}(?:\.[0-9]{1,3})?"
DAY = rb"[0-9]{4}-[0-9]{2}-[0-9]{2}"
WEIGHED = rb"gross (%s) empty (%s)" % (GRAMS, GRAMS)
PARTS = ["contents", "mean", "average", "allowance", "inadequate"]
LINES = {
    "paper": rb"paper 1",
    "batch": rb"batch (%s) product (%s) nominal (%s) unit (g|ml) density (%s) row (%s)"
             % (NAME, NAME, GRAMS, GRAMS, NUMBER),
    "tare": rb"tare (%s) (%s)" % (DAY, GRAMS),
    "pack": rb"pack (%s) (%s) (%s)" % (NUMBER, DAY, GRAMS),
    "mode": rb"mode (keep|destroy) word (%s)" % NUMBER,
    "first": rb"first (%s) %s" % (NUMBER, WEIGHED),
    "word": rb"word (%s)" % NUMBER,
    "second": rb"second (%s) (?:%s|unmeasured)" % (NUMBER, WEIGHED),
    "verdict": rb"verdict (empty|released|withheld(?= .)%s)"
               % b"".join(rb"(?: %s)?" % part.encode() for part in PARTS),
}
NEXT = {
    None: ["paper"], "paper": ["batch"], "batch": ["tare", "pack", "verdict"],
    "tare": ["tare", "pack", "verdict"], "pack": ["pack", "mode"],
    "mode": ["first", "word", "verdict"], "first": ["first", "word", "verdict"],
    "word": ["second", "verdict"], "second": ["second", "verdict"], "verdict": [],
}


class Bad(Exception):
    """A value out of its range."""


def number(text, most, least=0):
    if not least <= int(text) <= most:
        raise Bad
    return int(text)


def mass(text, most, least=0):
    whole, _, places = text.partition(b".")
    return number(whole + places.ljust(3, b"0"), most, least)


def day(text):
    try:
        date = datetime.date.fromisoformat(text.decode())
    except ValueError:
        raise Bad from None
    return number((date - datetime.date(1970, 1, 1)).days, 2932896)


def weighed(paper, gross, empty):
    if gross is None:
        return None
    return mass(gross, 30_000_000), mass(empty, 0 if paper["mode"] == "keep" else 5_000_000)


def take(paper, word, found):
    """Takes one line into a paper."""
    if word == "batch":
        paper["nominal"] = mass(found[2], 10_000_000, 5_000)
        least, most = (10**6, 10**6) if found[3] == b"g" else (500_000, 2_000_000)
        paper["density"] = mass(found[4], most, least)
        number(found[5], 10**6, 1)
    elif word == "tare":
        when = day(found[0])
        if any(when <= other for other in list(paper["tares"])[-1:]):
            raise Bad
        paper["tares"][when] = mass(found[1], 5_000_000)
    elif word == "pack":
        row = number(found[0], 10**6, 1)
        newest = list(paper["packs"])[-1:]
        if len(paper["packs"]) == 10_000 or any(row <= other for other in newest):
            raise Bad
        paper["packs"][row] = day(found[1]), mass(found[2], 30_000_000)
    elif word == "mode":
        paper["mode"], paper["word"] = found[0].decode(), number(found[1], 2**64 - 1)
    elif word == "word":
        paper["second_word"] = number(found[0], 2**64 - 1)
    elif word in ("first", "second"):
        row = number(found[0], 10**6, 1)
        paper[word].append((row, weighed(paper, found[1], found[2])))
    elif word == "verdict":
        paper["verdict"] = found[0].decode()


def read(text):
    """The paper of a text, or the number of its least bad line."""
    *lines, rest = text.split(b"\n")
    paper = {"tares": {}, "packs": {}, "mode": None, "second_word": None, "first": [], "second": []}
    last = None
    for at, line in enumerate(lines, 1):
        word = line.split(b" ")[0].decode("latin-1")
        found = word in NEXT[last] and re.fullmatch(LINES[word], line)
        if not found:
            return at
        try:
            take(paper, word, found.groups())
        except Bad:
            return at
        last = word
    return paper if last == "verdict" and not rest else len(lines) + 1


def plan(count, mode):
    """first, c1, r1, second, c2, mean_n and k1000; None where there is no plan."""
    if mode == "destroy":
        return (20, 1, 2, 0, 0, 20, 640) if count >= 100 else None
    if count < 100:
        return count, count // 40, count // 40 + 1, 0, 0, count, 0
    if count <= 500:
        return 30, 1, 3, 30, 4, 30, 503
    return (50, 2, 5, 50, 6, 50, 379) if count <= 3200 else (80, 3, 7, 80, 8, 50, 379)


def draw(word, packs, count):
    packs, drawn = list(packs), []
    for _ in range(count):
        word = (word * 6364136223846793005 + 1442695040888963407) % 2**64
        drawn.append(packs.pop((word >> 33) % len(packs)))
    return drawn


def error(nominal):
    """The tolerable negative error."""
    for most, share, fixed in ((50_000, 90, 0), (100_000, 0, 4_500), (200_000, 45, 0),
                               (300_000, 0, 9_000), (500_000, 30, 0), (1_000_000, 0, 15_000),
                               (10_000_000, 15, 0)):
        if nominal <= most:
            return fixed or -(-share * nominal // 100_000) * 100


def contents(paper, picks):
    kept = paper["mode"] == "keep"
    return [got[0] - (paper["tares"][paper["packs"][row][0]] if kept else got[1])
            for row, got in picks if got]


def below(paper, errors, masses):
    limit = paper["density"] * (paper["nominal"] - errors * error(paper["nominal"]))
    return sum(10**6 * each < limit for each in masses)


def mean(paper, masses, k1000):
    n, wanted = len(masses), paper["density"] * paper["nominal"]
    short = n * wanted - 10**6 * sum(masses)
    spread = sum((n * each - sum(masses))**2 for each in masses)
    return short <= 0 or n >= 2 and k1000 > 0 and (n - 1) * short**2 <= 10**6 * k1000**2 * spread


def judge(paper, said):
    """The verdict, by the plan `said`."""
    if not paper["packs"]:
        return "empty"
    first, c1, r1, _, c2, mean_n, k1000 = said
    d1, d2 = (below(paper, 1, contents(paper, paper[part])) for part in ("first", "second"))
    nets = [gross - paper["tares"][when] for when, gross in paper["packs"].values()]
    holds = (d1 <= c1 or d1 < r1 and d1 + d2 <= c2,
             mean(paper, contents(paper, paper["first"][:mean_n]), k1000),
             len(nets) * paper["density"] * paper["nominal"] <= 10**6 * sum(nets),
             40 * below(paper, 1, nets) <= len(nets), below(paper, 2, nets) == 0)
    fails = [part for part, held in zip(PARTS, holds) if not held]
    return " ".join(["withheld", *fails]) if fails else "released"


def strays(begin, drawn, picks):
    same = 0
    while same < min(len(drawn), len(picks)) and picks[same][0] == drawn[same]:
        same += 1
    return [] if same == len(drawn) == len(picks) else [begin + same]


def faults(paper):
    """The lines of the faults of tares, or else of draws, or else of the verdict."""
    tares, packs, first, second = (paper[part] for part in ("tares", "packs", "first", "second"))
    days = {when for when, _ in packs.values()}
    found = [at for at, when in enumerate(tares, 3) if when not in days]
    at_packs = 3 + len(tares)
    found += [at for at, (when, _) in enumerate(packs.values(), at_packs) if when not in tares]
    if found:
        return found
    at_mode = at_packs + len(packs)
    after = at_mode + 1 + len(first)
    last = at_mode if not packs else after
    if paper["second_word"] is not None:
        last += 1 + len(second)
    said = plan(len(packs), paper["mode"]) if packs else None
    if packs and not said:
        return [at_mode]
    if packs:
        drawn = draw(paper["word"], packs, said[0])
        found = strays(at_mode + 1, drawn, first)
        needed = not found and said[1] < below(paper, 1, contents(paper, first)) < said[2]
        if paper["second_word"] is None:
            found += [last] if needed else []
        elif said[3] == 0:
            found.append(after)
        elif not found:
            left = [row for row in packs if row not in drawn]
            found += strays(after + 1, draw(paper["second_word"], left, said[3]), second)
            found += [at for at, (_, got) in enumerate(second, after + 1) if needed and not got]
    if not found and judge(paper, said) != paper["verdict"]:
        found = [last]
    return found


def answer(text):
    """What `prove` prints of a text."""
    paper = read(text)
    if isinstance(paper, int):
        return f"bad line {paper}"
    found = faults(paper)
    return f"bad line {min(found)}" if found else f"true {paper['verdict']}"
