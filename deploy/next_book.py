"""The next book, as far as it needs nothing but texts: what of `hall list` is carried into it, its
name, its plan, and how settings that name the old book name the next. `hall-next` does the rest."""

import re
from collections.abc import Container, Iterable
from typing import NamedTuple

# Acts of the plan's setup are this desk's, as everywhere in a plan.
SETUP_DESK = 164
CARRIED = ("day", "product", "tare")
MONTH = re.compile(r"(\d{4}-\d\d)((?:z*[b-z])?)")
# Names that are tried.
MOST_NAMES = 1_000
NAME = re.compile(r"[A-Za-z0-9][A-Za-z0-9._-]{0,63}")


class Unfit(Exception):
    """There can't be such a next book; the text says why."""


class Batch(NamedTuple):
    """A batch of a list: its product, and how it stands."""

    name: str
    product: str
    state: str


class Lane(NamedTuple):
    """A lane of a plan; `batch` is empty where it changes its batch."""

    number: int
    batch: str


# ---- what is carried


def carried(listing: str) -> list[str]:
    """The lines of a list that the next book has too: day, products and tares."""
    return [line for line in listing.splitlines() if line.split(" ")[0] in CARRIED]


def script_of(listing: str) -> str:
    """A script that makes a book with this day, these products and tares."""
    lines = [line.split(" ") for line in carried(listing)]
    day = next(words[1] for words in lines if words[0] == "day")
    acts = [] if day == "none" else [f"day {day}"]
    for words in lines:
        match words:
            case ["product", name, "nominal", nominal, unit, "tare", grams]:
                acts.append(f"product {name} {nominal}{' ml' if unit == 'ml' else ''}")
                if grams != "none":
                    acts.append(f"tare {name} {day} {grams}")
            case ["tare", name, "from", begins, grams]:
                acts.append(f"tare {name} {begins} {grams}")
    return "".join(f"{act}\n" for act in acts)


def difference(old: str, new: str) -> str:
    """The first line that two lists have otherwise, of those that are carried; empty where they
    are equal."""
    ours, theirs = carried(old), carried(new)
    for one, other in zip(ours, theirs, strict=False):
        if one != other:
            return f"{one!r} became {other!r}"
    more = ours[len(theirs) :] + theirs[len(ours) :]
    return f"one of both lacks {more[0]!r}" if more else ""


def batches(listing: str) -> list[Batch]:
    found = [line.split(" ") for line in listing.splitlines() if line.startswith("batch ")]
    return [Batch(words[1], words[3], words[5]) for words in found]


def by_volume(listing: str) -> set[str]:
    """The products of a list that are measured in ml."""
    lines = [line.split(" ") for line in listing.splitlines()]
    return {words[1] for words in lines if words[0] == "product" and words[4] == "ml"}


def still_open(listing: str) -> list[str]:
    """The batches that have no verdict yet."""
    return [batch.name for batch in batches(listing) if batch.state != "closed"]


def open_in(summary: str) -> int:
    """How many batches have no verdict, of a summary."""
    words = summary.splitlines()[-1].split(" ") if summary else []
    counts = dict(zip(words[1::2], words[2::2], strict=False))
    return sum(int(count) for state, count in counts.items() if state != "closed")


# ---- its name


def next_name(old: str, month: str, taken: Container[str]) -> str:
    """The name of the book behind another: 2026-12 is followed by the month of today, or in the
    same month by 2026-12b, 2026-12c, behind 2026-12z by 2026-12zb; any other name by NAME-2,
    NAME-3."""
    if found := MONTH.fullmatch(old):
        own, part = found[1], found[2] or "a"
        names = [month] if month > own else []
        for _ in range(MOST_NAMES):
            part = next_part(part)
            names.append(own + part)
    else:
        stem, _, number = old.rpartition("-")
        begin = int(number) if stem and number.isdecimal() else 1
        stem = stem if begin > 1 else old
        names = [f"{stem}-{place}" for place in range(begin + 1, begin + MOST_NAMES)]
    for name in names:
        if name not in taken:
            return name
    raise Unfit(f"no name is left behind {old}: say one")


def next_part(part: str) -> str:
    """The letters behind others, so that names go on in the order of the alphabet."""
    return f"{part}b" if part[-1] == "z" else part[:-1] + chr(ord(part[-1]) + 1)


# ---- its plan and settings


def setting(env: str, key: str, otherwise: int) -> int:
    """A number of a hall's settings."""
    found = re.findall(rf"(?m)^{key}=(\d+)\s*$", env)
    return int(found[-1]) if found else otherwise


def doors_of(env: str) -> range:
    """The front's doors of a hall: each other one is held by who asks there."""
    first = setting(env, "PORT", 8471)
    return range(first, first + setting(env, "DOORS", 2))


def lanes_of(planned: str) -> list[Lane]:
    """The lanes of a plan, as `planned` prints them."""
    found = [line.split(" ") for line in planned.splitlines()]
    return [Lane(int(words[0]), words[2] if words[1] == "batch" else "") for words in found]


def plan_of(lanes: Iterable[Lane], opened: dict[str, str], reserve: str) -> str:
    """A plan with these lanes. A batch that a lane weighs is opened by the setup: `opened` has what
    follows its name in the act, product and density."""
    lanes = list(lanes)
    names = list(dict.fromkeys(lane.batch for lane in lanes if lane.batch))
    acts = [f"@{SETUP_DESK} {at} open {name} {opened[name]}" for at, name in enumerate(names, 1)]
    parts = ['setup = """', *acts, '"""'] if acts else []
    parts += [f"reserve = {reserve}"] if reserve else []
    for lane in lanes:
        weighs = f'batch = "{lane.batch}"' if lane.batch else "changes = true"
        parts += ["", "[[lane]]", f"number = {lane.number}", weighs]
    return "".join(f"{line}\n" for line in parts)


def reserve_of(plan: str) -> str:
    found = re.search(r"^[ \t]*reserve[ \t]*=[ \t]*(\w+)", plan, re.M)
    return found[1] if found else ""


def moved(text: str, old: str, new: str) -> str:
    """Settings of a line or of a lane, whose paths lead to another book's folders."""
    name = re.escape(old)
    text = re.sub(rf"(/run/hall-){name}(?=/)", rf"\g<1>{new}", text)
    return re.sub(rf"(/run/hall/){name}(?=/)", rf"\g<1>{new}", text)


def metrics_moved(text: str, old: str, new: str) -> str:
    """Settings of the numbers of a book: its name, its file, and the folders of its hall."""
    name = re.escape(old)
    text = re.sub(rf'(?<=/){name}(?=\.book["\'])', new, moved(text, old, new))
    return re.sub(rf'(["\']){name}(?=["\'])', rf"\g<1>{new}", text)


def archive_moved(text: str, old: str, new: str) -> str:
    """The archive's settings: the old book is at rest, and the next is followed at its door."""
    heads = re.split(r"(?m)^(?=\[)", text)
    names = [name_of(part) for part in heads]
    if old not in names or new in names:
        return text
    place = names.index(old)
    part = heads[place]
    heads[place] = re.sub(r"(?m)^door[ \t]*=.*\n?", "", part)
    end = "" if heads[-1].endswith("\n") else "\n"
    follows = re.sub(r'(?m)^(name[ \t]*=[ \t]*)"[^"]*"', rf'\g<1>"{new}"', part).rstrip()
    return "".join(heads) + f"{end}\n{follows}\n"


def name_of(part: str) -> str:
    """The book of a part of the archive's settings; empty of each other part."""
    found = re.search(r'(?m)^name[ \t]*=[ \t]*"([^"]*)"', part)
    return found[1] if found and part.startswith("[[book]]") else ""


def address_of(conf: str, book: str) -> str:
    """The address at which the front shows a book, of the first line that hall-site writes."""
    found = re.match(r"# .*: hall-site (\S+) (\S+)\n", conf)
    return found[2] if found and found[1] == book else ""
