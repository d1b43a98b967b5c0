"""What tools/lists compares: lists of the code, and the places that have them too."""

import glob
import os
import re
from typing import Iterable, NamedTuple


class Place(NamedTuple):
    """Where a list stands: in some files, in that part of each, and what finds an item there. Its
    groups `name` and `number` are the item. With a group `rest` each word of that which `inner`
    finds makes an item with each name. A group `count` is how many items there are, as a number or
    a word. Where ITEM stands, all of it has to be found for each item, in the place of this word.
    """

    path: str
    found: str
    part: str = ""
    # whether nothing else stands there
    whole: bool = False
    # whether the items stand there in the order of the code, since they are read by their place
    ordered: bool = False
    # those that needn't stand there, and those that stand there besides
    without: tuple[str, ...] = ()
    besides: tuple[str, ...] = ()
    inner: str = ""
    # how many more than the items the number is that `count` finds
    more: int = 0


class List(NamedTuple):
    """A list: where the code has it, and the places that have it too."""

    what: str
    source: tuple[Place, ...]
    places: tuple[Place, ...]


def counted(count: int) -> str:
    """A number as a word."""
    words = "no one two three four five six seven eight nine ten eleven twelve thirteen fourteen"
    words += " fifteen sixteen seventeen eighteen nineteen twenty"
    return words.split()[count] if count <= 20 else str(count)


def same(text: str) -> str:
    """An item as it is compared."""
    return re.sub(r"[{}]", "", text.lower())


def texts(top: str, place: Place) -> list[str]:
    """The parts of its files."""
    names = sorted(glob.glob(f"{top}/{place.path}"))
    whole = [open(name, encoding="utf-8").read() for name in names if os.path.isfile(name)]
    if not place.part:
        return whole
    return [part for text in whole for part in re.findall(place.part, text, re.M | re.S)]


def items_of(place: Place, match: re.Match[str]) -> list[str]:
    """The items of what was found once."""
    groups = match.groupdict()
    if not place.inner:
        return [" ".join(value for _, value in sorted(groups.items()) if value)]
    names = re.findall(r"\w+", groups["name"])
    rest = [re.sub("[ _]", "", it) for it in re.findall(place.inner, groups["rest"])]
    return [f"{name} {it}" for name in names for it in rest]


def items(top: str, place: Place) -> list[str]:
    """What stands at a place, each item once, in order."""
    matches = (it for text in texts(top, place) for it in re.finditer(place.found, text, re.M))
    return [*dict.fromkeys(same(item) for match in matches for item in items_of(place, match))]


def wanted_of(top: str, each: List) -> list[str]:
    """What the code has of a list."""
    return [*dict.fromkeys(item for place in each.source for item in items(top, place))]


def searched(item: str) -> str:
    """The pattern that finds an item; the parameter of a route has any value."""
    if item.startswith("/"):
        return re.sub("name|number", r"[^/\\s\"?]+", item)
    return re.escape(item)


def lacking(top: str, place: Place, wanted: Iterable[str]) -> list[str]:
    """The items for each of which the place has to have a text and doesn't."""
    held = "\n".join(texts(top, place))
    flags = re.M | re.I
    return [
        item
        for item in wanted
        if not re.search(place.found.replace("ITEM", searched(item)), held, flags)
    ]


def where(place: Place) -> str:
    """A place as it is said: its files, and the chapter."""
    heading = re.match(r"\^#\+ (.*?)\\n", place.part)
    return f"{place.path}, {heading[1]}" if heading else place.path


def miscounted(top: str, what: str, place: Place, wanted: list[str]) -> Iterable[str]:
    """What is wrong with a place that says how many items there are."""
    count, found = len(wanted) + place.more, items(top, place)
    if not found or not {*found} <= {str(count), counted(count)}:
        yield f"{where(place)}: the number of each {what} isn't {count}"


def misplaced(what: str, place: Place, found: list[str], wanted: list[str]) -> Iterable[str]:
    """What is wrong with the order of a place: the first item that stands where another should."""
    pairs = zip([it for it in found if it in wanted], [it for it in wanted if it in found])
    wrong = [said for said, due in pairs if said != due]
    if place.ordered and wrong:
        yield f"{where(place)}: {what} {wrong[0]} isn't at its place"


def differences(top: str, what: str, place: Place, wanted: list[str]) -> Iterable[str]:
    """What is wrong at a place."""
    said = where(place)
    if not texts(top, place):
        yield f"{said}: the part with each {what} isn't there"
        return
    if "(?P<count>" in place.found:
        yield from miscounted(top, what, place, wanted)
        return
    if "ITEM" in place.found:
        missing, more, found = lacking(top, place, wanted), list[str](), list[str]()
    else:
        found = items(top, place)
        missing = [it for it in wanted if it not in found]
        more = [it for it in found if it not in wanted] if place.whole else []
    yield from (f"{said}: no {what} {it}" for it in missing if it not in place.without)
    yield from (f"{said}: {it} is no {what}" for it in more if it not in place.besides)
    yield from misplaced(what, place, found, wanted)
