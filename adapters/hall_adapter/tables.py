"""Files of TOML that people write: what stands in them, or a sentence on what doesn't fit.

Each function takes a table and a key, and raises BadTable where the value is missing, of another
kind, or out of its bounds. A part that is read by `part_of` is named in what is said of it. Nothing
here reads but `read_table`.
"""

import math
import termios
import tomllib
import urllib.parse
from collections.abc import Callable
from typing import Any, TypeVar

# A key that files of one kind alone have, and that each has.
KINDS = {
    "modbus": "a map for Modbus",
    "follows": "the table of a device",
    "hall": "the settings of a line",
    "scale": "the settings of a lane that changes its batch",
    "book": "the settings of the numbers of a hall",
}

Table = dict[str, Any]
T = TypeVar("T")
# The greatest port.
MOST_PORT = 65_535
# Seconds that anything may take.
MOST_SECONDS = 60.0


class BadTable(Exception):
    """A table of a device, a map or a file of settings that can't be used, with the reason."""


def need(holds: bool, said: str) -> None:
    """Raises where a table isn't as it has to be."""
    if not holds:
        raise BadTable(said)


def need_kind(table: Table, key: str) -> None:
    """Raises where a file is known to be one of another kind: a key tells it from each other."""
    others = [kind for other, kind in KINDS.items() if other in table]
    need(
        key in table or not others,
        f"this holds {''.join(others[:1])}, and not {KINDS[key]}",
    )


def only(table: Table, keys: set[str]) -> None:
    """Raises where a table has a key that means nothing, as a misspelled one does."""
    unknown = sorted(set(table) - keys)
    need(not unknown, f"unknown key `{''.join(unknown[:1])}`")


def value_of(table: Table, key: str, without: object) -> Any:
    """The value of a key; without a default it has to be there."""
    need(key in table or without is not None, f"`{key}` is missing")
    return table.get(key, without)


def text_of(table: Table, key: str, without: str | None = None) -> str:
    """A text."""
    value = value_of(table, key, without)
    need(isinstance(value, str), f"`{key}` has to be a text")
    return str(value)


def name_of(table: Table, key: str) -> str:
    """A text of signs that can be seen, at least one: it stands in messages and numbers."""
    text = text_of(table, key)
    need(bool(text.strip()) and text.isprintable(), f"`{key}` has to be a name")
    return text


def bytes_of(table: Table, key: str, without: str) -> bytes:
    """A text whose characters are bytes."""
    try:
        return text_of(table, key, without).encode("latin-1")
    except UnicodeEncodeError:
        raise BadTable(f"`{key}` has a character that is no byte") from None


def number_of(
    table: Table, key: str, without: int | None = None, least: int = 0, most: int | None = None
) -> int:
    """A whole number."""
    value = value_of(table, key, without)
    span = f"from {least} to {most}" if most is not None else f"of at least {least}"
    fits = type(value) is int and least <= value and (most is None or value <= most)
    need(fits, f"`{key}` has to be a whole number {span}")
    return int(value)


def real_of(table: Table, key: str, without: float | None, what: str, most: float) -> float:
    """A number of at least 0."""
    value = value_of(table, key, without)
    fits = type(value) in (int, float) and math.isfinite(value) and 0 <= value <= most
    need(fits, f"`{key}` has to be {what}, up to {most:g}")
    return float(value)


def seconds_of(table: Table, key: str, without: float | None = None) -> float:
    """A number of seconds above 0."""
    value = real_of(table, key, without, "seconds", MOST_SECONDS)
    need(value > 0, f"`{key}` has to be seconds above 0")
    return value


def flag_of(table: Table, key: str, without: bool) -> bool:
    """Whether something is so."""
    value = table.get(key, without)
    need(isinstance(value, bool), f"`{key}` is true or false")
    return bool(value)


def choice_of(table: Table, key: str, without: str, choices: tuple[str, ...]) -> str:
    """One of a few words."""
    word = text_of(table, key, without)
    need(word in choices, f"`{key}` is {word}, and none of {', '.join(choices)}")
    return word


def texts_of(table: Table, key: str) -> list[str]:
    """A list of texts; empty where it is absent."""
    texts = table.get(key, [])
    fits = isinstance(texts, list) and all(isinstance(text, str) for text in texts)
    need(fits, f"`{key}` has to be a list of texts")
    return list(texts)


def words_of(table: Table, key: str) -> tuple[str, ...]:
    """The words of a command; none where it is absent."""
    words = texts_of(table, key)
    need(key not in table or bool(words and words[0]), f"`{key}` has to be a list of words")
    need(not any("\0" in word for word in words), f"`{key}` has a word that is none")
    return tuple(words)


def numbers_of(table: Table, key: str, least: int, most: int) -> list[int]:
    """A list of whole numbers; empty where it is absent."""
    numbers = table.get(key, [])
    fits = isinstance(numbers, list) and all(
        type(number) is int and least <= number <= most for number in numbers
    )
    need(fits, f"`{key}` has to be a list of whole numbers from {least} to {most}")
    return list(numbers)


def tables_of(table: Table, key: str) -> list[Table]:
    """The tables of a list, as `[[key]]` begins each; empty where it is absent."""
    tables = table.get(key, [])
    fits = isinstance(tables, list) and all(isinstance(one, dict) for one in tables)
    need(fits, f"[[{key}]] has to be a table, with two brackets")
    return list(tables)


def part_of(table: Table, key: str, read: Callable[[Table], T]) -> T:
    """A part of a table, as `read` makes it. What doesn't fit names the part."""
    need(key in table, f"[{key}] is missing")
    part = table[key]
    need(isinstance(part, dict), f"[{key}] has to be a table")
    return named(f"[{key}]", lambda: read(part))


def any_part_of(table: Table, key: str, read: Callable[[Table], T]) -> T | None:
    """A part that may be absent."""
    return part_of(table, key, read) if key in table else None


def named(name: str, made: Callable[[], T]) -> T:
    """What is made; what doesn't fit of it has this name in front."""
    try:
        return made()
    except BadTable as bad:
        raise BadTable(f"{name}: {bad}") from None


def address_of(text: str) -> tuple[str, int]:
    """A host and a port, of `HOST:PORT`; an IPv6 address stands in brackets."""
    host, _, port = text.rpartition(":")
    fits = bool(host) and port.isascii() and port.isdecimal() and 0 < int(port) <= MOST_PORT
    need(fits and text.isprintable() and " " not in text, f"{text} is no HOST:PORT")
    return host.removeprefix("[").removesuffix("]"), int(port)


def url_of(table: Table, key: str, without: str | None = None) -> str:
    """The URL of a door, or of the front; empty where it is absent and may be."""
    text = text_of(table, key, without)
    if text == without:
        return text
    try:
        url = urllib.parse.urlsplit(text)
        fits = url.scheme in ("http", "https") and bool(url.hostname) and url.port != 0
    except ValueError:
        fits = False
    fits = fits and text.isascii() and text.isprintable() and " " not in text
    need(fits, f"`{key}` is {text}, and no URL with http or https")
    return text


def baud_of(table: Table, without: int) -> int:
    """A speed of a serial line."""
    baud = number_of(table, "baud", without)
    need(baud > 0 and hasattr(termios, f"B{baud}"), f"`baud` is {baud}, no speed of a serial line")
    return baud


def read_table(path: str) -> Table:
    """A file of TOML."""
    try:
        with open(path, "rb") as source:
            return tomllib.load(source)
    except (OSError, ValueError) as error:
        # of a path, or of the text
        raise BadTable(reason_of(path, error)) from None


def reason_of(path: str, error: OSError | ValueError) -> str:
    """Why a file can't be read."""
    if isinstance(error, OSError):
        return f"can't open {path}: {error.strerror}"
    return f"{path}: {error}"
