"""Files of definitions and the words that they define, for tools/believe."""

import os
import re
import textwrap
from functools import cache
from typing import Iterable, NamedTuple

TOP = os.path.dirname(os.path.dirname(os.path.realpath(__file__)))

# A line that takes words of a file of definitions: its crate, its module, the words, and what the
# module is called here.
USE = re.compile(
    r"^\s*(?:pub |ghost )?use Rattle\.(\w+)\.specs\.([\w.]+?)(?:\.\{([^}]*)\}| as (\w+))?;?$", re.M
)

# The begin of a definition, a word with what is named behind it, and what isn't read for words.
DEFINITION = re.compile(
    r"^(?: {2})?(?:abbrev pub|unfoldable pub|pub record|pub data|abbrev|record|data) ([^\s:({]+)"
)
WORD = re.compile(r"[A-Za-z_][\w']*(?:-\w+)*(?:\.[A-Za-z_]\w*)*")
UNREAD = re.compile(r"\s*(?:--|//)|(?:pub |ghost )?use ")


class Word(NamedTuple):
    """A definition: its file, and its name there."""

    path: str
    name: str


@cache
def crates() -> list[str]:
    """The crates, lowest first."""
    return re.findall(r"^(\w+)[^:#\n]*:", text_of(f"{TOP}/crates.txt"), re.M)


@cache
def text_of(path: str) -> str:
    with open(path, encoding="utf-8") as file:
        return file.read()


@cache
def uses(path: str) -> list[tuple[str, str, str, str]]:
    """What a file takes: each time the crate, the module, its words, and the module's name here."""
    return USE.findall(text_of(path)) if os.path.isfile(path) else []


@cache
def file_of(crate: str, name: str) -> str | None:
    """The file of a module: the crate's own, or of the crate from which it passes the module on."""
    path = f"{TOP}/crates/{crate}/specs/{name.replace('.', '/')}.antt"
    if os.path.isfile(path):
        return path
    passed = uses(f"{TOP}/crates/{crate}/specs/Lib.antt")
    return next((file_of(it[0], it[1]) for it in passed if it[1].rpartition(".")[2] == name), None)


def named(path: str) -> list[str]:
    """The files of definitions that a file names, among those of this repository."""
    return [at for at in (file_of(it[0], it[1]) for it in uses(path)) if at]


@cache
def definitions(path: str) -> dict[str, str]:
    """The definitions of a file, each with its lines."""
    found: dict[str, list[str]] = {}
    name = ""
    for line in text_of(path).splitlines():
        begun = DEFINITION.match(line)
        if begun:
            name = begun.group(1)
        if name and line.strip() and not UNREAD.match(line):
            found.setdefault(name, []).append(line)
    return {name: "\n".join(lines) for name, lines in found.items()}


@cache
def taken(path: str) -> tuple[dict[str, tuple[str, str]], dict[str, str]]:
    """What a file takes from others: words, each with its file and its name there, and modules."""
    words, modules = dict[str, tuple[str, str]](), dict[str, str]()
    for crate, module, list_of, name in uses(path):
        at = file_of(crate, module)
        if not at:
            continue
        if not list_of:
            modules[name or module.rpartition(".")[2]] = at
        for each in filter(None, (it.strip() for it in list_of.split(","))):
            there, _, here = each.partition(" as ")
            words[here or there] = at, there
    return words, modules


@cache
def word_in(path: str, name: str) -> Word | None:
    """The definition that a file means by a name."""
    if name in definitions(path):
        return Word(path, name)
    there = taken(path)[0].get(name)
    return word_in(*there) if there else None


def words_in(path: str, text: str) -> set[Word]:
    """The definitions that a text in a file names."""
    modules = taken(path)[1]
    found = set[Word | None]()
    for first, *others in (it.split(".") for it in WORD.findall(text)):
        found.add(word_in(path, first))
        if others and first in modules:
            found.add(word_in(modules[first], others[0]))
    return {word for word in found if word}


def rests_on(start: Iterable[Word]) -> set[Word]:
    """Some definitions, and all that they rest on."""
    seen, left = set[Word](), list(start)
    while left:
        word = left.pop()
        if word not in seen:
            seen.add(word)
            left += words_in(word.path, definitions(word.path)[word.name])
    return seen


def show_words(words: set[Word]) -> None:
    """Prints some definitions file by file, in the order of crates.txt and of each file."""
    for crate in crates():
        for path in sorted({word.path for word in words if f"/crates/{crate}/specs/" in word.path}):
            names = [name for name in definitions(path) if Word(path, name) in words]
            print(os.path.relpath(path, TOP))
            print(textwrap.fill(" ".join(names), 100, initial_indent="  ", subsequent_indent="  "))
    lines = sum(definitions(word.path)[word.name].count("\n") + 1 for word in words)
    files = len({word.path for word in words})
    print(f"\n{len(words)} definitions of {files} files, {lines} lines")
