"""The settings of the archive, in TOML, at /etc/hall/archive.toml.

    database = "sqlite:////var/lib/hall-archive/archive.db"   # or postgresql:///hall_archive
    folder = "/var/lib/hall-archive"     # witnesses, and hours that wait for the database
    front = "/var/log/nginx/hall-acts.log"   # what the front says of each act; may be absent
    read = "/run/hall-archive/read"      # the socket of hall-archive-read; or, where this user may
    program = "/usr/bin/hall"            #   read the books itself, the program and their folder
    books = "/var/lib/hall"
    port = 8490                          # where the pages ask, on 127.0.0.1
    stamps = "https://stamps.example/"   # who stamps the witness by RFC 3161; may be absent
    authority = "/etc/hall/stamps.pem"   #   and the certificate that those stamps are under
    seal = "/etc/hall/seal.pem"          # the hall's certificate, under which appendices are
    seal_key = "/etc/hall/seal.key"      #   sealed, and its key; may be absent
    central = "postgresql://archive.example/hall_archive"   # the archive of several halls, which
                                         #   is given all that is new; may be absent

    [days]                               # may be absent: until evidence is too old
    scale = 1
    tare = 90
    density = 30
    uncertainty = 365

    [[book]]                             # for each book
    hall = "main"                        # books of one hall have one evidence
    name = "2026-12"
    door = 8473                          # its door for the archive; absent of a book at rest

`[reports]` is in `report_settings`."""

import tomllib
from dataclasses import dataclass
from typing import Any

from hall_archive.reading import NAME, Program, Reader, Socket
from hall_archive.report_settings import BadReports, ReportSettings, read_reports

PATH = "/etc/hall/archive.toml"
PORT = 8_490
LAST_PORT = 65_535
# Days until evidence is too old, where the settings don't say.
DAYS = {"scale": 1, "tare": 90, "density": 30, "uncertainty": 365}
KEYS = {"database", "folder", "front", "read", "program", "books", "port", "days", "book"}
KEYS |= {"stamps", "authority", "seal", "seal_key", "reports", "central"}


class BadSettings(ValueError):
    """The settings can't be used; the text says why."""


@dataclass(frozen=True)
class BookSettings:
    """A book that is followed; `door` is 0 where it is at rest."""

    hall: str
    name: str
    door: int


@dataclass(frozen=True)
class Settings:
    """The settings, whole."""

    database: str
    folder: str
    front: str
    read: str
    program: str
    books: str
    port: int
    stamps: str
    authority: str
    seal: str
    seal_key: str
    days: dict[str, int]
    followed: tuple[BookSettings, ...]
    reports: ReportSettings
    central: str

    def book(self, name: str, hall: str = "") -> BookSettings:
        """The book of a name, of a hall where several halls have one of it."""
        found = [one for one in self.followed if one.name == name and hall in ("", one.hall)]
        if len(found) != 1:
            raise BadSettings(f"{len(found) or 'no'} books are named {name} in the settings")
        return found[0]

    def reader(self) -> Reader:
        if self.read:
            return Socket(self.read)
        return Program(self.program, self.books)

    def witness(self, book: BookSettings) -> str:
        """The path of a book's witness."""
        return f"{self.folder}/{book.hall}.{book.name}.witness"


def need(holds: bool, said: str) -> None:
    if not holds:
        raise BadSettings(said)


def text_of(table: dict[str, Any], key: str, otherwise: str | None = None) -> str:
    value = table.get(key, otherwise)
    need(isinstance(value, str), f"`{key}` has to be a text")
    return str(value)


def number_of(table: dict[str, Any], key: str, otherwise: int, most: int) -> int:
    value = table.get(key, otherwise)
    need(isinstance(value, int) and 0 <= value <= most, f"`{key}` has to be a number up to {most}")
    return int(value)


def only(table: dict[str, Any], keys: set[str], where: str) -> None:
    """No key is spelled otherwise than the table of settings has it."""
    unknown = sorted(set(table) - keys)
    need(not unknown, f"{where} knows no `{', '.join(unknown)}`")


def book_of(table: dict[str, Any]) -> BookSettings:
    only(table, {"hall", "name", "door"}, "[[book]]")
    hall, name = str(table.get("hall", "")), text_of(table, "name")
    for word in (hall, name):
        need(bool(NAME.fullmatch(word)), f"{word!r} is no name: letters, digits, . _ -")
    return BookSettings(hall, name, number_of(table, "door", 0, LAST_PORT))


def read_settings(text: str) -> Settings:
    """The settings that a text has; BadSettings where it isn't one."""
    try:
        table = tomllib.loads(text)
    except tomllib.TOMLDecodeError as fault:
        raise BadSettings(f"no TOML: {fault}") from fault
    only(table, KEYS, "the file")
    days = table.get("days", {})
    only(days, set(DAYS), "[days]")
    followed = tuple(map(book_of, table.get("book", [])))
    names = [(one.hall, one.name) for one in followed]
    need(len(set(names)) == len(names), "a book is named twice")
    reads = text_of(table, "read", "")
    need(("seal" in table) == ("seal_key" in table), "`seal` and `seal_key` go together")
    need(bool(reads) != ("program" in table), "it needs `read`, or `program` and `books`")
    return Settings(
        database=text_of(table, "database"),
        folder=text_of(table, "folder"),
        front=text_of(table, "front", ""),
        read=reads,
        program=text_of(table, "program", ""),
        books=text_of(table, "books", "/var/lib/hall"),
        port=number_of(table, "port", PORT, LAST_PORT),
        stamps=text_of(table, "stamps", ""),
        authority=text_of(table, "authority", ""),
        seal=text_of(table, "seal", ""),
        seal_key=text_of(table, "seal_key", ""),
        days={kind: number_of(days, kind, most, 36_500) for kind, most in DAYS.items()},
        followed=followed,
        reports=reports_of(table.get("reports", {})),
        central=text_of(table, "central", ""),
    )


def reports_of(table: dict[str, Any]) -> ReportSettings:
    try:
        return read_reports(table)
    except BadReports as fault:
        raise BadSettings(str(fault)) from fault


def load(path: str) -> Settings:
    try:
        with open(path, encoding="utf-8") as file:
            return read_settings(file.read())
    except (OSError, UnicodeDecodeError) as fault:
        raise BadSettings(f"{path}: {fault}") from fault
