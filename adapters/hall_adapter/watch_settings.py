"""The settings of `hall-adapter metrics`, in TOML.

    book = "main"                            # the label of all numbers
    listen = "127.0.0.1:9470"
    every = 5                                # seconds for which numbers are kept
    url = "http://127.0.0.1:8471"            # a door of the office; may be absent
    file = "/var/lib/hall/main.book"         # the book; may be absent: no packs by lane and signal
    limit = 1000000                          # its LIMIT
    lanes = 2
    doors = [8471, 8472]                     # the ports of the doors
    disks = ["/var/lib/hall"]
    list = "/run/hall/main/list.txt"         # what hall-list@ keeps; may be absent
    status = ["hall-status", "--prometheus", "main"]    # may be absent: its numbers come first
    status_every = 60

    [[copy]]                                 # for each copy of the book; may be absent
    name = "standby"
    said = "/run/hall/main/standby.txt"      # what standby.sh says, the newest line last

    [archive]                                # may be absent: the archive, as the front has it
    url = "https://hall.example/archive"
    login = "/etc/hall/metrics.login"        # a line `NAME:PASSWORD`; may be absent
"""

from dataclasses import dataclass

from hall_adapter.tables import (
    MOST_PORT,
    Table,
    address_of,
    any_part_of,
    name_of,
    named,
    need,
    need_kind,
    number_of,
    numbers_of,
    only,
    read_table,
    tables_of,
    text_of,
    texts_of,
    url_of,
    words_of,
)

KEYS = {"book", "listen", "every", "url", "file", "limit", "lanes", "doors", "disks", "list"}
KEYS |= {"status", "status_every", "copy", "archive"}


@dataclass(frozen=True)
class Watched:
    """The settings."""

    book: str
    listen: tuple[str, int]
    every: int
    url: str
    file: str
    limit: int
    lanes: int
    doors: list[int]
    disks: list[str]
    list: str
    copies: dict[str, str]
    status: tuple[str, ...]
    status_every: int
    archive: str
    login: str


def copy_of(table: Table) -> tuple[str, str]:
    """A copy's name, and the file with what is said of it."""
    only(table, {"name", "said"})
    return name_of(table, "name"), text_of(table, "said")


def archive_of(table: Table) -> tuple[str, str]:
    """The archive's URL, and the file with the login."""
    only(table, {"url", "login"})
    return url_of(table, "url"), text_of(table, "login", "")


def watched_of(table: Table) -> Watched:
    """The settings of a table that was read."""
    need_kind(table, "book")
    only(table, KEYS)
    copies = [named("[[copy]]", lambda: copy_of(copy)) for copy in tables_of(table, "copy")]
    need(len(dict(copies)) == len(copies), "two [[copy]] have one name")
    archive, login = any_part_of(table, "archive", archive_of) or ("", "")
    return Watched(
        name_of(table, "book"),
        address_of(text_of(table, "listen")),
        number_of(table, "every", 5),
        url_of(table, "url", ""),
        text_of(table, "file", ""),
        number_of(table, "limit", 1_000_000),
        number_of(table, "lanes", 0, 0, 16),
        numbers_of(table, "doors", 1, MOST_PORT),
        texts_of(table, "disks"),
        text_of(table, "list", ""),
        dict(copies),
        words_of(table, "status"),
        number_of(table, "status_every", 60),
        archive,
        login,
    )


def load_watched(path: str) -> Watched:
    """The settings at a path."""
    table = read_table(path)
    return named(path, lambda: watched_of(table))
