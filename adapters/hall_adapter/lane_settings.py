"""The settings of a lane that changes its batch, in TOML, for `hall-adapter lane`.

    lane = 1                              # the lane's number in the hall
    cell = "/run/hall-NAME/cell-1.txt"    # the lane's pipe; or, over a port, a program to whose
                                          #   standard input the lines go:
                                          #   sender = ["/usr/share/hall/scales/scale_sender.py",
                                          #             "9001"]
    folder = "/var/lib/hall/lanes/NAME-1" # has the batch that was said last, and who said what when
    socket = "/run/hall/NAME/lane-1.socket"   # for the pages; may be absent
    record = "/var/tmp/lane-1.txt"        # takes down each line that is said; may be absent
    device = "sics"                       # a table of a device, for the lines of [scale]

    [scale]                               # where weights come from, as [source] of a line has it
    serial = "/dev/ttyUSB0"
    [scanner]                             # where lines `batch NAME` come from, in the same way; may
    serial = "/dev/ttyUSB1"               #   be absent
"""

from dataclasses import dataclass

from hall_adapter.settings import Source, source_of
from hall_adapter.tables import (
    Table,
    any_part_of,
    named,
    need,
    need_kind,
    number_of,
    only,
    part_of,
    read_table,
    text_of,
    words_of,
)

KEYS = {"lane", "cell", "sender", "folder", "socket", "record", "device", "scale", "scanner"}


@dataclass(frozen=True)
class LaneSettings:
    """A lane, where its lines come from and where they go. Texts that are absent are empty."""

    lane: int
    cell: str
    sender: tuple[str, ...]
    folder: str
    socket: str
    record: str
    device: str
    scale: Source
    scanner: Source | None


def lane_settings_of(table: Table) -> LaneSettings:
    """The settings of a table that was read."""
    need_kind(table, "scale")
    only(table, KEYS)
    cell, sender = text_of(table, "cell", ""), words_of(table, "sender")
    need(bool(cell) != bool(sender), "`cell` or `sender` is needed, and not both")
    return LaneSettings(
        number_of(table, "lane", None, 1, 16),
        cell,
        sender,
        text_of(table, "folder"),
        text_of(table, "socket", ""),
        text_of(table, "record", ""),
        text_of(table, "device"),
        part_of(table, "scale", source_of),
        any_part_of(table, "scanner", source_of),
    )


def load_lane_settings(path: str) -> LaneSettings:
    """The settings at a path."""
    table = read_table(path)
    return named(path, lambda: lane_settings_of(table))
