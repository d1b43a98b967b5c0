"""How far those who follow a book are behind: copies, the list of what is in force, the archive.

What can't be had is left out, since nobody can tell how far one is behind of which nothing is heard:
the age of what a copy said last, and whether the archive answers, tell of that."""

import os
import time

from hall_adapter.hall_texts import behind_of, followed_of, rows_of_list
from hall_adapter.metrics import Metrics
from hall_adapter.office import Office, login_of
from hall_adapter.watch_settings import Watched

# How much of the end of a file is looked at for its last line.
TAIL = 4_096


def tell_copy(metrics: Metrics, name: str, path: str) -> None:
    """How far a copy of the book is behind, and when that was said."""
    with open(path, "rb") as said:
        about = os.fstat(said.fileno())
        said.seek(max(0, about.st_size - TAIL))
        behind = behind_of(said.read().decode("utf-8", "replace"))
    if behind is not None:
        metrics.set("hall_copy_rows_behind", behind, copy=name)
    age = round(time.time() - about.st_mtime, 1)
    metrics.set("hall_copy_said_age_seconds", age, copy=name)


def tell_list(metrics: Metrics, path: str, rows: int) -> None:
    """How far the list of what is in force is behind a book of so many rows."""
    with open(path, encoding="ascii") as said:
        listed = rows_of_list(said.read())
    if listed is not None:
        metrics.set("hall_list_rows_behind", max(0, rows - listed))


class ArchiveFollower:
    """The archive, which says how far it has followed a book."""

    def __init__(self, settings: Watched) -> None:
        self.book = settings.book
        # behind the front the book is named by the front; without it this names it
        headers = {"X-Book": settings.book}
        if settings.login:
            headers |= login_of(settings.login)
        self.door = Office(settings.archive, headers)

    def tell(self, metrics: Metrics, rows: int) -> None:
        """How far the archive is behind a book that had so many rows before it was asked."""
        metrics.set("hall_archive_answers", 0)
        text = self.door.text("/books")
        followed = followed_of(text, self.book) if text else None
        if followed is None:
            raise ValueError(f"the archive follows no book {self.book}")
        metrics.set("hall_archive_answers", 1)
        metrics.set("hall_archive_rows_behind", max(0, rows - followed.rows))
        metrics.set("hall_archive_refused", followed.is_refused)
        if followed.asked is not None:
            age = round(time.time() - followed.asked, 1)
            metrics.set("hall_archive_asked_age_seconds", max(0.0, age))
