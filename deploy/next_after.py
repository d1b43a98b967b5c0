"""What `hall-next` does once lanes weigh into the next book. Each step is by itself: one that fails
hinders no other, and is done when it is run again."""

import os
import shutil
import sys

import next_book
from next_move import Move
from next_place import Failed, read, write

# Units that go with a book, and are moved where they are enabled.
KEEPERS = ("hall-backup@{}.timer", "hall-day@{}.timer", "hall-metrics@{}.service")
FOLLOW, STAMP = "hall-archive-follow@{}", "hall-archive-stamp@{}.timer"
STANDBY = "hall-standby@{}"


class Afterwards:
    """The steps behind the hand-over."""

    def __init__(self, move: Move) -> None:
        self.move, self.place = move, move.place
        self.steps = (
            ("follow", self.follow),
            ("audit", self.audit),
            ("keepers", self.keepers),
            ("archive", self.archive),
            ("standby", self.stand_by),
        )

    def is_done(self) -> bool:
        return {name for name, _ in self.steps} <= set(self.move.done())

    def run(self) -> None:
        """Does each; Failed where one of them isn't done."""
        left = []
        for name, work in self.steps:
            try:
                self.move.step(name, work)
            except (Failed, OSError) as fault:
                print(f"hall-next: {name}: {fault}", file=sys.stderr)
                left.append(name)
        if left:
            raise Failed(f"{self.move.new} is served, and this isn't done: {', '.join(left)}")

    def audit(self) -> None:
        """The old book is audited, its fingerprint noted beside it, and nobody writes it again. It
        is held once more against what was carried of it."""
        move, place = self.move, self.place
        path, note = move.book(move.old), f"{place.books}/{move.old}.audit"
        has = next_book.carried(place.listing(path))
        if has != move.known.get("carried", has):
            raise Failed(f"{move.new} was begun with another day, product or tare: {has}")
        said = place.of_hall("audit", path)
        write(note, said, 0o440)
        if place.has_users:
            for one in (path, note):
                shutil.chown(one, "root", "hall")
        os.chmod(path, 0o440)
        move.keep(sha256=said.split("sha256 ")[1].strip())
        # a lane whose batch was refused is a failed hall, which is over
        if place.holds("is-failed", "--quiet", f"hall@{move.old}"):
            place.control("reset-failed", f"hall@{move.old}")

    def keepers(self) -> None:
        """Copies, the day's timer and numbers go with the next book. The last copy of the old one
        is made first, where there are copies."""
        for unit in KEEPERS:
            self.hand_on(unit, first=unit.startswith("hall-backup@"))

    def hand_on(self, unit: str, first: bool = False) -> None:
        """A unit of the old book that is enabled is one of the next; `first` it is run once more.
        The old one ends before the next begins, which may have the same port: so it is noted, for
        a run behind a kill."""
        move, place = self.move, self.place
        old, new = unit.format(move.old), unit.format(move.new)
        units = move.known.get("units", [])
        if old not in units:
            if not place.is_unit(old):
                return
            move.keep(units=[*units, old])
        if first:
            place.control("start", old.removesuffix(".timer"))
        place.control("disable", "--now", "--no-reload", old)
        place.control("enable", "--now", "--no-reload", new)

    @property
    def archived(self) -> str:
        """The archive's settings; empty where it doesn't know the book."""
        path = f"{self.place.settings}/archive.toml"
        is_there = os.path.exists(path) and f'"{self.move.old}"' in read(path)
        return path if is_there else ""

    def follow(self) -> None:
        """The archive follows the next book at once, so that its rows have their hours."""
        move, place = self.move, self.place
        if not (path := self.archived):
            return
        text = next_book.archive_moved(read(path), move.old, move.new)
        if text != read(path):
            write(path, text, like=path)
        self.hand_on(FOLLOW)
        # it reads its settings as it begins
        place.control("try-restart", "hall-archive")

    def archive(self) -> None:
        """The archive takes the end of the old book, whose witness gets its last line."""
        place = self.place
        if not (path := self.archived):
            return
        words = [*place.archive, "--settings", path, "take", self.move.old]
        # (the front's log is for the group adm)
        place.run(place.as_user("hall-archive", words, "adm"))
        place.journal(place.beside)
        self.hand_on(STAMP)

    def stand_by(self) -> None:
        """The second machine gets the end of the old book, and then the next."""
        move, place = self.move, self.place
        if not place.is_unit(STANDBY.format(move.old)):
            return
        last = [f"{place.lib}/standby", "--last", move.old]
        place.run(place.as_user("hall", last), env={"BOOKS": place.books})
        self.hand_on(STANDBY)
