"""The move of a hall from a book to the next: what of it is done stands in a file, so that it may
be killed at any moment and run again; which book is the next; and the wait for verdicts."""

import glob
import json
import os
import time
from collections.abc import Callable
from datetime import date
from typing import Any

import next_book
from next_book import Unfit
from next_place import Place, read, write

# Seconds between two looks whether each batch has its verdict: at the doors of a running hall, and
# into a book at rest, which is read whole each time.
POLL, POLL_AT_REST = 2.0, 20.0
# Batches that are named at most.
NAMED = 5


class StillOpen(Exception):
    """A batch has no verdict."""


class Move:
    """The move from a book to the next."""

    def __init__(self, place: Place, old: str) -> None:
        self.place, self.old = place, old
        self.path = f"{place.settings}/{old}.next"
        self.known: dict[str, Any] = (
            json.loads(read(self.path)) if os.path.exists(self.path) else {}
        )

    @property
    def new(self) -> str:
        return str(self.known["next"])

    def book(self, name: str) -> str:
        return f"{self.place.books}/{name}.book"

    def setting(self, name: str, kind: str) -> str:
        """A file of the settings of a book: its `env`, its plan (`toml`), `metrics.toml`."""
        return f"{self.place.settings}/{name}.{kind}"

    def keep(self, **more: Any) -> None:
        self.known |= more
        write(self.path, json.dumps(self.known, indent=1) + "\n")

    def done(self) -> list[str]:
        return list(self.known.get("done", []))

    def step(self, name: str, work: Callable[[], object]) -> None:
        """Does a step that isn't done yet, and notes it."""
        if name in self.done():
            return
        began = time.monotonic()
        work()
        self.keep(done=[*self.done(), name])
        print(f"hall-next: {name}: {time.monotonic() - began:.2f} s", flush=True)

    def decide(self, asked: str, plan: str) -> None:
        """Decides on the next book, once. Nothing of it may be there yet but the plan that is
        named."""
        if self.done():
            if asked not in ("", self.new):
                raise Unfit(f"{self.path} says that {self.new} follows {self.old}")
            return
        plan = os.path.abspath(plan) if plan else ""
        envs = glob.glob(f"{self.place.settings}/*.env")
        there = {os.path.basename(path).removesuffix(".env") for path in envs}
        new = asked or next_book.next_name(self.old, date.today().isoformat()[:7], there)
        if not next_book.NAME.fullmatch(new) or new == self.old:
            raise Unfit(f"{new!r} is no name of a next book")
        if new in there or os.path.exists(self.book(new)):
            raise Unfit(f"there is a book {new} already")
        own = self.setting(new, "toml")
        if os.path.exists(own) and own != plan:
            raise Unfit(f"there is {own} already: give it by --plan")
        self.keep(next=new, plan=plan)

    def need_closed(self, listing: str) -> None:
        """Whether each batch of a list of the old book has its verdict; StillOpen where not."""
        if names := next_book.still_open(listing):
            raise StillOpen(self.open_words(len(names), names))

    def open_words(self, count: int, names: list[str]) -> str:
        said = ", ".join(names[:NAMED]) + (" .." if len(names) > NAMED else "")
        return f"{count} batches of {self.old} have no verdict" + (f": {said}" if said else "")


class Waiting:
    """Whether each batch of the old book has its verdict, while its hall goes on."""

    def __init__(self, move: Move) -> None:
        self.move = move
        self.count: int | None = None
        self.said = ""

    def until_closed(self, waits: bool) -> None:
        """Waits until each has one, or StillOpen at once."""
        told = ""
        while why := self.look():
            if not waits:
                raise StillOpen(why)
            if why != told:
                print(f"hall-next: waits: {why}", flush=True)
            told = why
            time.sleep(POLL_AT_REST if self.count is None else POLL)

    def look(self) -> str:
        """Which batches have no verdict; empty where each has one. Doors know how many. The list
        has the names, but of a running book not the newest row: it is read where the number
        changed."""
        move, count = self.move, self.at_doors()
        if count == 0:
            return ""
        if count is None or count != self.count:
            names = next_book.still_open(move.place.seen(move.book(move.old)))
            self.said = move.open_words(count or len(names), names) if count or names else ""
        self.count = count
        return self.said

    def at_doors(self) -> int | None:
        """How many batches have no verdict, as a door of the hall says; None where none answers."""
        env = read(self.move.setting(self.move.old, "env"))
        for port in next_book.doors_of(env):
            if said := self.move.place.ask(port, "/summary"):
                return next_book.open_in(said)
        return None
