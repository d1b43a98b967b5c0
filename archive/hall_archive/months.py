"""What goes on beside a follower for reports and for the archive of several halls: the sums of
its book, the acts that the hall refused, and the delivery of all that is new. A fault of the
database is told once, and tried again."""

import time

from hall_archive.delivering import Delivering
from hall_archive.taking import Unkept
from hall_archive.refused import Refusals
from hall_archive.service import Said
from hall_archive.store import Store
from hall_archive.summing import Summing

# Seconds between two looks: so far the sums may be behind the rows.
EVERY = 10.0
# Seconds that a last delivery is waited for.
PATIENCE = 20.0


class Months:
    """Sums and refusals of one book, and its delivery, where there is a central archive."""

    def __init__(self, store: Store, front: str, central: str = "") -> None:
        self.name = store.name
        self.summing = Summing(store.engine, store.reads, store.book, store.name)
        self.refusals = Refusals(store, front) if front else None
        self.due = 0.0
        self.said = Said()
        self.delivering = Delivering(store, central) if central else None
        if self.delivering:
            self.delivering.start()

    def end(self) -> None:
        """Takes in what is left, and delivers it."""
        self.look(now=True)
        if self.delivering:
            self.delivering.stop.set()
            self.delivering.join(PATIENCE)

    def look(self, now: bool = False) -> None:
        """Takes in what is new, at most every EVERY seconds unless it is to be now."""
        if not now and time.monotonic() < self.due:
            return
        self.due = time.monotonic() + EVERY
        try:
            if self.refusals:
                self.refusals.look()
            self.summing.look()
            self.said.good(f"{self.name}: sums go on")
        except (Unkept, OSError) as fault:
            self.said.fault(f"{self.name}: sums wait: {fault}")
