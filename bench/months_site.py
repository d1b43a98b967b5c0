"""A site of bench/months.py: FOLDER URL RATE SECONDS HALL. Follows a made book at a rate into a
SQLite of its own, and delivers to the archive of several halls. Says `ready`, and at the end
the shares of a processor, in percent, of following and of delivering, and the rows that were
delivered."""

import os
import sys
import time

HERE = os.path.dirname(os.path.realpath(__file__))
sys.path[:0] = [f"{HERE}/../archive", f"{HERE}/../tests"]

from archive_books import make_book  # noqa: E402

from hall_archive import store  # noqa: E402
from hall_archive.delivering import Delivering  # noqa: E402
from hall_archive.following import Follower, Page, wait  # noqa: E402
from hall_archive.rows import PAGE_ROWS  # noqa: E402
from hall_archive.store import Store  # noqa: E402


class Rated:
    """A book of which more comes at a rate."""

    is_new = False

    def __init__(self, lines: list[str], rate: int) -> None:
        self.lines, self.rate, self.began = lines, rate, time.monotonic()

    def ask(self, after: int) -> Page:
        shown = min(len(self.lines), int((time.monotonic() - self.began) * self.rate))
        return Page("".join(self.lines[after : min(shown, after + PAGE_ROWS)]), shown)

    def close(self) -> None:
        pass


class Timed(Delivering):
    """Knows what it took of a processor."""

    used = 0.0

    def look(self) -> bool:
        began = time.thread_time()
        done = super().look()
        self.used += time.thread_time() - began
        return done


def main() -> None:
    folder, url, rate, seconds, hall = sys.argv[1:]
    lines = make_book(int(rate) * (int(seconds) + 5))
    own = f"sqlite:///{folder}/{hall}.db"
    engine = store.open_engine(own, True)
    store.migrate(engine)
    kept = Store(engine, hall, "day")
    delivering = Timed(Store(engine, hall, "day"), url)
    delivering.delivery.reached()
    delivering.delivery.reached()
    print("ready", flush=True)
    source = Rated(lines, int(rate))
    follower = Follower("day", source, kept)
    delivering.start()
    began, used = time.monotonic(), time.thread_time()
    while (passed := time.monotonic() - began) < int(seconds):
        sent = time.monotonic()
        wait(follower.step()[0], sent)
    followed = time.thread_time() - used
    delivering.stop.set()
    delivering.join()
    delivering.delivery.all()
    rows = delivering.delivery.reached().cursor().upto
    print(100 * followed / passed, 100 * delivering.used / passed, rows)


main()
