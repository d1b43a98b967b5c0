"""hall-adapter metrics SETTINGS

Hands out the numbers of a hall as Prometheus reads them, at `/metrics`. `watch_settings` has what
the file of settings says.

A number that can't be had is left out; `hall_up` says whether the door answers."""

import asyncio
import os
import subprocess
import sys
import time
from collections.abc import Callable
from functools import partial

from hall_adapter.book_rows import BookRows
from hall_adapter.followers import ArchiveFollower, tell_copy, tell_list
from hall_adapter.hall_texts import Sheet, batch_of_lane, connections_of, sheet_of, summary_of
from hall_adapter.metrics import Metrics, merged, serve
from hall_adapter.office import Office
from hall_adapter.watch_settings import Watched, load_watched

SOCKETS = "/proc/net/tcp"
PILES = ("passed", "rejected", "sampled", "voided")
# Seconds that the command of the status has.
PATIENCE = 50.0


class Watch:
    """Takes the numbers of a hall, and keeps them for a while."""

    def __init__(self, settings: Watched) -> None:
        self.settings = settings
        self.rows = BookRows(settings.file) if settings.file else None
        self.office = Office(settings.url) if settings.url else None
        self.archive = ArchiveFollower(settings) if settings.archive else None
        self.lock = asyncio.Lock()
        self.kept, self.kept_until = "", 0.0
        self.status, self.status_until = "", 0.0
        # the newest number of rows, and since when it stands
        self.count, self.count_since = -1, time.time()
        # the rows as a door said them, the newest among them; and the faults that were told
        self.said_rows = 0
        self.told: dict[str, str] = {}

    async def text(self) -> str:
        """The numbers, taken anew where those that are kept are too old."""
        async with self.lock:
            now = time.monotonic()
            if now >= self.kept_until:
                self.kept = await asyncio.to_thread(self.take)
                self.kept_until = now + self.settings.every
            return self.kept

    def take(self) -> str:
        """Takes all numbers."""
        metrics = Metrics(book=self.settings.book)
        for name, part in self.parts().items():
            try:
                part(metrics)
                self.told.pop(name, None)
            except (OSError, ValueError, KeyError, IndexError) as fault:
                self.tell(name, str(fault) or type(fault).__name__)
        return merged([self.take_status(), metrics.text()])

    def tell(self, name: str, why: str) -> None:
        """Tells why a part's numbers can't be had, once as long as it is the same."""
        if self.told.get(name) != why:
            print(f"metrics: {name}: {why}", file=sys.stderr, flush=True)
        self.told[name] = why

    def parts(self) -> dict[str, Callable[[Metrics], None]]:
        """Where numbers come from, by the name of each."""
        settings = self.settings
        parts: dict[str, Callable[[Metrics], None]] = {
            "book": self.take_rows,
            "office": self.take_office,
            "system": self.take_system,
        }
        for name, path in settings.copies.items():
            parts[f"copy {name}"] = partial(tell_copy, name=name, path=path)
        if settings.list:
            parts["list"] = lambda metrics: tell_list(metrics, settings.list, self.newest_rows())
        if self.archive:
            archive = self.archive
            parts["archive"] = lambda metrics: archive.tell(metrics, self.newest_rows())
        return parts

    def newest_rows(self) -> int:
        """How many rows the book is known to have."""
        return max(self.said_rows, self.rows.rows if self.rows else 0)

    def take_status(self) -> str:
        """What the status command says, from time to time."""
        settings = self.settings
        if settings.status and time.monotonic() >= self.status_until:
            self.status_until = time.monotonic() + settings.status_every
            try:
                ran = subprocess.run(
                    settings.status, stdin=subprocess.DEVNULL, capture_output=True, timeout=PATIENCE
                )
                self.status = ran.stdout.decode("utf-8", "replace")
                if self.status:
                    self.told.pop("status", None)
                else:
                    self.tell("status", f"{settings.status[0]} says nothing{why_of(ran)}")
            except (OSError, subprocess.TimeoutExpired) as fault:
                self.status = ""
                self.tell("status", str(fault))
        return self.status

    def take_rows(self, metrics: Metrics) -> None:
        """Packs by lane and signal, of the book's file."""
        if self.rows is None:
            return
        self.rows.read()
        self.count_rows(metrics, self.rows.rows)
        for (lane, signal), count in self.rows.packs.items():
            metrics.set("hall_packs_total", count, lane=str(lane), signal=signal)

    def count_rows(self, metrics: Metrics, rows: int) -> None:
        """The rows, those left, and since when there are so many."""
        if rows != self.count:
            self.count, self.count_since = rows, time.time()
        metrics.set("hall_rows", rows)
        metrics.set("hall_rows_left", max(0, self.settings.limit - rows))
        metrics.set("hall_last_row_age_seconds", round(time.time() - self.count_since, 1))

    def take_office(self, metrics: Metrics) -> None:
        """What a door answers."""
        if self.office is None:
            return
        metrics.set("hall_up", 0)
        summary = self.office.text("/summary") or ""
        metrics.set("hall_up", 1)
        counts, states = summary_of(summary)
        self.said_rows = counts["rows"]
        if self.rows is None:
            self.count_rows(metrics, counts["rows"])
        for pile in PILES:
            metrics.set("hall_pile_packs", counts[pile], pile=pile)
        for state, count in states.items():
            metrics.set("hall_batches", count, state=state)
        self.take_lanes(metrics, self.office)

    def take_lanes(self, metrics: Metrics, office: Office) -> None:
        """The lanes, and how their batches stand."""
        batches: dict[str, None] = {}
        for lane in range(1, self.settings.lanes + 1):
            batch = batch_of_lane(office.text(f"/lanes/{lane}") or "")
            metrics.set("hall_lane_working", batch is not None, lane=str(lane))
            if batch:
                batches[batch] = None
        for batch in batches:
            if sheet := office.text(f"/batches/{batch}"):
                tell_sheet(metrics, batch, sheet_of(sheet))

    def take_system(self, metrics: Metrics) -> None:
        """Disks, and who is at the doors."""
        for path in self.settings.disks:
            disk = os.statvfs(path)
            metrics.set("hall_disk_free_bytes", disk.f_bavail * disk.f_frsize, path=path)
        if self.settings.doors:
            with open(SOCKETS, encoding="ascii") as table:
                counts = connections_of(table.read(), self.settings.doors)
            metrics.set("hall_doors", len(counts))
            metrics.set("hall_doors_busy", sum(1 for count in counts.values() if count))
            for port, count in counts.items():
                metrics.set("hall_door_connections", count, port=str(port))


def why_of(ran: "subprocess.CompletedProcess[bytes]") -> str:
    """The status and the last word of a command that ended."""
    said = ran.stderr.decode("utf-8", "replace").strip().splitlines()
    return f", and ended with status {ran.returncode}: {' '.join(said[-1:])}".rstrip(": ")


def tell_sheet(metrics: Metrics, batch: str, sheet: Sheet) -> None:
    """How a batch stands, and what its packers' part would be now."""
    metrics.set("hall_batch_packs", sheet.population, batch=batch)
    metrics.set("hall_batch_allowance_left", sheet.allowance_left, batch=batch)
    metrics.set("hall_batch_inadequate", sheet.inadequate, batch=batch)
    metrics.set("hall_batch_held", sheet.is_held, batch=batch)
    if sheet.margin is not None:
        metrics.set("hall_batch_mean_margin", round(sheet.margin, 6), batch=batch)
    for part, holds in sheet.forecast().items():
        metrics.set("hall_batch_forecast", holds, batch=batch, part=part)


def run(path: str) -> int:
    """Hands the numbers out until it is ended."""
    watch = Watch(load_watched(path))
    try:
        asyncio.run(serve(watch.settings.listen, watch.text))
    except KeyboardInterrupt:
        pass
    return 0
