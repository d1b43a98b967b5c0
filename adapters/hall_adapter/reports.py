"""What is reported of a line, and to whom: standard error, metrics, messages, alarms."""

import sys

from hall_adapter.alarms import Alarms
from hall_adapter.messages import Messages
from hall_adapter.metrics import Metrics
from hall_adapter.readings import REASONS, Note
from hall_adapter.settings import Settings

# Kinds of faults that are counted from 0 on, so that the first one is a rise.
FAULTS = ("escaped", "wrong", "unexpected", "unheard", "skip", "repeat", "gate", "voided", "shut")
# What a device says on a good day too: counted, and nothing more.
QUIET = {"word", "motion", "light", "underload", "negative"}


class Reports:
    """Hands reports on."""

    def __init__(self, settings: Settings) -> None:
        self.metrics = Metrics(line=settings.name, lane=str(settings.lane))
        for kind in FAULTS:
            self.metrics.add("hall_line_faults_total", 0, kind=kind)
        for signal in ("pass", "reject", "unheard"):
            self.metrics.add("hall_line_packs_total", 0, signal=signal)
        self.alarms = Alarms(settings.alarm, settings.name) if settings.alarm else None
        self.messages = Messages(settings.broker, settings.name) if settings.broker else None

    def take(self, note: Note, now: float) -> None:
        """Reports something."""
        is_line = note.kind in REASONS
        name = "hall_line_unweighed_total" if is_line else "hall_line_faults_total"
        self.metrics.add(name, note.count, **{"why" if is_line else "kind": note.kind})
        if note.kind in QUIET:
            return
        print(f"{note.kind}: {note.text}", file=sys.stderr, flush=True)
        if self.messages:
            self.messages.report(note)
        if self.alarms:
            self.alarms.raise_one(note, now)

    def end(self) -> None:
        """Nothing more is reported."""
        if self.messages:
            self.messages.end()
