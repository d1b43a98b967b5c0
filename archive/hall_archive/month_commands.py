"""The commands of reports, sums, months that are kept, and of several halls."""

import argparse
import json
import os
import re
import sys
from typing import Any

from hall_archive import kept_folder, report_forms, store
from hall_archive.commands import found_book, opened
from hall_archive.keeping_month import Month, NotKept
from hall_archive.papers import NotDrawn
from hall_archive.periods import BadPeriod, period_of
from hall_archive.reports import Asked, Report, Reports
from hall_archive.settings import BadSettings, Settings
from hall_archive.summing import Summing

MONTH = re.compile(r"\d{4}-\d\d")


def sum(settings: Settings, word: str, _: str) -> int:
    """Makes the sums of a book anew from its rows."""
    _books, number, book = found_book(settings, word)
    engine = opened(settings)
    Summing(engine, store.open_engine(settings.database), number, book.name).anew()
    return 0


def keep(settings: Settings, words: argparse.Namespace) -> int:
    """Keeps a month in a folder of --into, or of `kept` beside the witnesses."""
    into = words.into or f"{settings.folder}/kept"
    try:
        if not MONTH.fullmatch(words.book):
            raise BadSettings(f"{words.book!r} is no month, as 2026-12")
        os.makedirs(into, exist_ok=True)
        month = Month(settings, words.book, period_of(words.book), into)
        digest = month.keep()
    except (BadPeriod, OSError) as fault:
        raise BadSettings(str(fault)) from fault
    except (NotKept, NotDrawn, report_forms.NotInstalled) as fault:
        print(f"hall-archive: {words.book}: {fault}", file=sys.stderr)
        return 1
    print(f"{month.folder}: {kept_folder.verify(month.folder)}")
    print(f"sha256 of its {kept_folder.DIGESTS}: {digest}")
    return 0


def reads_of(settings: Settings) -> Any:
    """The database that answers reports and searches."""
    return store.open_engine(settings.reports.database or settings.database)


def report(settings: Settings, words: argparse.Namespace) -> int:
    """Prints a report over days, as 2026-12 or 2026-12-01..2026-12-07, by shift, day, week .."""
    found = find_report(settings, words.book, words.batch or "day", words)
    if words.form == "json":
        print(json.dumps(found.shown(), indent=1))
        return 0
    try:
        said = report_forms.made(words.form, found.shown(), words.language)
    except report_forms.NotInstalled as fault:
        raise BadSettings(str(fault)) from fault
    sys.stdout.flush()
    sys.stdout.buffer.write(said)
    sys.stdout.buffer.flush()
    return 0


def find_report(settings: Settings, days: str, by: str, words: argparse.Namespace) -> Report:
    reports = Reports(reads_of(settings))
    first, _, last = days.partition("..")
    halls = (words.hall,) if words.hall else tuple(reports.halls())
    try:
        asked = Asked(by, period_of(first, last), halls, words.name, words.product, words.lane)
        return reports.report(asked, settings.reports)
    except BadPeriod as fault:
        raise BadSettings(str(fault)) from fault
