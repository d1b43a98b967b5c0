"""Keeps a month for as long as the law asks: books, papers, sheets, witness and evidence in one
folder, with a list of digests, which `kept_folder` holds without a database."""

import glob
import json
import os
import shutil
from collections.abc import Iterator
from typing import Any

from hall_archive import kept_folder, kept_sheets, nets, report_forms, report_pdf, store, witness
from hall_archive.evidence import Record
from hall_archive.old import Old
from hall_archive.periods import Period
from hall_archive.reading import Reader
from hall_archive.records import Records
from hall_archive.reports import Asked, Reports
from hall_archive.rows import bytes_of
from hall_archive.search import Search
from hall_archive.settings import BookSettings, Settings
from hall_archive.store import Store

README = """\
A month of packing halls, as it was kept.

books/HALL.BOOK.ship    the rows of a book (docs/FORMATS.md, "Shipments"); the book is made of it by
                        hall follow --book BOOK.book < HALL.BOOK.ship
books/HALL.BOOK.audit   what `hall audit` said of it; its sha256 is that of the shipment
papers/HALL.BOOK/       what each verdict rests on; hall prove < BATCH.txt
sheets/HALL.BOOK.pdf    the sheets of its batches, and as text
acts/HALL.BOOK.jsonl    acts with persons, reasons and hours (ms of UTC)
hours/HALL.BOOK.csv     between which times rows came, up to each row (ms of UTC)
witness/                lines that say which rows the book had at which time, and their stamps
evidence/HALL.jsonl     tares, scales, densities, errors of measuring: each with the digest of the last
reports/HALL.csv, .pdf  the month by day
DIGESTS                 the digest of each file: sha256sum -c DIGESTS

All of it is held by: hall-archive verify FOLDER
"""


class NotKept(Exception):
    """The month can't be kept as it is; the text says why."""


class Month:
    """A month in the making, in a folder that takes its name once it is whole."""

    def __init__(self, settings: Settings, name: str, period: Period, into: str) -> None:
        self.settings, self.name, self.period = settings, name, period
        self.folder, self.new = f"{into}/{name}", f"{into}/.{name}.new"
        self.engine = store.open_engine(settings.database)
        self.reader = settings.reader()
        self.old, self.search = Old(self.engine), Search(self.engine)

    def books(self) -> list[BookSettings]:
        """The books of the settings that have packs or closings in the month."""
        first, last = self.period
        found = {
            (hall, name)
            for hall, name in self.old.ask(
                """SELECT b.hall, b.name FROM book b JOIN summed s ON s.book = b.id
                WHERE s.first_day <= :last AND s.last_day >= :first""",
                first=first,
                last=last,
            )
        }
        return [one for one in self.settings.followed if (one.hall, one.name) in found]

    def keep(self) -> str:
        """Keeps the month; the digest of its list of digests."""
        if os.path.exists(self.folder):
            raise NotKept(f"{self.folder} is there already")
        books = self.books()
        if not books:
            raise NotKept(f"no book of the settings has rows of {self.name}")
        shutil.rmtree(self.new, ignore_errors=True)
        for part in (
            "books",
            "papers",
            "sheets",
            "acts",
            "hours",
            "witness",
            "evidence",
            "reports",
        ):
            os.makedirs(f"{self.new}/{part}")
        self.write("README", README)
        for book in books:
            Kept(self, book).keep()
        for hall in sorted({book.hall for book in books}):
            self.keep_hall(hall)
        digest = kept_folder.write_digests(self.new)
        read_only(self.new)
        os.replace(self.new, self.folder)
        return digest

    def keep_hall(self, hall: str) -> None:
        records = Records(self.engine).all(hall)
        self.write(f"evidence/{hall}.jsonl", "".join(map(record_line, records)))
        asked = Asked("day", self.period, (hall,))
        report = Reports(self.engine).report(asked, self.settings.reports).shown()
        for form in ("csv", "pdf"):
            self.write(f"reports/{hall}.{form}", report_forms.made(form, report, "en"))

    def write(self, path: str, said: str | bytes) -> None:
        """Writes a file of the folder, synced."""
        data = said.encode("utf-8") if isinstance(said, str) else said
        with open(f"{self.new}/{path}", "wb") as file:
            file.write(data)
            file.flush()
            os.fsync(file.fileno())


class Kept:
    """One book of a month."""

    def __init__(self, month: Month, book: BookSettings) -> None:
        self.month, self.book = month, book
        self.name = f"{book.hall}.{book.name}"
        self.number = month.search.one_book(book.hall, book.name)

    def keep(self) -> None:
        self.keep_rows(self.month.reader)
        self.keep_witness()
        self.keep_batches()
        self.keep_acts()

    def keep_rows(self, reader: Reader) -> None:
        """The rows, beside those that the archive has, so that papers and sheets are of the
        same."""
        reader.in_use = False
        shipped = b"".join(reader.ask(self.book.name, "ship"))
        audited = b"".join(reader.ask(self.book.name, "audit")).decode("ascii")
        if reader.in_use:
            raise NotKept(f"{self.book.name} is in use: its month is kept behind the next book")
        kept = Store(self.month.engine, self.book.hall, self.book.name)
        upto = kept.cursor().upto
        if f"sha256 {witness.fingerprint(upto, map(bytes_of, kept.entries()))}\n" not in audited:
            raise NotKept(f"the archive's {upto} rows of {self.book.name} aren't the book's")
        self.month.write(f"books/{self.name}.ship", shipped)
        self.month.write(f"books/{self.name}.audit", audited)

    def keep_witness(self) -> None:
        """The witness, and the stamps of its lines."""
        path = self.month.settings.witness(self.book)
        for found in [path, *glob.glob(f"{glob.escape(path)}.*.tsr")]:
            if os.path.exists(found):
                with open(found, "rb") as file:
                    self.month.write(f"witness/{os.path.basename(found)}", file.read())

    def keep_batches(self) -> None:
        """Papers of closed batches, and all sheets as text and on paper."""
        month, texts, pages = self.month, [], []
        os.makedirs(f"{month.new}/papers/{self.name}")
        for name in month.old.names(self.number):
            batch = month.old.whole(self.number, name)
            texts.append(nets.sheet(batch))
            acts = month.search.all_acts(self.book.hall, self.book.name, {"batch": name})
            pages.append(kept_sheets.sheet(self.name, batch, acts, []))
            if batch.state == "closed":
                month.write(f"papers/{self.name}/{name}.txt", month.old.paper(self.number, name))
        month.write(f"sheets/{self.name}.txt", "\n".join(texts))
        month.write(f"sheets/{self.name}.pdf", report_pdf.pdf(kept_sheets.page(self.name, pages)))

    def keep_acts(self) -> None:
        acts = self.month.search.all_acts(self.book.hall, self.book.name, {})
        lines = (json.dumps(act, ensure_ascii=False) + "\n" for act in acts)
        self.month.write(f"acts/{self.name}.jsonl", "".join(lines))
        self.month.write(f"hours/{self.name}.csv", "".join(self.hours()))

    def hours(self) -> Iterator[str]:
        yield "upto,low,high,kind\n"
        for upto, low, high, kind in self.month.old.ask(
            "SELECT upto, low, high, kind FROM answer WHERE book = :book ORDER BY upto",
            book=self.number,
        ):
            yield f"{upto},{'' if low is None else low},{high},{('live', 'late', 'step')[kind]}\n"


def record_line(record: Record) -> str:
    said: dict[str, Any] = record._asdict()
    return json.dumps(said, ensure_ascii=True) + "\n"


def read_only(folder: str) -> None:
    for place, _, names in os.walk(folder):
        for name in names:
            os.chmod(os.path.join(place, name), 0o440)
