"""A report as a table of CSV, as a spreadsheet, and as PDF. It is what `Report.shown` makes."""

import csv
import io
from collections.abc import Callable, Iterator
from typing import Any

from hall_archive.rows import grams

# The packages that a form needs beside those of the archive. They are recommended alone: without
# them all else works.
PACKAGES = {"xlsx": "python3-openpyxl", "pdf": "weasyprint"}

# The columns of a table; masses are in grams with three places there, times in seconds.
COUNTS: tuple[str, ...] = (
    "readings",
    "passed",
    "rejected",
    "sampled",
    "voided",
    "told_held",
    "told_full",
)
COUNTS += ("told_inadequate", "told_allowance", "stayed", "population")
MASSES: tuple[str, ...] = (
    "passed_gross",
    "rejected_gross",
    "sampled_gross",
    "voided_gross",
    "net",
    "declared",
)
MASSES += ("over",)
MEANS = ("each", "mean", "deviation")
MORE: tuple[str, ...] = (
    "share",
    "nonstandard",
    "inadequate",
    "money",
    "rate",
    "stops",
    "refused",
    "released",
)
MORE += ("withheld", "empty")
TIMES = ("running", "stopped")
COLUMNS = ("part", "name", "product", "lane", *COUNTS, *MASSES, *MEANS, *MORE, *TIMES, "rows")


class NotInstalled(Exception):
    """A form needs a package that isn't installed; the text says which."""


def plain(name: str, value: Any) -> Any:
    """A figure as it stands in a table."""
    if value is None:
        return ""
    if name in MASSES:
        return grams(value)
    if name in MEANS:
        return f"{value / 1000:.6f}"
    return value / 1000 if name in TIMES else value


def lines(report: dict[str, Any]) -> Iterator[dict[str, Any]]:
    """The total, the lines, and products by lanes (lane 0: all of them)."""
    yield {"part": "total"} | report["total"]
    for line in report["lines"]:
        yield {"part": report["by"]} | line
    for line in report["matrix"]:
        yield {"part": "product and lane"} | line


def rows_text(rows: list[dict[str, Any]]) -> str:
    return "; ".join(f"{one['hall']}/{one['book']} {one['first']} {one['last']}" for one in rows)


def table(report: dict[str, Any]) -> list[list[Any]]:
    found: list[list[Any]] = [list(COLUMNS)]
    for line in lines(report):
        rows = rows_text(line["rows"])
        found.append([*(plain(name, line.get(name)) for name in COLUMNS[:-1]), rows])
    return found


def as_csv(report: dict[str, Any], _: str) -> bytes:
    out = io.StringIO()
    csv.writer(out, lineterminator="\n").writerows(table(report))
    return out.getvalue().encode("utf-8")


def as_sheet(report: dict[str, Any], language: str) -> bytes:
    from hall_archive import report_sheet

    return report_sheet.workbook(report, table(report), language)


def as_pdf(report: dict[str, Any], language: str) -> bytes:
    from hall_archive import report_pdf

    return report_pdf.pdf(report_pdf.page(report, language))


Maker = Callable[[dict[str, Any], str], bytes]
FORMS: dict[str, tuple[Maker, str]] = {
    "csv": (as_csv, "text/csv; charset=utf-8"),
    "xlsx": (as_sheet, "application/vnd.openxmlformats-officedocument.spreadsheetml.sheet"),
    "pdf": (as_pdf, "application/pdf"),
}


def made(form: str, report: dict[str, Any], language: str) -> bytes:
    """The report in this form. NotInstalled where the form's package isn't there."""
    try:
        return FORMS[form][0](report, language)
    except ImportError as fault:
        if form not in PACKAGES:
            raise
        raise NotInstalled(f"a report as {form} needs the package {PACKAGES[form]}") from fault
