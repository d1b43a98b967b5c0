"""A report as a spreadsheet, by Debian's openpyxl: the figures, batches with their verdicts,
refused acts."""

import io
from typing import Any

from openpyxl import Workbook
from openpyxl.styles import Font
from openpyxl.utils import get_column_letter

from hall_archive.report_words import said

BATCH = ("hall", "book", "row", "day", "batch", "product", "packs", "over", "verdict")
REFUSED = ("act", "person", "count")
WIDEST = 40


def workbook(report: dict[str, Any], table: list[list[Any]], language: str) -> bytes:
    book = Workbook()
    figures = book.active
    head = [said(name, language) for name in table[0]]
    put(
        figures,
        said("lines", language),
        [head, *([number(one) for one in row] for row in table[1:])],
    )
    batches = [[one[name] for name in BATCH] for one in report["batches"]]
    for row in batches:
        row[7] = None if row[7] is None else row[7] / 1000
    names = [said("mean_over" if name == "over" else name, language) for name in BATCH]
    put(book.create_sheet(), said("verdict", language), [names, *batches])
    acts = [[one[name] for name in REFUSED] for one in report["refused"]]
    put(book.create_sheet(), said("acts", language), [[said(n, language) for n in REFUSED], *acts])
    out = io.BytesIO()
    book.save(out)
    return out.getvalue()


def number(value: Any) -> Any:
    """A figure as a number, where its text is one."""
    if not isinstance(value, str):
        return value
    try:
        return float(value)
    except ValueError:
        return value


def put(sheet: Any, title: str, rows: list[list[Any]]) -> None:
    sheet.title = title
    for row in rows:
        sheet.append([text(one) for one in row])
    for cell in sheet[1]:
        cell.font = Font(bold=True)
    sheet.freeze_panes = "A2"
    for place, column in enumerate(zip(*rows, strict=False), 1):
        wide = max(len(str(one)) for one in column if one is not None)
        sheet.column_dimensions[get_column_letter(place)].width = min(WIDEST, wide + 2)


def text(value: Any) -> Any:
    """No text of a book or a person becomes a formula."""
    return f"'{value}" if isinstance(value, str) and value[:1] in "=+-@" else value
