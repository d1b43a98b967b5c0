"""What a report needs beside the archive's own packages."""

import sys
import unittest
from unittest import mock

from hall_archive import report_forms
from hall_archive.report_words import WORDS, line_name

LACKING = {name: None for name in ("openpyxl", "openpyxl.styles", "openpyxl.utils", "weasyprint")}


class Forms(unittest.TestCase):
    def test_names_the_package_that_lacks(self) -> None:
        kept = {name: sys.modules.get(name) for name in ("hall_archive.report_sheet",)}
        with mock.patch.dict(sys.modules, LACKING):
            sys.modules.pop("hall_archive.report_sheet", None)
            for form, package in (("xlsx", "python3-openpyxl"), ("pdf", "weasyprint")):
                report = {"total": {"readings": 0}, "lines": [], "matrix": [], "by": "day"}
                with mock.patch("hall_archive.report_pdf.page", return_value=""):
                    with mock.patch("hall_archive.report_forms.table", return_value=[]):
                        with self.assertRaisesRegex(report_forms.NotInstalled, package):
                            report_forms.made(form, report, "en")
        for name, module in kept.items():
            if module is not None:
                sys.modules[name] = module

    def test_names_of_lines(self) -> None:
        for by, name, said in (
            ("shift", "2026-12-01 early", "2026-12-01 fr\u00fch"),
            ("shift", "2026-12-01 Nord", "2026-12-01 Nord"),
            ("shift", "hour unknown", "Stunde unbekannt"),
            ("batch", "2026-12-01 early", "2026-12-01 early"),
            ("product", "rice250", "rice250"),
        ):
            self.assertEqual(line_name(by, name, "de"), said)
        for part in ("contents", "mean", "average", "allowance", "inadequate"):
            self.assertIn(f"part {part}", WORDS)


if __name__ == "__main__":
    unittest.main()
