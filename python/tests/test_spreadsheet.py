"""The command import: what spreadsheets write, each change reported, nothing rounded."""
from __future__ import annotations

import contextlib
import pathlib
import sys
import tempfile
import types
import unittest
from fractions import Fraction

from hocsimbur.sheets import spreadsheet

from .common import ROOT, SAMPLE, changed, run

SEMICOLONS = SAMPLE.replace(b",", b";")
FORMER = (ROOT / "crates" / "carry" / "stdin").read_bytes()

# what a spreadsheet wrote, and what is reported when the sample is made of it
WRITTEN = {
    "nothing": (SAMPLE, []),
    "carriage returns": (SAMPLE.replace(b"\n", b"\r\n"), ["3 lines: carriage return removed"]),
    "old carriage returns": (SAMPLE.replace(b"\n", b"\r"), ["3 lines: carriage return made the line's end"]),
    "byte-order mark": (b"\xef\xbb\xbf" + SAMPLE, ["byte-order mark removed"]),
    "UTF-16": (SAMPLE.decode().encode("utf-16"), ["byte-order mark removed", "UTF-16 read as text"]),
    "semicolons": (SEMICOLONS, ["3 lines: semicolons made commas"]),
    "tabs": (SAMPLE.replace(b",", b"\t"), ["3 lines: tabs made commas"]),
    "sep": (b"sep=;\n" + SEMICOLONS, ["first line 'sep=' removed", "3 lines: semicolons made commas"]),
    "quotes": (SAMPLE.replace(b"station", b'"station"').replace(b"3180", b'"3180"'), ["3 lines: quotes removed"]),
    "spaces": (SAMPLE.replace(b",", b", "), ["63 cells: spaces around the text removed (line 1, 'season')"]),
    "no-break space": (changed(fault="\u00a03180"), ["1 cell: spaces around the text removed (line 2, '3180')"]),
    "trailing commas": (SAMPLE.replace(b"\n", b",,\n"), ["3 lines: empty cells at the end removed (line 1)"]),
    "blank lines": (SAMPLE + b"\n,,,\n \n", ["3 blank lines: removed"]),
    "capitals": (SAMPLE.replace(b"soil", b"SOIL").replace(b"hz", b"Hz"), ["2 names: made small letters (SOIL is soil)"]),
    "no last end": (SAMPLE[:-1], ["end of the last line added"]),
    "decimal zeros": (changed(fault="3180.0"), ["1 value: written as whole digits, its size unchanged (line 2, fault, 3180.0 is 3180)"]),
    "leading zeros": (changed(fault="03180"), ["1 value: written as whole digits, its size unchanged (line 2, fault, 03180 is 3180)"]),
    "powers of ten": (changed(fault="3.18E+03"), ["1 value: written as whole digits, its size unchanged (line 2, fault, 3.18E+03 is 3180)"]),
    "thousands": (changed(fault='"3,180.00"'),
                  ["1 line: quotes removed", "1 value: written as whole digits, its size unchanged (line 2, fault, 3,180.00 is 3180)"]),
    "spaced thousands": (changed(fault="3 180"), ["1 value: written as whole digits, its size unchanged (line 2, fault, 3 180 is 3180)"]),
    "decimal zeros of 0": (changed(rods="0.0"), ["1 value: written as whole digits, its size unchanged (line 2, rods, 0.0 is 0)"]),
    "decimal comma": (SEMICOLONS.replace(b"3180", b"3180,0", 1),
                      ["3 lines: semicolons made commas", "1 value: written as whole digits, its size unchanged (line 2, fault, 3180,0 is 3180)"]),
    "both signs": (SEMICOLONS.replace(b"3180", b"3.180,0", 1),
                   ["3 lines: semicolons made commas", "1 value: written as whole digits, its size unchanged (line 2, fault, 3.180,0 is 3180)"]),
}

# cells that are refused, and why
REFUSED = {
    "3180.5": "3180.5 is not a whole number of A; the cautious side is up: write 3181, or give --round cautious",
    "0.3180": "0.3180 is not a whole number of A, and it is not in 100..80000; is it in another unit? fault may have A or kA",
    '"3,180"': "'3,180' may be 3180 or 3.180 with decimals; write it in digits alone",
    '"3,000"': "'3,000' may be 3000 or 3.000 with decimals; write it in digits alone",
    "3180 V": "'3180 V' has the unit 'V'; fault may have A or kA",
    "8.71234 kA": "8.71234 kA is 8712.34 A, not a whole number of A; the cautious side is up: write 8713, or give --round cautious",
    "3_180": "'3_180' is no number; write only digits, a whole number of A",
    "NaN": "'NaN' is no number; write only digits, a whole number of A",
    "1e999": "'1e999' is no number; write only digits, a whole number of A",
    "-3180": "-3180 is below 0",
    "#REF!": "'#REF!' is no number; write only digits, a whole number of A",
}


class Made(unittest.TestCase):
    def test_each_change(self):
        for called, (data, reported) in WRITTEN.items():
            with self.subTest(called):
                made = spreadsheet.make(data)
                self.assertEqual(made.sheet, SAMPLE)
                self.assertEqual(made.changes.told(), reported)

    def test_all_changes_at_once(self):
        data = b"\xef\xbb\xbf" + SEMICOLONS.upper().replace(b"3180", b'"3180,0"').replace(b"\n", b";;\r\n") + b"\r\n"
        made = spreadsheet.make(data)
        self.assertEqual(made.sheet, SAMPLE)
        self.assertEqual(len(made.changes.told()), 8)

    def test_a_sheet_of_a_sheet_is_itself(self):
        for path in (ROOT / "examples").glob("*.csv"):
            with contextlib.suppress(spreadsheet.Refusals):
                made = spreadsheet.make(path.read_bytes())
                again = spreadsheet.make(made.sheet)
                self.assertEqual((again.sheet, again.changes.told()), (made.sheet, []), path.name)

    def test_refused_values(self):
        for text, why in REFUSED.items():
            with self.subTest(text):
                with self.assertRaises(spreadsheet.Refusals) as caught:
                    spreadsheet.make(changed(fault=text))
                self.assertEqual(caught.exception.said, ["line 2, fault (column 10): " + why])

    def test_two_readings_are_refused(self):
        """With semicolons a point may group thousands; with commas it is the decimal sign."""
        with self.assertRaises(spreadsheet.Refusals) as caught:
            spreadsheet.make(SEMICOLONS.replace(b"3180", b"3.000", 1))
        self.assertEqual(caught.exception.said,
                         ["line 2, fault (column 10): '3.000' may be 3000 or 3.000 with decimals; write it in digits alone"])
        self.assertEqual(spreadsheet.make(changed(fault="3180.000")).sheet, SAMPLE)

    def test_every_wrong_cell_is_reported(self):
        with self.assertRaises(spreadsheet.Refusals) as caught:
            spreadsheet.make(changed(changed(fault="1.5", soil="x"), line=3, depth="0.5"))
        self.assertEqual([said.split(":")[0] for said in caught.exception.said],
                         ["line 2, soil (column 3)", "line 2, fault (column 10)", "line 3, depth (column 16)"])

    def test_the_last_cell_and_one_too_many(self):
        with self.assertRaises(spreadsheet.Refusals) as caught:
            spreadsheet.make(changed(hz="x,y"))
        self.assertEqual([said.split(":")[0] for said in caught.exception.said], ["line 2, hz (column 22)", "line 2, column 23"])

    def test_the_sign_between_fields(self):
        """That of the first line with two of them; else the first line's own, and without one a comma."""
        for text, sign in (("", ","), ("\n \n", ","), ("station\n", ","), ("station;season\n", ";"), ("station\tseason\nx\n", "\t"),
                           ("Yards, 2026\nstation;season;soil\n", ";"), ("Yards, of, 2026\nstation;season;soil;layer\n", ","),
                           ("Yards\nstation\tseason\tsoil\n1;2;3;4\n", "\t"), ("a;b;c,d,e,f\n", ","), ("sep=;\na,b,c\n", ";"),
                           ("sep=\t\na,b,c\n", "\t"), ("sep=;,\na,b,c\n", ",")):
            self.assertEqual(spreadsheet._sign(text), sign, text)

    def test_thousands_by_points(self):
        self.assertEqual([spreadsheet.exact(text, ";") for text in ("1.234.567", "1.234.567,0", "1,234,567", "12,5", "12.5")],
                         [1234567, 1234567, 1234567, Fraction(25, 2), Fraction(25, 2)])
        self.assertIsNone(spreadsheet.exact("1.23.456", ";"))

    def test_nothing_there(self):
        for data in (b"", b"\n\n", b" , ,\r\n"):
            with self.assertRaises(spreadsheet.Refusals) as caught:
                spreadsheet.make(data)
            self.assertEqual(caught.exception.said, ["there is no line of names"])

    def test_names_that_would_part_a_line(self):
        with self.assertRaises(spreadsheet.Refusals) as caught:
            spreadsheet.make(SAMPLE.replace(b"soil", b'"soil, ohm m"'))
        self.assertEqual(caught.exception.said, ["line 1, column 3: 'soil, ohm m' is no name of a sheet",
                                                 "line 1: soil is missing: a sheet has 22 names, here are 21"])

    def test_text_behind_quotes(self):
        with self.assertRaises(spreadsheet.Refusals) as caught:
            spreadsheet.make(SAMPLE.replace(b"3180", b'"31"80', 1))
        self.assertEqual(caught.exception.said, ["line 2: ',' expected after '\"'"])

    def test_open_quotes(self):
        with self.assertRaises(spreadsheet.Refusals):
            spreadsheet.make(SAMPLE.replace(b"3180", b'"3180', 1))


class Workbooks(unittest.TestCase):
    """Files of spreadsheets, with a package in the place of openpyxl."""

    BOOK = b"PK\x03\x04 and more"

    def openpyxl(self, rows, titles=("Yards",)):
        """A package that reads a workbook with these rows."""
        def iter_rows(values_only: bool):
            self.assertTrue(values_only)
            return iter(rows)

        def load_workbook(file, read_only: bool, data_only: bool):
            self.assertTrue(read_only and data_only and file.read() == self.BOOK)
            return types.SimpleNamespace(worksheets=[types.SimpleNamespace(title=title, iter_rows=iter_rows) for title in titles])
        return types.SimpleNamespace(load_workbook=load_workbook)

    def made(self, package):
        kept = sys.modules.get("openpyxl")
        sys.modules["openpyxl"] = package
        try:
            return spreadsheet.make(self.BOOK)
        finally:
            sys.modules.pop("openpyxl")
            if kept:
                sys.modules["openpyxl"] = kept

    def test_numbers_and_empty_cells(self):
        names, *lines = [line.split(",") for line in SAMPLE.decode().split()]
        rows = [tuple(names) + (None,), (None,) * 23, *(tuple(float(cell) if i == 9 else int(cell) for i, cell in enumerate(line)) + (None,)
                                                      for line in lines)]
        made = self.made(self.openpyxl(rows, ("Yards", "Notes")))
        self.assertEqual(made.sheet, SAMPLE)
        self.assertEqual(made.numbers, [1, 3, 4])
        self.assertEqual(made.changes.told()[0], "worksheet 'Yards' read, the first of 2")

    def test_one_worksheet(self):
        rows = [tuple(line.split(",")) for line in SAMPLE.decode().split()]
        self.assertEqual(self.made(self.openpyxl(rows)).changes.told(), [])

    def test_no_whole_number(self):
        names, line, _ = [line.split(",") for line in SAMPLE.decode().split()]
        with self.assertRaises(spreadsheet.Refusals) as caught:
            self.made(self.openpyxl([tuple(names), tuple([*line[:9], 0.1 + 0.2, *line[10:]])]))
        self.assertIn("0.30000000000000004 is not a whole number of A", caught.exception.said[0])

    def test_without_openpyxl(self):
        with tempfile.TemporaryDirectory() as folder:
            book = pathlib.Path(folder) / "yards.xlsx"
            book.write_bytes(self.BOOK)
            sys.modules["openpyxl"] = None
            try:
                done = run("import", str(book))
            finally:
                del sys.modules["openpyxl"]
        self.assertEqual((done.status, done.out), (3, ""))
        self.assertIn("openpyxl", done.err)
        self.assertIn("save the file as CSV", done.err)

    def test_old_workbooks(self):
        with self.assertRaises(spreadsheet.Refusals):
            spreadsheet.make(b"\xd0\xcf\x11\xe0 and more")


class Command(unittest.TestCase):
    def test_to_standard_output(self):
        data, reported = WRITTEN["semicolons"]
        self.assertEqual(run("import", "-", stdin=data), (0, SAMPLE.decode(), "".join(line + "\n" for line in reported)))
        self.assertEqual(run("import", "-", stdin=SAMPLE).err, "nothing had to be changed\n")

    def test_to_a_file(self):
        with tempfile.TemporaryDirectory() as folder:
            made = pathlib.Path(folder) / "made.csv"
            self.assertEqual(run("import", "-", "-o", str(made), stdin=SEMICOLONS).status, 0)
            self.assertEqual(made.read_bytes(), SAMPLE)
            made.write_bytes(b"kept")
            done = run("import", "-", "-o", str(made), stdin=SEMICOLONS)
            self.assertEqual((done.status, made.read_bytes()), (3, b"kept"))
            self.assertIn("it is there already; --force replaces it", done.err)
            self.assertEqual(run("import", "-", "-o", str(made), "--force", stdin=SEMICOLONS).status, 0)
            self.assertEqual(made.read_bytes(), SAMPLE)
            done = run("import", str(made), "-o", str(made), "--force")
            self.assertEqual(done.status, 3)
            self.assertIn("this file was read", done.err)
            self.assertEqual([path.name for path in pathlib.Path(folder).iterdir()], ["made.csv"])

    def test_refused_by_the_core(self):
        """Refusals speak of the lines of the file that was read, and nothing is written."""
        with tempfile.TemporaryDirectory() as folder:
            made = pathlib.Path(folder) / "made.csv"
            data = SAMPLE.replace(b"\n", b"\r\n\r\n").replace(b"3180", b"318000.0")
            done = run("import", "-", "-o", str(made), stdin=data)
            self.assertEqual(done.status, 1)
            self.assertIn("\nline 3, fault (column 10): 318000 A is not in 100..80000\n"
                          "line 5, fault (column 10): 318000 A is not in 100..80000\nnothing was written\n", done.err)
            self.assertFalse(made.exists())

    def test_a_wrong_name_below_other_lines(self):
        done = run("import", "-", stdin=b"sep=;\n\n" + SEMICOLONS.replace(b"soil", b"sol"))
        self.assertEqual(done.status, 1)
        self.assertIn("line 3, column 3: 'sol' is no name of a sheet; did you mean soil?\n", done.err)

    def test_former_names(self):
        done = run("import", "-", stdin=FORMER.replace(b"\n", b"\r\n"))
        self.assertEqual((done.status, done.out), (0, FORMER.decode()))
        self.assertIn("`hocsimbur carry` makes today's sheet of it", done.err)
        self.assertEqual(run("import", "-", stdin=FORMER.replace(b"3180", b"99")).status, 1)


if __name__ == "__main__":
    unittest.main()
