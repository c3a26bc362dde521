"""The commands carry and carry-back: one sheet, several, a folder; nothing half written, nothing overwritten unasked."""
from __future__ import annotations

import os
import pathlib
import stat
import tempfile
import unittest

from .common import ROOT, SAMPLE, changed, run

FORMER = (ROOT / "crates" / "carry" / "stdin").read_bytes()
CARRIED = (ROOT / "crates" / "carry" / "stdout").read_bytes()


class OneSheet(unittest.TestCase):
    def test_there(self):
        self.assertEqual(run("carry", "crates/carry/stdin"), (0, CARRIED.decode(), ""))
        self.assertEqual(run("carry", "-", stdin=FORMER), (0, CARRIED.decode(), ""))

    def test_and_back(self):
        back = (ROOT / "crates" / "carry_back" / "stdout").read_text()
        self.assertEqual(run("carry-back", "crates/carry_back/stdin"), (0, back, ""))
        self.assertEqual(run("carry-back", "-", stdin=CARRIED).out, FORMER.decode())

    def test_refused(self):
        self.assertEqual(run("carry", "-", stdin=FORMER.replace(b"3180", b"99")), (1, "", "line 2, fault (column 8): 99 A is not in 100..80000\n"))
        self.assertEqual(run("carry-back", "examples/refused-10.csv"), (
            1, "", "examples/refused-10.csv: line 3: across is 8 and along is 12; the former sheet has one count for both\n"))

    def test_names_of_the_former_sheet(self):
        self.assertEqual(run("carry", "-", stdin=FORMER.replace(b"lines", b"line")).err,
                         "line 1, column 11: 'line' is no name of a sheet; did you mean lines?\n")

    def test_today_s_sheet(self):
        done = run("carry", "tests/sample.csv")
        self.assertEqual((done.status, done.out), (1, ""))
        self.assertIn("shock is one of today's 22 names", done.err)


class Folders(unittest.TestCase):
    def setUp(self):
        kept = tempfile.TemporaryDirectory()
        self.addCleanup(kept.cleanup)
        self.folder = pathlib.Path(kept.name)
        self.old, self.new = self.folder / "old", self.folder / "new"
        self.old.mkdir()
        for name, sheet in (("a.csv", FORMER), ("b.csv", FORMER.replace(b"3180", b"99")), ("c.csv", FORMER), ("notes.txt", b"notes")):
            (self.old / name).write_bytes(sheet)

    def carried(self, *arguments: str):
        return run("carry", *arguments)

    def names(self):
        return sorted(path.name for path in self.new.iterdir())

    def test_a_folder(self):
        done = self.carried(str(self.old), "-o", str(self.new))
        self.assertEqual((done.status, done.out), (1, ""))
        self.assertEqual(self.names(), ["a.csv", "c.csv"])
        self.assertEqual((self.new / "a.csv").read_bytes(), CARRIED)
        self.assertEqual((self.old / "a.csv").read_bytes(), FORMER)
        self.assertEqual(done.err.replace(str(self.folder) + os.sep, ""),
                         "1/3 old/a.csv: 2 lines into new/a.csv\n"
                         "2/3 old/b.csv: REFUSED: line 2, fault (column 8): 99 A is not in 100..80000\n"
                         "3/3 old/c.csv: 2 lines into new/c.csv\n2 written, 1 refused, 0 failed\n")

    def test_several_files(self):
        done = self.carried(str(self.old / "a.csv"), str(self.old / "c.csv"), "-o", str(self.new))
        self.assertEqual((done.status, self.names()), (0, ["a.csv", "c.csv"]))

    def test_nothing_is_overwritten(self):
        self.new.mkdir()
        (self.new / "a.csv").write_bytes(b"kept")
        done = self.carried(str(self.old / "a.csv"), str(self.old / "c.csv"), "-o", str(self.new))
        self.assertEqual((done.status, (self.new / "a.csv").read_bytes(), self.names()), (3, b"kept", ["a.csv", "c.csv"]))
        self.assertIn("a.csv: it is there already; --force replaces it", done.err)
        self.assertEqual(self.carried(str(self.old / "a.csv"), "-o", str(self.new), "--force").status, 0)
        self.assertEqual((self.new / "a.csv").read_bytes(), CARRIED)

    def test_what_is_replaced_keeps_its_rights(self):
        self.new.mkdir()
        (self.new / "a.csv").write_bytes(b"old")
        (self.new / "a.csv").chmod(0o640)
        self.assertEqual(self.carried(str(self.old / "a.csv"), "-o", str(self.new), "--force").status, 0)
        self.assertEqual(stat.S_IMODE((self.new / "a.csv").stat().st_mode), 0o640)

    def test_through_a_link(self):
        """What a link points at is written, and the link stays."""
        self.new.mkdir()
        (self.folder / "kept.csv").write_bytes(b"old")
        (self.new / "a.csv").symlink_to(self.folder / "kept.csv")
        self.assertEqual(self.carried(str(self.old / "a.csv"), "-o", str(self.new), "--force").status, 0)
        self.assertTrue((self.new / "a.csv").is_symlink())
        self.assertEqual((self.folder / "kept.csv").read_bytes(), CARRIED)

    def test_the_same_name_twice(self):
        (self.folder / "other").mkdir()
        (self.folder / "other" / "a.csv").write_bytes(FORMER)
        done = self.carried(str(self.old / "a.csv"), str(self.folder / "other" / "a.csv"), "-o", str(self.new))
        self.assertEqual(done.status, 3)
        self.assertIn("1 written, 0 refused, 1 failed", done.err)

    def test_never_over_its_own_source(self):
        done = self.carried(str(self.old / "a.csv"), "-o", str(self.old), "--force")
        self.assertEqual((done.status, (self.old / "a.csv").read_bytes()), (3, FORMER))
        self.assertIn("this file was read; it is not overwritten", done.err)

    def test_nothing_is_left_where_a_write_fails(self):
        """No temporary file stays where the target cannot be written."""
        (self.new / "a.csv").mkdir(parents=True)
        done = self.carried(str(self.old / "a.csv"), "-o", str(self.new), "--force")
        self.assertEqual((done.status, self.names()), (3, ["a.csv"]))

    def test_a_missing_file_among_others(self):
        done = self.carried(str(self.old / "no.csv"), str(self.old / "a.csv"), "-o", str(self.new))
        self.assertEqual((done.status, self.names()), (3, ["a.csv"]))
        self.assertIn("no.csv: FAILED: ", done.err)

    def test_no_sheets(self):
        empty = self.folder / "empty"
        empty.mkdir()
        done = self.carried(str(empty), "-o", str(self.new))
        self.assertEqual(done.status, 3)
        self.assertIn("the folder has no file that ends in .csv", done.err)

    def test_several_without_a_folder(self):
        done = self.carried(str(self.old))
        self.assertEqual((done.status, done.out), (3, ""))
        self.assertIn("-o FOLDER", done.err)

    def test_back(self):
        sheet = self.folder / "today.csv"
        sheet.write_bytes(SAMPLE)
        other = self.folder / "other.csv"
        other.write_bytes(changed(hz=50))
        done = run("carry-back", str(sheet), str(other), "-o", str(self.new))
        self.assertEqual((done.status, self.names()), (1, ["today.csv"]))
        self.assertEqual((self.new / "today.csv").read_bytes(), FORMER)

    def test_rights_of_what_is_written(self):
        self.carried(str(self.old / "a.csv"), "-o", str(self.new))
        mask = os.umask(0)
        os.umask(mask)
        self.assertEqual(stat.S_IMODE((self.new / "a.csv").stat().st_mode), 0o666 & ~mask)


if __name__ == "__main__":
    unittest.main()
