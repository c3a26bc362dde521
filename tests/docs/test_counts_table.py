"""The written table of the counts is what its script writes."""

import shutil
import subprocess
import sys
import tempfile
import unittest
from pathlib import Path

ROOT = Path(__file__).parents[2]
SCRIPT = Path("tools") / "counts_table.py"
CRATE = Path("crates") / "by_counts"
TABLE = CRATE / "src" / "entries.rt"


def check(root):
    """The script's exit status and the files that it names."""
    run = subprocess.run((sys.executable, root / SCRIPT, "--check"), capture_output=True, text=True)
    return run.returncode, run.stderr.split()


class WrittenTable(unittest.TestCase):
    def test_files_are_as_written(self):
        self.assertEqual(check(ROOT), (0, []))

    def test_another_number_is_reported(self):
        with tempfile.TemporaryDirectory() as folder:
            copy = Path(folder)
            (copy / "tools").mkdir()
            shutil.copy(ROOT / SCRIPT, copy / SCRIPT)
            shutil.copytree(ROOT / CRATE, copy / CRATE)
            self.assertEqual(check(copy), (0, []))
            text = (copy / TABLE).read_text(encoding="utf-8")
            (copy / TABLE).write_text(text.replace("Entry(20000000, 0,", "Entry(20000001, 0,"), encoding="utf-8")
            self.assertEqual(check(copy), (1, [str(copy / TABLE)]))


if __name__ == "__main__":
    unittest.main()
