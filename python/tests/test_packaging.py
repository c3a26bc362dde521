"""The package as it is handed out: the wheel in a clean environment, without a network; and what Python it needs."""
from __future__ import annotations

import ast
import os
import pathlib
import re
import subprocess
import sys
import tempfile
import unittest
import venv
import zipfile

import make_wheel
from hocsimbur import __version__, core

from .common import PYTHON, ROOT

BUILT = ROOT / "target" / "host" / core.library_name("linux")
STANDARD = {
    "__future__", "argparse", "bisect", "collections", "concurrent", "contextlib", "csv", "ctypes", "dataclasses", "datetime", "decimal", "difflib", "enum", "fractions", "functools",
    "hashlib", "html", "importlib", "io", "itertools", "math", "operator", "os", "pathlib", "re", "shlex", "stat", "sys", "tempfile", "time", "typing",
}


def library() -> pathlib.Path:
    """The library that the other tests ask."""
    return pathlib.Path(os.environ.get("HOCSIMBUR_LIBRARY") or BUILT)


class Wheel(unittest.TestCase):
    @classmethod
    def setUpClass(cls):
        kept = tempfile.TemporaryDirectory()
        cls.addClassCleanup(kept.cleanup)
        cls.folder = pathlib.Path(kept.name)
        cls.wheel = make_wheel.build(__version__, "linux-x86_64", library(), cls.folder / "wheel")
        venv.create(cls.folder / "venv", symlinks=True)
        cls.bin = cls.folder / "venv" / "bin"
        subprocess.run([sys.executable, "-m", "pip", "--quiet", "--disable-pip-version-check", "--python", str(cls.bin / "python"), "install",
                        "--no-index", str(cls.wheel)], check=True, env=cls.clean(), capture_output=True)

    @classmethod
    def clean(cls):
        """An environment that names no library and no other package."""
        return {key: value for key, value in os.environ.items() if key not in ("HOCSIMBUR_LIBRARY", "PYTHONPATH", "LD_LIBRARY_PATH")}

    def installed(self, *arguments: str):
        return subprocess.run([str(self.bin / "hocsimbur"), *arguments], cwd=self.folder, env=self.clean(), capture_output=True, text=True,
                              check=False)

    def test_verdicts(self):
        done = self.installed("verdict", "--csv", str(ROOT / "crates" / "verdict" / "stdin"))
        self.assertEqual((done.returncode, done.stdout), (2, (ROOT / "crates" / "verdict" / "stdout").read_text()), done.stderr)

    def test_report(self):
        done = self.installed("report", str(ROOT / "tests" / "sample.csv"), "--date", "1 July 2026", "-o", "july.html")
        self.assertEqual(done.returncode, 2, done.stderr)
        self.assertIn("1 July 2026", (self.folder / "july.html").read_text(encoding="utf-8"))

    def test_the_library_inside_is_asked(self):
        asked = "import hocsimbur, hocsimbur.core as core; core.version(); print(core._asked.library._name)"
        done = subprocess.run([str(self.bin / "python"), "-c", asked], cwd=self.folder, env=self.clean(), capture_output=True, text=True, check=True)
        self.assertTrue(done.stdout.startswith(str(self.folder.resolve() / "venv")), done.stdout)

    def test_the_same_bytes(self):
        again = make_wheel.build(__version__, "linux-x86_64", library(), self.folder / "again")
        self.assertEqual(again.read_bytes(), self.wheel.read_bytes())

    def test_metadata(self):
        with zipfile.ZipFile(self.wheel) as archive:
            text = archive.read(f"hocsimbur-{__version__}.dist-info/METADATA").decode()
            licence = archive.read(f"hocsimbur-{__version__}.dist-info/LICENSE").decode()
        head, _, description = text.partition("\n\n")
        self.assertIn("License: all rights reserved", head)
        self.assertIn("Description-Content-Type: text/markdown", head)
        self.assertEqual(description, (PYTHON / "README.md").read_text(encoding="utf-8"))
        self.assertEqual(licence, (ROOT / "LICENSE").read_text(encoding="utf-8"))

    def test_as_a_library(self):
        code = "import hocsimbur; print(hocsimbur.soil([(1, 10), (2, 3), (3, 1)]).soil)"
        done = subprocess.run([str(self.bin / "python"), "-c", code], cwd=self.folder, env=self.clean(), capture_output=True, text=True, check=True)
        self.assertEqual(done.stdout, "40\n")

    def test_every_module_is_inside(self):
        with zipfile.ZipFile(self.wheel) as archive:
            self.assertIsNone(archive.testzip())
            names = set(archive.namelist())
        self.assertLessEqual({path.relative_to(PYTHON).as_posix() for path in (PYTHON / "hocsimbur").rglob("*.py")} | {"hocsimbur/py.typed"}, names)
        self.assertIn(f"hocsimbur/{core.library_name(sys.platform)}", names)

    def test_other_platforms(self):
        """The tag and the library's name are the platform's, and the package looks for that name there."""
        for platform, system, tag in (("linux-aarch64", "linux", "py3-none-linux_aarch64"), ("windows-x86_64", "win32", "py3-none-win_amd64")):
            wheel = make_wheel.build(__version__, platform, library(), self.folder / platform)
            self.assertTrue(wheel.name.endswith(f"-{tag}.whl"), wheel.name)
            with zipfile.ZipFile(wheel) as archive:
                self.assertIn(f"hocsimbur/{core.library_name(system)}", archive.namelist())
                self.assertIn(f"Tag: {tag}\n", archive.read(f"hocsimbur-{__version__}.dist-info/WHEEL").decode())


class Sources(unittest.TestCase):
    """What holds of every module."""

    def sources(self):
        return [(path, path.read_text(encoding="utf-8")) for path in sorted((PYTHON / "hocsimbur").rglob("*.py"))]

    def test_python_3_9_reads_them(self):
        for path, text in self.sources():
            ast.parse(text, path.name, feature_version=(3, 9))
            self.assertTrue("def " not in text or "from __future__ import annotations" in text, path.name)

    def test_the_standard_library_alone(self):
        for path, text in self.sources():
            for node in ast.walk(ast.parse(text)):
                names = [one.name for one in node.names] if isinstance(node, ast.Import) else \
                    [node.module] if isinstance(node, ast.ImportFrom) and not node.level else []
                for name in names:
                    if (path.name, name) != ("spreadsheet.py", "openpyxl"):
                        self.assertIn(name.split(".")[0], STANDARD, path.name)

    def test_no_private_name_is_imported(self):
        for path, text in self.sources():
            for node in ast.walk(ast.parse(text)):
                if isinstance(node, ast.ImportFrom) and node.level:
                    for one in node.names:
                        self.assertFalse(one.name.startswith("_") and one.name != "__version__", f"{path.name}: {one.name}")

    def test_packages_are_in_layers(self):
        """Sheets know nothing of portfolios, portfolios nothing of reports, and nothing knows the command but itself."""
        above = {"sheets": {"portfolio", "report", "command"}, "portfolio": {"report", "command"}, "report": {"command"}}
        for path, text in self.sources():
            for node in ast.walk(ast.parse(text)):
                if isinstance(node, ast.ImportFrom) and node.level == 2:
                    named = {node.module.split(".")[0]} if node.module else {one.name for one in node.names}
                    self.assertFalse(named & above.get(path.parent.name, set()), f"{path.parent.name}/{path.name}: {named}")

    def test_lines(self):
        """No line is over 140 characters outside strings; style.py and help_texts.py are strings alone."""
        for path, text in self.sources():
            if path.name in ("style.py", "help_texts.py"):
                continue
            for number, line in enumerate(text.split("\n"), 1):
                self.assertTrue(len(line) <= 140 or '"' in line or "'" in line, f"{path.name}, line {number}")

    def test_version_of_the_library(self):
        self.assertEqual(core.version(), __version__)


if __name__ == "__main__":
    unittest.main()
