"""No number of the package is a float: what is shown of the core is whole numbers and decimals made of them."""
from __future__ import annotations

import ast
import unittest

from .common import PYTHON

FOLDERS = ("portfolio", "report", "sheets")
READING = ("amounts.py", "site.py", "spreadsheet.py", "units.py")  # what people write is read exactly, as fractions


class Source(unittest.TestCase):
    def test_no_float(self):
        for path in [path for folder in FOLDERS for path in (PYTHON / "hocsimbur" / folder).glob("*.py")
                     if path.name not in READING]:
            name, tree = path.name, ast.parse(path.read_text(encoding="utf-8"))
            for node in ast.walk(tree):
                with self.subTest(module=name, line=getattr(node, "lineno", 0)):
                    self.assertNotIsInstance(node, ast.Div)
                    self.assertFalse(isinstance(node, ast.Constant) and isinstance(node.value, float))
                    self.assertFalse(isinstance(node, ast.Name) and node.id in ("float", "round", "Decimal", "Fraction"))
                    self.assertFalse(isinstance(node, ast.Attribute) and node.attr in ("sqrt", "pi", "log", "exp", "ceil", "floor"))


if __name__ == "__main__":
    unittest.main()
