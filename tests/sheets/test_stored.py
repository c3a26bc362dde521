"""Compares the stored input of `sheets` with what the modules make, and judges the answers to parts that ask nothing.
test_batch.py, test_summary.py, test_carry.py and test_release.py judge the others.
"""

import unittest
from collections import Counter

from tests.calculator.printed import SHEET_END, sheet_answers
from tests.sheets import stored


class Stored(unittest.TestCase):
    @classmethod
    def setUpClass(cls):
        cls.stored = stored.stored()

    def test_the_parts_are_those_made_and_fit(self):
        text = stored.FILE.read_bytes()
        self.assertEqual(text, stored.text())
        self.assertLess(len(text), stored.MOST_BYTES)

    def test_every_part_is_of_a_kind_or_asks_nothing(self):
        kinds = Counter(map(stored.kind_of, (part for part, _ in self.stored[: -len(stored.unknown())])))
        self.assertEqual(set(kinds), set(stored.KINDS))
        self.assertGreater(min(kinds.values()), 100)

    def test_what_asks_nothing_is_unknown(self):
        last = self.stored[-len(stored.unknown()) :]
        self.assertEqual([part for part, _ in last], stored.unknown())
        self.assertEqual({reported for _, reported in last}, {"unknown\n"})


class Apart(unittest.TestCase):
    """What is printed is split strictly."""

    def test_answers(self):
        asked = b"rows\nx" + SHEET_END + b"\n" + SHEET_END
        self.assertEqual(sheet_answers(asked, "rows\nkept,1\n\n\nunknown\n\n"), ["kept,1\n", "unknown\n"])
        for reported in ("", "rows\nkept,1\n\n", "rows\nkept,1\n\n\nunknown\n", "row\nkept,1\n\n\nunknown\n\n",
                     "\nunknown\n\nrows\nkept,1\n\n", "rows\nkept,1\n\n\nunknown\n\nmore\n\n", "too long\n"):
            with self.assertRaises(ValueError):
                sheet_answers(asked, reported)


if __name__ == "__main__":
    unittest.main()
