"""Judges the rows of a sheet: crates/rows/stdout, which `rt ci rows` compares with what the program
prints for crates/rows/stdin, against the separately written calculator.

    python3 -m unittest discover -s tests
"""

import unittest
from pathlib import Path

from tests.calculator import calculator as calc
from tests.calculator.calculator import Case, Refusal
from tests.calculator.printed import ROW_NAMES, read_rows

ROWS = Path(__file__).parents[2] / "crates" / "rows"
DEPTHS = (3, 6, 9, 12)
LINES = 64  # the most of document 01 before request (h) of document 02

# Examples B.1 and B.2 of IEEE Std 80-2013, Annex B: no rods, and 20 at the perimeter.
B1 = Case(
    80, 1, 400, 2500, 102, 500, 500, 500, 70, 3180, 600, 4, 11, 11, 7000, 500, 100, 0, 0, 0, 2, 60)
B2 = B1._replace(season=2, rods=20, rodlen=7500, place=1)


class Rows(unittest.TestCase):
    @classmethod
    def setUpClass(cls):
        sheet = (ROWS / "stdin").read_bytes()
        cls.names = sheet.split(b"\n")[0].split(b",")
        cls.cases = calc.read_sheet(sheet)
        cls.rows = read_rows((ROWS / "stdout").read_text(encoding="ascii"))

    def row_of(self, case):
        return self.rows[self.cases.index(case)]

    def values(self, name):
        return {getattr(case, name) for case in self.cases}


class Answers(Rows):
    def test_each_line_has_its_row(self):
        self.assertEqual(len(self.cases), LINES)
        self.assertEqual(len(self.rows), LINES)

    def test_every_row_is_right(self):
        wrong = [
            f"{case}: {complaint}"
            for case, row in zip(self.cases, self.rows)
            for complaint in calc.judge_row(case, row, DEPTHS)
        ]
        self.assertEqual([], wrong)

    def test_example_b2(self):
        """Annex B: unsafe without rods; with them touch 840.5 V, Rg 2.75, mesh and step below."""
        bare, rodded = self.row_of(B1), self.row_of(B2)
        self.assertEqual((bare[2], rodded[2]), (calc.UNSAFE, calc.SAFE))
        pairs = calc.row_pairs(rodded)
        self.assertEqual(pairs.tolerable_touch[0] // 100, 8405)
        self.assertEqual(round(pairs.resistance[0] / 10**6, 2), 2.75)


class Coverage(Rows):
    def test_the_columns_are_not_in_the_order_of_the_document(self):
        self.assertNotEqual(self.names, list(calc.NAME_BYTES))
        self.assertEqual(sorted(self.names), sorted(calc.NAME_BYTES))

    def test_bodies_places_metals_counts(self):
        self.assertEqual(self.values("body"), {50, 70})
        self.assertEqual(self.values("place"), {0, 1, 2})
        self.assertEqual(self.values("metal"), set(range(1, 12)))
        for name in calc.COUNTS:
            self.assertEqual(self.values(name), set(range(2, 26)))
        self.assertEqual(self.values("season"), {1, 2, 3, 4})

    def test_frequencies(self):
        """Most yards at 60 Hz, and each at short and long times."""
        hz = [case.hz for case in self.cases]
        self.assertGreater(hz.count(60), hz.count(50))
        for frequency in (50, 60):
            clear = [case.clear for case in self.cases if case.hz == frequency]
            self.assertTrue(min(clear) < 100 and max(clear) > 1000)

    def test_every_yard_is_square(self):
        """As on document 01's sheets; the batch and the questions have the rectangles."""
        self.assertTrue(all(case.across == case.along for case in self.cases))

    def test_bodies_with_places_and_surfaces(self):
        combined = {(case.body, case.place, case.layer == 0) for case in self.cases}
        self.assertEqual(len(combined), 2 * 3 * 2)

    def test_both_ends_of_each_range(self):
        for place, name in enumerate(calc.NAMES):
            ends = {end for span in calc.RANGES[place] for end in span}
            self.assertLessEqual(ends, self.values(name), name)

    def test_surfaces(self):
        self.assertTrue(any(case.layer == 0 for case in self.cases))
        self.assertTrue(any(case.layer > case.soil for case in self.cases))
        self.assertTrue(any(0 < case.layer < case.soil for case in self.cases))

    def test_verdicts(self):
        found = [row[2] for row in self.rows]
        for verdict in (calc.SAFE, calc.UNSAFE, calc.UNDECIDED):
            self.assertGreaterEqual(found.count(verdict), 3)
        hz = {case.hz for case, row in zip(self.cases, self.rows) if row[2] == calc.UNDECIDED}
        self.assertEqual(hz, {50, 60})

    def test_unsafe_by_step_alone(self):
        pairs = [calc.row_pairs(row) for row in self.rows]
        self.assertTrue(any(p.mesh[1] <= p.tolerable_touch[0] and p.step[0] > p.tolerable_step[1]
                            for p in pairs))


class Printed(unittest.TestCase):
    def test_a_refusal(self):
        self.assertEqual(read_rows("refused,5,2,13\n"), Refusal(5, 2, 13))

    def test_other_texts_are_no_answer(self):
        names = ",".join(ROW_NAMES) + "\n"
        for text in ("", "refused,1,0,0", "refused,1,0,0\n\n", "refused,01,0,0\n", "refused,1,0\n",
                     names + "1,2\n", names + "\n", names[:-1], names.upper()):
            with self.assertRaises((ValueError, TypeError)):
                read_rows(text)


if __name__ == "__main__":
    unittest.main()
