"""The calculator judges rows: every changed number, width and verdict is seen."""

import math
import random
import unittest
from fractions import Fraction
from unittest import mock

from tests.calculator import calculator as calc
from tests.calculator.calculator import Pair
from tests.calculator.samples import BARE, DEPTHS, LONG, RODDED, STEP_ONLY, YARD, random_case


class Judging(unittest.TestCase):
    def judged(self, case, row):
        return calc.judge_row(case, row, (3, 6, 12))

    def test_own_rows_are_right(self):
        rng = random.Random(19)
        for case in [YARD, RODDED, BARE, STEP_ONLY, LONG] + [random_case(rng) for _ in range(20)]:
            self.assertEqual(self.judged(case, calc.row_at(case, 12)), [], case)

    def test_each_wrong_number_is_found(self):
        row = calc.row_at(RODDED, 12)
        for place in range(20):  # lower ends are lowered, upper ends raised
            wrong = list(row)
            wrong[place] += 5000 if place % 2 else -5000
            self.assertNotEqual(self.judged(RODDED, wrong), [], place)

    def test_ends_one_unit_on_the_wrong_side(self):
        row = calc.row_at(RODDED, 12)
        for lower in range(4, 20, 2):
            for ends in ((row[lower + 1], row[lower + 1]), (row[lower], row[lower])):
                wrong = list(row)
                wrong[lower : lower + 2] = ends
                complaints = self.judged(RODDED, wrong)
                self.assertTrue(any("misses" in complaint for complaint in complaints))

    def test_widths(self):
        """The greatest allowed whole width passes, one more does not."""
        row = calc.row_at(YARD, 12)
        driving = Fraction(400 * row[5], 10**6) * Fraction("2.272")
        lower = [row[i] for i in range(4, 20, 2)]
        wanted = (
            Fraction(lower[0], 500000) + 2, 1000,
            Fraction(lower[2], 10000) + 10, Fraction(lower[3], 10000) + 10,
            driving / 1540 / 100 + 10, driving / (Fraction(3, 4) * 1540) / 100 + 10,
            Fraction(lower[6], 10000) + 2, Fraction(lower[7], 2000) + 10,
        )
        self.assertEqual(calc.allowed_widths(YARD, row), wanted)
        for i, allowed in enumerate(wanted):
            wide = list(row)
            wide[5 + 2 * i] = wide[4 + 2 * i] + math.floor(allowed)
            self.assertEqual(self.judged(YARD, wide), [])
            wide[5 + 2 * i] += 1
            self.assertTrue(any("width" in complaint for complaint in self.judged(YARD, wide)))

    def test_widths_by_the_upper_current(self):
        """With currents as far apart as they may be, the mesh voltage may be a millivolt wider than by
        the lower current, and no wider.
        """
        case = calc.with_lines(YARD, 2)._replace(
            soil=5000, fault=80000, split=1000, space=2500, xr=40, clear=9, hz=50)
        row = calc.row_at(case, 12)
        row[5] = row[4] + row[4] // 500000 + 2
        by_lower, by_upper = (
            math.floor(calc.driving(case, 2, Fraction(current, 10**6)) / 10 / 100 + 10)
            for current in row[4:6])
        self.assertGreater(by_upper, by_lower)
        at = calc.pair_place("mesh")
        row[at + 1] = row[at] + by_upper
        self.assertEqual(self.judged(case, row), [])
        row[at + 1] += 1
        self.assertEqual([complaint[:11] for complaint in self.judged(case, row)], ["mesh: width"])

    def test_ends_from_nought_to_the_maximum(self):
        row = calc.row_at(YARD, 12)
        idle = row[:2] + [3, calc.conductor_kcmil(YARD, 2**63 - 1)] + [0, 2**63 - 1] * 8
        complaints = self.judged(YARD, idle)
        self.assertEqual([complaint.split(":")[0] for complaint in complaints], list(calc.Ends._fields))

    def test_row_length_and_order(self):
        row = calc.row_at(YARD, 12)
        self.assertNotEqual(self.judged(YARD, row[:-1]), [])
        self.assertNotEqual(self.judged(YARD, row + [0]), [])
        for at in range(4, 20, 2):
            turned = row[:at] + [row[at + 1], row[at]] + row[at + 2 :]
            self.assertTrue(any("above" in complaint for complaint in self.judged(YARD, turned)))

    def test_verdict_follows_from_the_reported_ends(self):
        def verdict(touch, limit, mesh, step):
            ends = (*touch, *limit, *mesh, *step)
            return calc.verdict_of([7, 1, 0, 16, 1, 2, 3, 4, *ends, 1, 2, 10**9, 10**9])
        self.assertEqual(verdict((10, 12), (20, 22), (8, 10), (18, 20)), calc.SAFE)
        self.assertEqual(verdict((10, 12), (20, 22), (8, 11), (18, 20)), calc.UNDECIDED)
        self.assertEqual(verdict((10, 12), (20, 22), (8, 10), (18, 21)), calc.UNDECIDED)
        self.assertEqual(verdict((10, 12), (20, 22), (12, 13), (18, 20)), calc.UNDECIDED)
        self.assertEqual(verdict((10, 12), (20, 22), (13, 14), (18, 20)), calc.UNSAFE)
        self.assertEqual(verdict((10, 12), (20, 22), (8, 10), (22, 24)), calc.UNDECIDED)
        self.assertEqual(verdict((10, 12), (20, 22), (8, 10), (23, 24)), calc.UNSAFE)
        self.assertEqual(verdict((10, 12), (20, 22), (8, 11), (23, 24)), calc.UNSAFE)

    def test_wrong_verdicts_are_found(self):
        for case in (YARD, RODDED, STEP_ONLY):
            row = calc.row_at(case, 12)
            for verdict in {0, 1, 2, 3, 4} - {row[2]}:
                self.assertNotEqual(self.judged(case, row[:2] + [verdict] + row[3:]), [])

    def test_exact_ends_speak_against_a_verdict(self):
        """Rows whose wrong ends go with their wrong verdict."""
        low_mesh = calc.row_at(YARD, 12)
        at = calc.pair_place("mesh")
        low_mesh[at : at + 2] = [1, 2]
        low_mesh[2] = calc.verdict_of(low_mesh)
        self.assertIn("verdict safe, yet an exact voltage is above its limit",
                      self.judged(YARD, low_mesh))
        high_mesh = calc.row_at(RODDED, 12)
        high_mesh[at : at + 2] = [10**9, 10**9 + 1]
        high_mesh[2] = calc.verdict_of(high_mesh)
        self.assertIn("verdict unsafe, yet both exact voltages are within",
                      self.judged(RODDED, high_mesh))

    def exact_verdict_complaints(self, verdict, voltage, limit, which):
        """judge_verdict with made-up exact ends, the other voltage being low."""
        low, high = Pair(1, 2), Pair(98, 99)
        pairs = dict.fromkeys(calc.Ends._fields, low)
        pairs.update(tolerable_touch=high, tolerable_step=high)
        pairs[which] = Pair(*voltage)
        pairs["tolerable_touch" if which == "mesh" else "tolerable_step"] = Pair(*limit)
        row = calc.row_at(YARD, 12)
        row[2] = verdict
        with mock.patch.object(calc, "exact_ends", lambda case, k: calc.Ends(**pairs)):
            return sum("yet" in words for words in calc.judge_verdict(YARD, row, [3]))

    def test_exact_ends_at_their_edges(self):
        for which in ("mesh", "step"):
            for verdict, voltage, limit, complaints in (
                (1, (9, 11), (8, 10), 0), (1, (10, 12), (8, 10), 0), (1, (11, 12), (8, 10), 1),
                (2, (9, 11), (10, 12), 0), (2, (8, 10), (10, 12), 1), (2, (9, 9), (10, 12), 1),
                (3, (11, 12), (8, 10), 0), (3, (8, 10), (10, 12), 0),
            ):
                found = self.exact_verdict_complaints(verdict, voltage, limit, which)
                self.assertEqual(found, complaints, (verdict, voltage, limit, which))

    def test_step_alone_makes_unsafe(self):
        row = calc.row_at(STEP_ONLY, 12)
        pairs = calc.row_pairs(row)
        self.assertEqual(row[2], calc.UNSAFE)
        self.assertLess(pairs.mesh[1], pairs.tolerable_touch[0])

    def test_logarithm(self):
        # ln(22/7) = 1.14513230430300291...
        self.assertEqual(calc.judge_ln(22, 7, 1145132304, 1145132305, DEPTHS), [])
        self.assertEqual(calc.judge_ln(7, 22, -1145132305, -1145132304, DEPTHS), [])
        self.assertEqual(calc.judge_ln(22, 7, 1145132304, 1145132504, DEPTHS), [])
        self.assertEqual(calc.judge_ln(1, 1, 0, 0, DEPTHS), [])
        for lower, upper in ((1145132304, 1145132505), (1145132305, 1145132306),
                             (1145132303, 1145132304), (1145132305, 1145132304)):
            self.assertNotEqual(calc.judge_ln(22, 7, lower, upper, DEPTHS), [])
        self.assertRaises(ValueError, calc.judge_ln, 0, 1, 0, 0, DEPTHS)


if __name__ == "__main__":
    unittest.main()
