"""The exact ends in the calculator: how they come together from depth to depth."""

import math
import random
import unittest
from fractions import Fraction

from tests.calculator import calculator as calc
from tests.calculator.calculator import Pair
from tests.calculator.samples import (
    BARE, DEPTHS, LONG, RECTANGLES, RODDED, STEP_ONLY, YARD, random_case, exact_exp, exact_exp_minus,
    is_wider,
)


class Exactness(unittest.TestCase):
    SLACK = Fraction(1, 10**14)  # doubles near 1 to 40, as math gives them

    def test_depths_start_at_3(self):
        for ask in (lambda: calc.pi_ends(2), lambda: calc.exact_ends(YARD, 2),
                    lambda: calc.root_ends(Fraction(2), 2, 2), lambda: calc.ln_ends(3, 2, 2),
                    lambda: calc.exp_minus_fraction(Fraction(1), 2),
                    lambda: calc.factor_ends(500, 10, 60, 2)):
            self.assertRaises(ValueError, ask)

    def test_pairs_combine(self):
        a, b = Pair(Fraction(-2), Fraction(3)), Pair(Fraction(4), Fraction(5))
        self.assertEqual(a + b, Pair(2, 8))
        self.assertEqual(a + 1, Pair(-1, 4))
        self.assertEqual(a * b, Pair(-10, 15))
        self.assertEqual(-2 * b, Pair(-10, -8))
        self.assertEqual(a / b, Pair(Fraction(-1, 2), Fraction(3, 4)))
        self.assertEqual(1 / b, Pair(Fraction(1, 5), Fraction(1, 4)))
        self.assertEqual(-a, Pair(-3, 2))
        self.assertEqual(b - 1, Pair(3, 4))
        self.assertEqual(b - a, Pair(1, 7))
        self.assertEqual(1 - b, Pair(-4, -3))
        for divisor in (a, Pair(Fraction(0), Fraction(1)), Pair(Fraction(-1), Fraction(0))):
            self.assertRaises(ZeroDivisionError, lambda: b / divisor)

    def test_roots(self):
        for k in (3, 7, 12):
            for degree in (2, 3, 10, 25):
                for value in (Fraction(1, 3), Fraction(2), Fraction(20), Fraction(2500), Fraction(1, 9)):
                    pair = calc.root_ends(value, degree, k)
                    self.assertEqual((pair.lower * 10**k).denominator, 1)
                    self.assertEqual(pair.upper - pair.lower, Fraction(1, 10**k))
                    self.assertLessEqual(pair.lower**degree, value)
                    self.assertGreater(pair.upper**degree, value)

    def test_root_of_a_pair(self):
        pair = calc.root_pair(Pair(Fraction(2), Fraction(4)), 2, 3)
        self.assertEqual(pair, (Fraction("1.414"), Fraction("2.001")))

    def test_outward(self):
        step = Fraction(1, calc.OUTWARD)
        self.assertLessEqual(step, Fraction(1, 10**40))
        third = Fraction(1, 3)
        pair = calc.outward(Pair(-third, third))
        self.assertTrue(all((end / step).denominator == 1 for end in pair))
        self.assertTrue(-third - step < pair.lower < -third and third < pair.upper < third + step)
        for end in (Fraction(-7, 4), Fraction(0), Fraction(1, 2), Fraction(8)):
            self.assertEqual(calc.outward(Pair(end, end)), (end, end))

    def test_whole_roots(self):
        for degree in (2, 3, 7, 25):
            for root in (0, 1, 2, 3, 10, 12345):
                power = root**degree
                self.assertEqual(calc.whole_root(power, degree), root)
                self.assertEqual(calc.whole_root((root + 1) ** degree - 1, degree), root)

    def test_exact_root_is_the_lower_end(self):
        self.assertEqual(calc.root_ends(Fraction(1, 4), 2, 3), Pair(Fraction(500, 1000), Fraction(501, 1000)))
        self.assertEqual(calc.root_ends(Fraction(16), 2, 3).lower, 4)

    def test_pi(self):
        for k in DEPTHS:
            pair = calc.pi_ends(k)
            self.assertLess(pair.lower, pair.upper)
            self.assertLess(pair.lower - self.SLACK, Fraction(math.pi))
            self.assertLess(Fraction(math.pi), pair.upper + self.SLACK)
            self.assertLess(pair.upper - pair.lower, Fraction(1, 25 ** (2 * k)))

    def test_pi_at_depth_3_by_its_terms(self):
        fifth = [Fraction(1, 5), Fraction(-1, 3 * 5**3), Fraction(1, 5 * 5**5), Fraction(-1, 7 * 5**7),
                 Fraction(1, 9 * 5**9), Fraction(-1, 11 * 5**11), Fraction(1, 13 * 5**13)]
        other = [Fraction(1, 239), Fraction(-1, 3 * 239**3), Fraction(1, 5 * 239**5),
                 Fraction(-1, 7 * 239**7), Fraction(1, 9 * 239**9), Fraction(-1, 11 * 239**11),
                 Fraction(1, 13 * 239**13)]
        self.assertEqual(calc.pi_ends(3).lower, 16 * sum(fifth[:6]) - 4 * sum(other))
        self.assertEqual(calc.pi_ends(3).upper, 16 * sum(fifth) - 4 * sum(other[:6]))

    def test_ln_at_depth_3_by_its_terms(self):
        def series(z):
            lower = 2 * (z + z**3 / 3 + z**5 / 5)
            return lower, lower + 2 * z**7 / (7 * (1 - z**2))
        two, rest = series(Fraction(1, 3)), series(Fraction(1, 9))  # 10 = 2^3 * 5/4
        ten = (3 * two[0] + rest[0], 3 * two[1] + rest[1])
        self.assertEqual(calc.ln_ends(10, 1, 3), ten)
        self.assertEqual(calc.ln_ends(1, 10, 3), (-ten[1], -ten[0]))
        self.assertEqual(calc.ln_ends(2, 1, 3), two)
        self.assertEqual(calc.ln_ends(7, 7, 3), (0, 0))

    def test_ln_against_doubles(self):
        rng = random.Random(7)
        asked = [(1, 10**15), (10**15, 1), (2**49, 1), (2**49 - 1, 1), (1, 2), (10**15, 10**15 - 1)]
        asked += [(rng.randint(1, 10**rng.randint(1, 15)), rng.randint(1, 10**rng.randint(1, 15)))
                  for _ in range(60)]
        for p, q in asked:
            value = Fraction(math.log(Fraction(p, q)) if p < 2 * q and q < 2 * p
                             else math.log(p) - math.log(q))
            for k in (3, 6, 12):
                pair = calc.ln_ends(p, q, k)
                self.assertLessEqual(pair.lower - 2 * self.SLACK, value)
                self.assertLessEqual(value, pair.upper + 2 * self.SLACK)
            self.assertLess(pair.upper - pair.lower, Fraction(1, 10**11))

    def test_ln_of_a_pair(self):
        pair = calc.ln_pair(Pair(Fraction(1, 2), Fraction(3)), 5)
        self.assertEqual(pair, (-calc.ln_ends(2, 1, 5).upper, calc.ln_ends(3, 1, 5).upper))

    def test_exp_halvings_are_the_least(self):
        above, nearly = Fraction(1, 10**9), 1 - Fraction(1, 10**9)
        for q, j in ((Fraction(0), 0), (above, 0), (Fraction(1, 2), 0), (Fraction(1, 2) + above, 1),
                     (nearly, 1), (Fraction(1), 1), (1 + above, 2), (Fraction(2), 2), (Fraction(5), 4),
                     (Fraction(8), 4), (8 + above, 5), (Fraction(2262), 13)):
            self.assertEqual(calc.exp_halvings(q), j)
            self.assertLessEqual(2 * q, 2**j)
            self.assertFalse(j and 2 * q <= 2 ** (j - 1))

    def test_exp_at_depth_3_by_its_terms(self):
        tenths = calc.exp_small(Fraction(3, 10), 3)  # 1 + 0.3 + 0.045, and 2 * 0.027 / 6 more
        self.assertEqual(tenths, (Fraction("1.345"), Fraction("1.354")))
        lower = 1 + Fraction(1, 2) + Fraction(1, 8)
        upper = lower + 2 * Fraction(1, 8) / 6
        for q, power in ((Fraction(1, 2), 1), (Fraction(1), 2), (Fraction(2), 4), (Fraction(4), 8)):
            self.assertEqual(exact_exp(q, 3), (lower**power, upper**power))
            ends = calc.exp_minus_fraction(q, 3)
            self.assertTrue(is_wider(ends, (1 / upper**power, 1 / lower**power)))
        self.assertEqual(calc.exp_minus_fraction(Fraction(0), 3), (1, 1))

    def test_exp_at_depth_12_has_twelve_terms(self):
        y = Fraction(1, 3)
        terms = [y**i / math.prod(range(1, i + 1)) for i in range(13)]
        self.assertEqual(calc.exp_small(y, 12), (sum(terms[:12]), sum(terms[:12]) + 2 * terms[12]))

    def test_exp_against_doubles(self):
        rng = random.Random(13)
        asked = [Fraction(1, 2), Fraction(1), Fraction(5), Fraction("0.14137"), Fraction("15.606"),
                 Fraction(1, 10**9), Fraction(40)]
        asked += [Fraction(rng.randint(1, 10**9), rng.choice((10**7, 10**8, 10**9, 3 * 10**8)))
                  for _ in range(20)]
        for q in asked:
            value = Fraction(math.exp(-q))
            for k in (3, 6, 12):
                pair = calc.exp_minus_fraction(q, k)
                self.assertLess(pair.lower, pair.upper)
                self.assertLessEqual(pair.lower * (1 - 10 * self.SLACK), value)
                self.assertLessEqual(value, pair.upper * (1 + 10 * self.SLACK))
            # the rest at depth 12 is at most 2 / (2^12 * 12!) of e^y, for each of 2^j factors
            parts = 2 ** calc.exp_halvings(q)
            self.assertLess(pair.upper - pair.lower, pair.lower * parts * Fraction(11, 10**13))

    def test_exp_is_rounded_outward_at_each_squaring(self):
        """Up to thirteen squarings; never narrower than without rounding."""
        for q in (Fraction(1, 7), Fraction(3, 4), Fraction(5, 3), Fraction(10), Fraction(33),
                  Fraction(100), Fraction(600), Fraction(2262)):
            for k in (3, 4):
                exact = exact_exp(q, k)
                self.assertTrue(is_wider(calc.exp_minus_fraction(q, k), (1 / exact.upper, 1 / exact.lower)))

    def test_exp_of_a_large_number(self):
        """Below one step the ends are 0 and one step."""
        for k in (3, 12):
            self.assertEqual(calc.exp_minus_fraction(Fraction(2262), k), (0, Fraction(1, calc.OUTWARD)))

    def test_exp_of_minus_a_pair_is_rounded_outward(self):
        near = Fraction(1, 3 * calc.OUTWARD)
        for lower, upper in ((Fraction(2, 7), Fraction(1, 3)), (Fraction(1, 2) - near, Fraction(1, 2)),
                             (Fraction(1), Fraction(8) - near), (Fraction(1, 3), Fraction(1) + near)):
            q = Pair(lower, upper)
            for k in DEPTHS:
                self.assertTrue(is_wider(calc.exp_minus(q, k), exact_exp_minus(q, k)))

    def test_exp_of_minus_a_pair_where_rounding_changes_the_halvings(self):
        """Just above 8 the lower end is rounded down to 8, with one halving fewer."""
        q = Pair(8 + Fraction(1, 3 * calc.OUTWARD), Fraction(11))
        for k in DEPTHS:
            pair, exact = calc.exp_minus(q, k), exact_exp_minus(q, k)
            self.assertLessEqual(pair.lower, exact.lower)
            self.assertGreaterEqual(pair.upper, exact.upper)

    def test_exp_upper_end_falls_where_the_halvings_change(self):
        """So a pair within another does not give an exponential within the other's."""
        half, above = Fraction(1, 2), Fraction(1, 2) + Fraction(1, 10**15)
        for k in DEPTHS:
            at, past = exact_exp(half, k), exact_exp(above, k)
            self.assertGreater(at.upper, past.upper)
            self.assertLess(at.lower, past.upper)
            self.assertLess(at.lower, past.lower)

    def test_depths_nest(self):
        """No lower end of any depth is above an upper end of any other."""
        rng = random.Random(11)
        rectangles = [case._replace(place=place, rods=20 if place else 0, rodlen=7500 if place else 0)
                      for case in (LONG, *RECTANGLES) for place in (0, 1, 2)]
        cases = [YARD, RODDED, BARE, STEP_ONLY, *rectangles, *(random_case(rng) for _ in range(25))]
        for case in cases:
            at = [calc.exact_ends(case, k) for k in (3, 4, 5, 7, 9, 12)]
            for pairs in zip(*at):
                self.assertLessEqual(max(p.lower for p in pairs), min(p.upper for p in pairs))
        for asked in ((22, 7), (1, 10**15), (5000, 7)):
            pairs = [calc.ln_ends(*asked, k) for k in DEPTHS]
            self.assertLessEqual(max(p.lower for p in pairs), min(p.upper for p in pairs))
        for q in (Fraction(1, 7), Fraction(1, 2), Fraction(500001, 10**6), Fraction(1), Fraction(22, 7),
                  Fraction("15.6")):
            pairs = [calc.exp_minus_fraction(q, k) for k in DEPTHS]
            self.assertLessEqual(max(p.lower for p in pairs), min(p.upper for p in pairs))


if __name__ == "__main__":
    unittest.main()
