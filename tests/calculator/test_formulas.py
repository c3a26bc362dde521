"""The formulas in the calculator: the decrement factor, the conductor size, times, rectangles and counts, against doubles."""

import itertools
import math
import random
import unittest
from fractions import Fraction
from unittest import mock

from tests.calculator import calculator as calc
from tests.calculator.samples import (
    BARE, COUNTS, DEPTHS, LONG, RECTANGLES, RODDED, ROUNDED, STEP_ONLY, YARD, random_case, is_wider,
    clear_caches,
)
from tests.questions.questions import TABLE_10, TABLE_10_XR


class Decrement(unittest.TestCase):
    """Equation 84 of IEEE Std 80, request (d) of document 02."""

    TRIPLES = tuple(itertools.product(
        (9, 10, 49, 50, 99, 100, 333, 500, 2999, 3000), (1, 2, 10, 23, 39, 40), (50, 60)))

    @staticmethod
    def double(clear, xr, hz):
        ta, tf = xr / (2 * math.pi * hz), clear / 1000
        return math.sqrt(1 + ta / tf * -math.expm1(-2 * tf / ta))

    def test_table_10(self):
        """The eight rows from 50 ms on at 60 Hz: Df to the nearest thousandth."""
        entries = [(clear, xr, 60, Fraction(entry)) for clear, row in TABLE_10
                   for xr, entry in zip(TABLE_10_XR, row)]
        self.assertEqual(len(entries), 32)
        for clear, xr, hz, entry in entries:
            for k in (6, 9, 12):
                for end in calc.factor_ends(clear, xr, hz, k):
                    self.assertLessEqual(abs(end - entry), Fraction(1, 2000), (clear, xr))

    def test_the_first_row_of_table_10_is_for_half_a_cycle(self):
        for xr, entry in zip(TABLE_10_XR, ("1.576", "1.648", "1.675", "1.688")):
            for end in calc.factor_ends(Fraction(1000, 120), xr, 60, 12):
                self.assertLessEqual(abs(end - Fraction(entry)), Fraction(1, 2000), xr)

    def test_time_constant_and_exponent(self):
        pi = calc.pi_ends(3)
        self.assertEqual(calc.time_constant(10, 60, 3), (10 / (120 * pi.upper), 10 / (120 * pi.lower)))
        # 2 * 0.1 s * 120 pi / 10
        exponent = calc.factor_exponent(100, 10, 60, 3)
        self.assertEqual(exponent, (Fraction("2.4") * pi.lower, Fraction("2.4") * pi.upper))

    def test_at_depth_3_by_its_terms(self):
        """100 ms, X/R 10, 60 Hz: 2tf/Ta is 7.54, four halvings."""
        pi = calc.pi_ends(3)
        least, greatest = Fraction("2.4") * pi.lower / 16, Fraction("2.4") * pi.upper / 16
        self.assertTrue(Fraction(1, 4) < least < greatest < Fraction(1, 2))
        e_lower = 1 / (1 + greatest + greatest**2 / 2 + 2 * greatest**3 / 6) ** 16
        e_upper = 1 / (1 + least + least**2 / 2) ** 16
        # Ta/tf is 10 / (2 pi * 60) / 0.1 s
        lower = 1 + 100 / (120 * pi.upper) * (1 - e_upper)
        upper = 1 + 100 / (120 * pi.lower) * (1 - e_lower)
        wanted = (Fraction(math.isqrt(math.floor(lower * 10**6)), 1000),
                  Fraction(math.isqrt(math.floor(upper * 10**6)) + 1, 1000))
        self.assertEqual(calc.factor_ends(100, 10, 60, 3), wanted)

    def test_against_doubles(self):
        rng = random.Random(84)
        triples = self.TRIPLES + tuple(
            (rng.randint(9, 3000), rng.randint(1, 40), rng.choice((50, 60))) for _ in range(60))
        for triple in triples:
            value = Fraction(self.double(*triple))
            for k in (3, 6, 12):
                lower, upper = calc.factor_ends(*triple, k)
                self.assertTrue(1 <= lower <= value + Fraction(1, 10**14), triple)
                self.assertLessEqual(value - Fraction(1, 10**14), upper, triple)
            self.assertLessEqual(upper - lower, Fraction(3, 10**12), triple)

    def test_depths_nest(self):
        for triple in self.TRIPLES:
            pairs = [calc.factor_ends(*triple, k) for k in (3, 4, 5, 7, 9, 12)]
            self.assertLessEqual(max(p.lower for p in pairs), min(p.upper for p in pairs))

    def test_least_and_greatest(self):
        for k, least, greatest in ((12, "1.000441999382", "1.692649214458"), (3, "1", "1.695")):
            ends = {triple: calc.factor_ends(*triple, k) for triple in self.TRIPLES}
            self.assertEqual(ends[3000, 1, 60].lower, Fraction(least))
            self.assertEqual(ends[9, 40, 50].upper, Fraction(greatest))
            self.assertEqual(min(pair.lower for pair in ends.values()), Fraction(least))
            self.assertEqual(max(pair.upper for pair in ends.values()), Fraction(greatest))

    def test_finer_rounding_gives_the_same_ends(self):
        triples = [(*triple, k) for triple in self.TRIPLES[::3] for k in (3, 12)]
        coarse = [calc.factor_ends(*triple) for triple in triples]
        clear_caches()
        with mock.patch.object(calc, "OUTWARD", 10**90):
            fine = [calc.factor_ends(*triple) for triple in triples]
        clear_caches()
        self.assertEqual(coarse, fine)

    def test_halvings(self):
        found = {calc.exp_halvings(calc.factor_exponent(*triple, 3).lower) for triple in
                 itertools.product((9, 20, 50, 100, 200, 500, 1000, 3000), (1, 2, 10, 40), (50, 60))}
        self.assertEqual(found, set(range(14)))

    def test_judged_alone(self):
        # Df of 500 ms, X/R 40, 60 Hz is 1.10099476194..
        triple = (500, 40, 60)
        for lower, upper in ((1100994761, 1100994762), (1100994000, 1100995000),
                             (1100993762, 1100994762), (1100994761, 1100995761)):
            self.assertEqual(calc.judge_factor(*triple, lower, upper, DEPTHS), [])
        for lower, upper in ((1100993761, 1100994762), (1100994761, 1100995762), (0, 2**63 - 1),
                             (1100994762, 1100994763), (1100994760, 1100994761),
                             (1100994762, 1100994761), (10**9, 10**9), (1101000000, 1101000000)):
            self.assertTrue(calc.judge_factor(*triple, lower, upper, DEPTHS))


class ConductorSize(unittest.TestCase):
    ONE = 10**9  # a factor of one, in billionths

    # With a factor of one: at 50,000 A, 1000 ms the size is 50 * Kf, rounded up;
    # at 80,000 A, 3000 ms it is 138.564.. * Kf, so that each hundredth of Kf shows.
    AT_50_KA_1_S = (350, 353, 589, 523, 603, 732, 863, 920, 736, 1448, 1503)
    AT_80_KA_3_S = (970, 979, 1633, 1448, 1672, 2029, 2392, 2549, 2040, 4013, 4164)

    def test_every_metal(self):
        for fault, ms, sizes in ((50000, 1000, self.AT_50_KA_1_S),
                                 (80000, 3000, self.AT_80_KA_3_S)):
            for metal, kcmil in enumerate(sizes, start=1):
                case = YARD._replace(fault=fault, metal=metal, wire=ms)
                self.assertEqual(calc.conductor_kcmil(case, self.ONE), kcmil, (fault, metal))

    def test_the_factor_enters_and_split_and_clear_do_not(self):
        case = YARD._replace(fault=10000, split=1, clear=9, wire=90)
        # 10 kA * 1.515 * 7.00 * sqrt(0.09) = 31.815
        for same in (case, case._replace(split=1000), case._replace(clear=3000)):
            self.assertEqual(calc.conductor_kcmil(same, 1515 * 10**6), 32)

    def test_exactly_whole_and_a_billionth_more(self):
        """1 kA * 7.00 * sqrt(1 s) is 7 kcmil."""
        case = YARD._replace(fault=1000, wire=1000)
        self.assertEqual(calc.conductor_kcmil(case, self.ONE), 7)
        self.assertEqual(calc.conductor_kcmil(case, self.ONE + 1), 8)
        self.assertEqual(calc.conductor_kcmil(case._replace(fault=500), 2 * self.ONE), 7)

    def test_smallest_not_below(self):
        rng = random.Random(5)
        for _ in range(200):
            case, upper = random_case(rng), rng.randint(self.ONE, 1692650000)
            size, square = calc.conductor_kcmil(case, upper), calc.size_squared(case, upper)
            self.assertGreaterEqual(size**2, square)
            self.assertLess((size - 1) ** 2, square)

    def test_a_row_is_judged_by_its_own_upper_end(self):
        """4594 A, 1000 ms: 33 kcmil with the next billionth above Df, 34 with a later one."""
        case = YARD._replace(fault=4594, wire=1000)
        narrow = calc.row_at(case, 12)
        upper = calc.pair_place("factor") + 1
        wide = list(narrow)
        wide[upper] = narrow[upper - 1] + 1000
        self.assertEqual(narrow[3], 33)
        for row, size, other in ((narrow, 33, 34), (wide, 34, 33)):
            row[3] = size
            self.assertEqual(calc.judge_row(case, row, DEPTHS), [])
            row[3] = other
            self.assertEqual(calc.judge_row(case, row, DEPTHS), [f"kcmil is {other}, not {size}"])


class Clocks(unittest.TestCase):
    """Three times that differ: each number reads its own, as computed by hand."""

    # Shock 1000 ms and bare soil 100 as in document 01; clear 100 ms with X/R 40, at which Table 10
    # has Df 1.378.
    CASE = BARE._replace(shock=1000, clear=100, wire=250, fault=10000, split=600, xr=40)

    def test_the_names_in_their_place(self):
        self.assertEqual(calc.CLOCKS, ("shock", "clear", "wire"))
        self.assertEqual(calc.NAMES[5:8], calc.CLOCKS)
        self.assertEqual(calc.COLUMN_COUNT, 22)
        self.assertEqual(calc.NAMES[-1], "hz")

    def test_each_number_by_its_own_clock(self):
        row = calc.row_at(self.CASE, 12)
        pairs = calc.row_pairs(row)
        self.assertEqual([round(end, -6) for end in pairs.factor], [1378 * 10**6] * 2)
        # 10,000 A * 0.6 * Df
        self.assertEqual([round(end, -7) for end in pairs.current], [8270 * 10**6] * 2)
        # 10 kA * 1.378 * 7.00 * sqrt(0.25) = 48.2
        self.assertEqual(row[3], 49)
        for pair, volts in ((pairs.tolerable_touch, 133400), (pairs.tolerable_step, 185600)):
            self.assertTrue(pair[0] <= volts <= pair[1] < pair[0] + 3)

    def test_voltages_and_rise_follow_the_clear_time_alone(self):
        """They are in proportion to the current."""
        ends = calc.exact_ends(self.CASE, 12)
        late = calc.exact_ends(self.CASE._replace(clear=500), 12)
        self.assertGreater(ends.current.lower, late.current.upper)
        for name in ("mesh", "step", "rise"):
            shares = (
                (end / current for end, current in zip(getattr(some, name), some.current))
                for some in (ends, late))
            self.assertEqual(*map(tuple, shares))
        for name in ("tolerable_touch", "tolerable_step", "resistance"):
            self.assertEqual(getattr(ends, name), getattr(late, name))
        other = calc.exact_ends(self.CASE._replace(shock=9, wire=3000), 12)
        for name in ("current", "factor", "mesh", "step", "resistance", "rise"):
            self.assertEqual(getattr(ends, name), getattr(other, name))

    def test_which_numbers_each_clock_changes(self):
        row = calc.row_at(self.CASE, 12)
        for clock, places in (("shock", {8, 9, 10, 11}), ("clear", {*range(3, 8), *range(12, 16), 18, 19}),
                              ("wire", {3})):
            changed = calc.row_at(self.CASE._replace(**{clock: 3000}), 12)
            found = {i for i, (a, b) in enumerate(zip(row, changed)) if a != b}
            self.assertEqual(found - {2}, places, clock)  # the verdict aside

    def test_the_frequency_changes_what_the_clear_time_does(self):
        changed = calc.row_at(self.CASE._replace(hz=50), 12)
        found = {i for i, (a, b) in enumerate(zip(calc.row_at(self.CASE, 12), changed)) if a != b}
        self.assertEqual(found - {2}, {*range(3, 8), *range(12, 16), 18, 19})

    def test_one_clock_read_for_another_is_found(self):
        for read, meant in itertools.permutations(calc.CLOCKS, 2):
            wrong = self.CASE._replace(**{meant: getattr(self.CASE, read)})
            self.assertNotEqual(calc.judge_row(self.CASE, calc.row_at(wrong, 12), (12,)), [])

    def test_widths_by_their_clocks(self):
        row = calc.row_at(self.CASE, 12)
        pairs, widths = calc.row_pairs(row), calc.allowed_widths(self.CASE, row)
        self.assertEqual(widths.tolerable_touch, Fraction(pairs.tolerable_touch[0], 10000) + 10)
        # rho * Ki * IG / LT with the upper current of the clear time
        upper = Fraction(pairs.current[1], 10**6)
        self.assertEqual(widths.mesh, 100 * upper * Fraction("2.272") / 1540 / 100 + 10)


def double_values(case):
    """The eight quantities in doubles, straight from the formulas of IEEE Std 80."""
    rho = case.soil
    big_d, h, d = case.space / 1000, case.depth / 1000, case.dia / 10000
    lx, ly = (case.across - 1) * big_d, (case.along - 1) * big_d
    area, lp = lx * ly, 2 * (lx + ly)
    lc, lr = case.across * ly + case.along * lx, case.rods * case.rodlen / 1000
    n = 2 * lc / lp * math.sqrt(lp / (4 * math.sqrt(area)))
    factor = Decrement.double(case.clear, case.xr, case.hz)
    current = case.fault * case.split / 1000 * factor
    q = rho
    if case.layer:
        hs = case.thick / 1000
        cs = 1 - 0.09 * (1 - rho / case.layer) / (2 * hs + 0.09)
        q = cs * case.layer
    per_root_t = {50: 0.116, 70: 0.157}[case.body] / math.sqrt(case.shock / 1000)
    g = (big_d + 2 * h) * (big_d**2 + 4 * h**2) / (16 * h * d * big_d)
    kii = 1 if case.place == 1 else (2 * n) ** (-2 / n)
    km = (math.log(g) + kii / math.sqrt(1 + h) * math.log(8 / math.pi / (2 * n - 1))) / 2 / math.pi
    ks = (1 / (2 * h) + 1 / (big_d + h) + (1 - 0.5 ** (n - 2)) / big_d) / math.pi
    lm = lc + lr
    if case.place == 1:
        lm = lc + (1.55 + 1.22 * case.rodlen / 1000 / math.hypot(lx, ly)) * lr
    resistance = rho * (1 / (lc + lr) + (1 + 1 / (1 + h * math.sqrt(20 / area))) / math.sqrt(20 * area))
    driving = rho * (0.644 + 0.148 * n) * current
    return (
        current, factor, (1000 + 1.5 * q) * per_root_t, (1000 + 6 * q) * per_root_t,
        driving * km / lm, driving * ks / (0.75 * lc + 0.85 * lr),
        resistance, current * resistance,
    )


class Formulas(unittest.TestCase):
    def test_against_doubles(self):
        """Each double lies within 1e-9 of both ends: at depth 12 the roots
        leave 1e-11 at most (the root of 9 ms is near 0.1), doubles 1e-13.
        """
        rng = random.Random(13)
        cases = [YARD, RODDED, BARE, STEP_ONLY, RODDED._replace(place=2), calc.with_lines(YARD, 2)]
        cases += [LONG, *RECTANGLES, *(RODDED._replace(across=a, along=b) for a, b in COUNTS)]
        for case in cases + [random_case(rng) for _ in range(80)]:
            for name, pair, value in zip(calc.Ends._fields, calc.exact_ends(case, 12),
                                         double_values(case)):
                for end in pair:
                    self.assertAlmostEqual(float(end) / value, 1, delta=1e-9, msg=(name, case))

    def test_mesh_argument_has_two_forms(self):
        rng = random.Random(17)
        for _ in range(50):
            case = random_case(rng)
            big_d, h = Fraction(case.space, 1000), Fraction(case.depth, 1000)
            d = Fraction(case.dia, 10000)
            other = (big_d + 2 * h) * (big_d**2 + 4 * h**2) / (16 * h * d * big_d)
            self.assertEqual(calc.mesh_argument(case), other)

    def test_layer_less_resistive_than_the_soil(self):
        case = YARD._replace(soil=1000, layer=100, thick=45)
        # 100 - 0.09 * (100 - 1000) / 0.18 = 550
        self.assertEqual(calc.surface_effect(case), 550)


class Rectangles(unittest.TestCase):
    """Request (c) of document 02."""

    def test_the_names_in_their_place(self):
        self.assertEqual(calc.COUNTS, ("across", "along"))
        self.assertEqual(calc.NAMES[11:15], ("xr", "across", "along", "space"))

    def test_lengths_by_hand(self):
        case = LONG._replace(rods=4, rodlen=10000, place=1)
        self.assertEqual(calc.sides(case), (10, 40))
        self.assertEqual(calc.conductor_length(case), 2 * 40 + 5 * 10)
        self.assertEqual(calc.perimeter(case), 100)
        self.assertEqual(calc.total_length(case), 170)
        self.assertEqual(calc.step_length(case), Fraction("0.75") * 130 + 34)
        # sqrt(10^2 + 40^2) = 41.231..
        self.assertEqual(calc.diagonal_ends(case, 3), (Fraction("41.231"), Fraction("41.232")))
        self.assertEqual(calc.mesh_length(case, 3), (
            130 + (Fraction("1.55") + Fraction("12.2") / Fraction("41.232")) * 40,
            130 + (Fraction("1.55") + Fraction("12.2") / Fraction("41.231")) * 40))

    def test_n_by_hand(self):
        """The area is a square, and its root still has the next multiple as its upper end."""
        self.assertEqual(calc.area_root_ends(LONG, 3), (20, Fraction("20.001")))
        self.assertEqual(calc.na(LONG), Fraction("2.6"))
        # sqrt(100 / 80.004) = 1.11800.., sqrt(100 / 80) = 1.11803..
        self.assertEqual(calc.nb_ends(LONG, 3), (Fraction("1.118"), Fraction("1.119")))
        self.assertEqual(calc.n_ends(LONG, 3), (Fraction("2.9068"), Fraction("2.9094")))
        self.assertEqual(calc.nb_ends(LONG, 6), (Fraction("1.118033"), Fraction("1.118034")))

    def test_kii_at_depth_3_by_its_terms(self):
        def ln_series(z):
            lower = 2 * (z + z**3 / 3 + z**5 / 5)
            return lower, lower + 2 * z**7 / (7 * (1 - z**2))

        def ln_of(q):  # between 4 and 8
            two, rest = ln_series(Fraction(1, 3)), ln_series((q / 4 - 1) / (q / 4 + 1))
            return 2 * two[0] + rest[0], 2 * two[1] + rest[1]

        low, high = Fraction("2.9068"), Fraction("2.9094")
        least, greatest = 2 / high * ln_of(2 * low)[0], 2 / low * ln_of(2 * high)[1]
        self.assertTrue(1 < least < greatest < 2)  # two halvings
        lower = (1 + least / 4 + (least / 4) ** 2 / 2) ** 4
        y = greatest / 4
        upper = (1 + y + y**2 / 2 + 2 * y**3 / 6) ** 4
        for place in (0, 2):
            self.assertTrue(is_wider(calc.kii_ends(LONG._replace(place=place), 3), (1 / upper, 1 / lower)))
        self.assertEqual(calc.kii_ends(LONG._replace(place=1), 3), (1, 1))

    def test_half_power_at_depth_3_by_its_terms(self):
        z = Fraction(1, 3)
        ln_2 = 2 * (z + z**3 / 3 + z**5 / 5)
        ln_2_upper = ln_2 + 2 * z**7 / (7 * (1 - z**2))
        least, greatest = Fraction("0.9068") * ln_2, Fraction("0.9094") * ln_2_upper
        self.assertTrue(Fraction(1, 2) < least < greatest < 1)  # one halving
        lower = (1 + least / 2 + (least / 2) ** 2 / 2) ** 2
        y = greatest / 2
        upper = (1 + y + y**2 / 2 + 2 * y**3 / 6) ** 2
        self.assertTrue(is_wider(calc.half_power_ends(calc.grid_of(LONG), 3), (1 / upper, 1 / lower)))

    def test_each_end_of_an_exponent_has_its_own_halvings(self):
        """At depth 3 the ends of (n-2) * ln 2 lie on both sides of 8 for 9 x 23 at 7 m."""
        grid = calc.Grid(9, 23, 7000)
        q = calc.half_power_exponent(calc.n_ends(grid, 3), 3)
        self.assertTrue(q.lower < 8 < q.upper < 16)
        y = q.lower / 16
        lower = (1 + y + y**2 / 2) ** 16
        y = q.upper / 32
        upper = (1 + y + y**2 / 2 + 2 * y**3 / 6) ** 32
        self.assertTrue(is_wider(calc.half_power_ends(grid, 3), (1 / upper, 1 / lower)))

    def test_resistance_by_hand(self):
        """Soil 400, h 0.5 m, LT 130 m; sqrt(20) is 4.472.., sqrt(area) 20 to 20.001 at depth 3."""
        low, high, wide = Fraction("4.472"), Fraction("4.473"), Fraction("20.001")
        half = Fraction(1, 2)
        least = (1 + 1 / (1 + half * high / 20)) / (high * wide)
        greatest = (1 + 1 / (1 + half * low / wide)) / (low * 20)
        ends = calc.exact_ends(LONG, 3).resistance
        self.assertEqual(ends, (400 * (Fraction(1, 130) + least), 400 * (Fraction(1, 130) + greatest)))

    def test_ln_of_n_is_rounded_outward(self):
        for case in (LONG, *RECTANGLES):
            for k in (3, 6, 12):
                grid = calc.grid_of(case)
                exact = calc.ln_pair(8 / (calc.pi_ends(k) * (2 * calc.n_ends(grid, k) - 1)), k)
                # one step in the fraction is up to 19 in its logarithm
                self.assertTrue(is_wider(calc.ln_lines(grid, k), exact, 20 * ROUNDED))

    def test_rounding_outward_is_out_of_sight(self):
        """With far finer steps no end moves by as much as 10^-40 of itself."""
        cases = (YARD, LONG, *RECTANGLES)
        coarse = [calc.exact_ends(case, k) for case in cases for k in (3, 9)]
        clear_caches()
        with mock.patch.object(calc, "OUTWARD", 10**90):
            fine = [calc.exact_ends(case, k) for case in cases for k in (3, 9)]
        clear_caches()
        for wider, ends in zip(coarse, fine):
            for a, b in zip(wider, ends):
                self.assertTrue(0 <= b.lower - a.lower < b.lower / 10**40)
                self.assertTrue(0 <= a.upper - b.upper < b.upper / 10**40)

    def test_equal_counts_keep_the_square(self):
        for lines in range(2, 26):
            case = calc.with_lines(YARD, lines)
            grid, side = calc.grid_of(case), (lines - 1) * 7
            self.assertEqual(calc.sides(case), (side, side))
            self.assertEqual(calc.conductor_length(case), 2 * lines * side)
            self.assertEqual(calc.na(case), lines)
            for k in (3, 12):
                self.assertEqual(calc.n_ends(grid, k), (lines, lines))
                self.assertEqual(calc.area_root_ends(case, k), (side, side))
                diagonal = calc.root_ends(Fraction(2 * side**2), 2, k)
                self.assertEqual(calc.diagonal_ends(case, k), diagonal)
                root = calc.root_ends(Fraction(4 * lines**2), lines, k)
                self.assertEqual(calc.kii_ends(case, k), (1 / root.upper, 1 / root.lower))
                half = Fraction(1, 2 ** (lines - 2))
                self.assertEqual(calc.half_power_ends(grid, k), (half, half))

    def test_across_and_along_exchanged(self):
        rng = random.Random(23)
        for case in [LONG, *RECTANGLES] + [random_case(rng) for _ in range(20)]:
            turned = case._replace(across=case.along, along=case.across)
            for k in (3, 9):
                self.assertEqual(calc.exact_ends(turned, k), calc.exact_ends(case, k))
            row = calc.row_at(case, 9)
            self.assertEqual(calc.allowed_widths(turned, row), calc.allowed_widths(case, row))

    def test_the_place_of_rods_changes_kii_alone(self):
        for place in (0, 1, 2):
            case = LONG._replace(place=place, rods=4 if place else 0, rodlen=1000 if place else 0)
            self.assertEqual(calc.ks_ends(case, 6), calc.ks_ends(LONG, 6))
            self.assertEqual(calc.kii_ends(case, 6) == (1, 1), place == 1)

    def test_widths_by_na(self):
        row = calc.row_at(LONG, 12)
        widths = calc.allowed_widths(LONG, row)
        # rho * Ki * IG with Ki = 0.644 + 0.148 * 2.6 = 1.0288 and the upper current, in microamperes
        driving = Fraction(400 * 1957957256, 10**6) * Fraction("1.0288")
        self.assertEqual(widths.mesh, driving / 130 / 100 + 10)
        self.assertEqual(widths.step, driving / Fraction("97.5") / 100 + 10)
        for name in ("mesh", "step"):
            at = calc.pair_place(name)
            wide = list(row)
            wide[at + 1] = row[at] + math.floor(getattr(widths, name))
            self.assertEqual(calc.judge_row(LONG, wide, (12,)), [])
            wide[at + 1] += 1
            self.assertNotEqual(calc.judge_row(LONG, wide, (12,)), [])


class Counts(unittest.TestCase):
    """How large and how small what depends on the counts is, over all unequal ones."""

    def spans(self, k, spaces):
        """By name the least lower and the greatest upper end, each with its counts."""
        found = {}
        for across, along in itertools.combinations(range(2, 26), 2):
            for space in spaces:
                grid = calc.Grid(across, along, space)
                n = calc.n_ends(grid, k)
                for name, value in {
                    "na": calc.na(grid), "nb": calc.nb_ends(grid, k), "n": n, "ki": calc.ki(n),
                    "ki by na": calc.ki(n) / calc.ki(calc.na(grid)),
                    "kii exponent": calc.kii_exponent(n, k), "kii": calc.kii_below_one(grid, k),
                    "half-power exponent": calc.half_power_exponent(n, k),
                    "half-power": calc.half_power_ends(grid, k), "ln": calc.ln_lines(grid, k),
                }.items():
                    found.setdefault(name, []).append((calc.as_pair(value), (across, along)))
        return {
            name: (min((pair.lower, counts) for pair, counts in pairs),
                   max((pair.upper, counts) for pair, counts in pairs))
            for name, pairs in found.items()
        }

    def assert_spans(self, spans, wanted, digits):
        for name, (least, least_at, greatest, greatest_at) in wanted.items():
            (low, low_at), (high, high_at) = spans[name]
            self.assertEqual((low_at, high_at), (least_at, greatest_at), name)
            self.assertAlmostEqual(float(low) / least, 1, delta=digits, msg=name)
            self.assertAlmostEqual(float(high) / greatest, 1, delta=digits, msg=name)

    def test_at_depth_12(self):
        short, long, thin = (2, 3), (24, 25), (2, 25)
        self.assert_spans(self.spans(12, (7777,)), {
            "na": (7 / 3, short, 24.489, long), "nb": (1.000113, long, 1.597358, thin),
            "n": (2.40306, short, 24.49213, long), "ki": (0.999653, short, 4.268836, long),
            "ki by na": (1.000096, long, 1.239885, thin),
            "kii exponent": (0.317775, long, 1.306576, short), "kii": (0.270746, short, 0.727766, long),
            "half-power exponent": (0.279381, short, 15.59036, long),
            "half-power": (1.69509e-7, long, 0.756252, short), "ln": (-2.936162, long, -0.4019, short),
        }, 3e-5)

    def test_at_depth_3(self):
        """nb may be 1 there, first at 9 x 10."""
        short, long, thin = (2, 3), (24, 25), (2, 25)
        spans = self.spans(3, (2500, 2501, 7777, 30000))
        self.assert_spans(spans, {
            "n": (2.401, short, 24.513851, long), "ki": (0.999348, short, 4.27205, long),
            "kii exponent": (0.317426, long, 1.308606, short), "kii": (0.266086, short, 0.731098, long),
            "half-power exponent": (0.277895, short, 15.6055, long),
            "half-power": (1.20401e-7, long, 0.759586, short), "ln": (-2.937082, long, -0.400812, short),
        }, 3e-5)
        self.assertEqual(spans["nb"], ((1, (9, 10)), (Fraction("1.598"), thin)))
        self.assertEqual(spans["na"][0], (Fraction(7, 3), short))
        # so that n - 2, 2n - 1 and ln 2n are above 0, and both powers between 0 and 1

    def test_halvings(self):
        found = {"kii": set(), "half-power": set()}
        for across, along in itertools.combinations(range(2, 26), 2):
            n = calc.n_ends(calc.Grid(across, along, 2500), 3)
            found["kii"].update(map(calc.exp_halvings, calc.kii_exponent(n, 3)))
            found["half-power"].update(map(calc.exp_halvings, calc.half_power_exponent(n, 3)))
        self.assertEqual(found, {"kii": set(range(3)), "half-power": set(range(6))})

    def test_mesh_factor_and_lengths(self):
        """Over the ends of all that Km and LM depend on, for the corners of the counts."""
        km, longer = [], []
        for counts, place, space, depth, dia in itertools.product(
                COUNTS, (0, 1), (2500, 30000), (250, 2500), (50, 300)):
            case = YARD._replace(across=counts[0], along=counts[1], space=space, depth=depth, dia=dia)
            rodded = case._replace(rods=200, rodlen=10000, place=1)
            km += [(end, counts, place) for end in calc.km_ends(rodded if place else case, 3)]
            longer += [end / calc.total_length(rodded) for end in calc.mesh_length(rodded, 3)]
        self.assertEqual((min(km)[1:], max(km)[1:]), (((25, 25), 1), ((2, 2), 0)))
        self.assertAlmostEqual(float(min(km)[0]), 0.243, places=3)
        self.assertAlmostEqual(float(max(km)[0]), 1.702, places=3)
        self.assertGreaterEqual(min(longer), 1)
        self.assertAlmostEqual(float(max(longer)), 4.98, places=2)

    def test_greatest_reference_voltage(self):
        """Ki by na over Lc / D is greatest for 2 x 2, 0.94 / 4, and so is rho * Ki * IG / LT."""
        shares = {}
        for across, along in itertools.product(range(2, 26), repeat=2):
            grid = calc.Grid(across, along, 1000)
            shares[calc.ki(calc.na(grid)) / calc.conductor_length(grid)] = (across, along)
        self.assertEqual(max(shares.items()), (Fraction("0.235"), (2, 2)))
        case = calc.with_lines(YARD, 2)._replace(
            soil=5000, fault=80000, split=1000, space=2500, xr=40, clear=9, hz=50)
        current = calc.current_ends(case, 12).upper
        # 5000 * 0.94 * 80,000 A * 1.692649214458 / 10 m
        self.assertEqual(calc.driving(case, 2, current) / calc.total_length(case),
                         Fraction("63643610.4636208"))


if __name__ == "__main__":
    unittest.main()
