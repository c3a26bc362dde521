"""Judges the questions asked alone: crates/questions/stdout, which `rt ci questions` compares with what the
program prints for crates/questions/stdin, against the separately written calculator.

    python3 -m unittest discover -s tests
"""

import unittest
from collections import defaultdict
from fractions import Fraction
from itertools import product

from tests.calculator import calculator as calc
from tests.calculator.calculator import Case, Refusal
from tests.calculator.printed import read_asked, whole
from tests.measurements import readings, staged
from tests.questions import fewest, headroom, questions, working
from tests.questions.questions import RECORD_KINDS, SIZE_KINDS, TABLE_10, TABLE_10_XR

# Judged by test_fewest.py, test_working.py, test_readings.py and test_staged.py; and headrooms by test_headroom.py.
ELSEWHERE = (fewest.KIND, working.KIND, readings.KIND, staged.KIND)
DEPTHS = (3, 6, 9, 12)

PAIRS = {"factor": ("factor",), "tolerable": ("tolerable_touch", "tolerable_step"),
         "resistance": ("resistance",)}
COUNTS = {"ln": 2, **{kind: calc.COLUMN_COUNT for kind in RECORD_KINDS}}
MOST_NUMBER = 2**64 - 1
# The least count of different questions of each kind.
LEAST = {"factor": 750, "size": 270, "tolerable": 220, "resistance": 480, "row": 800,
         "ln": 400}
# Which numbers depend on the two counts.
NUMBERS_BY_COUNT = {"resistance": ("resistance",), "row": ("mesh", "step", "resistance", "rise")}
RESISTANCE_NAMES = ("soil", *calc.COUNTS, "space", "depth", "rods", "rodlen", "place")


def read_question(line):
    """The kind of a line and what is asked; nothing where the line is broken."""
    kind, *fields = line.split(",")
    if len(fields) != COUNTS.get(kind) or not all(field.isdigit() for field in fields):
        return None
    numbers = [whole(field) for field in fields]
    if max(numbers) > MOST_NUMBER:
        return None
    return kind, Case(*numbers) if kind in RECORD_KINDS else tuple(numbers)


def judge(kind, asked, answer, factors):
    """What is wrong with one answer; empty when right.

    The factor that is answered for a record is that of its size and of its row.
    """
    wanted = calc.check_ln(*asked) if kind == "ln" else calc.check_record(asked)
    if wanted or is_refused(answer):
        return [] if answer == wanted else [f"{answer}, not {wanted}"]
    if kind == "size":
        return judge_size(asked, answer, factors.get(asked, ()))
    if kind == "row":
        return calc.judge_row(asked, answer, DEPTHS) + judge_row_factor(answer, factors.get(asked))
    names = PAIRS.get(kind, (kind,))
    if len(answer) != 2 * len(names):
        return [f"{answer} is not {len(names)} pairs"]
    if kind == "ln":
        return calc.judge_ln(*asked, *answer, DEPTHS)
    if kind == "factor":
        return calc.judge_factor(asked.clear, asked.xr, asked.hz, *answer, DEPTHS)
    pairs = zip(answer[::2], answer[1::2])
    return [wrong for name, pair in zip(names, pairs) for wrong in judge_ends(name, asked, pair)]


def judge_size(case, answer, factor):
    """The size is settled by the factor's upper end."""
    if len(factor) != 2:
        return [f"{factor} is not the factor's pair"]
    number = calc.conductor_kcmil(case, factor[1])
    return [] if answer == (number,) else [f"{answer}, not {number}"]


def judge_row_factor(row, factor):
    """A row of the right length has the factor that is asked alone."""
    if len(row) != calc.ROW_LENGTH or factor in (None, calc.row_pairs(row).factor):
        return []
    return [f"factor: {calc.row_pairs(row).factor}, and asked alone {factor}"]


def judge_ends(name, case, pair):
    """Order, exactness at each depth, and width, which depends on the lower end."""
    quantity = quantity_of(name)
    ends_at = {k: getattr(calc.exact_ends(case, k), name) for k in DEPTHS}
    allowed = quantity.share * pair[0] + quantity.plus
    return calc.judge_pair(name, pair, ends_at, quantity.units, allowed)


def quantity_of(name):
    return next(quantity for quantity in calc.QUANTITIES if quantity.name == name)


def is_refused(answer):
    return isinstance(answer, Refusal)


def has_one_time(case):
    return len({getattr(case, clock) for clock in calc.CLOCKS}) == 1


class Asked(unittest.TestCase):
    @classmethod
    def setUpClass(cls):
        cls.lines, cls.printed = questions.stored()
        cls.questions = defaultdict(dict)  # by kind: what is asked, and its answer
        cls.broken = {}  # a line that is no question, and what it is answered
        for line, printed in zip(cls.lines, cls.printed):
            if line.split(",")[0] in ELSEWHERE or headroom.is_question(line):
                continue
            question, answer = read_question(line), printed[len(line) + 1 :]
            if question:
                kind, asked = question
                cls.questions[kind][asked] = read_asked(answer)
            else:
                cls.broken[line] = answer

    def judge(self, kind, asked, answer):
        """With the factors as they are answered."""
        return judge(kind, asked, answer, self.questions["factor"])

    def answered(self, kind):
        """What is asked and answered, without the refused ones."""
        return {a: r for a, r in self.questions[kind].items() if not is_refused(r)}

    def refused(self, kind):
        return {a: r for a, r in self.questions[kind].items() if is_refused(r)}

    def assertHas(self, kind, test, what):
        self.assertTrue(any(test(asked) for asked in self.answered(kind)), f"{kind}: {what}")


class Answers(Asked):
    def test_the_questions_are_those_of_the_script(self):
        text = questions.FILE.read_text(encoding="ascii")
        self.assertEqual(text, questions.text())
        self.assertLess(len(text), questions.MOST_BYTES)

    def test_each_line_is_printed_with_its_answer(self):
        self.assertEqual(len(self.printed), len(self.lines))
        for line, printed in zip(self.lines, self.printed):
            self.assertEqual(printed[: len(line) + 1], line + ",")

    def test_every_answer_is_right(self):
        wrong = [
            f"{kind} {asked}: {complaint}"
            for kind, answers in self.questions.items() for asked, answer in answers.items()
            for complaint in self.judge(kind, asked, answer)
        ]
        self.assertEqual([], wrong)

    def test_broken_lines_are_unknown(self):
        self.assertEqual(set(self.broken.values()), {"unknown"})

    def test_the_factor_is_one_in_the_size_and_in_the_row(self):
        """Each size is asked with the factor and the row of its record, and its own is the row's."""
        sizes, factors, rows = (self.answered(kind) for kind in SIZE_KINDS)
        self.assertEqual([], [case for case in sizes if case not in factors or case not in rows])
        for case, size in sizes.items():
            row = rows[case]
            self.assertEqual((row[3],), size)
            self.assertEqual(calc.row_pairs(row).factor, factors[case])

    def test_exchanged_counts_have_one_answer(self):
        for kind in questions.COUNT_KINDS:
            answers = self.answered(kind)
            both = {case: case._replace(across=case.along, along=case.across) for case in answers}
            both = {case: turned for case, turned in both.items() if case != turned and turned in answers}
            self.assertGreater(len(both), 80)
            for case, turned in both.items():
                self.assertEqual(answers[case], answers[turned])


class Judging(Asked):
    """Lines changed by a little are seen to be wrong."""

    def test_a_changed_size_is_wrong(self):
        for case, (number,) in self.answered("size").items():
            for changed in ((number + 1,), (number - 1,), (number, number), Refusal(5, 0, 1)):
                self.assertTrue(self.judge("size", case, changed))

    def test_a_row_with_another_factor_than_the_one_asked_alone_is_wrong(self):
        """Wider by a billionth, which the row's own rules allow."""
        at, factors = calc.pair_place("factor"), self.answered("factor")
        rows = [(case, row) for case, row in self.answered("row").items() if case in factors]
        self.assertGreaterEqual(len(rows), 200)
        for case, row in rows[::7]:
            wider = row[:at] + (row[at] - 1,) + row[at + 1 :]
            self.assertEqual(calc.judge_row(case, wider, DEPTHS[:1]), [])
            self.assertTrue(self.judge("row", case, wider))

    def test_a_changed_refusal_is_wrong(self):
        for kind in LEAST:
            for asked, refusal in self.refused(kind).items():
                for changed in (refusal._replace(column=refusal.column + 1),
                                refusal._replace(number=11 - refusal.number),
                                refusal._replace(line=1), (0,), (0, 0)):
                    self.assertTrue(self.judge(kind, asked, changed))

    def test_a_changed_pair_is_wrong(self):
        for kind in (*PAIRS, "ln"):
            for asked, answer in list(self.answered(kind).items())[::7]:
                for at in range(0, len(answer), 2):
                    lower, upper = answer[at : at + 2]
                    width = upper - lower
                    for pair in ((upper + width + 3, upper + 2 * width + 6),
                                 (lower - width - 3, lower - 3),
                                 (upper + 1, lower), (lower - 10**6, upper + 10**6),
                                 (lower,), (lower, upper, upper)):
                        changed = answer[:at] + pair + answer[at + 2 :]
                        self.assertTrue(self.judge(kind, asked, changed), f"{kind} {asked} {changed}")

    def test_a_changed_row_is_wrong(self):
        for case, row in list(self.answered("row").items())[::7]:
            for place in range(calc.ROW_LENGTH):
                off = 1 if place < calc.FIRST_PAIR else 10**8
                changed = row[:place] + (row[place] + off,) + row[place + 1 :]
                self.assertTrue(self.judge("row", case, changed), f"{case} {place}")
            self.assertTrue(self.judge("row", case, row[:-1]))
            self.assertTrue(self.judge("row", case, row + (0,)))


class Yards(Asked):
    """The yards of document 01, those of factor, current and size computed again for request (d): at 60 Hz,
    with X/R 10 where none is named.
    """

    def test_sizes(self):
        sizes = {
            (case.metal, case.fault, case.wire): answer
            for case, answer in self.answered("size").items()
            if has_one_time(case) and (case.xr, case.hz) == (10, 60)
        }
        wanted = {
            (1, 20000, 3000): (244,), (4, 20000, 3000): (364,), (8, 20000, 3000): (640,),
            (1, 1000, 1000): (8,), (1, 1001, 1000): (8,), (5, 1000, 1000): (13,),
            (1, 986, 1000): (7,), (1, 987, 1000): (8,),
        }
        self.assertEqual(wanted, {place: sizes.get(place) for place in wanted})

    def test_factors(self):
        """Df in billionths lies above the number here and below the next."""
        factors = {
            (case.clear, case.xr): answer
            for case, answer in self.answered("factor").items() if has_one_time(case) and case.hz == 60
        }
        for place, billionths in {
            (99, 11): 1137716322, (100, 11): 1136431380, (499, 40): 1101187708, (500, 40): 1100994761,
        }.items():
            lower, upper = factors[place]
            self.assertTrue(lower <= billionths < billionths + 1 <= upper <= lower + 1000)

    def test_current(self):
        """3180 A, split 600, 500 ms."""
        rows = [row for case, row in self.answered("row").items()
                if (case.fault, case.split, case.clear, case.xr, case.hz) == (3180, 600, 500, 10, 60)]
        self.assertGreater(len(rows), 100)
        for row in rows:
            lower, upper = calc.row_pairs(row).current
            self.assertTrue(lower <= 1957957255 < 1957957256 <= upper <= lower + 3917)

    def test_voltages_over_bare_soil(self):
        wanted = {
            (50, 1000): (133400, 185600),
            (50, 250): (266800, 371200),
            (70, 1000): (180550, 251200),
        }
        for (body, ms), voltages in wanted.items():
            reported = [
                answer for case, answer in self.answered("tolerable").items()
                if (case.soil, case.layer, case.body, case.shock) == (100, 0, body, ms)
            ]
            self.assertGreaterEqual(len(reported), 2)  # one of them with one time for all clocks
            for touch_lower, touch_upper, step_lower, step_upper in reported:
                self.assertTrue(touch_lower <= voltages[0] <= touch_upper)
                self.assertTrue(step_lower <= voltages[1] <= step_upper)

    def test_the_four_numbers_are_those_in_the_row(self):
        rows = self.answered("row")
        both = [(answer, rows[case]) for case, answer in self.answered("tolerable").items()
                if case in rows]
        self.assertGreaterEqual(len(both), 100)
        for answer, row in both:
            pairs = calc.row_pairs(row)
            self.assertEqual(answer, pairs.tolerable_touch + pairs.tolerable_step)


class Coverage(Asked):
    def test_counts(self):
        self.assertEqual(set(self.questions), set(LEAST))
        for kind, least in LEAST.items():
            self.assertGreaterEqual(len(self.questions[kind]), least, kind)

    def test_broken_lines(self):
        kinds = {line.split(",")[0] for line in self.broken}
        self.assertLessEqual({"", "ln", "factor"}, kinds)
        self.assertTrue(kinds - set(LEAST))
        counts = {line.count(",") for line in self.broken}
        self.assertLessEqual({0, 1, 2, calc.COLUMN_COUNT, calc.COLUMN_COUNT + 1}, counts)
        # of document 01's names, with two counts, with three clocks, with both
        for numbers in (18, 19, 20, 21):
            kinds = {line.split(",")[0] for line in self.broken if line.count(",") == numbers}
            self.assertLessEqual(set(RECORD_KINDS), kinds)

    def test_sound_and_refused_records(self):
        for kind in RECORD_KINDS:
            self.assertGreaterEqual(len(self.answered(kind)), 50, kind)
            self.assertGreaterEqual(len(self.refused(kind)), 30, kind)

    def test_rows_of_each_verdict(self):
        self.assertEqual({row[2] for row in self.answered("row").values()},
                         {calc.SAFE, calc.UNSAFE, calc.UNDECIDED})

    def triples(self):
        """Clear time, X/R and frequency of each factor that is answered, with its pair."""
        return {(case.clear, case.xr, case.hz): answer for case, answer in self.answered("factor").items()}

    def test_each_clock_at_both_ends_with_the_others(self):
        for kind in questions.CLOCK_KINDS:
            times = {tuple(getattr(case, clock) for clock in calc.CLOCKS) for case in self.answered(kind)}
            ends = [calc.SPANS[clock][0] for clock in calc.CLOCKS]
            self.assertLessEqual(set(product(*ends)), times, kind)

    def test_table_10(self):
        """At 60 Hz both ends are the printed entry to the nearest thousandth."""
        triples, entries = self.triples(), 0
        for (clear, row), (at, xr) in product(TABLE_10, enumerate(TABLE_10_XR)):
            for end in triples[clear, xr, 60]:
                apart = Fraction(end, calc.FACTOR_UNITS) - Fraction(row[at])
                self.assertLessEqual(abs(apart), Fraction(1, 2000), (clear, xr))
            entries += 1
        self.assertEqual(entries, 32)

    def test_factors_at_the_ends(self):
        corners = product((9, 10, 49, 50, 99, 100, 500, 2999, 3000), (1, 2, 10, 20, 39, 40), (50, 60))
        self.assertLessEqual(set(corners), set(self.triples()))
        self.assertGreaterEqual(len(self.triples()), 600)

    def test_factors_where_the_halvings_change(self):
        """2tf/Ta within a hundredth below and above 1/2, 1, 2, .. at each frequency."""
        for hz, most in ((50, 1024), (60, 2048)):
            exponents = [calc.factor_exponent(*triple, DEPTHS[0]).lower
                         for triple in self.triples() if triple[2] == hz]
            limit = calc.EXP_SMALL
            while limit <= most:
                near = [q / limit for q in exponents if abs(q / limit - 1) < Fraction(1, 100)]
                self.assertTrue(min(near) < 1 < max(near), (hz, limit))
                limit *= 2
            halvings = {calc.exp_halvings(q) for q in exponents}
            self.assertEqual(halvings, set(range(calc.exp_halvings(most) + 2)))

    def test_other_frequencies_are_refused(self):
        for kind in RECORD_KINDS:
            refused = self.refused(kind)
            for hz in (0, 49, 51, 55, 59, 61):
                self.assertEqual(refused[questions.YARD._replace(hz=hz)], (5, 0, 22))
            self.assertEqual({case.hz for case in self.answered(kind)}, {50, 60})

    def test_metals(self):
        metals = {case.metal for case in self.answered("size")}
        self.assertEqual(metals, set(range(1, 12)))
        self.assertLessEqual({0, 12}, {case.metal for case in self.refused("size")})
        for metal in metals:
            cases = [case for case in self.answered("size") if case.metal == metal]
            self.assertGreaterEqual(len({case.clear for case in cases}), 6)
            self.assertGreaterEqual(len({case.wire for case in cases}), 6)
            self.assertEqual({50, 60}, {case.hz for case in cases})
            self.assertLessEqual({100, 80000}, {case.fault for case in cases})

    def test_sizes_where_one_ampere_more_takes_one_kcmil_more(self):
        """With two times, and within a millionth of a whole kcmil for any right upper end."""
        sizes = self.answered("size")
        edges = defaultdict(int)
        for case, (size,) in sizes.items():
            if sizes.get(case._replace(fault=case.fault + 1)) == (size + 1,) and case.clear != case.wire:
                most = self.questions["factor"][case][0] + calc.FACTOR_WIDTH
                near = calc.size_squared(case, most) * (1 + Fraction(1, 10**6)) ** 2
                edges[case.metal] += calc.size_squared(case, most) <= size**2 < near
        for metal in range(1, 12):
            self.assertGreaterEqual(edges[metal], 4, f"metal {metal}")

    def test_sizes_that_change_with_one_billionth_of_the_upper_end(self):
        """So that the factor of a size is the one that is asked alone, and no other."""
        for by in (-1, 1):
            reported = [case for case, size in self.answered("size").items()
                    if (calc.conductor_kcmil(case, self.questions["factor"][case][1] + by),) != size]
            self.assertGreaterEqual(len(reported), 10, by)

    def test_surfaces(self):
        layers = {
            "bare soil": lambda case: case.layer == 0,
            "more resistive": lambda case: case.layer > case.soil,
            "less resistive": lambda case: 0 < case.layer < case.soil,
            "thin": lambda case: case.thick == 20,
            "thick": lambda case: case.thick == 300,
        }
        for (what, test), body, shock in product(layers.items(), (50, 70), (9, 3000)):
            self.assertHas(
                "tolerable",
                lambda case: test(case) and (case.body, case.shock) == (body, shock),
                f"{what}, {body} kg, {shock} ms",
            )

    def test_resistance_at_both_ends_of_each_range(self):
        for name in RESISTANCE_NAMES:
            place = calc.NAMES.index(name)
            asked = {case[place] for case in self.answered("resistance")}
            for span in calc.RANGES[place]:
                self.assertLessEqual(set(span), asked, name)
        self.assertLessEqual({0, 1, 2}, {case.place for case in self.answered("resistance")})

    def test_equal_and_unequal_counts_at_each_place(self):
        pairs = {(2, 3), (24, 25), (2, 25), (2, 5), (9, 10), (10, 13)}
        wanted = pairs | {pair[::-1] for pair in pairs} | {(2, 2), (25, 25)}
        for kind, place in product(NUMBERS_BY_COUNT, (0, 1, 2)):
            asked = {(case.across, case.along) for case in self.answered(kind) if case.place == place}
            self.assertLessEqual(wanted, asked)

    def test_each_count_is_refused_at_its_column(self):
        for kind, (name, column), value in product(
                NUMBERS_BY_COUNT, (("across", 13), ("along", 14)), (1, 26)):
            refused = [refusal for case, refusal in self.refused(kind).items()
                       if case == questions.YARD._replace(**{name: value})]
            self.assertEqual(refused, [(5, 0, column)])

    def test_every_column_is_refused_below_and_above(self):
        for kind, (place, (name, spans)) in product(
                ("resistance", "row"), enumerate(calc.COLUMNS)):
            refused = self.refused(kind)
            values = {case[place] for case, r in refused.items() if r == (5, 0, place + 1)}
            self.assertLessEqual({spans[-1][1] + 1, 2**32 - 1, 2**32}, values, name)
            lowest = spans[-1][0] - 1
            if lowest >= 0:
                self.assertIn(lowest, values, name)

    def test_both_refusals_in_their_order(self):
        for kind in RECORD_KINDS:
            refused = self.refused(kind)
            self.assertLessEqual({5, 6}, {refusal.number for refusal in refused.values()})
            groups = {(6, 0, calc.NAMES.index(group[0]) + 1) for group in calc.ZERO_GROUPS}
            self.assertLessEqual(groups, set(refused.values()))
            faults = {case: self.faults(case) for case in refused}
            for wanted in ([5, 5], [5, 6], [6, 6]):
                self.assertIn(wanted, list(faults.values()), kind)

    @staticmethod
    def faults(case):
        """The numbers of all rules that a record breaks, least first."""
        columns = [
            place for place, spans in enumerate(calc.RANGES)
            if not any(low <= case[place] <= high for low, high in spans)
        ]
        groups = [
            group for group in calc.ZERO_GROUPS
            if len({getattr(case, name) == 0 for name in group}) > 1
        ]
        return [5] * len(columns) + [6] * len(groups)

    def test_logarithms(self):
        answered, most = self.answered("ln"), calc.LN_MAX
        self.assertGreaterEqual(len(answered), 100)
        for q in (1, 3):
            for k in range(1, 50):
                for p in (2**k - 1, 2**k, 2**k + 1):
                    self.assertIn((p, q), answered)
        for k in range(16):
            self.assertIn((10**k, 1), answered)
            self.assertIn((1, 10**k), answered)
        for fraction in ((most, most), (most - 1, most), (most, most - 1)):
            self.assertIn(fraction, answered)

    def test_logarithms_of_mesh_factors(self):
        asked = {Fraction(p, q) for p, q in self.answered("ln")}
        ends = product((2500, 30000), (250, 2500), (50, 300))
        for space, depth, dia in (*ends, (7000, 500, 100)):
            yard = Case(*[0] * calc.COLUMN_COUNT)._replace(space=space, depth=depth, dia=dia)
            self.assertIn(calc.mesh_argument(yard), asked)

    def test_refused_logarithms(self):
        above = calc.LN_MAX + 1
        wanted = {
            (0, 1): 1, (above, 1): 1, (1, 0): 2, (1, above): 2,
            (0, 0): 1, (above, above): 1, (0, above): 1, (above, 0): 1,
        }
        refused = self.refused("ln")
        for fraction, column in wanted.items():
            self.assertEqual(refused.get(fraction), (5, 0, column))


if __name__ == "__main__":
    unittest.main()
