"""Judges the working of a case: the questions of kind `working` of crates/questions, against the separately written
calculator, and compares what is answered for examples B.1 to B.3 of IEEE Std 80-2013, Annex B, with the figures printed there.
"""

import unittest
from fractions import Fraction

from tests.calculator import calculator as calc
from tests.calculator.calculator import Case, Refusal
from tests.calculator.printed import read_asked
from tests.questions import questions, working
from tests.questions.working import Working

DEPTHS = (3, 6, 9, 12)
B1, B2, B3 = questions.ANNEX_B

# The figures that Annex B prints of each example, by name. Of B.1 and B.2 n is the count of lines; its lengths are exact.
PRINTED = {
    B1: {"cs": "0.74", "side": "70", "lt": "1540", "lc": "1540", "kii": "0.57", "kh": "1.225", "km": "0.89", "n": "11",
         "ki": "2.272"},
    B2: {"side": "70", "lc": "1540", "lr": "150", "lt": "1690", "kii": "1.0", "kh": "1.225", "km": "0.77", "ki": "2.272",
         "ks": "0.406"},
    B3: {"lc": "1659", "lr": "380", "lt": "2039", "kii": "1", "kh": "1.225", "km": "0.77"},
}
# Figures of the Annex that are no rounding of ours, each with what the Annex puts in: in B.3 it multiplies na and nb rounded
# to 11.29 and 1.005, where n is 11.344, and computes Ki from that product rounded to 11.35, where Ki is 2.3229.
UNLIKE = {B3: {"n": ("11.35", Fraction("11.29") * Fraction("1.005")), "ki": ("2.324", calc.ki(Fraction("11.35")))}}
# Mesh voltages: printed with IG 1908 A, of a decrement factor of 1.0, and with Km as printed; and of B.3 with Ki as printed.
MESH = {B1: "1002.1", B2: "747.4", B3: "595.8"}


def rounds_to(number, printed):
    """Whether a number, to as many decimals as a printed figure has, is that figure."""
    half = Fraction(1, 2 * 10 ** len(printed.partition(".")[2]))
    return Fraction(printed) - half <= number < Fraction(printed) + half


class Workings(unittest.TestCase):
    @classmethod
    def setUpClass(cls):
        lines, printed = questions.stored()
        cls.answers, cls.broken = {}, []
        for line, out in zip(lines, printed):
            kind, *fields = line.split(",")
            if kind != working.KIND:
                continue
            if len(fields) == calc.COLUMN_COUNT:
                cls.answers[Case(*map(int, fields))] = read_asked(out[len(line) + 1 :])
            else:
                cls.broken.append(out[len(line) + 1 :])

    def sound(self):
        return {case: got for case, got in self.answers.items() if not isinstance(got, Refusal)}


class Answers(Workings):
    def test_every_answer_is_right(self):
        wrong = [f"{case}: {complaint}" for case, got in self.answers.items()
                 for complaint in working.judge(case, got, DEPTHS)]
        self.assertEqual([], wrong)

    def test_lines_that_are_no_question_are_unknown(self):
        self.assertEqual(self.broken, ["unknown"] * 3)

    def test_counts(self):
        self.assertGreaterEqual(len(self.sound()), 230)
        self.assertGreaterEqual(len(self.answers) - len(self.sound()), 60)
        for case in questions.ANNEX_B:
            self.assertIn(case, self.sound())
        for place in (0, 1, 2):
            shapes = {case.across == case.along for case in self.sound() if case.place == place}
            self.assertEqual(shapes, {True, False})
        self.assertTrue(any(case.layer == 0 for case in self.sound()))

    def test_the_layer_effect_is_cs_times_the_layer(self):
        """Document 01: Q = Cs * rhos; for bare soil Q is rho."""
        for case in self.sound():
            surface = case.layer or case.soil
            self.assertEqual(calc.surface_effect(case), working.cs(case) * surface)

    def test_the_mesh_voltage_follows(self):
        """The exact mesh voltage is within the product of the pairs of rho * Ki * IG / LM and Km."""
        for case, got in self.sound().items():
            product = working.value(got, "driven") * working.value(got, "km")
            ends = calc.exact_ends(case, DEPTHS[-1]).mesh
            self.assertTrue(product.lower <= ends.lower and ends.upper <= product.upper, case)


class Judging(Workings):
    """Answers changed a little are seen to be wrong."""

    def changed(self, got, name, pair):
        at = 2 * Working._fields.index(name)
        return got[:at] + pair + got[at + 2 :]

    def test_a_changed_pair_is_wrong(self):
        for case, got in list(self.sound().items())[::9]:
            for name, (lower, upper) in working.pairs_of(got)._asdict().items():
                width = upper - lower
                for pair in ((upper + 1, lower), (upper + width + 1, upper + 2 * width + 1),
                             (lower - 2 * width - 1, lower - width - 1), (lower - 10**6, upper + 10**6)):
                    self.assertTrue(working.judge(case, self.changed(got, name, pair), DEPTHS), f"{name} of {case}")

    def test_a_changed_refusal_is_wrong(self):
        for case, got in self.answers.items():
            if isinstance(got, Refusal):
                for wrong in (got._replace(column=got.column + 1), got._replace(number=11 - got.number),
                              got._replace(line=1), (0,) * 30):
                    self.assertTrue(working.judge(case, wrong, DEPTHS))
            else:
                for wrong in (Refusal(5, 0, 1), got[:-1], got + (0,)):
                    self.assertTrue(working.judge(case, wrong, DEPTHS))


class AnnexB(Workings):
    """Each printed figure is the rounding of ours, or is what the Annex makes of figures that it has rounded."""

    def test_printed_figures(self):
        for case, figures in PRINTED.items():
            for name, printed in figures.items():
                for end in working.value(self.answers[case], name):
                    self.assertTrue(rounds_to(end, printed), f"{name} {printed}")

    def test_figures_of_rounded_ones(self):
        for case, figures in UNLIKE.items():
            for name, (printed, of_rounded) in figures.items():
                self.assertTrue(rounds_to(of_rounded, printed), f"{name} {printed}")
                for end in working.value(self.answers[case], name):
                    self.assertFalse(rounds_to(end, printed), f"{name} {printed}")

    def test_mesh_voltages(self):
        """400 * 1908 * Ki / LM of the Annex is rho * Ki * IG / LM of ours over the decrement factor, which is 1.0 there."""
        for case, printed in MESH.items():
            got = self.answers[case]
            factor = calc.factor_ends(case.clear, case.xr, case.hz, DEPTHS[-1])
            self.assertTrue(all(rounds_to(end, "1.011") for end in factor))
            driven = working.value(got, "driven") / factor
            ki, km = (Fraction(PRINTED[case].get(name) or UNLIKE[case][name][0]) for name in ("ki", "km"))
            annex = 400 * 1908 * ki / working.value(got, "lm")
            self.assertTrue(all(rounds_to(km * end, printed) for end in annex), printed)
            # Ki of B.3 is put in as 2.324, 0.0011 above ours: half a thousandth of the voltage.
            self.assertLess(max(abs(driven.lower / end - 1) for end in annex), Fraction(1, 2000))
            self.assertFalse(any(rounds_to(end, printed) for end in working.value(got, "driven") * working.value(got, "km")))

    def test_cs_is_that_of_tolerable_voltages(self):
        """The Annex puts in Cs rounded to 0.74 for 838.2 V and 2686.6 V; ours is 0.742857, 26/35."""
        self.assertEqual(working.cs(B1), Fraction(26, 35))
        lower, upper = working.value(self.answers[B1], "cs")
        self.assertTrue(lower <= Fraction(26, 35) <= upper)


if __name__ == "__main__":
    unittest.main()
