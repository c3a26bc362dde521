"""Tests of the calculator for four-pin readings, and the judge of the questions of kind `soil` of
crates/questions: its stdout, which `rt ci questions` compares with what the program prints for its stdin.

    python3 -m unittest discover -s tests
"""

import unittest
from fractions import Fraction
from math import ceil, floor

from tests.calculator.calculator import Refusal
from tests.calculator.printed import read_asked, whole
from tests.measurements import readings
from tests.measurements.readings import DISTANCES, RESISTANCES, Report, check, judge, pairs_of, report_of
from tests.questions import questions

DEPTHS = (3, 6, 12)


def read_list(line):
    """The numbers of a line; nothing where it is no list of 32-bit numbers."""
    fields = line.split(",") if line else []
    if len(fields) > readings.MOST_LISTED or not all(field.isdigit() for field in fields):
        return None
    numbers = [whole(field) for field in fields]
    return None if numbers and max(numbers) > readings.MOST_NUMBER else numbers


def outward(ends):
    """The nearest whole micro-ohm metres below and above."""
    return floor(ends.lower * readings.UNITS), ceil(ends.upper * readings.UNITS)


def flat(report):
    return (*report.least, *report.greatest, *report.mean, report.soil)


def right_answer(numbers):
    """A right answer of the calculator's own."""
    refusal = check(numbers)
    if refusal:
        return refusal
    least, greatest, mean, _ = map(lambda ends: ends and outward(ends), readings.exact_ends(numbers, 12))
    return flat(Report(least, greatest, mean, readings.soil_of(mean[1])))


class Calculator(unittest.TestCase):
    """By hand."""

    def test_three_pairs(self):
        """2 pi times 10, 6 and 3 ohm metres."""
        self.assertEqual(right_answer(readings.SOUND),
                         (18849555, 18849556, 62831853, 62831854, 39793506, 39793507, 40))

    def test_counts(self):
        for count in range(0, 132):
            sound = 0 < count <= 128 and count % 2 == 0
            self.assertEqual(check(([500, 1] * 66)[:count]), None if sound else Refusal(12, 0, 0), count)

    def test_ranges(self):
        for distance in (0, 499, 500, 501, 49999, 50000, 50001):
            sound = 500 <= distance <= 50000
            self.assertEqual(check([distance, 1]), None if sound else Refusal(13, 1, 1))
        for resistance in (0, 1, 2, 999999, 1000000, 1000001):
            sound = 1 <= resistance <= 1000000
            self.assertEqual(check([500, resistance]), None if sound else Refusal(14, 1, 2))

    def test_order_of_refusals(self):
        self.assertEqual(check([500, 0, 499, 1]), Refusal(13, 2, 1))
        self.assertEqual(check([499, 0]), Refusal(13, 1, 1))
        self.assertEqual(check([500, 1, 500, 0, 500, 0]), Refusal(14, 2, 2))
        self.assertEqual(check([499, 0, 500]), Refusal(12, 0, 0))

    def test_soil_is_rounded_up(self):
        for upper, soil in ((1, 1), (999999, 1), (1000000, 1), (1000001, 2), (314159270000, 314160)):
            self.assertEqual(readings.soil_of(upper), soil)

    def test_the_sources_tables(self):
        """Each printed resistivity is that of a resistance which is printed as it is."""
        for column, half in readings.TABLES:
            for distance, resistance, printed in column:
                places = len(printed.partition(".")[2])
                ends = readings.apparent_ends((distance, resistance), 12)
                slack = ends.upper * Fraction(half, resistance) + Fraction(1, 2 * 10**places)
                self.assertLessEqual(abs(Fraction(printed) - ends.upper), slack, (distance, resistance))


class Soundings(unittest.TestCase):
    @classmethod
    def setUpClass(cls):
        cls.lines, cls.printed = questions.stored_of(readings.KIND)
        cls.answers, cls.broken = [], []
        for line, printed in zip(cls.lines, cls.printed):
            numbers, answer = read_list(line), printed[len(line) + 1 :]
            if numbers is None:
                cls.broken.append(answer)
            else:
                cls.answers.append((numbers, read_asked(answer)))
        cls.reports = [(numbers, report_of(answer)) for numbers, answer in cls.answers
                       if not isinstance(answer, Refusal)]
        cls.refused = [pair for pair in cls.answers if isinstance(pair[1], Refusal)]

    def assert_wrong(self, numbers, report):
        self.assertTrue(judge(numbers, flat(report), DEPTHS[:1]), f"{numbers} {report}")


class Printed(Soundings):
    def test_the_lists_are_those_of_the_script(self):
        self.assertEqual(self.lines, readings.lines())

    def test_each_line_is_printed_with_its_answer(self):
        self.assertEqual(len(self.printed), len(self.lines))
        for line, printed in zip(self.lines, self.printed):
            self.assertEqual(printed[: len(line) + 1], line + ",")

    def test_every_answer_is_right(self):
        wrong = [f"{numbers}: {complaint}" for numbers, answer in self.answers
                 for complaint in judge(numbers, answer, DEPTHS)]
        self.assertEqual([], wrong)

    def test_broken_lines_are_unknown(self):
        self.assertGreaterEqual(len(self.broken), 15)
        self.assertEqual(set(self.broken), {"unknown"})

    def test_what_is_asked(self):
        """Every count of pairs, both ends of both ranges, every refusal at several places."""
        self.assertEqual({len(numbers) // 2 for numbers, _ in self.reports}, set(range(1, 65)))
        pairs = {pair for numbers, _ in self.reports for pair in pairs_of(numbers)}
        self.assertLessEqual({(a, r) for a in DISTANCES for r in RESISTANCES}, pairs)
        self.assertEqual({refusal.number for _, refusal in self.refused}, {12, 13, 14})
        for number in (13, 14):
            lines = {refusal.line for _, refusal in self.refused if refusal.number == number}
            self.assertLessEqual({1, 2, 64}, lines)

    def test_a_mean_outside_the_soil_column_is_reported(self):
        low, high = readings.SOIL_RANGE
        soils = [report.soil for _, report in self.reports]
        self.assertTrue(min(soils) < low and max(soils) > high)
        self.assertLessEqual({low, low + 1, high, high + 1}, set(soils))


class Judging(Soundings):
    """Changed answers are seen."""

    def test_ends_moved_or_wide(self):
        for name in readings.PAIR_NAMES:
            for numbers, report in self.reports[::5]:
                lower, upper = getattr(report, name)
                width = upper - lower
                for pair in ((upper + width + 3, upper + 2 * width + 6), (lower - width - 3, lower - 3),
                             (upper + 1, lower), (0, 10**12)):
                    self.assert_wrong(numbers, report._replace(**{name: pair}))

    def test_a_changed_refusal(self):
        for numbers, refusal in self.refused:
            for changed in (refusal._replace(number=refusal.number + 1), refusal._replace(line=refusal.line + 1),
                            refusal._replace(column=refusal.column + 1), (0,) * 7):
                self.assertTrue(judge(numbers, changed, DEPTHS))

    def test_a_refused_report(self):
        for numbers, _ in self.reports[::5]:
            self.assertTrue(judge(numbers, Refusal(12, 0, 0), DEPTHS))


if __name__ == "__main__":
    unittest.main()
