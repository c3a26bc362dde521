"""Judges the run of the program `margins`, crates/margins/stdin and stdout, by the separately written calculator, and
tests the judges.

The ends of a row are the free part of it, so a number reported is right if some right row has it: it is not below the exact
share, and less than one above the share of a voltage that is a whole allowed width higher with a limit that is a whole
allowed width lower. Safe is both numbers at most 0; unsafe needs an exact voltage that is not within its limit, and stands
wherever one is above its limit by more than both widths. The order is that of the sheet's lines.
"""

import math
import random
import unittest
from itertools import product

from tests.calculator import calculator as calc
from tests.calculator.calculator import Refusal
from tests.calculator.printed import MARGIN_NAMES, read_margins
from tests.questions import margins
from tests.questions.margins import Margin, above, margins_of

DEPTHS = (6, 9)
ROW_DEPTH = 12  # of the calculator's own rows
LEAST_LINES = 35
LARGE = 2000  # per mille, of which the widths leave open a part
PAIRS = (("mesh", "tolerable_touch"), ("step", "tolerable_step"))


# --------------------------------------------------------------------------
# Judging by the calculator.
# --------------------------------------------------------------------------

def widest(case):
    """The most that the widths of a right row can be: those of its highest ends, with a grid current as wide as it may be."""
    row = calc.row_at(case, ROW_DEPTH)
    for at in range(calc.FIRST_PAIR, calc.ROW_LENGTH, 2):
        row[at] = row[at + 1]
    row[calc.FIRST_PAIR + 1] += math.ceil(calc.allowed_widths(case, row).current)
    return calc.allowed_widths(case, row)


def volts(case, k):
    """Mesh and step voltage, each with its limit and both widths: exact ends at a depth, and volts."""
    ends, widths = calc.exact_ends(case, k), widest(case)
    return [(*(getattr(ends, name) for name in names), *(getattr(widths, name) / 1000 for name in names))
            for names in PAIRS]


def judge_numbers(case, reported, k):
    complaints = []
    for name, number, (voltage, limit, wide, limit_wide) in zip(("mesh", "step"), reported[3:], volts(case, k)):
        least = 1000 * (voltage.lower / limit.upper - 1)
        most = 1000 * ((voltage.upper + wide) / (limit.lower - limit_wide) - 1) + 1
        if not least <= number < most:
            complaints.append(f"{name} is {number}, not from {float(least):.3f} to {float(most):.3f}")
    return complaints


def judge_verdict(case, reported, k):
    found = volts(case, k)
    is_safe = max(reported[3:]) <= 0
    within = all(voltage.upper <= limit.lower for voltage, limit, *_ in found)
    far_above = any(voltage.lower - wide > limit.upper + limit_wide for voltage, limit, wide, limit_wide in found)
    complaints = []
    if is_safe != (reported[2] == calc.SAFE):
        complaints.append("safe is not both numbers at most 0")
    if reported[2] == calc.UNSAFE and within:
        complaints.append("unsafe, yet both exact voltages are within")
    if reported[2] != calc.UNSAFE and far_above:
        complaints.append("not unsafe, yet an exact voltage is far above its limit")
    return complaints


def judge_order(cases, reported):
    """Every line once, in the sheet's order."""
    lines = [(case.station, case.season) for case in cases]
    keys = [tuple(margin[:2]) for margin in reported]
    return [] if keys == lines else [f"the lines are {keys}, not {lines}"]


def judge_reported(cases, reported):
    """What is wrong with the margins reported for a sheet with these cases, whatever the ends that its rows have."""
    complaints = judge_order(cases, reported)
    if complaints:
        return complaints
    of_key = {(case.station, case.season): case for case in cases}
    return [f"{margin}: {complaint}" for margin in reported for k in DEPTHS for judge in (judge_numbers, judge_verdict)
            for complaint in judge(of_key[tuple(margin[:2])], margin, k)]


# --------------------------------------------------------------------------
# The tests.
# --------------------------------------------------------------------------

class Stored(unittest.TestCase):
    @classmethod
    def setUpClass(cls):
        sheet = margins.FILE.read_bytes()
        cls.names = sheet.split(b"\n")[0].split(b",")
        cls.cases = calc.read_sheet(sheet)
        cls.reported = [Margin(*reported) for reported in read_margins(margins.FILE.with_name("stdout").read_text(encoding="ascii"))]

    def of_station(self, station):
        return [margin for margin in self.reported if margin.station == station]

    def test_the_sheet_is_that_of_the_maker(self):
        self.assertEqual(margins.FILE.read_bytes(), margins.sheet())

    def test_the_margins_are_right(self):
        self.assertEqual([], judge_reported(self.cases, self.reported))

    def test_document_01s_sample(self):
        self.assertEqual(self.of_station(7), [(7, 2, calc.SAFE, -682, -939), (7, 1, calc.UNSAFE, 223, -767)])

    def test_lines_and_columns(self):
        self.assertGreaterEqual(len(self.cases), LEAST_LINES)
        self.assertNotEqual(self.names, list(calc.NAME_BYTES))
        self.assertEqual({len(self.of_station(case.station)) for case in self.cases}, {1, 2, 3, 4})

    def test_verdicts_and_limits(self):
        """Each verdict, numbers at 0 and next to it, each of the two the worse, and step alone above its limit."""
        self.assertEqual({margin.verdict for margin in self.reported}, {calc.SAFE, calc.UNSAFE, calc.UNDECIDED})
        for verdict, numbers in ((calc.SAFE, {0}), (calc.UNDECIDED, {1})):
            found = [margin for margin in self.reported if margin.verdict == verdict]
            for name in ("mesh", "step"):
                self.assertLessEqual(numbers, {getattr(margin, name) for margin in found}, name)
        self.assertTrue(any(margin.mesh > margin.step for margin in self.reported))
        self.assertTrue(any(margin.mesh <= 0 < margin.step and margin.verdict == calc.UNSAFE for margin in self.reported))


class WrongPrograms(unittest.TestCase):
    @classmethod
    def setUpClass(cls):
        cls.cases = calc.read_sheet(margins.sheet())
        cls.rows = [calc.row_at(case, ROW_DEPTH) for case in cls.cases]

    def test_right(self):
        right = margins_of(self.rows)
        self.assertEqual([], margins.judge(self.rows, list(map(list, right))))
        self.assertEqual([], judge_reported(self.cases, right))

    def test_numbers_two_off(self):
        """Seen for every number that is not large; the ends leave room for at most two of them."""
        of_key = {case[:2]: case for case in self.cases}
        for margin in margins_of(self.rows):
            for name, by in product(("mesh", "step"), (-2, 2)):
                number = getattr(margin, name)
                reported = margin._replace(**{name: number + by})
                if abs(number) < LARGE:
                    self.assertTrue(judge_numbers(of_key[margin[:2]], reported, DEPTHS[-1]), reported)

    def test_refusals(self):
        refusal, right = Refusal(5, 2, 13), list(map(list, margins_of(self.rows)))
        self.assertEqual([], margins.judge(refusal, refusal))
        for rows, reported in ((refusal, Refusal(5, 2, 12)), (refusal, right), (self.rows, refusal)):
            self.assertTrue(margins.judge(rows, reported))


class Numbers(unittest.TestCase):
    def test_the_smallest_whole_number(self):
        rng = random.Random(4)
        for _ in range(2000):
            limit = rng.randint(1, 5000)
            voltage = rng.choice((rng.randint(0, 10000), limit, limit + 1, limit - 1, 2 * limit))
            m = above(voltage, limit)
            self.assertLessEqual(1000 * voltage, (1000 + m) * limit)
            self.assertGreater(1000 * voltage, (1000 + m - 1) * limit)


class Printed(unittest.TestCase):
    names = ",".join(MARGIN_NAMES) + "\n"

    def test_what_is_read(self):
        self.assertEqual(read_margins("refused,7,3,0\n"), Refusal(7, 3, 0))
        self.assertEqual(read_margins(self.names + "7,1,unsafe,223,-767\n"), [[7, 1, 2, 223, -767]])

    def test_what_is_written_is_read(self):
        found = [Margin(7, 1, 2, 223, -767), Margin(7, 2, 1, 0, -939)]
        self.assertEqual(read_margins(margins.text_of(found)), list(map(list, found)))
        self.assertEqual(read_margins(margins.text_of(Refusal(7, 3, 0))), Refusal(7, 3, 0))

    def test_other_texts_are_no_answer(self):
        for line in ("7,1,2,223,-767", "7,1,unsafe,223", "7,1,unsafe,223,-767,0", "7,1,unsafe,+223,-767", "7,1,unsafe,-0,1",
                     "7,1,unsafe,22.3,-76.7", "7,1,Unsafe,223,-767", ""):
            with self.assertRaises(ValueError):
                read_margins(self.names + line + "\n")
        for text in ("", "refused,1,0,0", self.names[:-1], self.names.upper(), "refused,1,0,0\n7,1,unsafe,223,-767\n"):
            with self.assertRaises(ValueError):
                read_margins(text)


if __name__ == "__main__":
    unittest.main()
