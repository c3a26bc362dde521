"""Tests of the differential run: it passes a right program and sees wrong ones."""

import io
import random
import unittest
from contextlib import redirect_stdout
from itertools import product
from unittest import mock

from tests.calculator import calculator as calc
from tests.calculator.calculator import Refusal
from tests.calculator.printed import ROW_NAMES
from tests.sheets import differential, sheets

SEED, COUNT = 48, 60
PAIRS_EVERY = 101  # one case in so many of the pairs of counts is run here
K = 9


def right_answer(sheet):
    """The rows of the calculator's own ends, or a refusal."""
    cases = calc.read_sheet(sheet)
    return cases if isinstance(cases, Refusal) else [calc.row_at(case, K) for case in cases]


def text_of(answer):
    if isinstance(answer, Refusal):
        return "refused,{},{},{}\n".format(*answer)
    return "".join(",".join(map(str, line)) + "\n" for line in (ROW_NAMES, *answer))


def with_rows(change):
    """A program whose rows are changed."""
    def program(_, sheet):
        answer = right_answer(sheet)
        return text_of(answer if isinstance(answer, Refusal) else change(answer))
    return program


def refuses_all(_, sheet):
    return text_of(Refusal(1, 0, 0))


WRONG = {
    "refuses all": refuses_all,
    "copies the first row down": with_rows(lambda rows: [rows[0] for _ in rows]),
    "leaves out the last row": with_rows(lambda rows: rows[:-1]),
    "always says safe": with_rows(lambda rows: [row[:2] + [1] + row[3:] for row in rows]),
    "prints no line end": lambda _, sheet: text_of(right_answer(sheet))[:-1],
}


class Differential(unittest.TestCase):
    @classmethod
    def setUpClass(cls):
        cls.sheets = [sheets.numbered_sheet(SEED, number)[1:] for number in range(COUNT)]

    def run_with(self, program):
        """The run with a program in place of the compiled one; its sheets are made once for all."""
        def made(seed, number):
            return random.Random(number), *self.sheets[number]
        with mock.patch.object(differential, "printed_by", program), mock.patch.object(sheets, "numbered_sheet", made):
            with redirect_stdout(io.StringIO()):
                return differential.run("program", SEED, COUNT)

    def test_a_right_program_agrees(self):
        tally, rows, failed = self.run_with(with_rows(lambda rows: rows))
        self.assertEqual(failed, 0)
        self.assertEqual(sum(tally.values()), COUNT)
        self.assertGreater(rows, COUNT)

    def test_wrong_programs_are_seen(self):
        for what, program in WRONG.items():
            self.assertGreater(self.run_with(program)[2], 0, what)

    def test_every_refusal_but_8_comes_up(self):
        """A table for the most rows is never too short."""
        tally = self.run_with(with_rows(lambda rows: rows))[0]
        self.assertLessEqual(set(range(8)), set(tally))


class Cases(unittest.TestCase):
    """What random cases and the cases of the pairs of counts are."""

    def test_unequal_counts_mostly(self):
        rng = random.Random(SEED)
        cases = [sheets.random_case(rng) for _ in range(500)]
        self.assertTrue(all(calc.check_record(case) is None for case in cases))
        equal = [case for case in cases if case.across == case.along]
        self.assertTrue(len(cases) / 20 < len(equal) < len(cases) / 3)
        self.assertGreater(len({case.across for case in equal}), 15)
        self.assertEqual({case.place for case in cases}, {0, 1, 2})

    def test_every_pair_at_each_place_with_both_ends(self):
        cases = sheets.cases_of_pairs(SEED)
        self.assertTrue(all(calc.check_record(case) is None for case in cases))
        self.assertEqual(len({case.station for case in cases}), len(cases))
        found = {(c.across, c.along, c.place, c.space, c.depth) for c in cases}
        counts = range(2, 26)
        wanted = product(counts, counts, range(3), (2500, 30000), (250, 2500))
        self.assertEqual(found, set(wanted))
        self.assertEqual(len(cases), 12 * 576)


class Pairs(unittest.TestCase):
    """The run over the pairs of counts."""

    def run_with(self, program):
        cases = sheets.cases_of_pairs(SEED)[::PAIRS_EVERY]
        with mock.patch.object(differential, "printed_by", program):
            return cases, *differential.run_pairs("program", cases)

    def test_a_right_program_agrees(self):
        cases, wrong, widths = self.run_with(with_rows(lambda rows: rows))
        self.assertEqual(wrong, [])
        self.assertEqual([case for case, _ in widths], cases)
        self.assertTrue(all(0 <= share <= 1 for _, shares in widths for share in shares))

    def test_refusals_are_seen(self):
        cases, wrong, widths = self.run_with(refuses_all)
        self.assertTrue(wrong)
        self.assertEqual(widths, [])

    def test_a_wide_pair_is_seen(self):
        """Tolerable touch twice as wide as it may be."""
        at = calc.pair_place("tolerable_touch")

        def widened(row):
            return row[: at + 1] + [row[at] + row[at] // 5000 + 20] + row[at + 2 :]
        cases, wrong, widths = self.run_with(with_rows(lambda rows: list(map(widened, rows))))
        self.assertGreaterEqual(len(wrong), len(cases))
        for _, shares in widths:
            self.assertTrue(1.9 < shares.tolerable_touch <= 2)
            self.assertLess(shares.mesh, 1)


if __name__ == "__main__":
    unittest.main()
