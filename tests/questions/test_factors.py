"""Tests of the run over all factors: what it asks, and that it sees wrong programs."""

import math
import unittest
from itertools import product
from unittest import mock

from tests.calculator import calculator as calc
from tests.calculator.printed import lines_of
from tests.questions import factors
from tests.questions.questions import MOST_BYTES

K = 12
SOME_TIMES = range(9, 3001, 187)
RUNS = ((1, 60), (40, 50))


def pair_of(clear, xr, hz):
    ends = calc.factor_ends(clear, xr, hz, K)
    return (math.floor(ends.lower * calc.FACTOR_UNITS), math.ceil(ends.upper * calc.FACTOR_UNITS))


def fault_of(question):
    """The clear time, X/R and frequency that are asked."""
    kind, *numbers = question.split(",")
    case = calc.Case(*map(int, numbers))
    assert kind == "factor" and calc.check_record(case) is None
    return case.clear, case.xr, case.hz


def with_pairs(answer):
    """A program that answers each question so."""
    def program(_, text):
        reported = [f"{question},{answer(*fault_of(question))}\n" for question in lines_of(text.decode("ascii"))]
        return "".join(reported)
    return program


def with_ends(change):
    """A program whose ends are changed."""
    return with_pairs(lambda *fault: ",".join(map(str, change(*pair_of(*fault)))))


def with_text(change):
    """A program whose printed text is changed."""
    return lambda _, text: change(with_ends(lambda *pair: pair)(_, text))


WRONG = {
    "one billionth too high": with_ends(lambda lower, upper: (lower + 1, upper + 1)),
    "too wide": with_ends(lambda lower, upper: (upper - 1001, upper)),
    "refused": with_pairs(lambda *fault: "refused,5,0,22"),
    "a line short": with_text(lambda text: text[: text[:-1].rindex("\n") + 1]),
}


class Questions(unittest.TestCase):
    def test_every_clear_time_x_over_r_and_frequency(self):
        self.assertEqual(list(factors.times()), list(range(9, 3001)))
        self.assertEqual(sorted(factors.runs()), sorted(product(range(1, 41), (50, 60))))
        self.assertEqual(len(factors.times()) * len(factors.runs()), 239360)
        asked = factors.questions_of(17, 50)
        self.assertEqual([fault_of(question) for question in asked],
                         [(clear, 17, 50) for clear in range(9, 3001)])

    def test_a_run_is_short_enough_for_the_program(self):
        longest = max(factors.runs(), key=lambda run: len(str(run)))
        self.assertLess(sum(len(question) + 1 for question in factors.questions_of(*longest)), MOST_BYTES)


class Judging(unittest.TestCase):
    def run_with(self, program, run):
        with mock.patch.multiple(factors, printed_by=program, times=lambda: SOME_TIMES):
            return factors.judge_run("program", run)

    def test_a_right_program_agrees(self):
        for run, slack in product(RUNS, ((0, 0), (0, 999), (500, 499))):
            program = with_ends(lambda lower, upper: (lower - slack[0], upper + slack[1]))
            wrong, count, (width, (_, *at)) = self.run_with(program, run)
            self.assertEqual((wrong, count, width, tuple(at)), ([], len(SOME_TIMES), 1 + sum(slack), run))

    def test_wrong_programs_are_seen(self):
        for (what, program), run in product(WRONG.items(), RUNS):
            self.assertTrue(self.run_with(program, run)[0], what)

    def test_the_widest_is_seen(self):
        def wider_at_once(clear, xr, hz):
            lower, upper = pair_of(clear, xr, hz)
            return f"{lower},{upper + (5 if clear == SOME_TIMES[3] else 0)}"
        self.assertEqual(self.run_with(with_pairs(wider_at_once), RUNS[0]),
                         ([], len(SOME_TIMES), (6, (SOME_TIMES[3], *RUNS[0]))))


if __name__ == "__main__":
    unittest.main()
