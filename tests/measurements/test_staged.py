"""Judges the questions of kind `split` of crates/questions: its stdout, which `rt ci questions` compares with what the
program prints for its stdin, line by line by the words of request (l) of document 02; and tests the calculator itself.

    python3 -m unittest discover -s tests
"""

import unittest
from collections import Counter

from tests.calculator.calculator import Refusal
from tests.calculator.printed import whole
from tests.measurements import staged
from tests.measurements.staged import MOST_PART, PER_MILLE, answer, grid_current, judge, square
from tests.questions import questions

# The least count of different tests with each answer.
LEAST = {17: 30, 18: 50, 19: 3, "grid": 550, "unknown": len(staged.BROKEN)}


def numbers_of(line):
    """The numbers of a line; nothing where it is no list of them."""
    if line in staged.BROKEN:
        return None
    return tuple(whole(field) for field in line.split(",")) if line else ()


def read_answer(fields):
    """What is printed after a test: a refusal, or three numbers."""
    if fields[0] == "refused":
        return Refusal(*map(whole, fields[1:]))
    if len(fields) != 3:
        raise ValueError(f"{fields} are not three numbers")
    return tuple(map(whole, fields))


def printed(program, line):
    """What is printed for a line by a program that answers like this."""
    numbers = numbers_of(line)
    if numbers is None:
        return f"{line},unknown"
    given = program(numbers)
    words = ("refused", *given) if isinstance(given, Refusal) else given
    return ",".join((line, *map(str, words)))


def run(program, lines):
    return [printed(program, line) for line in lines]


def judge_line(line, out):
    """What is wrong with the line that is printed for a stored line."""
    numbers = numbers_of(line)
    if not out.startswith(f"{line},"):
        return ["another line"]
    fields = out[len(line) + 1:].split(",")
    if numbers is None:
        return [] if fields == ["unknown"] else [f"{fields}, not unknown"]
    try:
        return judge(numbers, read_answer(fields))
    except (ValueError, TypeError) as error:
        return [str(error)]


def judge_lines(lines, outs):
    """Each wrong line with what is wrong."""
    if len(lines) != len(outs):
        return [f"{len(outs)} lines for {len(lines)} tests"]
    return [(line, wrong) for line, out in zip(lines, outs) if (wrong := judge_line(line, out))]


def is_exact(split, numbers):
    """Nothing is rounded in a split."""
    return split**2 * square(numbers[:2]) == PER_MILLE**2 * square(grid_current(numbers))


class Stored(unittest.TestCase):
    def setUp(self):
        self.lines, self.outs = questions.stored_of(staged.KIND)

    def test_every_line_is_right(self):
        self.assertEqual(judge_lines(self.lines, self.outs), [])

    def test_the_stored_tests_are_those_made(self):
        self.assertEqual(self.lines, staged.all_lines())

    def test_each_answer_is_there(self):
        found = Counter()
        for line in set(self.lines):
            numbers = numbers_of(line)
            given = None if numbers is None else answer(numbers)
            kind = given.number if isinstance(given, Refusal) else "grid" if given else "unknown"
            found[kind] += 1
        for kind, least in LEAST.items():
            self.assertGreaterEqual(found[kind], least, kind)

    def test_edges_are_there(self):
        tests = [numbers for line in self.lines if (numbers := numbers_of(line)) is not None]
        sound = [numbers for numbers in tests if not isinstance(answer(numbers), Refusal)]
        self.assertEqual({len(numbers) for numbers in sound}, set(range(4, 35, 2)))
        self.assertIn((), tests)
        splits = [answer(numbers)[2] for numbers in sound]
        self.assertGreater(max(splits), 22 * 10**9)
        exact = [split for split, numbers in zip(splits, sound) if is_exact(split, numbers)]
        self.assertGreater(len(exact), 40)
        self.assertLessEqual({0, 1, 600, 999, 1000, 1001}, set(exact))
        parts = [abs(part) for numbers in sound for part in grid_current(numbers)]
        self.assertEqual(max(parts), 17 * MOST_PART)

    def test_a_changed_number_is_seen(self):
        for line in self.lines[::7]:
            numbers = numbers_of(line)
            if numbers is not None:
                right = answer(numbers)
                for place in range(3):
                    changed = [*right[:place], right[place] + 1, *right[place + 1:]]
                    self.assertTrue(judge(numbers, Refusal(*changed) if isinstance(right, Refusal) else tuple(changed)), line)

    def test_the_calculator_prints_the_same(self):
        self.assertEqual(run(answer, self.lines), self.outs)


class Calculator(unittest.TestCase):
    def test_one_branch(self):
        self.assertEqual(answer((1000, 0, 400, 0)), (600, 0, 600))
        self.assertEqual(answer((0, 10, 0, 5)), (0, 5, 500))
        self.assertEqual(answer((7, -3, 7, -3)), (0, 0, 0))
        self.assertEqual(answer((10, 0, -10, 0)), (20, 0, 2000))

    def test_rounded_up(self):
        self.assertEqual(answer((3, 0, 2, 0)), (1, 0, 334))
        self.assertEqual(answer((1, 1, 1, 0)), (0, 1, 708))

    def test_equation_50(self):
        # six branches, as in figure 10-5 of IEEE Std 81.2
        branches = (120, 15, 40, -8, 25, 10, 60, 5, 80, -20, 75, 30)
        self.assertEqual(answer((1000, 50, *branches)), (600, 18, 600))

    def test_refusals_in_order(self):
        self.assertEqual(answer((0, 0, MOST_PART + 1)), Refusal(17, 0, 0))
        self.assertEqual(answer((0, 0, MOST_PART + 1, 0)), Refusal(18, 0, 0))
        self.assertEqual(answer((0, 0, MOST_PART, 0)), Refusal(19, 0, 0))
        self.assertEqual(answer((0, 1) * 17), (0, -15, 15000))
        self.assertEqual(answer((0, 1) * 18), Refusal(17, 0, 0))

    def test_the_judge_by_the_request_agrees(self):
        for line in staged.all_lines():
            numbers = numbers_of(line)
            if numbers is not None:
                self.assertEqual(judge(numbers, answer(numbers)), [])


if __name__ == "__main__":
    unittest.main()
